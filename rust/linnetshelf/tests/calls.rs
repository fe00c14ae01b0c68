//! Calls, errors, buffers, parts, names, cycles and stopping.
#![cfg(feature = "std")]
use std::io::Write;
use std::time::Duration;

use linnetshelf::{Direction, Endpoint, Error, ImageFault, Index, Message, Peeked, Received, Roll, Saved, Settings};

const DAY: u64 = 86_400_000;
const SMALL: Settings =
    Settings { epoch: 0, cells: 4096, index_count: 16, index_spacing: 4, cycles: 3, roll: Roll::Daily };
const SHORT: Option<Duration> = Some(Duration::from_millis(10));

fn queue() -> Endpoint {
    Endpoint::create(&SMALL, &["reader", "other"], 0).unwrap()
}

/// Makes a queue with the messages `0`, `1` and so on.
fn queue_of(count: usize) -> Endpoint {
    let mut queue = queue();
    for k in 0..count {
        assert_eq!(queue.append(0, k.to_string().as_bytes()), Ok(Index::new(0, k as u32)));
    }
    queue
}

fn texts(messages: impl Iterator<Item = Result<Message, Error>>) -> Vec<String> {
    messages.map(|message| String::from_utf8(message.unwrap().data).unwrap()).collect()
}

fn text(received: Option<Received<'_>>) -> Option<(u64, &str)> {
    received.map(|message| (message.index.0, std::str::from_utf8(message.data).unwrap()))
}

#[test]
fn what_is_appended_is_read() {
    let mut queue = queue_of(3);
    assert_eq!(texts(queue.messages()), ["0", "1", "2"]);
    assert_eq!(queue.messages().next(), None);
    assert_eq!(queue.cursor(), Ok(Index(3)));
    assert_eq!(texts(queue.backwards().unwrap()), ["2", "1", "0"]);
    assert_eq!(texts(queue.messages()), ["0", "1", "2"]);
    assert_eq!(queue.get(Index(1)), Ok(b"1".to_vec()));
    let mut buffer = [0; 4];
    assert_eq!(queue.read_at(Index(2), &mut buffer), Ok(&b"2"[..]));
    assert_eq!(queue.read_at(Index(3), &mut buffer), Err(Error::NotYet));
    assert_eq!(queue.get(Index(u64::MAX)), Err(Error::NotYet));
}

#[test]
fn both_directions_end() {
    let mut queue = queue_of(2);
    let mut buffer = [0; 4];
    queue.set_direction(Direction::Backwards).unwrap();
    assert_eq!(queue.next(&mut buffer), Ok(None));
    queue.move_to_end().unwrap();
    assert_eq!(text(queue.next(&mut buffer).unwrap()), Some((1, "1")));
    queue.set_direction(Direction::Forwards).unwrap();
    assert_eq!(text(queue.next(&mut buffer).unwrap()), Some((1, "1")));
    assert_eq!(texts(queue.backwards().unwrap().take(1)), ["1"]);
    assert_eq!(text(queue.next(&mut buffer).unwrap()), Some((1, "1")));
}

#[test]
fn an_endpoint_moves() {
    let mut queue = queue_of(3);
    queue.move_to(Index(1)).unwrap();
    let mut buffer = [0; 4];
    assert_eq!(text(queue.next(&mut buffer).unwrap()), Some((1, "1")));
    assert_eq!(queue.move_to(Index(7)), Err(Error::NoMessage));
    assert_eq!(queue.cursor(), Ok(Index(2)));
    assert_eq!(queue.move_to_end(), Ok(Index(3)));
    queue.move_to_start().unwrap();
    assert_eq!(text(queue.next(&mut buffer).unwrap()), Some((0, "0")));
}

#[test]
fn a_buffer_that_is_too_small_reads_nothing() {
    let mut queue = queue();
    queue.append(0, &[b'x'; 9000]).unwrap();
    queue.append(0, b"y").unwrap();
    let mut buffer = [0; 10];
    assert_eq!(queue.next(&mut buffer), Err(Error::NoRoom { needed: 9000 }));
    assert_eq!(queue.next(&mut []), Err(Error::NoRoom { needed: 9000 }));
    assert_eq!(queue.read_at(Index(0), &mut buffer), Err(Error::NoRoom { needed: 9000 }));
    assert_eq!(queue.take("reader", &mut buffer), Err(Error::NoRoom { needed: 9000 }));
    assert_eq!(queue.peek(), Ok(Some(Peeked { index: Index(0), length: 9000 })));
    assert_eq!(queue.position("reader"), Ok(Index(0)));
    let mut large = vec![0; 9001];
    assert_eq!(queue.next(&mut large).unwrap().unwrap().data, [b'x'; 9000]);
    assert_eq!(text(queue.next(&mut buffer).unwrap()), Some((1, "y")));
    assert_eq!((queue.next(&mut buffer), queue.peek()), (Ok(None), Ok(None)));
    assert_eq!(queue.get(Index(0)).map(|data| data.len()), Ok(9000));
    queue.move_to_start().unwrap();
    let lengths: Vec<usize> = queue.messages().map(|message| message.unwrap().data.len()).collect();
    assert_eq!(lengths, [9000, 1]);
    let lengths: Vec<usize> = queue.takes("reader", SHORT).map(|message| message.unwrap().data.len()).collect();
    assert_eq!(lengths, [9000, 1]);
}

#[test]
fn the_next_message_is_peeked_either_way() {
    let mut queue = queue();
    assert_eq!(queue.peek(), Ok(None));
    let indices: Vec<Index> = (0..4).map(|k| queue.append(k / 2 * DAY, &vec![b'x'; 1 + k as usize]).unwrap()).collect();
    let at = |k: usize| Ok(Some(Peeked { index: indices[k], length: k + 1 }));
    let mut buffer = [0; 4];
    for k in 0..4 {
        assert_eq!((queue.peek(), queue.peek()), (at(k), at(k)));
        assert_eq!(queue.next(&mut buffer).unwrap().map(|message| message.index), Some(indices[k]));
    }
    assert_eq!(queue.peek(), Ok(None));
    queue.set_direction(Direction::Backwards).unwrap();
    for k in (0..4).rev() {
        assert_eq!((queue.peek(), queue.peek()), (at(k), at(k)));
        assert_eq!(queue.next(&mut buffer).unwrap().map(|message| message.index), Some(indices[k]));
    }
    assert_eq!((queue.peek(), queue.cursor()), (Ok(None), Ok(indices[0])));
}

#[test]
fn what_is_refused_has_its_error() {
    let mut queue = queue();
    assert_eq!(queue.append(0, b""), Err(Error::BadRoom));
    assert_eq!(queue.append(1 << 63, b"x"), Err(Error::BadMoment));
    assert_eq!(queue.append(0, &[0; 20_000]), Err(Error::CycleFull));
    assert_eq!(queue.take("nobody", &mut []), Err(Error::NoSuchName));
    assert_eq!(queue.position(""), Err(Error::NoSuchName));
    assert_eq!(queue.seek("nobody", Index(0), Index(0)), Err(Error::NoSuchName));
    assert_eq!(queue.roll_back(), Err(Error::NotWriting));
    assert_eq!(queue.begin(0, 0).map(drop), Err(Error::BadRoom));
    let create = |settings: Settings, names: &[&str], moment| Endpoint::create(&settings, names, moment).map(drop);
    assert_eq!(create(Settings { cells: 1, ..SMALL }, &[], 0), Err(Error::BadSettings));
    assert_eq!(create(Settings { epoch: 1, ..SMALL }, &[], 0), Err(Error::BadMoment));
    assert_eq!(create(Settings::default(), &[], 0), Ok(()));
}

#[test]
fn names_have_limits() {
    let long = "n".repeat(32);
    let sixteen: Vec<String> = (10..26).map(|k| format!("{}{k}", "n".repeat(30))).collect();
    let mut names: Vec<&str> = sixteen.iter().map(String::as_str).collect();
    let created = Endpoint::create(&SMALL, &names, 0).unwrap();
    assert_eq!(created.names().collect::<Vec<_>>(), names);
    assert_eq!(created.settings(), &SMALL);
    names.push("more");
    let too_long = format!("{long}n");
    let wrong: [&[&str]; 9] =
        [&names, &[&too_long], &[""], &["a", ""], &["a", "a"], &["a\nb"], &["a b"], &["\u{e9}"], &["a\r"]];
    for names in wrong {
        assert_eq!(Endpoint::create(&SMALL, names, 0).map(drop), Err(Error::BadSettings), "{names:?}");
        assert_eq!(Saved::new(&SMALL, names).map(drop), Err(Error::BadSettings), "{names:?}");
    }
    assert_eq!(Endpoint::create(&SMALL, &[&long], 0).unwrap().position(&long), Ok(Index(0)));
    assert_eq!(Endpoint::create(&SMALL, &[], 0).unwrap().names().count(), 0);
}

#[test]
fn a_message_is_put_in_parts() {
    let mut queue = queue();
    let mut message = queue.begin(0, 10).unwrap();
    message.put(b"ab").unwrap();
    message.put(b"").unwrap();
    write!(message, "c{}", char::from(b'd')).unwrap();
    message.flush().unwrap();
    assert_eq!(message.complete(), Ok(Index(0)));
    assert_eq!(queue.get(Index(0)), Ok(b"abcd".to_vec()));

    let mut message = queue.begin(0, 3).unwrap();
    assert_eq!(message.put(b"four"), Err(Error::PastRoom));
    let refused = message.write(b"four").unwrap_err();
    assert_eq!(refused.kind(), std::io::ErrorKind::WriteZero);
    assert_eq!(refused.get_ref().unwrap().downcast_ref(), Some(&Error::PastRoom));
    message.put(b"two").unwrap();
    assert_eq!(message.complete(), Ok(Index(1)));
    assert_eq!(queue.get(Index(1)), Ok(b"two".to_vec()));
}

#[test]
fn a_message_that_is_dropped_is_given_up() {
    let mut queue = queue();
    let mut other = queue.split().unwrap();
    let mut message = other.begin(0, 10).unwrap();
    message.put(b"zz").unwrap();
    assert_eq!(queue.append(0, b"x"), Err(Error::Busy));
    assert_eq!(queue.append_waiting(0, b"x", SHORT), Err(Error::Busy));
    assert_eq!(queue.begin_waiting(0, 9, SHORT).map(drop), Err(Error::Busy));
    drop(message);
    assert_eq!(queue.append(0, b"x"), Ok(Index(0)));
    // It was empty, so it is given up also.
    assert_eq!(other.begin(0, 10).unwrap().complete(), Err(Error::EmptyMessage));
    assert_eq!(queue.append(0, b"y"), Ok(Index(1)));
    assert_eq!(queue.begin_waiting(0, 9, SHORT).map(drop), Ok(()));
    assert_eq!(texts(queue.messages()), ["x", "y"]);
}

#[test]
fn a_message_that_is_forgotten_ends_with_its_endpoint() {
    let mut queue = queue();
    let mut other = queue.split().unwrap();
    std::mem::forget(other.begin(0, 10).unwrap());
    assert_eq!(other.append(0, b"x"), Err(Error::Writing));
    assert_eq!(other.begin(0, 10).map(drop), Err(Error::Writing));
    assert_eq!(other.roll_back(), Ok(()));
    std::mem::forget(other.begin(0, 10).unwrap());
    assert_eq!(queue.append(0, b"x"), Err(Error::Busy));
    drop(other);
    assert_eq!(queue.append(0, b"x"), Ok(Index(0)));
    std::mem::forget(queue.begin(0, 10).unwrap());
    assert_eq!(texts(queue.stop().unwrap().open().unwrap().messages()), ["x"]);
}

#[test]
fn messages_are_taken_by_a_name() {
    let mut queue = queue_of(4);
    let mut buffer = [0; 4];
    assert_eq!(text(queue.take("reader", &mut buffer).unwrap()), Some((0, "0")));
    assert_eq!(texts(queue.takes("reader", SHORT)), ["1", "2", "3"]);
    assert_eq!(queue.take("reader", &mut buffer), Ok(None));
    assert_eq!(queue.takes("nobody", None).collect::<Vec<_>>(), [Err(Error::NoSuchName)]);
    assert_eq!(queue.position("other"), Ok(Index(0)));
    queue.seek("reader", Index(4), Index(2)).unwrap();
    assert_eq!(queue.seek("reader", Index(9), Index(3)), Err(Error::Moved { position: Index(2) }));
    assert_eq!(queue.position("reader"), Ok(Index(2)));
    assert_eq!(text(queue.take("reader", &mut buffer).unwrap()), Some((2, "2")));
    assert_eq!(queue.seek("reader", Index(3), Index(100)), Err(Error::NotSeen));
    // An endpoint that has seen nothing moves a name to what others appended.
    let mut other = queue.split().unwrap();
    assert_eq!(other.seek("other", Index(0), Index(4)), Ok(()));
}

#[test]
fn cycles_begin_and_are_dropped() {
    let mut queue = queue();
    queue.append(0, b"a").unwrap();
    queue.append(5 * DAY, b"b").unwrap();
    let mut buffer = [0; 4];
    assert_eq!(text(queue.next(&mut buffer).unwrap()), Some((0, "a")));
    assert_eq!(queue.get(Index::new(2, 0)), Err(Error::Never));
    assert_eq!(queue.see_end(), Ok(Index::new(5, 1)));
    assert_eq!(queue.drop_before(9), Ok(5));
    assert_eq!(text(queue.next(&mut buffer).unwrap()), Some((5 << 32, "b")));
    assert_eq!(queue.cursor().unwrap().to_string(), "0000000500000001");
    assert_eq!(queue.get(Index(0)), Err(Error::Gone));
    assert_eq!(queue.advance(6 * DAY), Ok(6));
    assert_eq!(queue.append(7 * DAY, b"c"), Err(Error::NoCycleLeft));
    assert_eq!(queue.advance(0), Ok(6));
}

#[test]
fn a_closed_queue_takes_no_messages() {
    let mut queue = queue_of(1);
    let mut other = queue.split().unwrap();
    assert_eq!(queue.close_queue(), Ok(()));
    let mut third = other.split().unwrap();
    for endpoint in [&mut queue, &mut other, &mut third] {
        assert_eq!(endpoint.close_queue(), Err(Error::Closed));
        assert_eq!(endpoint.close_queue_waiting(None), Err(Error::Closed));
        assert_eq!(endpoint.append(0, b"x"), Err(Error::Closed));
        assert_eq!(endpoint.append(0, &[0; 20_000]), Err(Error::Closed));
        assert_eq!(endpoint.append_waiting(0, b"x", None), Err(Error::Closed));
        assert_eq!(endpoint.begin(0, 1).map(drop), Err(Error::Closed));
        assert_eq!(endpoint.begin_waiting(0, 1, None).map(drop), Err(Error::Closed));
        assert_eq!((endpoint.advance(0), endpoint.advance(DAY)), (Ok(0), Err(Error::Closed)));
        assert_eq!(endpoint.append(0, b""), Err(Error::BadRoom));
    }
}

#[test]
fn a_closed_queue_is_read_to_its_end() {
    let mut queue = queue_of(3);
    let mut buffer = [0; 4];
    assert_eq!(text(queue.take("reader", &mut buffer).unwrap()), Some((0, "0")));
    queue.close_queue().unwrap();
    assert_eq!(texts(queue.messages()), ["0", "1", "2"]);
    assert_eq!(texts(queue.takes("reader", None)), ["1", "2"]);
    for _ in 0..2 {
        assert_eq!(queue.next(&mut buffer), Err(Error::Finished));
        assert_eq!(queue.next_waiting(&mut buffer, None), Err(Error::Finished));
        assert_eq!(queue.take("reader", &mut buffer), Err(Error::Finished));
        assert_eq!((queue.peek(), queue.wait(None)), (Err(Error::Finished), Ok(false)));
        assert_eq!((queue.get(Index(3)), queue.get(Index(1))), (Err(Error::Finished), Ok(b"1".to_vec())));
        assert_eq!(queue.messages().count() + queue.follow(None).count() + queue.takes("reader", None).count(), 0);
    }
    assert_eq!(texts(queue.backwards().unwrap()), ["2", "1", "0"]);
    assert_eq!(texts(queue.follow(None)), ["0", "1", "2"]);
    let mut again = queue.stop().unwrap().open().unwrap();
    assert_eq!(again.append(0, b"3"), Ok(Index(3)));
    assert_eq!(texts(again.messages()), ["0", "1", "2", "3"]);
    assert_eq!(again.next(&mut buffer), Ok(None));
}

#[test]
fn a_queue_is_closed_after_the_message_that_is_begun() {
    let mut queue = queue();
    let mut other = queue.split().unwrap();
    std::mem::forget(queue.begin(0, 8).unwrap());
    assert_eq!(queue.close_queue(), Err(Error::Writing));
    queue.roll_back().unwrap();
    let mut message = queue.begin(0, 8).unwrap();
    message.put(b"begun").unwrap();
    assert_eq!(other.close_queue(), Err(Error::Busy));
    assert_eq!(other.close_queue_waiting(SHORT), Err(Error::Busy));
    assert_eq!(message.complete(), Ok(Index(0)));
    assert_eq!(other.close_queue_waiting(SHORT), Ok(()));
    assert_eq!(texts(other.follow(None)), ["begun"]);
}

#[test]
fn endpoints_of_one_queue_meet() {
    let mut queue = queue_of(1);
    let mut other = queue.split().unwrap();
    let mut third = other.split().unwrap();
    assert_eq!(queue.meet(&mut other), Ok(()));
    assert_eq!(third.meet(&mut queue), Ok(()));
    let mut stranger = Endpoint::create(&SMALL, &["reader", "other"], 0).unwrap();
    assert_eq!(queue.meet(&mut stranger), Err(Error::TwoQueues));
    assert_eq!(stranger.meet(&mut queue), Err(Error::TwoQueues));
    drop((other, third));
    let mut saved = queue.stop().unwrap();
    let (mut one, mut two) = (saved.open().unwrap(), saved.open().unwrap());
    assert_eq!(one.meet(&mut two), Err(Error::TwoQueues));
}

#[test]
fn a_queue_is_stopped_by_its_last_endpoint() {
    let mut queue = queue();
    let other = queue.split().unwrap();
    queue.append(0, b"a").unwrap();
    let refused = queue.stop().unwrap_err();
    assert_eq!((refused.error, refused.to_string()), (Error::InUse, Error::InUse.to_string()));
    let mut queue = refused.endpoint;
    assert_eq!(texts(queue.messages()), ["a"]);
    drop(other);
    let mut saved = queue.stop().unwrap();
    assert_eq!((saved.len(), saved.is_empty()), (1, false));
    assert_eq!((saved.cycle(0), saved.cycle(1)), (Ok(0), Err(Error::NoSuchPlace)));
    assert_eq!((saved.has_ended(0), saved.has_ended(1)), (Ok(false), Err(Error::NoSuchPlace)));
    for _ in 0..2 {
        assert_eq!(texts(saved.open().unwrap().messages()), ["a"]);
    }
}

#[test]
fn a_queue_is_copied_while_it_goes_on() {
    let mut queue = queue_of(2);
    let mut other = queue.split().unwrap();
    queue.append(DAY, b"2").unwrap();
    let mut begun = other.begin(DAY, 8).unwrap();
    begun.put(b"begun").unwrap();
    let mut copy = queue.snapshot().unwrap();
    begun.complete().unwrap();
    assert_eq!(queue.cursor(), Ok(Index(0)));
    assert_eq!((copy.len(), copy.count(0), copy.count(1), copy.floor()), (2, Ok(2), Ok(1), 0));
    assert_eq!(copy.count(2), Err(Error::NoSuchPlace));
    assert_eq!(texts(copy.open().unwrap().messages()), ["0", "1", "2"]);
    assert_eq!(texts(queue.messages()), ["0", "1", "2", "begun"]);
}

#[test]
fn cycles_have_names() {
    let rows = [
        (Settings { epoch: 0, ..SMALL }, 1_728_000_000_000, 20_000, "20241004"),
        (Settings { roll: Roll::Hourly, ..SMALL }, 1_728_028_799_999, 480_007, "20241004-07"),
        (Settings { roll: Roll::Minutely, epoch: 1_728_000_000_000, ..SMALL }, 1_728_008_040_000, 134, "20241004-0214"),
    ];
    for (settings, moment, cycle, name) in rows {
        assert_eq!(settings.cycle_of(moment), Ok(cycle));
        assert_eq!(settings.cycle_name(cycle, &mut [0; 13]), Ok(name));
        assert_eq!(settings.cycle_name(cycle, &mut [0; 7]), Err(Error::NoRoom { needed: name.len() }));
        assert_eq!(settings.cycle_named(name), Ok(cycle));
    }
    assert_eq!(SMALL.cycle_of(u64::MAX), Err(Error::BadMoment));
    assert_eq!(SMALL.cycle_name(u32::MAX, &mut [0; 13]), Err(Error::NoSuchPlace));
    assert_eq!(SMALL.cycle_named("20240231"), Err(Error::NoSuchPlace));
}

#[test]
fn what_was_saved_is_opened_again() {
    let mut queue = queue_of(2);
    queue.append(DAY, b"next").unwrap();
    assert_eq!(texts(queue.takes("other", SHORT).take(1)), ["0"]);
    queue.drop_before(1).unwrap();
    let mut saved = queue.stop().unwrap();
    let images: Vec<_> = saved.images().map(Result::unwrap).collect();
    assert_eq!(images.iter().map(|image| image.cycle).collect::<Vec<_>>(), [0, 1]);
    assert_eq!((saved.has_ended(0), saved.has_ended(1), saved.floor()), (Ok(true), Ok(false), 1));
    assert_eq!((saved.count(0), saved.count(1), saved.count(2)), (Ok(2), Ok(1), Err(Error::NoSuchPlace)));
    assert_eq!(saved.positions().collect::<Vec<_>>(), [("reader", Index(0)), ("other", Index(1))]);
    let mut buffer = vec![0; images[0].data.len()];
    assert_eq!(saved.image(0, &mut buffer), Ok(&images[0].data[..]));
    buffer.pop();
    assert_eq!(saved.image(0, &mut buffer), Err(Error::NoRoom { needed: images[0].data.len() }));

    let mut again = Saved::new(&SMALL, &["reader", "other"]).unwrap();
    assert_eq!(again.open().map(drop), Err(Error::BadContents));
    let wrong = again.add(0, &images[0].data[..images[0].data.len() - 3]).unwrap_err();
    assert!(matches!(wrong, Error::BadImage { fault: ImageFault::Cut, at: 1.. }), "{wrong:?}");
    assert!(again.is_empty());
    for image in &images {
        again.add(image.cycle, &image.data).unwrap();
    }
    assert_eq!(again.add(2, &images[1].data), Err(Error::BehindOpen));
    assert_eq!(again.set_position("nobody", Index(0)), Err(Error::NoSuchName));
    again.set_position("other", Index(1)).unwrap();
    again.set_floor(1);
    let mut queue = again.open().unwrap();
    assert_eq!(texts(queue.messages()), ["next"]);
    assert_eq!(queue.position("other"), Ok(Index(1)));
    assert_eq!(queue.names().collect::<Vec<_>>(), ["reader", "other"]);
    again.set_position("other", Index::new(1, 2)).unwrap();
    assert_eq!(again.open().map(drop), Err(Error::BadContents));
}

#[test]
fn a_wait_ends() {
    let mut queue = queue_of(1);
    let mut buffer = [0; 4];
    assert_eq!(text(queue.next_waiting(&mut buffer, None).unwrap()), Some((0, "0")));
    assert_eq!(queue.next_waiting(&mut buffer, SHORT), Ok(None));
    assert_eq!(queue.next_waiting(&mut buffer, Some(Duration::ZERO)), Ok(None));
    assert_eq!(queue.wait(SHORT), Ok(false));
    assert_eq!(queue.follow(SHORT).count(), 0);
    queue.move_to_start().unwrap();
    assert_eq!(queue.wait(None), Ok(true));
    assert_eq!(texts(queue.follow(SHORT)), ["0"]);
    assert_eq!(queue.append_waiting(0, b"1", None), Ok(Index(1)));
}

#[test]
fn values_go_to_other_threads() {
    fn moved<T: Send>() {}
    fn shared<T: Sync>() {}
    moved::<Endpoint>();
    moved::<Saved>();
    moved::<linnetshelf::Journal>();
    moved::<linnetshelf::Begun<'_>>();
    moved::<linnetshelf::StopError>();
    moved::<linnetshelf::CloseError>();
    moved::<linnetshelf::FolderError>();
    shared::<Error>();
    shared::<linnetshelf::FolderError>();
}

#[test]
fn an_index_has_a_cycle_and_a_sequence() {
    let index = Index::new(20_000, 7);
    assert_eq!((index.cycle(), index.sequence(), index.0), (20_000, 7, 20_000 << 32 | 7));
    assert_eq!(index.to_string(), "00004e2000000007");
    assert!(Index::new(1, 0) > Index::new(0, u32::MAX));
}
