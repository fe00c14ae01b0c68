//! Endpoints in threads of their own.
#![cfg(feature = "std")]
use std::sync::atomic::{AtomicBool, AtomicUsize, Ordering};
use std::sync::mpsc;
use std::thread;
use std::time::Duration;

use linnetshelf::{Endpoint, Error, Index, Message, Settings};

const COUNT: usize = 5_000;
const WRITERS: usize = 6;
/// As long as no wait takes unless a thread failed.
const LONG: Option<Duration> = Some(Duration::from_secs(60));

/// Sets a flag if the thread fails, so that the others stop.
struct StopIfFailed<'f>(&'f AtomicBool);

impl Drop for StopIfFailed<'_> {
    fn drop(&mut self) {
        self.0.fetch_or(thread::panicking(), Ordering::Relaxed);
    }
}

#[test]
fn each_message_is_read_in_order_and_taken_once() {
    let settings = Settings { cells: 524_288, index_count: 256, cycles: 1, ..Settings::default() };
    let mut queue = Endpoint::create(&settings, &["worker"], 0).unwrap();
    let total = COUNT * WRITERS;
    let (count, has_failed) = (&AtomicUsize::new(0), &AtomicBool::new(false));
    let (seen, taken) = thread::scope(|scope| {
        for writer in 0..WRITERS {
            let mut endpoint = queue.split().unwrap();
            scope.spawn(move || {
                let _stop = StopIfFailed(has_failed);
                for k in 0..COUNT {
                    if k % 2 == 0 {
                        endpoint.append_waiting(0, format!("{writer} {k}").as_bytes(), LONG).unwrap();
                    } else {
                        let mut message = endpoint.begin_waiting(0, 32, LONG).unwrap();
                        message.put(format!("{writer} ").as_bytes()).unwrap();
                        message.put(k.to_string().as_bytes()).unwrap();
                        message.complete().unwrap();
                    }
                }
            });
        }
        let takers: Vec<_> = (0..2)
            .map(|_| queue.split().unwrap())
            .map(|mut endpoint| {
                scope.spawn(move || {
                    let _stop = StopIfFailed(has_failed);
                    let mut taken = Vec::new();
                    let mut buffer = [0; 32];
                    while count.load(Ordering::Relaxed) < total && !has_failed.load(Ordering::Relaxed) {
                        match endpoint.take("worker", &mut buffer).unwrap() {
                            Some(message) => {
                                count.fetch_add(1, Ordering::Relaxed);
                                taken.push(String::from_utf8(message.data.to_vec()).unwrap());
                            }
                            None => thread::yield_now(),
                        }
                    }
                    taken
                })
            })
            .collect();
        let _stop = StopIfFailed(has_failed);
        let mut seen = Vec::new();
        while seen.len() < total && !has_failed.load(Ordering::Relaxed) {
            let left = total - seen.len();
            let messages = queue.follow(Some(Duration::from_millis(100))).take(left);
            seen.extend(messages.map(|message| String::from_utf8(message.unwrap().data).unwrap()));
        }
        let taken: Vec<String> = takers.into_iter().flat_map(|taker| taker.join().unwrap()).collect();
        (seen, taken)
    });
    assert_eq!(queue.messages().next(), None);
    for writer in 0..WRITERS {
        let prefix = format!("{writer} ");
        let own: Vec<&String> = seen.iter().filter(|text| text.starts_with(&prefix)).collect();
        let wanted: Vec<String> = (0..COUNT).map(|k| format!("{writer} {k}")).collect();
        assert_eq!(own, wanted.iter().collect::<Vec<_>>());
    }
    let sorted = |mut texts: Vec<String>| {
        texts.sort();
        texts
    };
    assert_eq!(sorted(taken), sorted(seen));
    assert_eq!(queue.stop().unwrap().len(), 1);
}

#[test]
fn threads_end_when_the_queue_is_closed() {
    let settings = Settings { cells: 524_288, index_count: 256, cycles: 1, ..Settings::default() };
    let mut queue = Endpoint::create(&settings, &["worker"], 0).unwrap();
    let appended = &AtomicUsize::new(0);
    let text_of = |message: Result<Message, Error>| String::from_utf8(message.unwrap().data).unwrap();
    let (counts, seen, taken) = thread::scope(|scope| {
        let writers: Vec<_> = (0..WRITERS)
            .map(|writer| (writer, queue.split().unwrap()))
            .map(|(writer, mut endpoint)| {
                scope.spawn(move || {
                    let mut count = 0;
                    loop {
                        match endpoint.append_waiting(0, format!("{writer} {count}").as_bytes(), LONG) {
                            Ok(_) => {
                                count += 1;
                                appended.fetch_add(1, Ordering::Relaxed);
                            }
                            // The thread that closes the queue is late.
                            Err(Error::CycleFull) => thread::yield_now(),
                            Err(error) => return (count, error),
                        }
                    }
                })
            })
            .collect();
        let readers: Vec<_> = (0..2)
            .map(|_| queue.split().unwrap())
            .map(|mut endpoint| scope.spawn(move || endpoint.follow(LONG).map(text_of).collect::<Vec<_>>()))
            .collect();
        let takers: Vec<_> = (0..2)
            .map(|_| queue.split().unwrap())
            .map(|mut endpoint| scope.spawn(move || endpoint.takes("worker", LONG).map(text_of).collect::<Vec<_>>()))
            .collect();
        while appended.load(Ordering::Relaxed) < COUNT && !writers.iter().any(|writer| writer.is_finished()) {
            thread::yield_now();
        }
        queue.close_queue_waiting(LONG).unwrap();
        let counts: Vec<(usize, Error)> = writers.into_iter().map(|writer| writer.join().unwrap()).collect();
        let seen: Vec<Vec<String>> = readers.into_iter().map(|reader| reader.join().unwrap()).collect();
        let taken: Vec<String> = takers.into_iter().flat_map(|taker| taker.join().unwrap()).collect();
        (counts, seen, taken)
    });
    for read in &seen {
        for (writer, (count, error)) in counts.iter().enumerate() {
            let prefix = format!("{writer} ");
            let own: Vec<&String> = read.iter().filter(|text| text.starts_with(&prefix)).collect();
            let wanted: Vec<String> = (0..*count).map(|k| format!("{writer} {k}")).collect();
            assert_eq!((own, *error), (wanted.iter().collect(), Error::Closed));
        }
    }
    assert_eq!(seen[0].len(), appended.load(Ordering::Relaxed));
    assert_eq!(seen[1], seen[0]);
    let sorted = |mut texts: Vec<String>| {
        texts.sort();
        texts
    };
    assert_eq!(sorted(taken), sorted(seen[0].clone()));
}

#[test]
fn waits_end_when_another_thread_is_done() {
    let mut queue = Endpoint::create(&Settings::default(), &["worker"], 0).unwrap();
    let mut other = queue.split().unwrap();
    let mut buffer = [0; 16];
    thread::scope(|scope| {
        let (begun, is_begun) = mpsc::channel();
        scope.spawn(move || {
            let mut message = other.begin(0, 16).unwrap();
            begun.send(()).unwrap();
            message.put(b"first").unwrap();
            thread::sleep(Duration::from_millis(20));
            message.complete().unwrap();
        });
        is_begun.recv().unwrap();
        assert_eq!(queue.append_waiting(0, b"second", LONG), Ok(Index(1)));
        let mut third = queue.split().unwrap();
        assert_eq!(queue.messages().count(), 2);
        scope.spawn(move || {
            thread::sleep(Duration::from_millis(20));
            third.append(0, b"third").unwrap();
        });
        assert_eq!(queue.next_waiting(&mut buffer, LONG).unwrap().unwrap().data, b"third");
    });
}
