//! Queues in folders, in both directions with the program cq.
#![cfg(feature = "std")]
mod common;

use std::ffi::OsStr;
use std::fs::{self, File, TryLockError};
use std::os::unix::ffi::OsStrExt;
use std::os::unix::fs::{PermissionsExt, symlink};
use std::path::Path;
use std::process::{self, Command, Stdio};
use std::sync::mpsc;
use std::time::Duration;
use std::{env, thread};

use common::{Scratch, names_in, program, run};
use linnetshelf::{Endpoint, Error, FolderError, ImageFault, Index, Journal, Roll, Saved, Settings, Unsaved, init};

const MOMENT: u64 = 1_728_000_000_000;
const DAY: u64 = 86_400_000;
const SMALL: Settings =
    Settings { epoch: 0, cells: 4096, index_count: 16, index_spacing: 4, cycles: 3, roll: Roll::Daily };
const IMAGE: &str = "20241004.cqi";

fn texts(queue: &mut Endpoint) -> Vec<String> {
    queue.messages().map(|message| String::from_utf8(message.unwrap().data).unwrap()).collect()
}

fn load(folder: &Path) -> Vec<String> {
    texts(&mut Saved::load(folder).unwrap().open().unwrap())
}

/// Makes a queue in a new folder.
fn scratch(settings: &Settings, names: &[&str]) -> Scratch {
    let folder = Scratch::new();
    init(&*folder, settings, names).unwrap();
    folder
}

#[test]
fn a_journal_keeps_what_was_appended() {
    let folder = scratch(&SMALL, &["a", "b"]);
    assert_eq!(names_in(&folder), ["queue.cqc"]);
    let mut journal = Journal::open_at(&*folder, MOMENT).unwrap();
    assert_eq!(journal.append(MOMENT, b"first").unwrap().to_string(), "00004e2000000000");
    journal.append(MOMENT + DAY, b"second").unwrap();
    assert_eq!(journal.takes("b", Some(Duration::ZERO)).take(1).count(), 1);
    journal.drop_before(20_001).unwrap();
    journal.close().unwrap();
    assert_eq!(names_in(&folder), [IMAGE, "20241005.cqi", "queue.cqc"]);

    let mut saved = Saved::load(&*folder).unwrap();
    assert_eq!(saved.settings(), &SMALL);
    assert_eq!(saved.floor(), 20_001);
    assert_eq!(saved.positions().collect::<Vec<_>>(), [("a", Index(0)), ("b", Index::new(20_000, 1))]);
    let config = fs::read_to_string(folder.join("queue.cqc")).unwrap();
    let wanted = "cq 2\nroll daily\nepoch 0\ncells 4096\ncount 16\nspacing 4\ncycles 3\nfloor 20001\nname a 0\nname b ";
    assert_eq!(config, format!("{wanted}{}\n", 20_000_u64 << 32 | 1));

    let mut journal = Journal::open(&*folder).unwrap();
    assert_eq!(texts(&mut journal), ["second"]);
    assert_eq!(journal.position("b").unwrap(), Index::new(20_000, 1));
    journal.close().unwrap();
    assert_eq!(fs::read_to_string(folder.join("queue.cqc")).unwrap(), config);
}

#[test]
fn a_journal_that_is_dropped_is_saved() {
    let folder = scratch(&SMALL, &[]);
    let mut journal = Journal::open_at(&*folder, MOMENT).unwrap();
    journal.append(MOMENT, b"kept").unwrap();
    let mut message = journal.begin(MOMENT, 10).unwrap();
    message.put(b"given up").unwrap();
    std::mem::forget(message);
    drop(journal);
    assert_eq!(load(&folder), ["kept"]);
    let panicked = thread::scope(|scope| {
        let path: &Path = &folder;
        let thread = scope.spawn(move || {
            let mut journal = Journal::open(path).unwrap();
            journal.append(MOMENT, b"also").unwrap();
            std::panic::resume_unwind(Box::new(()));
        });
        thread.join()
    });
    assert!(panicked.is_err());
    assert_eq!(load(&folder), ["kept", "also"]);
}

#[test]
fn a_journal_in_use_is_given_back() {
    let folder = scratch(&SMALL, &[]);
    let mut journal = Journal::open_at(&*folder, MOMENT).unwrap();
    let mut other = journal.split().unwrap();
    other.append(MOMENT, b"kept").unwrap();
    let refused = journal.close().unwrap_err();
    assert!(matches!(&refused.error, FolderError::Queue(path, Error::InUse) if **path == *folder), "{refused:?}");
    let Unsaved::Journal(journal) = *refused.left else { panic!("the queue was stopped") };
    assert!(matches!(File::open(&*folder).unwrap().try_lock_shared(), Err(TryLockError::WouldBlock)));
    drop(other);
    journal.close().unwrap();
    assert_eq!(load(&folder), ["kept"]);
}

#[test]
fn a_journal_in_use_that_is_dropped_is_not_saved() {
    let folder = scratch(&SMALL, &[]);
    let mut journal = Journal::open_at(&*folder, MOMENT).unwrap();
    let mut other = journal.split().unwrap();
    journal.append(MOMENT, b"lost").unwrap();
    drop(journal);
    assert_eq!(names_in(&folder), ["queue.cqc"]);
    assert_eq!(texts(&mut other), ["lost"]);
    File::open(&*folder).unwrap().try_lock().unwrap();
}

/// What a child does: it is a test, so that this binary can be run for it. Without the variable it does nothing.
#[test]
fn child() {
    let Some(folder) = env::var_os("LINNETSHELF_DROPPED") else { return };
    let mut journal = Journal::open_at(folder, MOMENT).unwrap();
    let other = journal.split().unwrap();
    drop(journal);
    drop(other);
}

#[test]
fn a_journal_that_is_dropped_says_why_it_is_not_saved() {
    let folder = scratch(&SMALL, &[]);
    let run = Command::new(env::current_exe().unwrap())
        .args(["--exact", "child"])
        .env("LINNETSHELF_DROPPED", &*folder)
        .output()
        .unwrap();
    assert!(run.status.success());
    let printed = String::from_utf8(run.stderr).unwrap();
    let why = format!("is not saved: {}: {}", folder.canonicalize().unwrap().display(), Error::InUse);
    assert_eq!(printed.matches(&why).count(), 1, "{printed}");
}

#[test]
fn a_journal_saves_its_own_queue_alone() {
    let folder = scratch(&SMALL, &[]);
    let mut journal = Journal::open_at(&*folder, MOMENT).unwrap();
    let mut own = std::mem::replace(&mut *journal, Endpoint::create(&SMALL, &[], MOMENT).unwrap());
    own.append(MOMENT, b"kept").unwrap();
    let refused = journal.close().unwrap_err();
    assert!(matches!(refused.error, FolderError::Queue(_, Error::TwoQueues)), "{refused:?}");
    let Unsaved::Journal(mut journal) = *refused.left else { panic!("the queue was stopped") };
    *journal = own;
    journal.close().unwrap();
    assert_eq!(load(&folder), ["kept"]);
}

#[test]
fn a_save_that_failed_is_tried_again() {
    let folder = scratch(&SMALL, &[]);
    let mut journal = Journal::open_at(&*folder, MOMENT).unwrap();
    journal.append(MOMENT, b"one").unwrap();
    journal.append(MOMENT + DAY, b"two").unwrap();
    journal.drop_before(20_000).unwrap();
    let hindrance = folder.join(format!("queue.cqc.{}.part", process::id()));
    fs::create_dir(&hindrance).unwrap();
    let before = fs::read(folder.join("queue.cqc")).unwrap();
    let failed = journal.close().unwrap_err();
    assert!(matches!(&failed.error, FolderError::File(path, _) if path.ends_with("queue.cqc")), "{failed:?}");
    // The parts of images are removed, and no file changed.
    assert_eq!(names_in(&folder), ["queue.cqc", hindrance.file_name().unwrap().to_str().unwrap()]);
    assert_eq!(fs::read(folder.join("queue.cqc")).unwrap(), before);
    let Unsaved::Stopped(mut stopped) = *failed.left else { panic!("the queue was not stopped") };
    assert!(matches!(File::open(&*folder).unwrap().try_lock_shared(), Err(TryLockError::WouldBlock)));
    fs::remove_dir(&hindrance).unwrap();
    stopped.save().unwrap();
    let mut saved = stopped.into_saved();
    File::open(&*folder).unwrap().try_lock().unwrap();
    assert_eq!(texts(&mut saved.open().unwrap()), ["one", "two"]);
    assert_eq!(load(&folder), ["one", "two"]);
    assert_eq!(names_in(&folder), [IMAGE, "20241005.cqi", "queue.cqc"]);
}

/// A queue with a message on each of two days, which was stopped.
fn stopped() -> Saved {
    let mut queue = Endpoint::create(&SMALL, &["a"], MOMENT).unwrap();
    queue.append(MOMENT, b"one").unwrap();
    queue.append(MOMENT + DAY, b"two").unwrap();
    queue.take("a", &mut [0; 8]).unwrap().unwrap();
    queue.drop_before(20_000).unwrap();
    queue.stop().unwrap()
}

/// The bytes of each file.
fn files_in(folder: &Path) -> Vec<(String, Vec<u8>)> {
    names_in(folder).into_iter().map(|name| (name.clone(), fs::read(folder.join(name)).unwrap())).collect()
}

#[test]
fn a_saved_queue_is_saved_in_a_folder_without_one() {
    let folder = Scratch::new();
    stopped().save(&*folder).unwrap();
    assert_eq!(names_in(&folder), [IMAGE, "20241005.cqi", "queue.cqc"]);
    let mut saved = Saved::load(&*folder).unwrap();
    assert_eq!(saved.settings(), &SMALL);
    assert_eq!(saved.positions().collect::<Vec<_>>(), [("a", Index::new(20_000, 1))]);
    assert_eq!(saved.floor(), 20_000);
    assert_eq!(load(&folder), ["one", "two"]);
    // What has not begun is saved as `init` makes it.
    let (empty, made) = (Scratch::new(), scratch(&SMALL, &["a"]));
    Saved::new(&SMALL, &["a"]).unwrap().save(&*empty).unwrap();
    assert_eq!(files_in(&empty), files_in(&made));
    Journal::open(&*empty).unwrap().close().unwrap();
}

#[test]
fn a_saved_queue_replaces_nothing() {
    let folder = Scratch::new();
    stopped().save(&*folder).unwrap();
    let mut saved = Saved::load(&*folder).unwrap();
    let mut journal = Journal::open(&*folder).unwrap();
    journal.append(MOMENT + DAY, b"three").unwrap();
    journal.close().unwrap();
    let is_refused = |folder: &Path, saved: &mut Saved, named: &Path| {
        let before = files_in(folder);
        let refused = saved.save(folder).unwrap_err();
        assert!(matches!(&refused, FolderError::QueueExists(path) if path == named), "{refused:?}");
        assert_eq!(files_in(folder), before);
    };
    is_refused(&folder, &mut saved, &folder);
    assert_eq!(load(&folder), ["one", "two", "three"]);
    // Nor a queue of version 1, an image alone, or a link.
    let old = Scratch::new();
    fs::write(old.join("queue.cqc"), "cq 1\n").unwrap();
    is_refused(&old, &mut saved, &old);
    for name in [IMAGE, "20240101.cqi"] {
        let left = Scratch::new();
        fs::write(left.join(name), "x").unwrap();
        is_refused(&left, &mut saved, &left.join(name));
    }
    let linked = Scratch::new();
    symlink(old.join("none"), linked.join("queue.cqc")).unwrap();
    assert!(matches!(saved.save(&*linked), Err(FolderError::QueueExists(_))));
    assert_eq!(names_in(&linked), ["queue.cqc"]);
}

#[test]
fn what_cannot_be_opened_is_not_saved() {
    let images: Vec<_> = stopped().images().map(Result::unwrap).collect();
    let new = || Saved::new(&SMALL, &["a"]).unwrap();
    let mut ended = new();
    ended.add(images[0].cycle, &images[0].data).unwrap();
    let mut above_end = stopped();
    above_end.set_position("a", Index::new(20_001, 2)).unwrap();
    let (mut with_position, mut with_floor) = (new(), new());
    with_position.set_position("a", Index(1)).unwrap();
    with_floor.set_floor(1);
    // The year 10000 begins on this day, and no image has a name for it.
    let mut too_late = new();
    too_late.add(2_932_897, b"").unwrap();
    for mut saved in [ended, above_end, with_position, with_floor, too_late] {
        let folder = Scratch::new();
        let refused = saved.save(&*folder).unwrap_err();
        assert!(matches!(&refused, FolderError::Queue(path, Error::BadContents) if **path == *folder), "{refused:?}");
        assert_eq!(names_in(&folder), [""; 0]);
    }
}

#[test]
fn a_queue_that_has_not_begun_has_no_position_and_no_floor() {
    let folder = scratch(&SMALL, &["a"]);
    let config = folder.join("queue.cqc");
    let text = fs::read_to_string(&config).unwrap();
    for (from, to) in [("name a 0", "name a 7"), ("cycles 3\n", "cycles 3\nfloor 20000\n")] {
        let changed = text.replace(from, to);
        fs::write(&config, &changed).unwrap();
        let refused = Journal::open_at(&*folder, MOMENT).unwrap_err();
        assert!(matches!(refused, FolderError::Queue(_, Error::BadContents)), "{refused:?}");
        assert_eq!(fs::read_to_string(&config).unwrap(), changed);
        assert_eq!(names_in(&folder), ["queue.cqc"]);
        if let Some(cq) = program() {
            let read = Command::new(cq).arg("read").arg(&*folder).output().unwrap();
            assert_eq!(String::from_utf8(read.stderr).unwrap(), "cq: BadContents\n");
        }
    }
}

#[test]
fn a_folder_that_was_moved_is_not_written() {
    let elsewhere = Scratch::new();
    let (from, to) = (elsewhere.join("from"), elsewhere.join("to"));
    fs::create_dir(&from).unwrap();
    init(&from, &SMALL, &[]).unwrap();
    let mut journal = Journal::open_at(&from, MOMENT).unwrap();
    journal.append(MOMENT, b"kept").unwrap();
    fs::rename(&from, &to).unwrap();
    fs::create_dir(&from).unwrap();
    let failed = journal.close().unwrap_err();
    assert!(matches!(failed.error, FolderError::File(..)), "{failed:?}");
    assert!(names_in(&from).is_empty());
    fs::remove_dir(&from).unwrap();
    fs::rename(&to, &from).unwrap();
    let Unsaved::Stopped(mut stopped) = *failed.left else { panic!("the queue was not stopped") };
    stopped.save().unwrap();
    drop(stopped);
    assert_eq!(load(&from), ["kept"]);
}

#[test]
fn a_journal_keeps_others_out() {
    let folder = scratch(&SMALL, &[]);
    let mut first = Journal::open_at(&*folder, MOMENT).unwrap();
    let lock = File::open(&*folder).unwrap();
    assert!(matches!(lock.try_lock_shared(), Err(TryLockError::WouldBlock)));
    first.append(MOMENT, b"first").unwrap();
    let path = folder.to_owned();
    let (entered, is_entered) = mpsc::channel();
    let second = thread::spawn(move || {
        let mut journal = Journal::open(path).unwrap();
        entered.send(()).unwrap();
        journal.append(MOMENT, b"second").unwrap();
        journal.close().unwrap();
    });
    assert_eq!(is_entered.recv_timeout(Duration::from_millis(100)), Err(mpsc::RecvTimeoutError::Timeout));
    first.close().unwrap();
    second.join().unwrap();
    assert_eq!(load(&folder), ["first", "second"]);
    // A saved queue holds no lock.
    let saved = Saved::load(&*folder).unwrap();
    lock.try_lock().unwrap();
    drop(saved);
}

#[test]
fn modes_are_kept_and_files_that_stay_the_same_are_left_alone() {
    let folder = scratch(&SMALL, &["a"]);
    let mut journal = Journal::open_at(&*folder, MOMENT).unwrap();
    journal.append(MOMENT, b"one").unwrap();
    journal.close().unwrap();
    let mode = |name: &str| fs::metadata(folder.join(name)).unwrap().permissions().mode() & 0o7777;
    for name in ["queue.cqc", IMAGE] {
        fs::set_permissions(folder.join(name), fs::Permissions::from_mode(0o640)).unwrap();
    }
    let kept = File::open(folder.join(IMAGE)).unwrap().metadata().unwrap();
    let mut journal = Journal::open(&*folder).unwrap();
    assert_eq!(journal.takes("a", Some(Duration::ZERO)).count(), 1);
    journal.close().unwrap();
    let now = fs::metadata(folder.join(IMAGE)).unwrap();
    assert_eq!(std::os::unix::fs::MetadataExt::ino(&now), std::os::unix::fs::MetadataExt::ino(&kept));
    let mut journal = Journal::open(&*folder).unwrap();
    journal.append(MOMENT, b"two").unwrap();
    assert_eq!(journal.takes("a", Some(Duration::ZERO)).count(), 1);
    journal.close().unwrap();
    assert_eq!((mode("queue.cqc"), mode(IMAGE)), (0o640, 0o640));
    assert_eq!(load(&folder), ["one", "two"]);
}

#[test]
fn what_is_no_queue_is_refused() {
    let folder = Scratch::new();
    let refused = || Saved::load(&*folder).unwrap_err();
    assert!(matches!(refused(), FolderError::NoQueue(_)));
    assert!(matches!(Journal::open(&*folder).unwrap_err(), FolderError::NoQueue(_)));
    assert!(matches!(Saved::load(folder.join("none")).unwrap_err(), FolderError::File(..)));
    let wrong = Settings { cells: 1, ..SMALL };
    assert!(matches!(init(&*folder, &wrong, &[]), Err(FolderError::Queue(_, Error::BadSettings))));
    assert!(names_in(&folder).is_empty());
    init(&*folder, &SMALL, &["a"]).unwrap();
    assert!(matches!(init(&*folder, &SMALL, &[]), Err(FolderError::QueueExists(_))));
    assert!(matches!(Saved::load(folder.join("queue.cqc")).unwrap_err(), FolderError::File(..)));

    let config = folder.join("queue.cqc");
    let text = fs::read_to_string(&config).unwrap();
    for wrong in
        ["", &text[..text.len() - 1], &format!("{text}x"), &text.replace("16", "016"), &text.replace("cq 2", "cq 3")]
    {
        fs::write(&config, wrong).unwrap();
        assert!(matches!(refused(), FolderError::BadConfig(_)), "{wrong}");
    }
    fs::write(&config, text.replace("cq 2", "cq 1")).unwrap();
    assert!(matches!(refused(), FolderError::OldConfig(_)));
    assert!(refused().to_string().contains("cq migrate"));
    for wrong in [format!("{text}name a 0\n"), text.replace("spacing 4", "spacing 3")] {
        fs::write(&config, wrong).unwrap();
        let refused = refused();
        assert!(matches!(&refused, FolderError::Queue(path, Error::BadSettings) if *path == config), "{refused:?}");
        assert!(refused.to_string().contains("queue.cqc: "), "{refused}");
    }
    fs::write(&config, &text).unwrap();

    fs::write(folder.join(IMAGE), b"\x01").unwrap();
    let fault = refused();
    assert!(matches!(fault, FolderError::Image(_, Error::BadImage { fault: ImageFault::Cut, at: 0 })), "{fault:?}");
    fs::rename(folder.join(IMAGE), folder.join("2024.cqi")).unwrap();
    assert!(matches!(refused(), FolderError::BadName(_)));
    fs::remove_file(folder.join("2024.cqi")).unwrap();
    // What is not UTF-8 is no name of a cycle.
    let name = OsStr::from_bytes(b"2024100\xff.cqi");
    fs::write(folder.join(name), b"").unwrap();
    assert!(matches!(refused(), FolderError::BadName(_)));
    fs::remove_file(folder.join(name)).unwrap();
    // Other files are ignored.
    fs::write(folder.join(OsStr::from_bytes(b"\xff")), b"").unwrap();
    assert!(Saved::load(&*folder).unwrap().is_empty());
    // No position is above the end.
    fs::write(&config, text.replace("name a 0", &format!("name a {}", Index::new(20_000, 1).0))).unwrap();
    fs::write(folder.join(IMAGE), b"").unwrap();
    assert!(matches!(Journal::open(&*folder).unwrap_err(), FolderError::Queue(_, Error::BadContents)));
    fs::remove_file(folder.join(IMAGE)).unwrap();
    fs::write(&config, &text).unwrap();
    fs::write(folder.join("queue.save"), "cq save 1\n").unwrap();
    assert!(matches!(refused(), FolderError::BadRecord(_)));
    assert!(matches!(Journal::open(&*folder).unwrap_err(), FolderError::BadRecord(_)));
}

#[test]
fn links_folders_and_fifos_are_not_opened() {
    let folder = scratch(&SMALL, &[]);
    let elsewhere = Scratch::new();
    let kept = elsewhere.join("kept");
    fs::copy(folder.join("queue.cqc"), &kept).unwrap();
    for name in [IMAGE, "queue.cqc", "queue.save"] {
        let path = folder.join(name);
        let before = fs::read(&path).ok();
        let _ = fs::remove_file(&path);
        let refused = || Saved::load(&*folder).unwrap_err();
        symlink(&kept, &path).unwrap();
        assert!(matches!(refused(), FolderError::NotPlain(_)), "{name}");
        fs::remove_file(&path).unwrap();
        fs::create_dir(&path).unwrap();
        assert!(matches!(refused(), FolderError::NotPlain(_)), "{name}");
        fs::remove_dir(&path).unwrap();
        assert!(Command::new("mkfifo").arg(&path).status().unwrap().success());
        assert!(matches!(refused(), FolderError::NotPlain(_)), "{name}");
        fs::remove_file(&path).unwrap();
        if let Some(before) = before {
            fs::write(&path, before).unwrap();
        }
    }
    // A save replaces none of them.
    let mut journal = Journal::open_at(&*folder, MOMENT).unwrap();
    journal.append(MOMENT, b"x").unwrap();
    symlink(&kept, folder.join(IMAGE)).unwrap();
    let refused = journal.close().unwrap_err();
    assert!(matches!(refused.error, FolderError::NotPlain(_)), "{refused:?}");
    drop(refused);
    assert!(fs::symlink_metadata(folder.join(IMAGE)).unwrap().is_symlink());
    assert_eq!(names_in(&folder), [IMAGE, "queue.cqc"]);
}

#[test]
fn cq_and_journals_share_folders() {
    let Some(cq) = program() else { return };
    for (roll, word) in [(Roll::Daily, "daily"), (Roll::Hourly, "hourly"), (Roll::Minutely, "minutely")] {
        for (k, epoch) in [0, 3_600_000, 12_345_678].into_iter().enumerate() {
            let folder = scratch(&Settings { epoch, cycles: 4, roll, ..SMALL }, &["a", "b"]);
            let theirs = Scratch::new();
            run(&cq, "init", &theirs, &[word, &epoch.to_string(), "4096", "16", "4", "4", "a", "b"], "");
            let config = |folder: &Scratch| fs::read_to_string(folder.join("queue.cqc")).unwrap();
            assert_eq!(config(&folder), config(&theirs));

            let cycle = ((MOMENT - epoch) / roll.milliseconds()) as u32;
            run(&cq, "write", &folder, &[&MOMENT.to_string()], "one\ntwo\n");
            run(&cq, "take", &folder, &["b"], "");
            let mut journal = Journal::open(&*folder).unwrap();
            journal.append(MOMENT + roll.milliseconds(), b"three").unwrap();
            let mut buffer = [0; 8];
            assert_eq!(journal.take("b", &mut buffer).unwrap().unwrap().data, b"two");
            assert_eq!(journal.drop_before(cycle).unwrap(), cycle);
            journal.close().unwrap();

            let checked = run(&cq, "check", &folder, &[], "");
            let facts: Vec<&str> = checked.lines().map(|line| line.split_once(": ").unwrap().1).collect();
            assert_eq!(facts, ["2 messages, ended", "1 messages, open"], "{word} {k}");
            let read = run(&cq, "read", &folder, &[], "");
            assert_eq!(read.lines().map(|line| &line[17..]).collect::<Vec<_>>(), ["one", "two", "three"]);
            assert_eq!(run(&cq, "take", &folder, &["b"], ""), format!("{} three\n", Index::new(cycle + 1, 0)));
            assert_eq!(load(&folder), ["one", "two", "three"]);
            assert_eq!(Saved::load(&*folder).unwrap().floor(), cycle);
        }
    }
}

#[test]
fn cq_waits_for_a_journal() {
    let Some(cq) = program() else { return };
    let folder = scratch(&SMALL, &[]);
    let mut journal = Journal::open_at(&*folder, MOMENT).unwrap();
    journal.append(MOMENT, b"held").unwrap();
    let mut reader = Command::new(&cq).arg("read").arg(&*folder).stdout(Stdio::piped()).spawn().unwrap();
    thread::sleep(Duration::from_millis(100));
    assert!(reader.try_wait().unwrap().is_none());
    journal.close().unwrap();
    let read = reader.wait_with_output().unwrap();
    assert_eq!(String::from_utf8(read.stdout).unwrap(), "00004e2000000000 held\n");
}
