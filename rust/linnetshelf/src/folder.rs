//! The files of a queue's folder, which the library does not touch: `queue.cqc`, names of images, the lock, and saves.
//!
//! They are those of the program cq (docs/FORMATS.md).
use std::collections::BTreeSet;
use std::fmt;
use std::fs::{self, File, Metadata};
use std::io::{self, ErrorKind, Read, Write};
use std::iter;
use std::os::unix::fs::MetadataExt;
use std::path::{Path, PathBuf};
use std::process;

use crate::{Error, Index, Roll, Settings};

const CONFIG: &str = "queue.cqc";
const RECORD: &str = "queue.save";
const LOG: &str = "queue.log";
const IMAGE: &str = ".cqi";

/// The largest record of a save, in bytes.
const LARGEST_RECORD: u64 = 1_048_576;

/// Why the files of a folder were not read or written.
#[derive(Debug)]
#[non_exhaustive]
pub enum FolderError {
    /// No queue is in this folder: `init` makes one.
    NoQueue(PathBuf),
    /// A queue is in this folder already, or this image of one.
    QueueExists(PathBuf),
    /// This is a link, a folder or something else that is no plain file. It was not opened.
    NotPlain(PathBuf),
    /// This is no configuration of version 2.
    BadConfig(PathBuf),
    /// The folder of this configuration has version 1: `cq migrate` makes version 2 of it.
    OldConfig(PathBuf),
    /// This is no record of a save.
    BadRecord(PathBuf),
    /// No cycle of the queue has an image of this name.
    BadName(PathBuf),
    /// The library refused what this file holds.
    Image(PathBuf, Error),
    /// The library refused what this folder or this configuration holds, or what was to be saved here.
    Queue(PathBuf, Error),
    /// The system refused a call on this file or folder.
    File(PathBuf, io::Error),
}

impl fmt::Display for FolderError {
    fn fmt(&self, to: &mut fmt::Formatter<'_>) -> fmt::Result {
        match self {
            FolderError::NoQueue(path) => write!(to, "{}: no queue is here; init makes one", path.display()),
            FolderError::QueueExists(path) => write!(to, "{}: a queue is there already", path.display()),
            FolderError::NotPlain(path) => write!(to, "{} is no plain file", path.display()),
            FolderError::BadConfig(path) => write!(to, "{} is no configuration of version 2", path.display()),
            FolderError::OldConfig(path) => {
                write!(to, "{}: its version is 1, and `cq migrate` makes version 2 of it", path.display())
            }
            FolderError::BadRecord(path) => write!(to, "{} is no record of a save", path.display()),
            FolderError::BadName(path) => write!(to, "{}: no cycle of the queue has this name", path.display()),
            FolderError::Image(path, error) | FolderError::Queue(path, error) => {
                write!(to, "{}: {error}", path.display())
            }
            FolderError::File(path, error) => write!(to, "{}: {error}", path.display()),
        }
    }
}

impl std::error::Error for FolderError {
    fn source(&self) -> Option<&(dyn std::error::Error + 'static)> {
        match self {
            FolderError::Image(_, error) | FolderError::Queue(_, error) => Some(error),
            FolderError::File(_, error) => Some(error),
            _ => None,
        }
    }
}

/// Returns the date of a day, counted from 1970-01-01: its year, month and day of the month.
fn civil(days: u64) -> (u64, u64, u64) {
    // Years begin in March here, so a leap day is the last day of its year. 719,468 days are from 0000-03-01 to 1970-01-01,
    // and 400 years have 146,097.
    let days = days + 719_468;
    let (era, day) = (days / 146_097, days % 146_097);
    let year = (day - day / 1_460 + day / 36_524 - day / 146_096) / 365;
    let day = day - (365 * year + year / 4 - year / 100);
    let march = (5 * day + 2) / 153;
    let month = if march < 10 { march + 3 } else { march - 9 };
    (400 * era + year + u64::from(month <= 2), month, day - (153 * march + 2) / 5 + 1)
}

/// Returns the day of a date of the year 1970 or later, counted from 1970-01-01. Later months and days than there are count on.
fn day_of(year: u64, month: u64, day: u64) -> Option<u64> {
    let march = (month + 9) % 12;
    let year = year.checked_sub(u64::from(month <= 2))?;
    (365 * year + year / 4 - year / 100 + year / 400 + (153 * march + 2) / 5 + day).checked_sub(719_469)
}

/// What `queue.cqc` holds.
#[derive(Clone, Debug, PartialEq, Eq)]
pub(crate) struct Config {
    pub(crate) settings: Settings,
    pub(crate) floor: u32,
    pub(crate) positions: Vec<(String, Index)>,
}

impl Config {
    fn text(&self) -> String {
        let Settings { epoch, cells, index_count, index_spacing, cycles, roll } = self.settings;
        let roll = word_of(roll);
        let mut text = format!("cq 2\nroll {roll}\nepoch {epoch}\ncells {cells}\n");
        text += &format!("count {index_count}\nspacing {index_spacing}\ncycles {cycles}\n");
        if self.floor > 0 {
            text += &format!("floor {}\n", self.floor);
        }
        for (name, position) in &self.positions {
            text += &format!("name {name} {}\n", position.0);
        }
        text
    }

    /// Reads a text, which has to be one that `text` makes.
    fn read(text: &str) -> Option<Config> {
        let mut lines = text.lines().peekable();
        let mut line = |word: &str| lines.next_if(|line| line.starts_with(word))?.strip_prefix(word);
        line("cq 2")?;
        let roll = line("roll ")?;
        let roll = [Roll::Daily, Roll::Hourly, Roll::Minutely].into_iter().find(|it| word_of(*it) == roll)?;
        let settings = Settings {
            epoch: line("epoch ")?.parse().ok()?,
            cells: line("cells ")?.parse().ok()?,
            index_count: line("count ")?.parse().ok()?,
            index_spacing: line("spacing ")?.parse().ok()?,
            cycles: line("cycles ")?.parse().ok()?,
            roll,
        };
        let floor = line("floor ").map_or(Some(0), |floor| floor.parse().ok())?;
        let mut positions = Vec::new();
        while let Some(named) = line("name ") {
            let (name, position) = named.split_once(' ')?;
            positions.push((name.to_owned(), Index(position.parse().ok()?)));
        }
        let config = Config { settings, floor, positions };
        (config.text() == text).then_some(config)
    }

    /// Returns the name of the image of a cycle: that of the moment at which it begins, in UTC.
    pub(crate) fn image_name(&self, cycle: u32) -> String {
        let begins = self.settings.epoch.saturating_add(u64::from(cycle) * self.settings.roll.milliseconds());
        let (year, month, day) = civil(begins / 86_400_000);
        let (hour, minute) = (begins / 3_600_000 % 24, begins / 60_000 % 60);
        let day = format!("{year:04}{month:02}{day:02}");
        match self.settings.roll {
            Roll::Daily => format!("{day}{IMAGE}"),
            Roll::Hourly => format!("{day}-{hour:02}{IMAGE}"),
            Roll::Minutely => format!("{day}-{hour:02}{minute:02}{IMAGE}"),
        }
    }

    /// Returns the cycle whose image has this name.
    fn cycle_of(&self, name: &str) -> Option<u32> {
        let digits = |from: usize, to: usize| {
            let part = name.get(from..to)?;
            part.bytes().all(|it| it.is_ascii_digit()).then(|| part.parse::<u64>().ok())?
        };
        let unit = self.settings.roll.milliseconds();
        let hour = if self.settings.roll == Roll::Daily { 0 } else { digits(9, 11)? };
        let minute = if self.settings.roll == Roll::Minutely { digits(11, 13)? } else { 0 };
        let begins =
            day_of(digits(0, 4)?, digits(4, 6)?, digits(6, 8)?)? * 86_400_000 + hour * 3_600_000 + minute * 60_000;
        // The name leaves out what is below its own unit, so the cycle begins then or within that unit.
        let last = begins + (unit - 1);
        let cycle = u32::try_from(last.checked_sub(self.settings.epoch)? / unit).ok()?;
        (self.image_name(cycle) == name).then_some(cycle)
    }
}

/// Returns the word of a roll in `queue.cqc`.
fn word_of(roll: Roll) -> &'static str {
    match roll {
        Roll::Daily => "daily",
        Roll::Hourly => "hourly",
        Roll::Minutely => "minutely",
    }
}

/// Returns whether a save may name this file.
fn may_be_saved(name: &str) -> bool {
    name == CONFIG || name == LOG || (name.ends_with(IMAGE) && !name.contains(['/', '\n', '\0']))
}

/// Returns the number of a process: below 2^32, in decimal, with no leading zeros.
fn process_of(text: &str) -> Option<u32> {
    let process: u32 = text.parse().ok()?;
    (process.to_string() == text).then_some(process)
}

/// Returns whether this is the name of a part that a save made.
fn is_part(name: &str) -> bool {
    let parse = || {
        let (name, process) = name.strip_suffix(".part")?.rsplit_once('.')?;
        process_of(process)?;
        Some(name == RECORD || may_be_saved(name))
    };
    parse().unwrap_or(false)
}

/// A save whose record is there: the process that made the parts, the files that they become, and the files that are removed.
#[derive(Clone, Debug, Default, PartialEq, Eq)]
struct Save {
    process: u32,
    names: Vec<String>,
    removed: Vec<String>,
}

impl Save {
    /// Returns the text of the record. It has a second form where files are removed.
    fn text(&self) -> String {
        let lines = |names: &[String]| names.iter().map(|name| format!("{name}\n")).collect::<String>();
        let (process, names) = (self.process, lines(&self.names));
        if self.removed.is_empty() {
            format!("cq save 1\n{process}\n{names}end\n")
        } else {
            format!("cq save 2\n{process}\n{names}\n{}end\n", lines(&self.removed))
        }
    }

    /// Reads the text of a record, which has to be one that `text` makes of at least one name.
    fn read(text: &str) -> Option<Save> {
        let (process, lines) = text.strip_prefix("cq save ")?.split_once('\n')?.1.split_once('\n')?;
        let mut lines = lines.split('\n').map(str::to_owned).peekable();
        let names: Vec<String> = iter::from_fn(|| lines.next_if(|name| may_be_saved(name))).collect();
        lines.next_if(String::is_empty);
        let removed: Vec<String> = iter::from_fn(|| lines.next_if(|name| may_be_saved(name))).collect();
        let save = Save { process: process_of(process)?, names, removed };
        (!save.is_empty() && save.text() == text).then_some(save)
    }

    fn is_empty(&self) -> bool {
        self.names.is_empty() && self.removed.is_empty()
    }

    fn has(&self, name: &str) -> bool {
        self.names.iter().any(|it| it == name)
    }

    fn removes(&self, name: &str) -> bool {
        self.removed.iter().any(|it| it == name)
    }

    fn part(&self, name: &str) -> String {
        format!("{name}.{}.part", self.process)
    }
}

/// A folder that is entered: its lock is held, and a save that was cut short is finished, or read through.
#[derive(Debug)]
pub(crate) struct Folder {
    path: PathBuf,
    /// The open folder, which has the lock.
    locked: File,
    /// Whether the system has locks on this folder.
    is_held: bool,
    /// What is left of a save that was cut short.
    left: Save,
    /// Whether something was renamed or removed that no sync has brought to the disk.
    is_unsynced: bool,
}

impl Folder {
    /// Waits for the lock of the folder, alone. Finishes a save that was cut short, and removes parts of others.
    pub(crate) fn enter(path: &Path) -> Result<Folder, FolderError> {
        let mut folder = Folder::lock(path, true)?;
        folder.finish_earlier()?;
        // Without locks, a part may be that of a process that is running.
        if folder.is_held {
            folder.sweep()?;
        }
        Ok(folder)
    }

    /// Waits for the lock of the folder, shared with other readers. Changes nothing.
    pub(crate) fn enter_shared(path: &Path) -> Result<Folder, FolderError> {
        Folder::lock(path, false)
    }

    fn lock(path: &Path, is_alone: bool) -> Result<Folder, FolderError> {
        let open = || {
            // The working directory of the process may change later.
            let path = path.canonicalize()?;
            if !path.is_dir() {
                return Err(ErrorKind::NotADirectory.into());
            }
            let folder = File::open(&path)?;
            let is_held = wait_for_lock(&folder, is_alone)?;
            Ok((path, folder, is_held))
        };
        let (path, locked, is_held) = open().map_err(|error| FolderError::File(path.to_owned(), error))?;
        let mut folder = Folder { path, locked, is_held, left: Save::default(), is_unsynced: false };
        folder.check_place()?;
        folder.left = folder.record()?;
        Ok(folder)
    }

    /// Refuses a folder that was moved or replaced since it was opened: files are found by its path.
    fn check_place(&self) -> Result<(), FolderError> {
        let check = || {
            let (here, locked) = (fs::metadata(&self.path)?, self.locked.metadata()?);
            let is_same = (here.dev(), here.ino()) == (locked.dev(), locked.ino());
            is_same.then_some(()).ok_or_else(|| io::Error::other("the folder was moved or replaced"))
        };
        check().map_err(|error| FolderError::File(self.path.clone(), error))
    }

    /// Returns what is left of a save that was cut short.
    fn record(&self) -> Result<Save, FolderError> {
        let Some(bytes) = self.read_plain(RECORD, LARGEST_RECORD)? else {
            return Ok(Save::default());
        };
        let text = std::str::from_utf8(&bytes).ok().filter(|text| text.len() as u64 <= LARGEST_RECORD);
        text.and_then(Save::read).ok_or_else(|| FolderError::BadRecord(self.path.join(RECORD)))
    }

    fn fault(&self, name: &str) -> impl FnOnce(io::Error) -> FolderError {
        let path = self.path.join(name);
        move |error| FolderError::File(path, error)
    }

    /// Returns what is at this name, without following a link; `None` if nothing is there.
    fn stat(&self, name: &str) -> Result<Option<Metadata>, FolderError> {
        match fs::symlink_metadata(self.path.join(name)) {
            Ok(found) if found.is_file() => Ok(Some(found)),
            Ok(_) => Err(FolderError::NotPlain(self.path.join(name))),
            Err(error) if error.kind() == ErrorKind::NotFound => Ok(None),
            Err(error) => Err(self.fault(name)(error)),
        }
    }

    /// Reads a plain file up to `limit` bytes and one more; returns `None` if there is none.
    fn read_plain(&self, name: &str, limit: u64) -> Result<Option<Vec<u8>>, FolderError> {
        let Some(found) = self.stat(name)? else {
            return Ok(None);
        };
        let path = self.path.join(name);
        let read = || {
            let file = File::open(&path)?;
            let opened = file.metadata()?;
            if (opened.dev(), opened.ino()) != (found.dev(), found.ino()) {
                return Err(io::Error::other("it was replaced while it was opened"));
            }
            let mut bytes = Vec::new();
            file.take(limit.saturating_add(1)).read_to_end(&mut bytes)?;
            Ok(bytes)
        };
        let bytes = read().map_err(self.fault(name))?;
        Ok(Some(bytes))
    }

    /// Reads a file; of a save that was cut short, what it wrote. A file that such a save removes is not there.
    pub(crate) fn read(&self, name: &str) -> Result<Option<Vec<u8>>, FolderError> {
        if self.left.removes(name) {
            return Ok(None);
        }
        if self.left.has(name)
            && let Some(bytes) = self.read_plain(&self.left.part(name), u64::MAX)?
        {
            return Ok(Some(bytes));
        }
        self.read_plain(name, u64::MAX)
    }

    /// Refuses a folder in which a queue is.
    pub(crate) fn check_no_queue(&self) -> Result<(), FolderError> {
        match fs::symlink_metadata(self.path.join(CONFIG)) {
            Ok(_) => Err(FolderError::QueueExists(self.path.clone())),
            Err(error) if error.kind() == ErrorKind::NotFound => Ok(()),
            Err(error) => Err(self.fault(CONFIG)(error)),
        }
    }

    /// Refuses a folder in which an image is.
    pub(crate) fn check_no_image(&self) -> Result<(), FolderError> {
        let image = self.list()?.into_iter().find(|name| name.ends_with(IMAGE));
        image.map_or(Ok(()), |name| Err(FolderError::QueueExists(self.path.join(name))))
    }

    pub(crate) fn path(&self) -> &Path {
        &self.path
    }

    /// Returns the error of a folder whose contents the library refused.
    pub(crate) fn refused(&self) -> impl FnOnce(Error) -> FolderError {
        let path = self.path.clone();
        move |error| FolderError::Queue(path, error)
    }

    /// Returns the error of a configuration that the library refused.
    pub(crate) fn refused_config(&self) -> impl FnOnce(Error) -> FolderError {
        let path = self.path.join(CONFIG);
        move |error| FolderError::Queue(path, error)
    }

    pub(crate) fn read_config(&self) -> Result<Config, FolderError> {
        let bytes = self.read(CONFIG)?.ok_or_else(|| FolderError::NoQueue(self.path.clone()))?;
        let path = self.path.join(CONFIG);
        match std::str::from_utf8(&bytes).ok().and_then(Config::read) {
            Some(config) => Ok(config),
            None if bytes.starts_with(b"cq 1\n") => Err(FolderError::OldConfig(path)),
            None => Err(FolderError::BadConfig(path)),
        }
    }

    /// Returns the images with their cycles, in the order of the cycles.
    pub(crate) fn images(&self, config: &Config) -> Result<Vec<(u32, String)>, FolderError> {
        let mut names: BTreeSet<String> = self.list()?.into_iter().collect();
        names.extend(self.left.names.iter().cloned());
        let images = names.into_iter().filter(|name| name.ends_with(IMAGE) && !self.left.removes(name));
        let found: Result<Vec<_>, _> = images
            .map(|name| match config.cycle_of(&name) {
                Some(cycle) => Ok((cycle, name)),
                None => Err(FolderError::BadName(self.path.join(name))),
            })
            .collect();
        let mut found = found?;
        found.sort();
        Ok(found)
    }

    /// Returns the names in the folder. One that is no UTF-8 has U+FFFD for what is no text.
    fn list(&self) -> Result<Vec<String>, FolderError> {
        let list = || {
            let entries = fs::read_dir(&self.path)?;
            entries.map(|entry| Ok(entry?.file_name().to_string_lossy().into_owned())).collect::<io::Result<_>>()
        };
        list().map_err(|error| FolderError::File(self.path.clone(), error))
    }

    /// Makes the files of the folder these: all of them or none, also if the process ends in between. Those that stay the same
    /// are left alone. A save before this one that failed with its record in place is finished first.
    pub(crate) fn save(&mut self, config: &Config, images: Vec<(String, Vec<u8>)>) -> Result<(), FolderError> {
        self.check_place()?;
        self.left = self.record()?;
        self.finish_earlier()?;
        let mut changed = Vec::new();
        for (name, data) in images.into_iter().chain([(CONFIG.to_owned(), config.text().into_bytes())]) {
            if self.read_plain(&name, u64::MAX)?.as_deref() != Some(&data) {
                changed.push((name, data));
            }
        }
        let names = changed.iter().map(|(name, _)| name.clone()).collect();
        let save = Save { process: process::id(), names, removed: Vec::new() };
        match save.names.as_slice() {
            [] => return Ok(()),
            [name] => return self.save_one(&save, name, &changed[0].1),
            _ => (),
        }
        if let Err(error) = self.prepare(&save, &changed) {
            self.give_up(&save);
            return Err(error);
        }
        self.left = save;
        self.sync().map_err(self.fault(RECORD))?;
        // What changed is saved. Renames that fail from here on are made by the next save, or by the next command that is alone.
        if self.settle().is_err() {
            return Ok(());
        }
        self.sync().map_err(self.fault(RECORD))
    }

    /// Finishes a save whose record is there, if one is, and brings to the disk what one before this left.
    fn finish_earlier(&mut self) -> Result<(), FolderError> {
        let finish = |folder: &mut Folder| {
            // The record may not be on the disk yet. Without it a crash could keep some of the renames and lose the others.
            if folder.is_unsynced || !folder.left.is_empty() {
                folder.sync()?;
            }
            folder.settle()?;
            // Else the record could come back after the machine stops, when a later save writes parts of the same names.
            if folder.is_unsynced { folder.sync() } else { Ok(()) }
        };
        finish(self).map_err(self.fault(RECORD))
    }

    /// Removes what a save has made that failed. A rename can fail and be done nevertheless. So the record goes first, and the
    /// parts stay if it cannot go, or may come back.
    fn give_up(&mut self, save: &Save) {
        let withdrawn = match self.stat(RECORD) {
            Ok(None) => Ok(()),
            _ => self.remove(RECORD).and_then(|()| self.sync()),
        };
        if withdrawn.is_ok() {
            self.remove_parts(save);
        }
    }

    /// Saves a file alone.
    fn save_one(&mut self, save: &Save, name: &str, data: &[u8]) -> Result<(), FolderError> {
        let renamed = self.write_part(save, name, data).and_then(|()| {
            self.is_unsynced = true;
            self.rename(&save.part(name), name).map_err(self.fault(name))
        });
        let saved = renamed.and_then(|()| self.sync().map_err(self.fault(name)));
        if saved.is_err() {
            self.remove_parts(save);
        }
        saved
    }

    /// Writes all parts, and then the record.
    fn prepare(&mut self, save: &Save, changed: &[(String, Vec<u8>)]) -> Result<(), FolderError> {
        for (name, data) in changed {
            self.write_part(save, name, data)?;
        }
        self.write_part(save, RECORD, save.text().as_bytes())?;
        self.is_unsynced = true;
        self.rename(&save.part(RECORD), RECORD).map_err(self.fault(RECORD))
    }

    /// Writes the part of a file, with the mode of the file that it will replace.
    fn write_part(&self, save: &Save, name: &str, data: &[u8]) -> Result<(), FolderError> {
        let part = save.part(name);
        let found = self.stat(name)?;
        let write = || {
            self.remove(&part)?;
            step()?;
            let mut file = File::create_new(self.path.join(&part))?;
            if let Some(found) = found {
                step()?;
                file.set_permissions(found.permissions())?;
            }
            step()?;
            file.write_all(data)?;
            step()?;
            file.sync_all()
        };
        write().map_err(self.fault(name))
    }

    /// Renames the parts that are left of a save whose record is on the disk, removes the files that are to go, and the record. A
    /// part that is gone has been renamed, and a file that is gone has been removed.
    fn settle(&mut self) -> io::Result<()> {
        if self.left.is_empty() {
            return Ok(());
        }
        for name in &self.left.names {
            match self.rename(&self.left.part(name), name) {
                Err(error) if error.kind() != ErrorKind::NotFound => return Err(error),
                _ => (),
            }
        }
        for name in &self.left.removed {
            self.remove(name)?;
        }
        self.sync()?;
        self.is_unsynced = true;
        self.remove(RECORD)?;
        self.left = Save::default();
        Ok(())
    }

    /// Removes the parts of saves that were cut short before their record was there. What cannot be removed stays.
    fn sweep(&self) -> Result<(), FolderError> {
        for name in self.list()?.iter().filter(|name| is_part(name)) {
            let _ = self.remove(name);
        }
        Ok(())
    }

    /// Removes what a save that failed has made. What cannot be removed is left to the next command.
    fn remove_parts(&self, save: &Save) {
        for name in save.names.iter().map(String::as_str).chain([RECORD]) {
            let _ = self.remove(&save.part(name));
        }
    }

    /// Removes a file, if it is there.
    fn remove(&self, name: &str) -> io::Result<()> {
        step()?;
        match fs::remove_file(self.path.join(name)) {
            Err(error) if error.kind() == ErrorKind::NotFound => Ok(()),
            other => other,
        }
    }

    fn rename(&self, from: &str, to: &str) -> io::Result<()> {
        step()?;
        fs::rename(self.path.join(from), self.path.join(to))
    }

    /// Brings to the disk what was renamed and removed.
    fn sync(&mut self) -> io::Result<()> {
        step()?;
        self.locked.sync_all()?;
        self.is_unsynced = false;
        Ok(())
    }
}

impl Drop for Folder {
    fn drop(&mut self) {
        // A child that another thread starts just now has the open folder too, until it runs its program.
        let _ = self.locked.unlock();
    }
}

/// Waits for the lock of an open folder: alone, or shared with other readers. Returns whether it is held.
///
/// If the system, or the file system, has no locks on folders, the folder is used without.
fn wait_for_lock(folder: &File, is_alone: bool) -> io::Result<bool> {
    let wait = if is_alone { File::lock } else { File::lock_shared };
    loop {
        match before_lock().and_then(|()| wait(folder)) {
            Ok(()) => return Ok(true),
            Err(error) if error.kind() == ErrorKind::Interrupted => continue,
            Err(error) if has_no_locks(&error) => return Ok(false),
            Err(error) => return Err(error),
        }
    }
}

/// The errors of a system, or a file system, without locks on folders: a bad descriptor, an invalid argument, no locks, no such
/// call, not supported.
const NO_LOCKS: &[i32] = if cfg!(any(target_os = "linux", target_os = "android")) {
    &[9, 22, 37, 38, 95]
} else {
    // Those of macOS and the BSDs.
    &[9, 22, 45, 77, 78, 102]
};

fn has_no_locks(error: &io::Error) -> bool {
    error.kind() == ErrorKind::Unsupported || error.raw_os_error().is_some_and(|number| NO_LOCKS.contains(&number))
}

/// Is called before each call of the system that changes files. Tests fail here, or end the process.
#[cfg(not(test))]
fn step() -> io::Result<()> {
    Ok(())
}

/// Is called before each wait for a lock. Tests fail here.
#[cfg(not(test))]
fn before_lock() -> io::Result<()> {
    Ok(())
}

#[cfg(test)]
use tests::{before_lock, step};

#[cfg(test)]
mod tests {
    use std::cell::Cell;
    use std::os::unix::process::ExitStatusExt;
    use std::process::{Command, ExitStatus};
    use std::sync::atomic::{AtomicI64, Ordering};
    use std::{env, thread};

    use super::*;
    use crate::{CloseError, Journal, Saved, Unsaved, init};

    const DAY: u64 = 86_400_000;
    const MOMENT: u64 = 1_728_000_000_000;

    fn config(roll: Roll, epoch: u64) -> Config {
        let settings = Settings { epoch, cells: 4096, index_count: 16, index_spacing: 4, cycles: 3, roll };
        Config { settings, floor: 0, positions: Vec::new() }
    }

    #[test]
    fn days_have_dates() {
        let rows = [
            (0, (1970, 1, 1)),
            (30, (1970, 1, 31)),
            (31, (1970, 2, 1)),
            (58, (1970, 2, 28)),
            (59, (1970, 3, 1)),
            (364, (1970, 12, 31)),
            (789, (1972, 2, 29)),
            (790, (1972, 3, 1)),
            (10_956, (1999, 12, 31)),
            (10_957, (2000, 1, 1)),
            (11_016, (2000, 2, 29)),
            (11_017, (2000, 3, 1)),
            (20_000, (2024, 10, 4)),
            (47_540, (2100, 2, 28)),
            (47_541, (2100, 3, 1)),
            (2_932_896, (9999, 12, 31)),
        ];
        for (day, (year, month, day_of_month)) in rows {
            assert_eq!(civil(day), (year, month, day_of_month));
            assert_eq!(day_of(year, month, day_of_month), Some(day));
        }
        let mut before = (1969, 12, 31);
        for day in 0..400_000 {
            let (year, month, day_of_month) = civil(day);
            assert!(
                (year, month, day_of_month) > before && (1..=12).contains(&month) && (1..=31).contains(&day_of_month)
            );
            assert_eq!(day_of(year, month, day_of_month), Some(day));
            before = (year, month, day_of_month);
        }
        assert_eq!(day_of(1969, 12, 31), None);
    }

    #[test]
    fn images_have_the_names_of_their_cycles() {
        let rows = [
            (Roll::Daily, 0, 0, "19700101.cqi"),
            (Roll::Daily, 0, 20_000, "20241004.cqi"),
            (Roll::Daily, DAY - 1, 0, "19700101.cqi"),
            (Roll::Daily, DAY - 1, 1, "19700102.cqi"),
            (Roll::Daily, 0, 2_932_896, "99991231.cqi"),
            (Roll::Hourly, 0, 480_000, "20241004-00.cqi"),
            (Roll::Hourly, 1, 480_023, "20241004-23.cqi"),
            (Roll::Hourly, 0, 70_389_527, "99991231-23.cqi"),
            (Roll::Minutely, 0, 28_800_000 + 61, "20241004-0101.cqi"),
            (Roll::Minutely, 59_999, 28_800_000 + 61, "20241004-0101.cqi"),
        ];
        for (roll, epoch, cycle, name) in rows {
            let config = config(roll, epoch);
            assert_eq!(config.image_name(cycle), name);
            assert_eq!(config.cycle_of(name), Some(cycle), "{name}");
        }
        let wrong = [
            (Roll::Daily, DAY, "19700101.cqi"),
            (Roll::Daily, 0, "19691231.cqi"),
            (Roll::Daily, 0, "20240230.cqi"),
            (Roll::Daily, 0, "20241301.cqi"),
            (Roll::Daily, 0, "20240001.cqi"),
            (Roll::Daily, 0, "20240100.cqi"),
            (Roll::Daily, 0, "+2024101.cqi"),
            (Roll::Daily, 0, "2024100.cqi"),
            (Roll::Daily, 0, "20241004-00.cqi"),
            (Roll::Daily, 0, "20241004.cqi.cqi"),
            (Roll::Daily, 0, ".cqi"),
            (Roll::Daily, 0, "2024\u{fffd}04.cqi"),
            (Roll::Hourly, 0, "20241004-24.cqi"),
            (Roll::Hourly, 0, "20241004 00.cqi"),
            (Roll::Hourly, 0, "20241004.cqi"),
            (Roll::Minutely, 0, "20241004-0060.cqi"),
            (Roll::Minutely, 0, "20241004-00.cqi"),
        ];
        for (roll, epoch, name) in wrong {
            assert_eq!(config(roll, epoch).cycle_of(name), None, "{name}");
        }
    }

    #[test]
    fn a_configuration_has_one_text() {
        let mut whole = config(Roll::Minutely, 1);
        whole.floor = 7;
        whole.positions = vec![("a".to_owned(), Index(9)), ("b".to_owned(), Index(u64::MAX))];
        let text = "cq 2\nroll minutely\nepoch 1\ncells 4096\ncount 16\nspacing 4\ncycles 3\nfloor 7\n\
                    name a 9\nname b 18446744073709551615\n";
        assert_eq!(whole.text(), text);
        assert_eq!(Config::read(text), Some(whole));
        let without = config(Roll::Hourly, 0);
        assert_eq!(Config::read(&without.text()), Some(without));
        let changes = [
            ("cq 2\n", "cq 2 \n"),
            ("cq 2\n", ""),
            ("\n", "\r\n"),
            ("minutely", "weekly"),
            ("epoch 1", "epoch +1"),
            ("epoch 1", "epoch 01"),
            ("epoch 1", "epoch 18446744073709551616"),
            ("cells 4096", "cells 4294967296"),
            ("cells 4096\ncount 16", "count 16\ncells 4096"),
            ("floor 7", "floor 0"),
            ("floor 7", "floor 4294967296"),
            ("floor 7\n", "floor 7\nfloor 7\n"),
            ("name a 9", "name a"),
            ("name a 9", "name a b 9"),
            ("name a 9", "name a  9"),
            ("615\n", "615"),
            ("615\n", "615\n\n"),
        ];
        for (from, to) in changes {
            assert!(text.contains(from));
            assert_eq!(Config::read(&text.replace(from, to)), None, "{from:?} {to:?}");
        }
    }

    fn save_of(process: u32, names: &[&str], removed: &[&str]) -> Save {
        let owned = |names: &[&str]| names.iter().map(|name| name.to_string()).collect();
        Save { process, names: owned(names), removed: owned(removed) }
    }

    #[test]
    fn a_record_of_a_save_has_one_text() {
        let replacing = "cq save 1\n4711\n20241004.cqi\nqueue.cqc\nend\n";
        let both = "cq save 2\n4711\nqueue.cqc\n\n20241004.cqi\n20241005.cqi\nend\n";
        let rows = [
            (save_of(4711, &["20241004.cqi", CONFIG], &[]), replacing),
            (save_of(4711, &[CONFIG], &["20241004.cqi", "20241005.cqi"]), both),
            (save_of(0, &[], &[CONFIG]), "cq save 2\n0\n\nqueue.cqc\nend\n"),
            (save_of(u32::MAX, &[LOG], &[LOG]), "cq save 2\n4294967295\nqueue.log\n\nqueue.log\nend\n"),
        ];
        for (save, text) in rows {
            assert_eq!((save.text().as_str(), Save::read(text)), (text, Some(save.clone())));
        }
        assert_eq!(save_of(4711, &[], &[]).part(CONFIG), "queue.cqc.4711.part");
        let changes = [
            ("4711", "04711"),
            ("4711", "+4711"),
            ("4711", "4294967296"),
            ("4711\n", ""),
            ("20241004.cqi", "a/20241004.cqi"),
            ("20241004.cqi", "\0.cqi"),
            ("20241004.cqi", "20241004.cqi "),
            ("queue.cqc", "queue.cqd"),
            ("queue.cqc", "queue.save"),
            ("cq save", " cq save"),
            ("\n", "\r\n"),
            ("end\n", "end"),
            ("end\n", "end\nx"),
            ("end\n", "end\nend\n"),
            ("end\n", "\nend\n"),
            ("end\n", ""),
        ];
        for (from, to) in changes {
            for text in [replacing, both] {
                assert!(text.contains(from));
                assert_eq!(Save::read(&text.replace(from, to)), None, "{text:?} {from:?} {to:?}");
            }
        }
        let others = [
            replacing.replace("save 1", "save 2"),
            replacing.replace("save 1", "save 3"),
            replacing.replace("20241004.cqi\nqueue.cqc\n", ""),
            replacing.replace("20241004.cqi\nqueue.cqc\n", "\n"),
            replacing.replace("20241004.cqi", ""),
            both.replace("save 2", "save 1"),
            both.replace("save 2", "save 02"),
            both.replace("\n\n", "\n"),
            both.replace("\n\n", "\n\n\n"),
            both.replace("20241004.cqi\n20241005.cqi\n", ""),
            both.replace("\n\n20241004.cqi\n20241005.cqi", ""),
            "cq save 2\n4711\nend\n".to_owned(),
            "cq save 2\n4711\n\nend\n".to_owned(),
            String::new(),
        ];
        for text in others {
            assert_eq!(Save::read(&text), None, "{text:?}");
        }
    }

    #[test]
    fn parts_have_names() {
        for name in
            ["queue.cqc.0.part", "queue.save.4294967295.part", "queue.log.1.part", "20241004.cqi.7.part", ".cqi.7.part"]
        {
            assert!(is_part(name), "{name}");
        }
        for name in [
            "queue.cqc.part",
            "queue.cqc.07.part",
            "queue.cqc.4294967296.part",
            "queue.7.part",
            "x.7.part",
            "queue.cqc.7",
        ] {
            assert!(!is_part(name), "{name}");
        }
    }

    /// A folder with a queue, which is removed at the end.
    struct Scratch(PathBuf);

    impl Scratch {
        fn new(name: &str) -> Scratch {
            let path = env::temp_dir().join(format!("linnetshelf-unit-{}-{name}", process::id()));
            fs::create_dir(&path).unwrap();
            init(&path, &config(Roll::Daily, 0).settings, &["a"]).unwrap();
            let mut journal = Journal::open_at(&path, MOMENT).unwrap();
            journal.append(MOMENT, b"one").unwrap();
            journal.close().unwrap();
            Scratch(path)
        }

        /// What the folder holds, for readers: each message, and the position of the name.
        fn facts(&self) -> Vec<String> {
            let mut queue = Saved::load(&self.0).unwrap().open().unwrap();
            let mut facts: Vec<String> =
                queue.messages().map(|it| String::from_utf8(it.unwrap().data).unwrap()).collect();
            self.compare_with_cq(&facts);
            facts.push(queue.position("a").unwrap().to_string());
            facts
        }

        fn compare_with_cq(&self, messages: &[String]) {
            if let Some(cq) = env::var_os("CQ").filter(|it| !it.is_empty()) {
                let read = Command::new(cq).arg("read").arg(&self.0).output().unwrap();
                let read = String::from_utf8(read.stdout).unwrap();
                assert_eq!(read.lines().map(|line| &line[17..]).collect::<Vec<_>>(), messages);
            }
        }

        /// The files of the folder, in the order of their names.
        fn files(&self) -> Vec<(String, Vec<u8>)> {
            let names = fs::read_dir(&self.0).unwrap().map(|it| it.unwrap().file_name().into_string().unwrap());
            let mut files: Vec<_> = names.map(|name| (name.clone(), fs::read(self.0.join(&name)).unwrap())).collect();
            files.sort();
            files
        }

        fn remainders(&self) -> Vec<String> {
            let names = fs::read_dir(&self.0).unwrap().map(|it| it.unwrap().file_name().into_string().unwrap());
            names.filter(|name| name.ends_with(".part") || name == RECORD).collect()
        }
    }

    impl Drop for Scratch {
        fn drop(&mut self) {
            let _ = fs::remove_dir_all(&self.0);
        }
    }

    #[test]
    fn readers_share_the_lock() {
        let folder = Scratch::new("readers");
        let lock = File::open(&folder.0).unwrap();
        let entered = Folder::enter_shared(&folder.0).unwrap();
        lock.try_lock_shared().unwrap();
        lock.unlock().unwrap();
        assert!(lock.try_lock().is_err());
        drop(entered);
        lock.try_lock().unwrap();
        lock.unlock().unwrap();
        let entered = Folder::enter(&folder.0).unwrap();
        assert!(lock.try_lock_shared().is_err());
        drop(entered);
    }

    #[test]
    fn parts_that_are_left_are_removed() {
        let folder = Scratch::new("parts");
        for name in ["queue.cqc.7.part", "x.cqi.7.part", "mine.7.part"] {
            fs::write(folder.0.join(name), "x").unwrap();
        }
        drop(Folder::enter_shared(&folder.0).unwrap());
        assert_eq!(folder.remainders().len(), 3);
        drop(Folder::enter(&folder.0).unwrap());
        assert_eq!(folder.remainders(), ["mine.7.part"]);
        // What cannot be removed stays.
        fs::create_dir(folder.0.join("x.cqi.7.part")).unwrap();
        fs::write(folder.0.join("y.cqi.7.part"), "x").unwrap();
        drop(Folder::enter(&folder.0).unwrap());
        let mut left = folder.remainders();
        left.sort();
        assert_eq!(left, ["mine.7.part", "x.cqi.7.part"]);
    }

    #[test]
    fn a_folder_without_locks_is_used_without() {
        let folder = Scratch::new("locks");
        let part = format!("{CONFIG}.7.part");
        let lock = File::open(&folder.0).unwrap();
        lock.lock().unwrap();
        for number in [9, 22, 95] {
            LOCK_FAULT.set(Some(number));
            fs::write(folder.0.join(&part), "x").unwrap();
            drop(Folder::enter(&folder.0).unwrap());
            assert_eq!(folder.remainders(), [part.as_str()]);
            assert_eq!(Saved::load(&folder.0).unwrap().len(), 1);
            // A save whose record is there is finished nevertheless.
            let save = save_of(7, &[CONFIG], &[]);
            fs::copy(folder.0.join(CONFIG), folder.0.join(&part)).unwrap();
            fs::write(folder.0.join(RECORD), save.text()).unwrap();
            drop(Folder::enter(&folder.0).unwrap());
            assert_eq!(folder.remainders(), [""; 0]);
        }
        LOCK_FAULT.set(Some(13));
        let refused = Folder::enter(&folder.0).unwrap_err();
        assert!(matches!(&refused, FolderError::File(path, _) if *path == folder.0), "{refused:?}");
        LOCK_FAULT.set(None);
    }

    #[test]
    fn a_record_that_is_too_long_is_refused() {
        let folder = Scratch::new("record");
        let text_of = |process| save_of(process, &[CONFIG; 104_856], &[]).text();
        assert_eq!(text_of(1).len() as u64, LARGEST_RECORD);
        fs::write(folder.0.join(RECORD), text_of(10)).unwrap();
        assert!(matches!(Folder::enter(&folder.0), Err(FolderError::BadRecord(_))));
        assert_eq!(folder.remainders(), [RECORD]);
        fs::write(folder.0.join(RECORD), text_of(1)).unwrap();
        drop(Folder::enter(&folder.0).unwrap());
        assert_eq!(folder.remainders(), [""; 0]);
    }

    #[test]
    fn a_record_of_any_other_form_is_refused_and_kept() {
        let folder = Scratch::new("bytes");
        let records: [&[u8]; 6] = [
            b"cq save 1\n7\n\xff.cqi\nend\n",
            b"cq save 2\n7\n\n\xff.cqi\nend\n",
            b"cq save 2\n7\nqueue.cqc\nend\n",
            b"cq save 2\n7\n\nend\n",
            b"cq save 2\n7\n\n../20241004.cqi\nend\n",
            b"",
        ];
        for record in records {
            fs::write(folder.0.join(RECORD), record).unwrap();
            let held = folder.files();
            for enter in [Folder::enter, Folder::enter_shared] {
                let refused = enter(&folder.0).unwrap_err();
                assert!(matches!(&refused, FolderError::BadRecord(path) if path.ends_with(RECORD)), "{refused:?}");
                assert_eq!(folder.files(), held);
            }
        }
    }

    /// Makes a folder with two cycles and a record, in which this number of its renames and removals are done. The record's
    /// parts hold a second message of the last cycle, and the floor 20001.
    fn cut_short(name: &str, save: &Save, done: usize) -> Scratch {
        let folder = Scratch::new(name);
        let mut journal = Journal::open(&folder.0).unwrap();
        journal.append(MOMENT + DAY, b"two").unwrap();
        journal.close().unwrap();
        let before = folder.files();
        let mut journal = Journal::open(&folder.0).unwrap();
        journal.append(MOMENT + DAY, b"three").unwrap();
        journal.drop_before(20_001).unwrap();
        journal.close().unwrap();
        let after = folder.files();
        for (name, data) in before {
            fs::write(folder.0.join(name), data).unwrap();
        }
        for (k, name) in save.names.iter().enumerate() {
            let to = if k < done { name.clone() } else { save.part(name) };
            let data = after.iter().find(|(it, _)| it == name).map_or(&[][..], |(_, data)| data);
            fs::write(folder.0.join(to), data).unwrap();
        }
        for name in save.removed.iter().take(done.saturating_sub(save.names.len())) {
            let _ = fs::remove_file(folder.0.join(name));
        }
        fs::write(folder.0.join(RECORD), save.text()).unwrap();
        folder
    }

    #[test]
    fn a_save_of_either_form_is_read_through_and_finished_at_each_step() {
        let (first, last) = ("20241004.cqi", "20241005.cqi");
        let rows: [(Save, u32, &[&str], &[&str]); 6] = [
            (save_of(77, &[last, CONFIG], &[]), 20_001, &["one", "two", "three"], &[first, last, CONFIG]),
            (save_of(77, &[last, LOG], &[]), 0, &["one", "two", "three"], &[first, last, CONFIG, LOG]),
            (save_of(77, &[], &[first]), 0, &["two"], &[last, CONFIG]),
            (save_of(77, &[last, CONFIG], &[first]), 20_001, &["two", "three"], &[last, CONFIG]),
            (save_of(77, &[first, CONFIG], &[first]), 20_001, &["two"], &[last, CONFIG]),
            (save_of(77, &[CONFIG], &["20241003.cqi", first, LOG]), 20_001, &["two"], &[last, CONFIG]),
        ];
        for (row, (save, floor, messages, names)) in rows.iter().enumerate() {
            for done in 0..=save.names.len() + save.removed.len() {
                let folder = cut_short(&format!("step-{row}-{done}"), save, done);
                let held = folder.files();
                let mut saved = Saved::load(&folder.0).unwrap();
                assert_eq!(saved.floor(), *floor);
                saved.set_floor(0);
                let seen: Vec<_> = saved.open().unwrap().messages().map(|it| it.unwrap().data).collect();
                assert_eq!(seen, messages.iter().map(|it| it.as_bytes()).collect::<Vec<_>>(), "row {row}, {done} done");
                assert_eq!(folder.files(), held);
                Journal::open(&folder.0).unwrap().close().unwrap();
                let files = folder.files();
                assert_eq!(files.iter().map(|(name, _)| name.as_str()).collect::<Vec<_>>(), *names);
            }
        }
    }

    #[test]
    fn a_save_that_removes_files_is_finished_after_a_kill_at_each_step() {
        let save = save_of(77, &["20241005.cqi", CONFIG], &["20241004.cqi"]);
        for done in 0..=3 {
            for steps in 0.. {
                let folder = cut_short(&format!("removal-{done}-{steps}"), &save, done);
                let was_killed = is_killed(&folder, "enter", steps);
                assert_eq!(Saved::load(&folder.0).unwrap().floor(), 20_001);
                drop(Folder::enter(&folder.0).unwrap());
                let files = folder.files();
                assert_eq!(files.iter().map(|(name, _)| name.as_str()).collect::<Vec<_>>(), ["20241005.cqi", CONFIG]);
                if !was_killed {
                    assert!(steps >= 6, "{steps}");
                    break;
                }
            }
        }
    }

    #[test]
    fn a_save_that_left_its_record_is_finished_before_the_next_one() {
        let settings = config(Roll::Daily, 0).settings;
        let changed = |floor| Config { settings, floor, positions: vec![("a".to_owned(), Index(0))] };
        for fault in 0.. {
            let folder = Scratch::new(&format!("left-{fault}"));
            let images = folder.files().into_iter().filter(|(name, _)| name != CONFIG).collect::<Vec<_>>();
            let more = [images.clone(), vec![("20241005.cqi".to_owned(), Vec::new())]].concat();
            let mut files = Folder::enter(&folder.0).unwrap();
            BEFORE_FAULT.set(fault);
            let refused = files.save(&changed(20_000), more).is_err();
            let was_refused = BEFORE_FAULT.replace(-1) < 0;
            let was_left = folder.0.join(RECORD).exists();
            // The next save is stopped at its first part: so it has written nothing, and what was left is finished.
            let step = if was_left { 6 } else { i64::from(files.is_unsynced) };
            BEFORE_FAULT.set(step);
            assert!(files.save(&changed(19_999), images.clone()).is_err());
            BEFORE_FAULT.set(-1);
            assert_eq!(folder.remainders(), [""; 0], "fault {fault}");
            let config = fs::read_to_string(folder.0.join(CONFIG)).unwrap();
            assert!(was_left <= config.contains("floor 20000"), "fault {fault}: {config}");
            files.save(&changed(19_999), images).unwrap();
            assert!(fs::read_to_string(folder.0.join(CONFIG)).unwrap().contains("floor 19999"));
            assert_eq!(folder.remainders(), [""; 0], "fault {fault}");
            if !was_refused {
                assert!(fault > 14 && !refused, "{fault}");
                break;
            }
        }
    }

    /// How many steps a child takes before it is killed; none are counted below 0.
    static LEFT: AtomicI64 = AtomicI64::new(-1);

    thread_local! {
        /// How many steps this thread takes before one fails; none are counted below 0.
        static BEFORE_FAULT: Cell<i64> = const { Cell::new(-1) };

        /// The error of the system with which a lock fails in this thread.
        static LOCK_FAULT: Cell<Option<i32>> = const { Cell::new(None) };
    }

    pub(super) fn before_lock() -> io::Result<()> {
        LOCK_FAULT.get().map_or(Ok(()), |number| Err(io::Error::from_raw_os_error(number)))
    }

    /// Kills this process if a child has taken all its steps. Fails once if this thread has.
    pub(super) fn step() -> io::Result<()> {
        if LEFT.load(Ordering::Relaxed) >= 0 && LEFT.fetch_sub(1, Ordering::Relaxed) == 0 {
            Command::new("sh").args(["-c", "kill -KILL $PPID"]).status().unwrap();
            loop {
                thread::park();
            }
        }
        let before = BEFORE_FAULT.get();
        BEFORE_FAULT.set((before - 1).max(-1));
        if before == 0 { Err(ErrorKind::StorageFull.into()) } else { Ok(()) }
    }

    /// What a child does: it is a test, so that this binary can be run for it. Without the variables it does nothing.
    #[test]
    fn child() {
        let (Ok(work), Ok(steps)) = (env::var("LINNETSHELF_WORK"), env::var("LINNETSHELF_STEPS")) else { return };
        let folder = env::var_os("LINNETSHELF_FOLDER").unwrap();
        let steps = steps.parse().unwrap();
        if work == "enter" {
            LEFT.store(steps, Ordering::Relaxed);
            drop(Folder::enter(Path::new(&folder)).unwrap());
            return;
        }
        let mut journal = Journal::open(&folder).unwrap();
        if work == "append" {
            journal.append(MOMENT + DAY, b"two").unwrap();
        }
        journal.take("a", &mut [0; 8]).unwrap().unwrap();
        LEFT.store(steps, Ordering::Relaxed);
        journal.close().unwrap();
    }

    /// Runs a child that is killed after this many steps. Returns whether it was.
    fn is_killed(folder: &Scratch, work: &str, steps: usize) -> bool {
        let status: ExitStatus = Command::new(env::current_exe().unwrap())
            .args(["--exact", "folder::tests::child", "--nocapture"])
            .env("LINNETSHELF_WORK", work)
            .env("LINNETSHELF_STEPS", steps.to_string())
            .env("LINNETSHELF_FOLDER", &folder.0)
            .stdout(process::Stdio::null())
            .status()
            .unwrap();
        assert!(status.success() || status.signal() == Some(9), "{status}");
        !status.success()
    }

    /// Kills a save at each step, and then the next command at each step. Returns how often a save was killed.
    fn kill_saves(work: &str, before: &[String], after: &[String]) -> usize {
        let mut steps = 0;
        loop {
            let mut further = 0;
            loop {
                let folder = Scratch::new(&format!("{work}-{steps}-{further}"));
                assert_eq!(folder.facts(), before);
                let was_killed = is_killed(&folder, work, steps);
                let facts = folder.facts();
                assert!(facts == before || facts == after, "{work}, step {steps}: {facts:?}");
                assert!(was_killed || (facts == after && folder.remainders().is_empty()));
                let is_killed_again = was_killed && is_killed(&folder, "enter", further);
                assert_eq!(folder.facts(), facts, "{work}, steps {steps} and {further}");
                Folder::enter(&folder.0).unwrap();
                assert_eq!(folder.facts(), facts, "{work}, steps {steps} and {further}");
                assert_eq!(folder.remainders(), [""; 0]);
                if !was_killed {
                    return steps;
                }
                if !is_killed_again {
                    break;
                }
                further += 1;
            }
            steps += 1;
        }
    }

    fn facts(facts: &[&str]) -> Vec<String> {
        facts.iter().map(|fact| fact.to_string()).collect()
    }

    #[test]
    fn a_save_of_several_files_that_was_killed_is_whole() {
        let before = facts(&["one", "0000000000000000"]);
        let kills = kill_saves("append", &before, &facts(&["one", "two", "00004e2000000001"]));
        assert!(kills > 20, "{kills}");
    }

    #[test]
    fn a_save_of_one_file_that_was_killed_is_whole() {
        let before = facts(&["one", "0000000000000000"]);
        let kills = kill_saves("take", &before, &facts(&["one", "00004e2000000001"]));
        assert!(kills > 5, "{kills}");
    }

    /// Closes a journal with a new message and a take, or with a take alone, while a step fails. Returns what is left.
    fn close_with_fault(folder: &Scratch, has_message: bool, steps: i64) -> Result<(), CloseError> {
        let mut journal = Journal::open(&folder.0).unwrap();
        if has_message {
            journal.append(MOMENT + DAY, b"two").unwrap();
        }
        journal.take("a", &mut [0; 8]).unwrap().unwrap();
        BEFORE_FAULT.set(steps);
        journal.close()
    }

    #[test]
    fn a_save_that_failed_is_whole() {
        let before = facts(&["one", "0000000000000000"]);
        for (has_message, after, least) in
            [(true, facts(&["one", "two", "00004e2000000001"]), 20), (false, facts(&["one", "00004e2000000001"]), 5)]
        {
            let mut steps = 0;
            loop {
                let name = format!("fault-{has_message}-{steps}");
                let folder = Scratch::new(&name);
                let closed = close_with_fault(&folder, has_message, steps);
                let was_refused = BEFORE_FAULT.replace(-1) < 0;
                let refused = closed.map_err(|error| drop(error.left)).is_err();
                let seen = folder.facts();
                assert!(
                    seen == after || (refused && seen == before && folder.remainders().is_empty()),
                    "{name}: {seen:?}"
                );
                Folder::enter(&folder.0).unwrap();
                assert_eq!((folder.facts(), folder.remainders().len()), (seen, 0), "{name}");
                drop(folder);
                if !was_refused {
                    assert!(steps > least && !refused, "{steps}");
                    break;
                }

                let folder = Scratch::new(&name);
                if let Err(error) = close_with_fault(&folder, has_message, steps) {
                    let Unsaved::Stopped(mut stopped) = *error.left else { panic!("the queue was not stopped") };
                    stopped.save().unwrap();
                }
                assert_eq!(folder.facts(), after, "{name}");
                steps += 1;
            }
        }
    }
}
