//! A queue in a folder.
use std::fmt;
use std::io::{self, ErrorKind, Write};
use std::ops::{Deref, DerefMut};
use std::path::Path;

use crate::folder::{Config, Folder};
use crate::{Endpoint, Error, FolderError, Image, Index, Saved, Settings, now};

impl Saved {
    /// Reads what the files of a folder hold. It changes nothing, and holds the lock only while it reads.
    ///
    /// After [`init`] no cycle has begun, so [`Saved::open`] refuses what was read. A [`Journal`] begins the first one.
    ///
    /// # Errors
    ///
    /// The files are no queue of version 2, or cannot be read.
    pub fn load(folder: impl AsRef<Path>) -> Result<Saved, FolderError> {
        Saved::read(&Folder::enter_shared(folder.as_ref())?)
    }

    /// Makes a queue of what this holds in a folder, which is there already and has none. It makes all files or none, also if
    /// the process ends in between. What a folder has is changed by a [`Journal`] alone.
    ///
    /// # Errors
    ///
    /// [`FolderError::QueueExists`]: a queue is there, or an image. [`FolderError::Queue`]: [`Saved::open`] refuses what this
    /// holds, and it is not what [`init`] makes. [`FolderError::File`].
    pub fn save(&mut self, folder: impl AsRef<Path>) -> Result<(), FolderError> {
        let folder = folder.as_ref();
        if !self.is_new() {
            self.open().map_err(|error| FolderError::Queue(folder.to_owned(), error))?;
        }
        let mut files = Folder::enter(folder)?;
        files.check_no_queue()?;
        files.check_no_image()?;
        self.write(&mut files)
    }

    /// Returns whether no cycle has begun, and the positions and the floor are 0.
    fn is_new(&mut self) -> bool {
        self.is_empty() && self.floor() == 0 && self.positions().all(|(_, position)| position == Index(0))
    }

    fn read(files: &Folder) -> Result<Saved, FolderError> {
        let config = files.read_config()?;
        let names: Vec<&str> = config.positions.iter().map(|(name, _)| name.as_str()).collect();
        let mut saved = Saved::new(&config.settings, &names).map_err(files.refused_config())?;
        for (cycle, name) in files.images(&config)? {
            let path = files.path().join(&name);
            let Some(bytes) = files.read(&name)? else {
                return Err(FolderError::File(path, ErrorKind::NotFound.into()));
            };
            saved.add(cycle, &bytes).map_err(|error| FolderError::Image(path, error))?;
        }
        for (name, position) in &config.positions {
            saved.set_position(name, *position).map_err(files.refused_config())?;
        }
        saved.set_floor(config.floor);
        Ok(saved)
    }

    fn write(&mut self, files: &mut Folder) -> Result<(), FolderError> {
        let positions = self.positions().map(|(name, position)| (name.to_owned(), position)).collect();
        let config = Config { settings: *self.settings(), floor: self.floor(), positions };
        let images: Result<Vec<Image>, Error> = self.images().collect();
        let images = images.map_err(files.refused())?;
        let images = images.into_iter().map(|image| (config.image_name(image.cycle), image.data)).collect();
        files.save(&config, images)
    }
}

/// Makes an empty queue in a folder, which is there already, as `cq init` does.
///
/// # Errors
///
/// [`FolderError::QueueExists`], [`FolderError::Queue`] for settings or names outside their limits, [`FolderError::File`].
pub fn init(folder: impl AsRef<Path>, settings: &Settings, names: &[&str]) -> Result<(), FolderError> {
    let folder = folder.as_ref();
    let mut saved = Saved::new(settings, names).map_err(|error| FolderError::Queue(folder.to_owned(), error))?;
    let mut files = Folder::enter(folder)?;
    files.check_no_queue()?;
    saved.write(&mut files)
}

/// A queue in a folder. It is an [`Endpoint`] of that queue, from which others are split.
///
/// The folder is locked as long as this lives, so other programs wait, `cq` among them. So does another `Journal` or
/// [`Saved::load`] of this folder, also in the same thread. [`Journal::close`] saves what the queue holds. What was appended
/// since the journal was opened is lost if the process ends before.
///
/// Close each journal. One that is dropped is saved only if no other endpoint of the queue is alive. If it is not saved, a line
/// on the standard error output says why, and all that was appended since it was opened is lost.
#[derive(Debug)]
pub struct Journal {
    /// Until the journal is closed.
    open: Option<Open>,
}

#[derive(Debug)]
struct Open {
    queue: Endpoint,
    /// The number of the queue.
    number: u64,
    files: Folder,
}

impl Journal {
    /// Opens the queue of a folder. The clock's time is when the first cycle of a queue without images begins.
    ///
    /// # Errors
    ///
    /// The files are no queue of version 2, or cannot be read. [`Error::BadContents`], as [`FolderError::Queue`]: what they
    /// hold is refused, also a position or a floor other than 0 without an image.
    pub fn open(folder: impl AsRef<Path>) -> Result<Journal, FolderError> {
        Journal::open_at(folder, now())
    }

    /// Opens the queue of a folder. `moment` is when the first cycle of a queue without images begins.
    ///
    /// # Errors
    ///
    /// Those of [`Journal::open`].
    pub fn open_at(folder: impl AsRef<Path>, moment: u64) -> Result<Journal, FolderError> {
        let files = Folder::enter(folder.as_ref())?;
        let mut saved = Saved::read(&files)?;
        let queue = if saved.is_new() { saved.create(moment) } else { saved.open() };
        let queue = queue.map_err(files.refused())?;
        Ok(Journal { open: Some(Open { number: queue.queue_number(), queue, files }) })
    }

    /// Stops the queue, saves what it held, and releases the folder. A message that was begun and forgotten is given up.
    ///
    /// # Errors
    ///
    /// [`Error::InUse`], as [`FolderError::Queue`]: other endpoints of the queue are alive. Or the files cannot be written. The
    /// error has what is not saved.
    pub fn close(mut self) -> Result<(), CloseError> {
        self.open.take().map_or(Ok(()), Open::close)
    }
}

impl Open {
    fn close(mut self) -> Result<(), CloseError> {
        // An endpoint of another queue is here if it was swapped in.
        if self.queue.queue_number() != self.number {
            return Err(self.give_back(Error::TwoQueues));
        }
        match self.queue.stop() {
            Ok(saved) => {
                let mut stopped = Stopped { saved, files: self.files };
                stopped.save().map_err(|error| CloseError { error, left: Box::new(Unsaved::Stopped(stopped)) })
            }
            Err(refused) => {
                self.queue = refused.endpoint;
                Err(self.give_back(refused.error))
            }
        }
    }

    /// Returns the error of a journal that stays open.
    fn give_back(self, error: Error) -> CloseError {
        let error = self.files.refused()(error);
        CloseError { error, left: Box::new(Unsaved::Journal(Journal { open: Some(self) })) }
    }
}

impl Drop for Journal {
    fn drop(&mut self) {
        let Some(Err(closed)) = self.open.take().map(Open::close) else { return };
        // A macro that panics without this output would end the process here.
        let _ = writeln!(io::stderr(), "linnetshelf: a journal that was dropped is not saved: {closed}");
        if let Unsaved::Journal(mut journal) = *closed.left {
            // It is not closed a second time.
            journal.open = None;
        }
    }
}

impl Deref for Journal {
    type Target = Endpoint;

    fn deref(&self) -> &Endpoint {
        &self.open.as_ref().expect("only `close` and `drop` take it").queue
    }
}

impl DerefMut for Journal {
    fn deref_mut(&mut self) -> &mut Endpoint {
        &mut self.open.as_mut().expect("only `close` and `drop` take it").queue
    }
}

/// A journal could not be closed.
///
/// As an endpoint, it is not `Sync`. What needs an error that is, such as `Box<dyn Error + Send + Sync>`, takes
/// [`CloseError::error`].
#[derive(Debug)]
pub struct CloseError {
    /// Why.
    pub error: FolderError,
    /// What is not saved.
    pub left: Box<Unsaved>,
}

/// What a journal holds that could not be closed.
#[derive(Debug)]
pub enum Unsaved {
    /// Other endpoints of the queue are alive, or there was no memory to read it. The journal can be closed again.
    Journal(Journal),
    /// The queue is stopped, and its files could not be written.
    Stopped(Stopped),
}

/// What a queue held whose files could not be written. The folder is locked as long as this lives.
#[derive(Debug)]
pub struct Stopped {
    saved: Saved,
    files: Folder,
}

impl Stopped {
    /// Tries again to write the files.
    ///
    /// # Errors
    ///
    /// A file or the folder cannot be written, or a file is no plain one.
    pub fn save(&mut self) -> Result<(), FolderError> {
        self.saved.write(&mut self.files)
    }

    /// Releases the folder, and returns what the queue held.
    pub fn into_saved(self) -> Saved {
        self.saved
    }
}

impl fmt::Display for CloseError {
    fn fmt(&self, to: &mut fmt::Formatter<'_>) -> fmt::Result {
        self.error.fmt(to)
    }
}

impl std::error::Error for CloseError {
    fn source(&self) -> Option<&(dyn std::error::Error + 'static)> {
        Some(&self.error)
    }
}

impl From<CloseError> for FolderError {
    fn from(closed: CloseError) -> FolderError {
        closed.error
    }
}
