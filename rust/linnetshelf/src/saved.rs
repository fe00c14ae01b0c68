use core::fmt;

use crate::raw::{self, Owned};
use crate::settings::Queue;
use crate::{Endpoint, Error, Index, Settings};

/// What was saved of a queue: an image for each cycle, a position for each name, and the floor.
///
/// [`Endpoint::stop`] returns one. [`Saved::new`] makes one without cycles, to which images are added:
///
/// ```
/// use linnetshelf::{Endpoint, Saved, Settings};
///
/// let mut queue = Endpoint::create(&Settings::default(), &["worker"], 0)?;
/// queue.append(0, b"kept")?;
/// let mut saved = queue.stop()?;
/// let mut buffer = vec![0; 4 * saved.settings().cells as usize];
/// let image = saved.image(0, &mut buffer)?;
///
/// let mut again = Saved::new(&Settings::default(), &["worker"])?;
/// again.add(0, image)?;
/// assert_eq!(again.open()?.move_to_end()?.sequence(), 1);
/// # Ok::<(), linnetshelf::Error>(())
/// ```
pub struct Saved {
    handle: Owned,
    queue: Queue,
}

impl Saved {
    pub(crate) fn of(handle: Owned, queue: Queue) -> Saved {
        Saved { handle, queue }
    }

    /// Returns a queue without cycles, to which what was saved is added. `names` are as for [`Endpoint::create`].
    ///
    /// # Errors
    ///
    /// [`Error::BadSettings`], [`Error::OutOfMemory`].
    pub fn new(settings: &Settings, names: &[&str]) -> Result<Saved, Error> {
        let queue = Queue::new(settings, names)?;
        let handle = raw::saved_new(&settings.raw(), queue.names.lines()).map_err(Error::of)?;
        Ok(Saved::of(handle, queue))
    }

    /// Returns how the queue was made.
    pub fn settings(&self) -> &Settings {
        &self.queue.settings
    }

    /// Returns the names of the queue, in the order in which they were declared.
    pub fn names(&self) -> impl Iterator<Item = &str> {
        self.queue.names.iter()
    }

    /// Returns how many cycles there are.
    pub fn len(&mut self) -> u32 {
        self.handle.saved_count().index as u32
    }

    /// Returns whether there is no cycle.
    pub fn is_empty(&mut self) -> bool {
        self.len() == 0
    }

    /// Returns the number of cycle `k`, from 0.
    ///
    /// # Errors
    ///
    /// [`Error::NoSuchPlace`].
    pub fn cycle(&mut self, k: u32) -> Result<u32, Error> {
        Error::done(self.handle.saved_cycle(k)).map(|answer| answer.index as u32)
    }

    /// Returns how many messages cycle `k` has, from 0.
    ///
    /// # Errors
    ///
    /// [`Error::NoSuchPlace`].
    pub fn count(&mut self, k: u32) -> Result<u64, Error> {
        Error::done(self.handle.saved_length(k)).map(|answer| answer.index)
    }

    /// Returns whether cycle `k`, from 0, has ended.
    ///
    /// # Errors
    ///
    /// [`Error::NoSuchPlace`].
    pub fn has_ended(&mut self, k: u32) -> Result<bool, Error> {
        Error::done(self.handle.saved_ended(k)).map(|answer| answer.index == 1)
    }

    /// Copies the image of cycle `k`, from 0, to a buffer: the bytes of the cycle's file, at most four for each cell.
    ///
    /// # Errors
    ///
    /// [`Error::NoSuchPlace`], [`Error::NoRoom`], [`Error::OutOfMemory`].
    pub fn image<'b>(&mut self, k: u32, buffer: &'b mut [u8]) -> Result<&'b [u8], Error> {
        let answer = Error::done(self.handle.saved_image(k, buffer))?;
        Ok(&buffer[..answer.length as usize])
    }

    /// Adds a cycle after the others, from its image. Nothing changed if it is refused.
    ///
    /// # Errors
    ///
    /// [`Error::BadImage`]: the bytes are no image of this cycle and these settings. [`Error::BehindOpen`],
    /// [`Error::OutOfMemory`].
    pub fn add(&mut self, cycle: u32, image: &[u8]) -> Result<(), Error> {
        Error::done(self.handle.saved_add(cycle, image)).map(drop)
    }

    /// Returns each name with its position: the message that is taken next has this index or a later one.
    pub fn positions(&mut self) -> impl Iterator<Item = (&str, Index)> {
        let Saved { handle, queue } = self;
        (0..).zip(queue.names.iter()).map(|(k, name)| (name, Index(handle.saved_position(k).index)))
    }

    /// Sets the position of a name.
    ///
    /// # Errors
    ///
    /// [`Error::NoSuchName`].
    pub fn set_position(&mut self, name: &str, position: Index) -> Result<(), Error> {
        let found = (0..).zip(self.queue.names.iter()).find(|(_, declared)| *declared == name);
        let (k, _) = found.ok_or(Error::NoSuchName)?;
        Error::check(self.handle.saved_set_position(k, position.0))
    }

    /// Returns the floor: reads skip all cycles below it.
    pub fn floor(&mut self) -> u32 {
        self.handle.saved_floor().index as u32
    }

    /// Sets the floor.
    pub fn set_floor(&mut self, floor: u32) {
        self.handle.saved_set_floor(floor);
    }

    /// Makes a queue of it, whose last cycle is the current one, and returns its first endpoint. This stays as it is.
    ///
    /// # Errors
    ///
    /// [`Error::BadContents`]: there is no cycle, or there are too many; they do not rise, or the last one has ended; a
    /// position is above the end, or the floor above the last cycle. [`Error::OutOfMemory`].
    pub fn open(&mut self) -> Result<Endpoint, Error> {
        Endpoint::first(self.handle.open(), self.queue)
    }

    /// Makes a queue of the same settings and names whose first cycle is that of `moment`.
    #[cfg(feature = "std")]
    pub(crate) fn create(&self, moment: u64) -> Result<Endpoint, Error> {
        Endpoint::create_of(self.queue, moment)
    }

    /// Makes the image of each cycle, in their order.
    #[cfg(feature = "std")]
    pub fn images(&mut self) -> impl Iterator<Item = Result<Image, Error>> {
        (0..self.len()).map(|k| {
            let mut data = Vec::new();
            let length = crate::waiting::growing(&mut data, |buffer| self.image(k, buffer).map(<[u8]>::len))?;
            data.truncate(length);
            Ok(Image { cycle: self.cycle(k)?, data })
        })
    }
}

impl fmt::Debug for Saved {
    fn fmt(&self, to: &mut fmt::Formatter<'_>) -> fmt::Result {
        to.debug_struct("Saved").field("settings", self.settings()).finish_non_exhaustive()
    }
}

/// The image of a cycle: the bytes of its file.
#[cfg(feature = "std")]
#[derive(Clone, Debug, PartialEq, Eq, Hash)]
pub struct Image {
    /// The number of the cycle.
    pub cycle: u32,
    /// The bytes.
    pub data: Vec<u8>,
}
