use core::fmt;

use crate::raw::{self, Answer, Owned};
use crate::settings::Queue;
use crate::{Error, Index, Saved, Settings};

/// The statuses of a read that there is no message, yet or at all.
const NOT_YET: u32 = 1;
const BEFORE_START: u32 = 2;
const MOVED: u32 = 7;

/// Which way an endpoint reads.
#[derive(Clone, Copy, Debug, Default, PartialEq, Eq, Hash)]
#[repr(u32)]
pub enum Direction {
    /// From the start to the end.
    #[default]
    Forwards = 0,
    /// From the end to the start.
    Backwards = 1,
}

/// A message that was read into a buffer of the caller.
#[derive(Clone, Copy, Debug, PartialEq, Eq, Hash)]
pub struct Received<'b> {
    /// Its index.
    pub index: Index,
    /// Its bytes, in the buffer.
    pub data: &'b [u8],
}

/// The index and the length of a message.
#[derive(Clone, Copy, Debug, PartialEq, Eq, Hash)]
pub struct Peeked {
    /// Its index.
    pub index: Index,
    /// Its length in bytes.
    pub length: usize,
}

/// An endpoint of a queue: it appends messages and reads them. Each thread has one of its own, by [`Endpoint::split`].
///
/// Reads go forwards from the start. They return `None` where no message has come yet, and [`Error::Finished`] at the end of a
/// queue that is closed. At the end of an endpoint a message that it has begun is given up, and the last endpoint of a queue
/// frees it.
///
/// An endpoint may go to another thread:
///
/// ```
/// fn moved<T: Send>() {}
/// moved::<linnetshelf::Endpoint>();
/// ```
///
/// Two threads never share one:
///
/// ```compile_fail,E0277
/// fn shared<T: Sync>() {}
/// shared::<linnetshelf::Endpoint>();
/// ```
///
/// Make no call on one in a child after `fork`: the child makes a queue of its own.
pub struct Endpoint {
    handle: Owned,
    queue: Queue,
}

impl Endpoint {
    /// Makes a queue, and returns its first endpoint.
    ///
    /// Its first cycle is that of `moment`, in milliseconds of Unix time. `names` are the named tailers: at most 16 distinct
    /// ones, each of 1 to 32 letters, digits, `_`, `-` and `.` of ASCII.
    ///
    /// # Errors
    ///
    /// [`Error::BadSettings`], [`Error::BadMoment`], [`Error::OutOfMemory`].
    pub fn create(settings: &Settings, names: &[&str], moment: u64) -> Result<Endpoint, Error> {
        let queue = Queue::new(settings, names)?;
        Endpoint::create_of(queue, moment)
    }

    pub(crate) fn create_of(queue: Queue, moment: u64) -> Result<Endpoint, Error> {
        Endpoint::first(raw::create(&queue.settings.raw(), queue.names.lines(), moment), queue)
    }

    /// Returns the first endpoint of a queue that nobody else has.
    pub(crate) fn first(made: Result<Owned, u32>, queue: Queue) -> Result<Endpoint, Error> {
        Ok(Endpoint { handle: made.map_err(Error::of)?, queue })
    }

    /// Returns another endpoint of the same queue, for another thread. It reads from the start.
    ///
    /// # Errors
    ///
    /// [`Error::OutOfMemory`].
    pub fn split(&mut self) -> Result<Endpoint, Error> {
        Ok(Endpoint { handle: self.handle.split().map_err(Error::of)?, queue: self.queue })
    }

    /// Lets two endpoints share what they have seen: afterwards each has seen what the other had.
    ///
    /// # Errors
    ///
    /// [`Error::TwoQueues`]: they are not of one queue, and nothing changed.
    pub fn meet(&mut self, other: &mut Endpoint) -> Result<(), Error> {
        self.handle.meet(&mut other.handle).map_or(Err(Error::TwoQueues), Error::check)
    }

    /// Returns how the queue was made.
    pub fn settings(&self) -> &Settings {
        &self.queue.settings
    }

    /// Returns the names of the queue, in the order in which they were declared.
    pub fn names(&self) -> impl Iterator<Item = &str> {
        self.queue.names.iter()
    }

    // Appending

    /// Appends a message of 1 to 2^30 - 1 bytes, and returns its index.
    ///
    /// It goes to the cycle of `moment`, in milliseconds of Unix time, or to the current cycle if that is later. A later cycle
    /// than the current one begins first.
    ///
    /// # Errors
    ///
    /// [`Error::Busy`]: another endpoint is writing. Yield or sleep, then call again, or use `append_waiting`.
    /// [`Error::Writing`], [`Error::BadRoom`], [`Error::BadMoment`], [`Error::CycleFull`], [`Error::NoCycleLeft`],
    /// [`Error::Closed`].
    #[inline]
    pub fn append(&mut self, moment: u64, data: &[u8]) -> Result<Index, Error> {
        Error::done(self.handle.append(moment, data)).map(|answer| Index(answer.index))
    }

    /// Begins a message of at most `most` bytes, which is put in parts. It is given up if the value is dropped.
    ///
    /// # Errors
    ///
    /// Those of [`Endpoint::append`].
    pub fn begin(&mut self, moment: u64, most: u32) -> Result<Begun<'_>, Error> {
        self.begin_message(moment, most)?;
        Ok(Begun::of(self))
    }

    /// Begins a message, to which [`Begun::of`] gives its value.
    pub(crate) fn begin_message(&mut self, moment: u64, most: u32) -> Result<(), Error> {
        Error::check(self.handle.begin(moment, most))
    }

    /// Gives up a message that was begun by a [`Begun`] which was forgotten (`core::mem::forget`).
    ///
    /// # Errors
    ///
    /// [`Error::NotWriting`].
    pub fn roll_back(&mut self) -> Result<(), Error> {
        Error::check(self.handle.roll_back())
    }

    /// Begins the cycle of `moment` if it is later than the current one, and returns the current cycle.
    ///
    /// # Errors
    ///
    /// [`Error::Busy`], [`Error::Writing`], [`Error::BadMoment`], [`Error::NoCycleLeft`]. [`Error::Closed`]: a cycle would
    /// begin, and the queue is closed.
    pub fn advance(&mut self, moment: u64) -> Result<u32, Error> {
        Error::done(self.handle.advance(moment)).map(|answer| answer.index as u32)
    }

    // Closing

    /// Closes the queue for all its endpoints, which live on.
    ///
    /// From then on appends return [`Error::Closed`]. What was appended before is read and taken as before; then reads and takes
    /// return [`Error::Finished`].
    ///
    /// # Errors
    ///
    /// [`Error::Closed`]: it was closed before. [`Error::Busy`]: another endpoint is writing. Yield or sleep, then call again, or
    /// use `close_queue_waiting`. [`Error::Writing`]: this endpoint has begun a message, which was forgotten.
    /// [`Error::CycleFull`]: the current cycle is full, and no moment is in a later one; or others have filled the next one
    /// meanwhile.
    pub fn close_queue(&mut self) -> Result<(), Error> {
        Error::check(self.handle.close())
    }

    // Reading

    /// Reads the next message in the direction of reading into a buffer; returns `None` if there is none yet.
    ///
    /// # Errors
    ///
    /// [`Error::NoRoom`]: the message is longer than the buffer. The next call finds it again. [`Error::Finished`]: there is
    /// none, and none will come.
    #[inline]
    pub fn next<'b>(&mut self, buffer: &'b mut [u8]) -> Result<Option<Received<'b>>, Error> {
        self.try_next(buffer).map(|answer| received(answer, buffer)).transpose()
    }

    /// Reads the next message as [`Endpoint::next`] does; [`received`] returns it.
    #[inline]
    pub(crate) fn try_next(&mut self, buffer: &mut [u8]) -> Option<Answer> {
        let answer = self.handle.next(buffer);
        (!matches!(answer.status, NOT_YET | BEFORE_START)).then_some(answer)
    }

    /// Returns the index and the length of the next message, or `None` if there is none yet. The message is not read or copied, and
    /// the endpoint stays where it is. The next read finds the message, unless its cycle is dropped.
    ///
    /// # Errors
    ///
    /// [`Error::Finished`]: there is none, and none will come. [`Error::WrongKind`].
    pub fn peek(&mut self) -> Result<Option<Peeked>, Error> {
        let answer = self.handle.peek();
        if matches!(answer.status, NOT_YET | BEFORE_START) {
            return Ok(None);
        }
        let Answer { index, length, .. } = Error::done(answer)?;
        Ok(Some(Peeked { index: Index(index), length: length as usize }))
    }

    /// Reads the message with this index into a buffer. The endpoint stays where it is.
    ///
    /// # Errors
    ///
    /// [`Error::NotYet`], [`Error::Finished`], [`Error::Never`], [`Error::Gone`]: no message has this index.
    /// [`Error::NoRoom`]: it is longer than the buffer.
    #[inline]
    pub fn read_at<'b>(&mut self, index: Index, buffer: &'b mut [u8]) -> Result<&'b [u8], Error> {
        let answer = self.handle.read_at(index.0, buffer);
        received(answer, buffer).map(|message| message.data)
    }

    /// Sets the direction of reading.
    ///
    /// # Errors
    ///
    /// [`Error::WrongKind`].
    pub fn set_direction(&mut self, direction: Direction) -> Result<(), Error> {
        Error::check(self.handle.direction(direction as u32))
    }

    /// Moves to the message with this index, which is read next forwards.
    ///
    /// # Errors
    ///
    /// [`Error::NoMessage`]: none is there, and the endpoint stays where it is.
    pub fn move_to(&mut self, index: Index) -> Result<(), Error> {
        Error::check(self.handle.move_to(index.0))
    }

    /// Moves before the first message.
    ///
    /// # Errors
    ///
    /// [`Error::WrongKind`].
    pub fn move_to_start(&mut self) -> Result<(), Error> {
        Error::check(self.handle.move_to_start())
    }

    /// Moves to the end, and returns it: the index that the next message of the current cycle gets.
    ///
    /// # Errors
    ///
    /// [`Error::WrongKind`].
    pub fn move_to_end(&mut self) -> Result<Index, Error> {
        Error::done(self.handle.move_to_end()).map(|answer| Index(answer.index))
    }

    /// Returns where the endpoint is: the message that it reads next forwards has this index or a later one.
    ///
    /// # Errors
    ///
    /// [`Error::WrongKind`].
    pub fn cursor(&mut self) -> Result<Index, Error> {
        Error::done(self.handle.cursor()).map(|answer| Index(answer.index))
    }

    /// Returns the end, which this endpoint has seen then. It stays where it is.
    ///
    /// # Errors
    ///
    /// [`Error::OutOfMemory`].
    pub fn see_end(&mut self) -> Result<Index, Error> {
        Error::done(self.handle.end()).map(|answer| Index(answer.index))
    }

    /// Drops the cycles before this one: reads of all endpoints skip them. Returns the cycle below which all are skipped.
    ///
    /// A cycle above the current one counts as that. The endpoint stays where it is. No memory is freed.
    ///
    /// # Errors
    ///
    /// [`Error::OutOfMemory`].
    pub fn drop_before(&mut self, cycle: u32) -> Result<u32, Error> {
        let end = self.see_end()?;
        let answer = self.handle.drop_before(cycle.min(end.cycle()));
        Error::done(answer).map(|answer| answer.index as u32)
    }

    // Names

    /// Takes the next message of a name into a buffer; returns `None` if none has come. Of all that take by a name, one alone
    /// gets it.
    ///
    /// # Errors
    ///
    /// [`Error::NoSuchName`]. [`Error::NoRoom`]: the message is longer than the buffer, and was not taken.
    /// [`Error::Finished`]: there is none, and none will come.
    pub fn take<'b>(&mut self, name: &str, buffer: &'b mut [u8]) -> Result<Option<Received<'b>>, Error> {
        loop {
            let answer = self.handle.take(name, buffer);
            match answer.status {
                NOT_YET => return Ok(None),
                // Another endpoint was faster.
                MOVED => continue,
                _ => return received(answer, buffer).map(Some),
            }
        }
    }

    /// Returns the position of a name: the message that is taken next has this index or a later one.
    ///
    /// # Errors
    ///
    /// [`Error::NoSuchName`].
    pub fn position(&mut self, name: &str) -> Result<Index, Error> {
        Error::done(self.handle.position(name)).map(|answer| Index(answer.index))
    }

    /// Moves a name from one position to another.
    ///
    /// # Errors
    ///
    /// [`Error::Moved`]: it was not at `from`, or another endpoint moved it meanwhile. [`Error::NotSeen`]: `to` is above the
    /// end. [`Error::NoSuchName`], [`Error::OutOfMemory`].
    pub fn seek(&mut self, name: &str, from: Index, to: Index) -> Result<(), Error> {
        self.see_end()?;
        Error::done(self.handle.seek(name, from.0, to.0)).map(drop)
    }

    // Stopping

    /// Returns a copy of what the queue holds at one moment of this call, while its endpoints go on. A message that is begun is not
    /// in it. Each name is at 0, and the floor is 0. The endpoint stays where it is.
    ///
    /// # Errors
    ///
    /// [`Error::OutOfMemory`].
    pub fn snapshot(&mut self) -> Result<Saved, Error> {
        let handle = self.handle.snapshot().map_err(Error::of)?;
        Ok(Saved::of(handle, self.queue))
    }

    /// Stops the queue of its last endpoint, and returns what it held. A message that was begun and forgotten is given up.
    ///
    /// # Errors
    ///
    /// [`Error::InUse`]: other endpoints are alive, and nothing changed. [`Error::OutOfMemory`]: the queue is stopped; call
    /// again to read it. Until then all other calls are refused ([`Error::WrongKind`]). Both give the endpoint back.
    // The names are in the endpoint, since without `std` there is no other place for them.
    #[allow(clippy::result_large_err)]
    pub fn stop(mut self) -> Result<Saved, StopError> {
        match Error::check(self.handle.stop()) {
            Ok(()) => Ok(Saved::of(self.handle, self.queue)),
            Err(error) => Err(StopError { error, endpoint: self }),
        }
    }

    /// Returns the number of the queue, which no other one has.
    #[cfg(feature = "std")]
    pub(crate) fn queue_number(&self) -> u64 {
        self.handle.queue()
    }
}

/// Returns the message that a call wrote to a buffer.
#[inline]
pub(crate) fn received(answer: Answer, buffer: &mut [u8]) -> Result<Received<'_>, Error> {
    let answer = Error::done(answer)?;
    Ok(Received { index: Index(answer.index), data: &buffer[..answer.length as usize] })
}

impl fmt::Debug for Endpoint {
    fn fmt(&self, to: &mut fmt::Formatter<'_>) -> fmt::Result {
        to.debug_struct("Endpoint").field("settings", self.settings()).finish_non_exhaustive()
    }
}

/// A message that is begun. If it is dropped before [`Begun::complete`], it is given up.
#[derive(Debug)]
#[must_use = "a message that is begun is given up unless it is completed"]
pub struct Begun<'e> {
    endpoint: &'e mut Endpoint,
}

impl<'e> Begun<'e> {
    /// Returns the message that an endpoint has begun.
    pub(crate) fn of(endpoint: &'e mut Endpoint) -> Begun<'e> {
        Begun { endpoint }
    }

    /// Puts bytes after those that were put.
    ///
    /// # Errors
    ///
    /// [`Error::PastRoom`]: nothing was put.
    pub fn put(&mut self, data: &[u8]) -> Result<(), Error> {
        Error::check(self.endpoint.handle.put(data))
    }

    /// Appends the message, and returns its index.
    ///
    /// # Errors
    ///
    /// [`Error::EmptyMessage`]: nothing was put, and the message is given up.
    pub fn complete(self) -> Result<Index, Error> {
        Error::done(self.endpoint.handle.complete()).map(|answer| Index(answer.index))
    }
}

impl Drop for Begun<'_> {
    fn drop(&mut self) {
        // After it was completed there is nothing to give up, and the call does nothing.
        self.endpoint.handle.roll_back();
    }
}

#[cfg(feature = "std")]
impl std::io::Write for Begun<'_> {
    /// Puts all of the bytes, or none if they would pass the size for which the message was begun.
    fn write(&mut self, data: &[u8]) -> std::io::Result<usize> {
        self.put(data).map_err(|error| std::io::Error::new(std::io::ErrorKind::WriteZero, error))?;
        Ok(data.len())
    }

    fn flush(&mut self) -> std::io::Result<()> {
        Ok(())
    }
}

/// A queue was not stopped, or could not be read then. The endpoint is given back.
///
/// As an endpoint, it is not `Sync`. What needs an error that is, such as `Box<dyn Error + Send + Sync>`, takes
/// [`StopError::error`].
#[derive(Debug)]
pub struct StopError {
    /// Why.
    pub error: Error,
    /// The endpoint.
    pub endpoint: Endpoint,
}

impl fmt::Display for StopError {
    fn fmt(&self, to: &mut fmt::Formatter<'_>) -> fmt::Result {
        self.error.fmt(to)
    }
}

impl core::error::Error for StopError {}

impl From<StopError> for Error {
    fn from(stopped: StopError) -> Error {
        stopped.error
    }
}
