//! Owned messages, and calls that wait.
use std::thread;
use std::time::{Duration, Instant, SystemTime, UNIX_EPOCH};

use crate::endpoint::received;
use crate::{Begun, Direction, Endpoint, Error, Index, Received};

/// A wait yields the processor this many times before it sleeps, at first this long and at most that long.
const YIELDS: u32 = 50;
const FIRST_PAUSE: Duration = Duration::from_micros(10);
const LONGEST_PAUSE: Duration = Duration::from_millis(1);

/// A message that was read.
#[derive(Clone, Debug, PartialEq, Eq, Hash)]
pub struct Message {
    /// Its index.
    pub index: Index,
    /// Its bytes.
    pub data: Vec<u8>,
}

impl From<Received<'_>> for Message {
    fn from(received: Received<'_>) -> Message {
        Message { index: received.index, data: received.data.to_vec() }
    }
}

/// Returns the clock's time in milliseconds of Unix time.
pub fn now() -> u64 {
    let since = SystemTime::now().duration_since(UNIX_EPOCH).unwrap_or_default();
    u64::try_from(since.as_millis()).unwrap_or(u64::MAX)
}

/// Returns the first result of `attempt` that is not `None`, or `None` if there is none in time.
///
/// It yields between the attempts at first, and then sleeps longer and longer. `None` as `timeout` has no end.
fn until<T>(timeout: Option<Duration>, mut attempt: impl FnMut() -> Option<T>) -> Option<T> {
    let mut found = attempt();
    if found.is_some() {
        return found;
    }
    let start = Instant::now();
    let (mut yields, mut pause) = (0, FIRST_PAUSE);
    while found.is_none() && timeout.is_none_or(|timeout| start.elapsed() < timeout) {
        if yields < YIELDS {
            yields += 1;
            thread::yield_now();
        } else {
            thread::sleep(pause);
            pause = (pause * 3 / 2).min(LONGEST_PAUSE);
        }
        found = attempt();
    }
    found
}

/// Makes a buffer longer until what is read into it fits.
pub(crate) fn growing<T>(
    buffer: &mut Vec<u8>,
    mut read: impl FnMut(&mut [u8]) -> Result<T, Error>,
) -> Result<T, Error> {
    loop {
        match read(buffer) {
            Err(Error::NoRoom { needed }) => {
                let length = needed.max(2 * buffer.len());
                buffer.clear();
                buffer.try_reserve_exact(length).map_err(|_| Error::OutOfMemory)?;
                buffer.resize(length, 0);
            }
            other => return other,
        }
    }
}

/// Ends a row of results after the first error. The end of a closed queue ends it without an error.
#[derive(Debug, Default)]
struct UntilError {
    is_over: bool,
}

impl UntilError {
    fn next<T>(&mut self, read: impl FnOnce() -> Option<Result<T, Error>>) -> Option<Result<T, Error>> {
        if self.is_over {
            return None;
        }
        let found = read();
        self.is_over = matches!(found, Some(Err(_)));
        found.filter(|found| !matches!(found, Err(Error::Finished)))
    }
}

/// Repeats an append while another endpoint writes.
fn while_busy<T>(timeout: Option<Duration>, mut attempt: impl FnMut() -> Result<T, Error>) -> Result<T, Error> {
    let outcome = until(timeout, || match attempt() {
        Err(Error::Busy) => None,
        other => Some(other),
    });
    outcome.unwrap_or(Err(Error::Busy))
}

/// Calls that wait, and messages as values of their own. `None` as a timeout has no end.
impl Endpoint {
    /// Appends a message as [`Endpoint::append`] does. While another endpoint writes, it tries again, at most that long. That
    /// endpoint may have begun a message: without a timeout this waits until it is completed or given up.
    ///
    /// # Errors
    ///
    /// [`Error::Busy`]: another endpoint was writing until the time was over. Others as for [`Endpoint::append`].
    pub fn append_waiting(&mut self, moment: u64, data: &[u8], timeout: Option<Duration>) -> Result<Index, Error> {
        while_busy(timeout, || self.append(moment, data))
    }

    /// Begins a message as [`Endpoint::begin`] does. While another endpoint writes, it tries again, at most that long.
    ///
    /// # Errors
    ///
    /// Those of [`Endpoint::append_waiting`].
    pub fn begin_waiting(&mut self, moment: u64, most: u32, timeout: Option<Duration>) -> Result<Begun<'_>, Error> {
        while_busy(timeout, || self.begin_message(moment, most))?;
        Ok(Begun::of(self))
    }

    /// Closes the queue as [`Endpoint::close_queue`] does. While another endpoint writes, it tries again, at most that long.
    ///
    /// # Errors
    ///
    /// [`Error::Busy`]: another endpoint was writing until the time was over. Others as for [`Endpoint::close_queue`].
    pub fn close_queue_waiting(&mut self, timeout: Option<Duration>) -> Result<(), Error> {
        while_busy(timeout, || self.close_queue())
    }

    /// Waits until there is a next message; returns false if none came in time, or none will come.
    ///
    /// # Errors
    ///
    /// [`Error::WrongKind`].
    pub fn wait(&mut self, timeout: Option<Duration>) -> Result<bool, Error> {
        match until(timeout, || self.peek().transpose()) {
            None | Some(Err(Error::Finished)) => Ok(false),
            Some(found) => found.map(|_| true),
        }
    }

    /// Waits for the next message, and reads it as [`Endpoint::next`] does; returns `None` if none came in time. Where none
    /// will come it does not wait.
    ///
    /// # Errors
    ///
    /// Those of [`Endpoint::next`].
    pub fn next_waiting<'b>(
        &mut self,
        buffer: &'b mut [u8],
        timeout: Option<Duration>,
    ) -> Result<Option<Received<'b>>, Error> {
        until(timeout, || self.try_next(buffer)).map(|answer| received(answer, buffer)).transpose()
    }

    /// Reads the message with this index.
    ///
    /// # Errors
    ///
    /// [`Error::NotYet`], [`Error::Finished`], [`Error::Never`], [`Error::Gone`]: no message has this index.
    pub fn get(&mut self, index: Index) -> Result<Vec<u8>, Error> {
        let mut buffer = Vec::new();
        let length = growing(&mut buffer, |buffer| self.read_at(index, buffer).map(<[u8]>::len))?;
        buffer.truncate(length);
        Ok(buffer)
    }

    /// Reads message after message in the direction of reading, up to the last one that has come. It ends after an error.
    pub fn messages(&mut self) -> Messages<'_> {
        Messages { endpoint: self, buffer: Vec::new(), until_error: UntilError::default() }
    }

    /// Reads message after message as they come. It ends if none came for that long, if none will come, and after an error.
    pub fn follow(&mut self, timeout: Option<Duration>) -> impl Iterator<Item = Result<Message, Error>> {
        let (mut buffer, mut until_error) = (Vec::new(), UntilError::default());
        std::iter::from_fn(move || until_error.next(|| until(timeout, || self.next_owned(&mut buffer))))
    }

    /// Takes message after message of a name. It ends if none came for that long, if none will come, and after an error.
    pub fn takes(&mut self, name: &str, timeout: Option<Duration>) -> impl Iterator<Item = Result<Message, Error>> {
        let (mut buffer, mut until_error) = (Vec::new(), UntilError::default());
        std::iter::from_fn(move || {
            until_error.next(|| {
                until(timeout, || {
                    growing(&mut buffer, |buffer| Ok(self.take(name, buffer)?.map(Message::from))).transpose()
                })
            })
        })
    }

    /// Reads the next message, if there is one.
    fn next_owned(&mut self, buffer: &mut Vec<u8>) -> Option<Result<Message, Error>> {
        growing(buffer, |buffer| Ok(self.next(buffer)?.map(Message::from))).transpose()
    }

    /// Reads the messages before this place, the last one first. It ends after an error. When the iterator is dropped, the
    /// endpoint reads forwards again.
    ///
    /// # Errors
    ///
    /// [`Error::WrongKind`].
    pub fn backwards(&mut self) -> Result<Backwards<'_>, Error> {
        self.set_direction(Direction::Backwards)?;
        Ok(Backwards { messages: self.messages() })
    }
}

/// Reads message after message: see [`Endpoint::messages`].
#[derive(Debug)]
pub struct Messages<'e> {
    endpoint: &'e mut Endpoint,
    buffer: Vec<u8>,
    until_error: UntilError,
}

impl Iterator for Messages<'_> {
    type Item = Result<Message, Error>;

    fn next(&mut self) -> Option<Result<Message, Error>> {
        self.until_error.next(|| self.endpoint.next_owned(&mut self.buffer))
    }
}

/// Reads message after message backwards: see [`Endpoint::backwards`].
#[derive(Debug)]
pub struct Backwards<'e> {
    messages: Messages<'e>,
}

impl Iterator for Backwards<'_> {
    type Item = Result<Message, Error>;

    fn next(&mut self) -> Option<Result<Message, Error>> {
        self.messages.next()
    }
}

impl Drop for Backwards<'_> {
    fn drop(&mut self) {
        // It refuses only an endpoint that reads nothing any more.
        let _ = self.messages.endpoint.set_direction(Direction::Forwards);
    }
}

#[cfg(test)]
mod tests {
    use super::*;

    #[test]
    fn nothing_follows_an_error() {
        let mut rows = [Some(Ok(1)), None, Some(Ok(2)), Some(Err(Error::Busy)), Some(Ok(3))].into_iter();
        let mut until_error = UntilError::default();
        let found: Vec<_> = (0..6).map(|_| until_error.next(|| rows.next().flatten())).collect();
        assert_eq!(found, [Some(Ok(1)), None, Some(Ok(2)), Some(Err(Error::Busy)), None, None]);
    }

    #[test]
    fn a_row_ends_where_no_message_comes_any_more() {
        let mut rows = [Some(Ok(1)), Some(Err(Error::Finished)), Some(Ok(2))].into_iter();
        let mut until_error = UntilError::default();
        let found: Vec<_> = (0..3).map(|_| until_error.next(|| rows.next().flatten())).collect();
        assert_eq!(found, [Some(Ok(1)), None, None]);
    }
}
