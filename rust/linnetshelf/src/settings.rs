use core::fmt;

use crate::Error;
use crate::raw::{self, RawSettings};

/// How long a cycle is.
#[derive(Clone, Copy, Debug, Default, PartialEq, Eq, Hash)]
#[repr(u32)]
pub enum Roll {
    /// A day.
    #[default]
    Daily = 0,
    /// An hour.
    Hourly = 1,
    /// A minute.
    Minutely = 2,
}

impl Roll {
    /// Returns the length of a cycle in milliseconds.
    pub const fn milliseconds(self) -> u64 {
        match self {
            Roll::Daily => 86_400_000,
            Roll::Hourly => 3_600_000,
            Roll::Minutely => 60_000,
        }
    }
}

/// How a queue is made. All cycles together have at most 4,194,304 cells.
#[derive(Clone, Copy, Debug, PartialEq, Eq, Hash)]
pub struct Settings {
    /// When cycle 0 begins, in milliseconds of Unix time.
    pub epoch: u64,
    /// The cells of a cycle, of four bytes each: from `13 + 2 * (1 + index_count)` to 1,048,576.
    pub cells: u32,
    /// The entries of an index table: a power of two from 8 to 1,024.
    pub index_count: u32,
    /// One message in this many has an index entry: a power of two from 1 to 256.
    pub index_spacing: u32,
    /// How many cycles may begin: from 1 to 64.
    pub cycles: u32,
    /// How long a cycle is.
    pub roll: Roll,
}

impl Default for Settings {
    /// Four cycles of a day each. A cycle has 4 MiB of records, and at most 1,048,576 messages.
    fn default() -> Settings {
        Settings { epoch: 0, cells: 1_048_576, index_count: 256, index_spacing: 16, cycles: 4, roll: Roll::Daily }
    }
}

impl Settings {
    /// Returns the cycle in which a moment lies, in milliseconds of Unix time.
    ///
    /// # Errors
    ///
    /// [`Error::BadMoment`]: it is in none.
    pub fn cycle_of(&self, moment: u64) -> Result<u32, Error> {
        Error::done(raw::cycle_of(self.roll as u32, self.epoch, moment)).map(|answer| answer.index as u32)
    }

    /// Copies the name of a cycle to a buffer, of the time in UTC at which it begins: `20240928`, `20240928-07` or `20240928-0714`.
    ///
    /// ```
    /// use linnetshelf::Settings;
    ///
    /// let settings = Settings::default();
    /// let cycle = settings.cycle_of(1_728_000_000_000)?;
    /// assert_eq!(settings.cycle_name(cycle, &mut [0; 13])?, "20241004");
    /// assert_eq!(settings.cycle_named("20241004")?, cycle);
    /// # Ok::<(), linnetshelf::Error>(())
    /// ```
    ///
    /// # Errors
    ///
    /// [`Error::NoSuchPlace`]: no queue has this cycle. [`Error::NoRoom`], [`Error::OutOfMemory`].
    pub fn cycle_name<'b>(&self, cycle: u32, buffer: &'b mut [u8]) -> Result<&'b str, Error> {
        let answer = Error::done(raw::cycle_name(self.roll as u32, self.epoch, cycle, buffer))?;
        Ok(core::str::from_utf8(&buffer[..answer.length as usize]).unwrap_or_default())
    }

    /// Returns the cycle with this name.
    ///
    /// # Errors
    ///
    /// [`Error::NoSuchPlace`]: no cycle has it.
    pub fn cycle_named(&self, name: &str) -> Result<u32, Error> {
        Error::done(raw::cycle_named(self.roll as u32, self.epoch, name)).map(|answer| answer.index as u32)
    }

    pub(crate) fn raw(&self) -> RawSettings {
        let Settings { epoch, cells, index_count, index_spacing, cycles, roll } = *self;
        RawSettings { epoch, cells, index_count, index_spacing, cycles, roll: roll as u32 }
    }
}

/// The index of a message, or a position: a cycle in the high 32 bits, a sequence number in the low ones.
///
/// Its text has the 16 digits that the program `cq` prints.
#[derive(Clone, Copy, Debug, Default, PartialEq, Eq, PartialOrd, Ord, Hash)]
pub struct Index(pub u64);

impl Index {
    /// Returns the index with this cycle and this sequence number.
    pub const fn new(cycle: u32, sequence: u32) -> Index {
        Index((cycle as u64) << 32 | sequence as u64)
    }

    /// Returns the cycle.
    pub const fn cycle(self) -> u32 {
        (self.0 >> 32) as u32
    }

    /// Returns the sequence number in the cycle, from 0.
    pub const fn sequence(self) -> u32 {
        self.0 as u32
    }
}

impl fmt::Display for Index {
    fn fmt(&self, to: &mut fmt::Formatter<'_>) -> fmt::Result {
        write!(to, "{:016x}", self.0)
    }
}

/// At most 16 names have at most 32 bytes each, and a line feed between them.
const LINES: usize = 16 * 33 - 1;

/// The names of a queue, as the lines of the text that the library takes.
#[derive(Clone, Copy)]
pub(crate) struct Names {
    text: [u8; LINES],
    length: usize,
}

impl Names {
    fn new(names: &[&str]) -> Result<Names, Error> {
        let mut lines = Names { text: [0; LINES], length: 0 };
        for (k, name) in names.iter().enumerate() {
            // In a line the library refuses what else is no name.
            if name.is_empty() || name.contains('\n') {
                return Err(Error::BadSettings);
            }
            if k > 0 {
                lines.push(b"\n")?;
            }
            lines.push(name.as_bytes())?;
        }
        Ok(lines)
    }

    fn push(&mut self, bytes: &[u8]) -> Result<(), Error> {
        let end = self.length + bytes.len();
        self.text.get_mut(self.length..end).ok_or(Error::BadSettings)?.copy_from_slice(bytes);
        self.length = end;
        Ok(())
    }

    pub(crate) fn lines(&self) -> &[u8] {
        &self.text[..self.length]
    }

    pub(crate) fn iter(&self) -> impl Iterator<Item = &str> {
        core::str::from_utf8(self.lines()).unwrap_or_default().lines()
    }
}

/// What the endpoints of one queue share.
#[derive(Clone, Copy)]
pub(crate) struct Queue {
    pub(crate) settings: Settings,
    pub(crate) names: Names,
}

impl Queue {
    pub(crate) fn new(settings: &Settings, names: &[&str]) -> Result<Queue, Error> {
        Ok(Queue { settings: *settings, names: Names::new(names)? })
    }
}
