use core::fmt;

use crate::Index;
use crate::raw::{Answer, text};

/// Why a call was refused. Each is a status of `linnetshelf.h` under its name there, but for [`Error::TwoQueues`].
///
/// Its text is the library's, with the data of the variant in parentheses.
#[derive(Clone, Copy, Debug, PartialEq, Eq, Hash)]
#[non_exhaustive]
pub enum Error {
    /// There is no such message yet.
    NotYet,
    /// There is no earlier message.
    BeforeStart,
    /// No message will ever be there: its cycle is below the current one.
    Never,
    /// The cycle of this index was dropped.
    Gone,
    /// No message is at this index, or its cycle was dropped.
    NoMessage,
    /// The buffer is too small.
    NoRoom {
        /// The length in bytes that the buffer has to have.
        needed: usize,
    },
    /// The name is elsewhere and was not moved.
    Moved {
        /// Where the name is.
        position: Index,
    },
    /// Another endpoint is writing.
    Busy,
    /// The message does not fit after those of the current cycle, or the index of that cycle is full.
    CycleFull,
    /// The moment lies in a later cycle, and the queue has as many cycles as it may have.
    NoCycleLeft,
    /// No message has this length, which is 0 or above 2^30 - 1 bytes.
    BadRoom,
    /// The moment lies in no cycle.
    BadMoment,
    /// The endpoint has begun a message, which has to be completed or given up first.
    Writing,
    /// The endpoint has begun no message.
    NotWriting,
    /// The bytes would pass the size for which the message was begun.
    PastRoom,
    /// Nothing was put: a message has at least one byte.
    EmptyMessage,
    /// The position or the cycle is above the end that the endpoint has seen.
    NotSeen,
    /// The queue declares no tailer of this name.
    NoSuchName,
    /// No direction has this number.
    BadDirection,
    /// A setting or a name is outside its limits.
    BadSettings,
    /// No queue of these settings holds these cycles, positions and floor.
    BadContents,
    /// The cycle before has not ended, and nothing may follow that.
    BehindOpen,
    /// The bytes are no image of their cycle and these settings.
    BadImage {
        /// What is wrong.
        fault: ImageFault,
        /// Where, in bytes.
        at: u64,
    },
    /// There are not as many cycles or names.
    NoSuchPlace,
    /// Other endpoints of the queue are alive.
    InUse,
    /// The handle holds something else: of an endpoint whose queue was stopped, and which had no memory to read it.
    WrongKind,
    /// Out of memory.
    OutOfMemory,
    /// The queue is closed: nothing is appended or begun any more.
    Closed,
    /// There is no such message, and none will come: the queue is closed.
    Finished,
    /// As many queues of the shelf live as may, and the oldest is still used.
    Full,
    /// Queues of the shelf were dropped before they were read.
    Missed,
    /// A shelf has at least two queues.
    BadShelf,
    /// No call of the log is left.
    NoCall,
    /// A call of the log failed, or memory for one was refused: the log has stopped.
    LogStopped,
    /// Too much came for one frame of the log.
    LongFrame,
    /// The log is full.
    LogFull,
    /// The settings are too long for a log.
    LongHead,
    /// The first frame of the log is not one with which a log begins.
    BadHead,
    /// The log goes on from something else than what is saved.
    OtherLog,
    /// A frame of the log is at fault, or cannot be played.
    BadTurn,
    /// No queue of these settings holds what the log gives.
    BadGain,
    /// The endpoints that were to meet are of two queues.
    TwoQueues,
    /// A status that this version of the crate does not know.
    Unknown(u32),
}

/// What is wrong with an image.
#[derive(Clone, Copy, Debug, PartialEq, Eq, Hash)]
#[non_exhaustive]
#[repr(u32)]
pub enum ImageFault {
    /// It ends before a record does, or where a message must follow.
    Cut = 23,
    /// Four bytes are no header, where one must be.
    BadHeader = 24,
    /// A record is not complete.
    Unfinished = 25,
    /// The store record is not that of the cycle and the settings.
    WrongStore = 26,
    /// A table is missing, or has a wrong size or a wrong entry.
    WrongTable = 27,
    /// A byte after a message, up to the next four bytes, is not 0.
    BadPadding = 28,
    /// Bytes follow the end of data.
    AfterEnd = 29,
    /// A message does not fit the settings after those before it.
    OverShape = 30,
}

const FAULTS: [ImageFault; 8] = [
    ImageFault::Cut,
    ImageFault::BadHeader,
    ImageFault::Unfinished,
    ImageFault::WrongStore,
    ImageFault::WrongTable,
    ImageFault::BadPadding,
    ImageFault::AfterEnd,
    ImageFault::OverShape,
];

/// The statuses that report nothing more.
const PLAIN: [(u32, Error); 38] = [
    (1, Error::NotYet),
    (2, Error::BeforeStart),
    (3, Error::Never),
    (4, Error::Gone),
    (5, Error::NoMessage),
    (8, Error::Busy),
    (9, Error::CycleFull),
    (10, Error::NoCycleLeft),
    (11, Error::BadRoom),
    (12, Error::BadMoment),
    (13, Error::Writing),
    (14, Error::NotWriting),
    (15, Error::PastRoom),
    (16, Error::EmptyMessage),
    (17, Error::NotSeen),
    (18, Error::NoSuchName),
    (19, Error::BadDirection),
    (20, Error::BadSettings),
    (21, Error::BadContents),
    (22, Error::BehindOpen),
    (31, Error::NoSuchPlace),
    (32, Error::InUse),
    (33, Error::WrongKind),
    (34, Error::OutOfMemory),
    (35, Error::Closed),
    (36, Error::Finished),
    (37, Error::Full),
    (38, Error::Missed),
    (39, Error::BadShelf),
    (40, Error::NoCall),
    (41, Error::LogStopped),
    (42, Error::LongFrame),
    (43, Error::LogFull),
    (44, Error::LongHead),
    (45, Error::BadHead),
    (46, Error::OtherLog),
    (47, Error::BadTurn),
    (48, Error::BadGain),
];

impl Error {
    /// Returns the error of a status that reports nothing more.
    #[cold]
    pub(crate) fn of(status: u32) -> Error {
        PLAIN.iter().find(|(number, _)| *number == status).map_or(Error::Unknown(status), |(_, error)| *error)
    }

    /// Returns the error of an answer that is not done.
    #[cold]
    pub(crate) fn of_answer(answer: Answer) -> Error {
        let fault = FAULTS.iter().find(|fault| **fault as u32 == answer.status);
        match (answer.status, fault) {
            (6, _) => Error::NoRoom { needed: answer.length as usize },
            (7, _) => Error::Moved { position: Index(answer.index) },
            (_, Some(fault)) => Error::BadImage { fault: *fault, at: answer.index },
            (status, None) => Error::of(status),
        }
    }

    /// Refuses a status other than done.
    #[inline]
    pub(crate) fn check(status: u32) -> Result<(), Error> {
        if status == 0 { Ok(()) } else { Err(Error::of(status)) }
    }

    /// Refuses an answer that is not done.
    #[inline]
    pub(crate) fn done(answer: Answer) -> Result<Answer, Error> {
        if answer.status == 0 { Ok(answer) } else { Err(Error::of_answer(answer)) }
    }

    /// Returns the status of the library, or `None` if the library was not called.
    pub fn status(self) -> Option<u32> {
        match self {
            Error::NoRoom { .. } => Some(6),
            Error::Moved { .. } => Some(7),
            Error::BadImage { fault, .. } => Some(fault as u32),
            Error::Unknown(status) => Some(status),
            plain => PLAIN.iter().find(|(_, error)| *error == plain).map(|(number, _)| *number),
        }
    }
}

impl fmt::Display for Error {
    fn fmt(&self, to: &mut fmt::Formatter<'_>) -> fmt::Result {
        let Some(status) = self.status() else {
            return to.write_str("they are endpoints of two queues");
        };
        to.write_str(text(status, &mut [0; 128]))?;
        match self {
            Error::NoRoom { needed } => write!(to, " ({needed} bytes)"),
            Error::Moved { position } => write!(to, " (position {position})"),
            Error::BadImage { at, .. } => write!(to, " (byte {at})"),
            Error::Unknown(status) => write!(to, " (status {status})"),
            _ => Ok(()),
        }
    }
}

impl core::error::Error for Error {}

#[cfg(test)]
mod tests {
    use super::*;
    use std::collections::{BTreeMap, BTreeSet};

    /// `NoCycleLeft` as `NO_CYCLE_LEFT`.
    fn in_capitals(name: &str) -> String {
        let mut capitals = String::new();
        for letter in name.chars() {
            if letter.is_uppercase() && !capitals.is_empty() {
                capitals.push('_');
            }
            capitals.push(letter.to_ascii_uppercase());
        }
        capitals
    }

    fn error_of(status: u32) -> Error {
        Error::of_answer(Answer { index: 1 << 32 | 2, length: 9, status })
    }

    #[test]
    fn the_errors_are_the_statuses_of_the_header() {
        let header = include_str!("../../../c/linnetshelf.h");
        let lines = header.lines().filter_map(|line| line.strip_prefix("    LINNETSHELF_")?.split_once(" = "));
        let listed: BTreeMap<u32, &str> =
            lines.filter_map(|(name, rest)| Some((rest.split_once(", /*")?.0.parse().ok()?, name))).collect();
        assert_eq!(listed.keys().copied().collect::<Vec<_>>(), (0..49).collect::<Vec<_>>());
        for (number, name) in listed.into_iter().skip(1) {
            let error = error_of(number);
            let shown = match error {
                Error::BadImage { fault, .. } => format!("{fault:?}"),
                other => format!("{other:?}").split(' ').next().unwrap().to_owned(),
            };
            assert_eq!((in_capitals(&shown).as_str(), error.status()), (name, Some(number)));
        }
    }

    #[test]
    fn each_error_has_a_text_of_its_own() {
        let texts: BTreeSet<String> = (1..49).map(|status| error_of(status).to_string()).collect();
        assert_eq!(texts.len(), 48);
        assert_eq!(Error::NotYet.to_string(), "there is no such message yet");
        assert!(error_of(6).to_string().ends_with(" (9 bytes)"));
        assert!(error_of(7).to_string().ends_with(" (position 0000000100000002)"));
        assert!(error_of(23).to_string().ends_with(" (byte 4294967298)"));
        assert_eq!((error_of(99), Error::TwoQueues.status()), (Error::Unknown(99), None));
        assert_eq!(Error::TwoQueues.to_string(), "they are endpoints of two queues");
    }
}
