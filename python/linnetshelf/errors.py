"""Statuses of the library, and the exceptions for those that are errors."""
from __future__ import annotations

import enum


class Status(enum.IntEnum):
    """How a call of the library went. The numbers are those of linnetshelf.h, which says what each means."""

    DONE = 0
    NOT_YET = 1
    BEFORE_START = 2
    NEVER = 3
    GONE = 4
    NO_MESSAGE = 5
    NO_ROOM = 6
    MOVED = 7
    BUSY = 8
    CYCLE_FULL = 9
    NO_CYCLE_LEFT = 10
    BAD_ROOM = 11
    BAD_MOMENT = 12
    WRITING = 13
    NOT_WRITING = 14
    PAST_ROOM = 15
    EMPTY_MESSAGE = 16
    NOT_SEEN = 17
    NO_SUCH_NAME = 18
    BAD_DIRECTION = 19
    BAD_SETTINGS = 20
    BAD_CONTENTS = 21
    BEHIND_OPEN = 22
    CUT = 23
    BAD_HEADER = 24
    UNFINISHED = 25
    WRONG_STORE = 26
    WRONG_TABLE = 27
    BAD_PADDING = 28
    AFTER_END = 29
    OVER_SHAPE = 30
    NO_SUCH_PLACE = 31
    IN_USE = 32
    WRONG_KIND = 33
    OUT_OF_MEMORY = 34
    CLOSED = 35
    FINISHED = 36
    FULL = 37
    MISSED = 38
    BAD_SHELF = 39
    NO_CALL = 40
    LOG_STOPPED = 41
    LONG_FRAME = 42
    LOG_FULL = 43
    LONG_HEAD = 44
    BAD_HEAD = 45
    OTHER_LOG = 46
    BAD_TURN = 47
    BAD_GAIN = 48


class LinnetshelfError(Exception):
    """A call was refused. `status` is the library's, if it was the library that refused.

    `appended` is how many messages `append_all` had appended before.
    """

    appended = 0

    def __init__(self, text: str, status: Status | None = None) -> None:
        super().__init__(text)
        self.status = status


class Busy(LinnetshelfError):
    """Another endpoint was writing until the time was over."""


class Full(LinnetshelfError):
    """The message does not fit into its cycle (CYCLE_FULL), or no cycle is left for its moment (NO_CYCLE_LEFT)."""


class Closed(LinnetshelfError):
    """The queue is closed: nothing is appended or begun any more."""


class BadValue(LinnetshelfError, ValueError):
    """A setting, a moment, a length or what is to be opened is outside its limits."""


class NoSuchName(LinnetshelfError, LookupError):
    """The queue declares no such name."""


class NoMessage(LinnetshelfError, LookupError):
    """No message has this index: there is none yet (NOT_YET), never will be (NEVER), or its cycle was dropped (GONE)."""


class Finished(NoMessage):
    """There is no such message, and none will come: the queue is closed (FINISHED)."""


class BufferTooSmall(LinnetshelfError):
    """The message is longer than the buffer. `length` is its length in bytes."""

    length = 0


class Moved(LinnetshelfError):
    """The name was elsewhere, and was not moved. `position` is where."""

    position = 0


class NotSeen(LinnetshelfError):
    """The position or the cycle is after the end that the endpoint has seen."""


class Misused(LinnetshelfError):
    """The call does not fit what the endpoint does: a message is begun, or none is, or other endpoints are alive."""


class ImageFault(LinnetshelfError):
    """The bytes are no image of their cycle and these settings. `at` is where, in bytes."""

    at = 0


class FolderFault(LinnetshelfError):
    """The files of a folder are no queue of version 2, or the folder is in use by this process."""


class IsLive(LinnetshelfError):
    """A queue is live in the folder: another program has its log, or another `Live` of this process."""


class LogFault(FolderFault):
    """The log of a folder cannot be played.

    It goes on from something else than the images hold (OTHER_LOG), it is at fault (BAD_HEAD, BAD_TURN, BAD_GAIN), or it has more
    than 1 GiB (`status` is None). `turn` is the number of the frame that is at fault, at BAD_TURN.
    """

    turn = 0


class Unstored(LinnetshelfError):
    """The log of a live queue has failed, for the reason in `__cause__`, and stores nothing more.

    `index` is that of the message, which may be stored or not. None: the call has appended nothing.
    """

    index: int | None = None


class Unsaved(LinnetshelfError):
    """What a journal held could not be saved, for the reason in `__cause__`. `journal` has it: `journal.save()` tries again."""

    journal = None


class OutOfMemory(LinnetshelfError, MemoryError):
    """Out of memory."""


ERRORS: dict[Status, type[LinnetshelfError]] = {
    Status.NOT_YET: NoMessage,
    Status.NEVER: NoMessage,
    Status.GONE: NoMessage,
    Status.NO_ROOM: BufferTooSmall,
    Status.MOVED: Moved,
    Status.BUSY: Busy,
    Status.CYCLE_FULL: Full,
    Status.NO_CYCLE_LEFT: Full,
    Status.BAD_ROOM: BadValue,
    Status.BAD_MOMENT: BadValue,
    Status.WRITING: Misused,
    Status.NOT_WRITING: Misused,
    Status.PAST_ROOM: BadValue,
    Status.EMPTY_MESSAGE: BadValue,
    Status.NOT_SEEN: NotSeen,
    Status.NO_SUCH_NAME: NoSuchName,
    Status.BAD_SETTINGS: BadValue,
    Status.BAD_CONTENTS: BadValue,
    Status.BEHIND_OPEN: BadValue,
    **{Status(number): ImageFault for number in range(Status.CUT, Status.OVER_SHAPE + 1)},
    Status.NO_SUCH_PLACE: BadValue,
    Status.IN_USE: Misused,
    Status.OUT_OF_MEMORY: OutOfMemory,
    Status.CLOSED: Closed,
    Status.FINISHED: Finished,
    Status.LONG_HEAD: BadValue,
    Status.BAD_HEAD: LogFault,
    Status.OTHER_LOG: LogFault,
    Status.BAD_TURN: LogFault,
    Status.BAD_GAIN: LogFault,
}
