"""Endpoints: they append messages and read them."""
from __future__ import annotations

import collections
import contextlib
import ctypes
import os
import struct
import time
import weakref
from array import array
from collections.abc import Callable, Iterable, Iterator
from dataclasses import dataclass
from enum import IntEnum
from functools import partial
from itertools import accumulate, chain, repeat
from operator import getitem, length_hint
from typing import TYPE_CHECKING, NamedTuple, Optional, TypeVar, Union

from ._library import NO_ENDPOINT, Answer, Handle, RawSettings, check, error_of, library, number
from .errors import BufferTooSmall, Finished, Misused, Moved, NoMessage, Status

if TYPE_CHECKING:
    from ._saved import Saved

Buffer = Union[bytes, bytearray, memoryview]
T = TypeVar("T")

FORWARDS, BACKWARDS = 0, 1

# One call of the library appends or reads at most this many messages, of about this many bytes.
MANY, MANY_BYTES = 512, 65536

# The longest length that a call of the library takes.
LONGEST_LENGTH = 2**32 - 1

# An answer of the library, as bytes: an index, a length and a status.
ANSWER = struct.Struct("=QII")

# A wait yields the processor this many times before it sleeps, at first this many seconds and at most that many.
YIELDS, FIRST_PAUSE, LONGEST_PAUSE = 50, 0.00001, 0.001


class Roll(IntEnum):
    """How long a cycle is."""

    DAILY = 0
    HOURLY = 1
    MINUTELY = 2


@dataclass(frozen=True)
class Settings:
    """How a queue is made. All cycles together have at most 4,194,304 cells.

    cells: the cells of a cycle, of four bytes each: from 13 + 2 * (1 + index_count) to 1,048,576.
    index_count: the entries of an index table: a power of two from 8 to 1,024.
    index_spacing: one message in this many has an index entry: a power of two from 1 to 256.
    cycles: how many cycles may begin: from 1 to 64.
    roll: how long a cycle is.
    epoch: when cycle 0 begins, in milliseconds of Unix time.
    """

    cells: int = 1_048_576
    index_count: int = 256
    index_spacing: int = 16
    cycles: int = 4
    roll: Roll = Roll.DAILY
    epoch: int = 0

    def raw(self) -> RawSettings:
        words = (self.cells, self.index_count, self.index_spacing, self.cycles, self.roll)
        epoch = number(self.epoch, 64, Status.BAD_SETTINGS)
        return RawSettings(epoch, *(number(word, 32, Status.BAD_SETTINGS) for word in words))

    def cycle_of(self, moment: int) -> int:
        """Returns the cycle in which a moment lies, in milliseconds of Unix time. BadValue: it is in none."""
        raw = self.raw()
        answer = library.cycle_of(raw.roll, raw.epoch, number(moment, 64, Status.BAD_MOMENT))
        check(answer.status, str(moment))
        return answer.index

    def cycle_name(self, cycle: int) -> str:
        """Returns the name of a cycle, of the time in UTC at which it begins, as `20240928`. BadValue: no queue has it."""
        raw, room = self.raw(), ctypes.create_string_buffer(16)
        cycle = number(cycle, 32, Status.NO_SUCH_PLACE)
        answer = library.cycle_name(raw.roll, raw.epoch, cycle, room, len(room))
        check(answer.status, str(cycle))
        return room.raw[: answer.length].decode()

    def cycle_named(self, name: str) -> int:
        """Returns the cycle with this name. BadValue: no cycle has it."""
        raw, word = self.raw(), name.encode()
        answer = library.cycle_named(raw.roll, raw.epoch, word, len(word))
        check(answer.status, name)
        return answer.index


class Index(int):
    """The index of a message, or a position: a cycle in the high 32 bits, a sequence number in the low ones.

    Its text has the 16 digits that the program cq prints.
    """

    __slots__ = ()

    @classmethod
    def of(cls, cycle: int, sequence: int) -> Index:
        return cls(cycle << 32 | sequence)

    @property
    def cycle(self) -> int:
        return self >> 32

    @property
    def sequence(self) -> int:
        return self & 0xFFFFFFFF

    def __str__(self) -> str:
        return f"{int(self):016x}"

    def __repr__(self) -> str:
        return f"Index(0x{int(self):016x})"


class Message(NamedTuple):
    """A message that was read."""

    index: Index
    data: bytes


class Peeked(NamedTuple):
    """The index and the length of a message, in bytes."""

    index: Index
    length: int


class Batch:
    """The messages that one call has read. Each is made and returned without a step of the interpreter of its own."""

    def __init__(self, answers: memoryview, data: memoryview) -> None:
        """Makes the messages of a call's answers, whose bytes follow one another from the start of `data`."""
        indexes, lengths = answers.cast("Q")[::2].tolist(), answers.cast("I")[2::4].tolist()
        parts: Iterable[bytes]
        if lengths and lengths.count(lengths[0]) == len(lengths):
            # Messages of one length are copied by one call.
            parts = struct.unpack_from(f"{lengths[0]}s" * len(lengths), data)
        else:
            ends = list(accumulate(lengths))
            read = bytes(data[: ends[-1]]) if ends else b""
            parts = map(getitem, repeat(read), map(slice, chain((0,), ends), ends))
        self.messages: list[Message] = list(map(partial(tuple.__new__, Message), zip(map(Index, indexes), parts)))
        # Those that are not returned yet. All iterations of an endpoint share it.
        self.rest = iter(self.messages)

    def left(self) -> list[Message]:
        """Returns those that are not returned yet."""
        return self.messages[len(self.messages) - length_hint(self.rest) :]

    def has_left(self) -> bool:
        return length_hint(self.rest) > 0

    def last_returned(self) -> Message | None:
        """Returns the last one that was returned, or None if none was."""
        returned = len(self.messages) - length_hint(self.rest)
        return self.messages[returned - 1] if returned else None

    def end(self) -> None:
        """Returns none of them any more."""
        collections.deque(self.rest, maxlen=0)


def now() -> int:
    """Returns the clock's time in milliseconds of Unix time."""
    return time.time_ns() // 1_000_000


def until(attempt: Callable[[], Optional[T]], timeout: float | None) -> T | None:
    """Returns the first result of `attempt` that is not None, or None if there is none within `timeout` seconds.

    It yields between the attempts at first, and then sleeps longer and longer. None as `timeout` has no end.
    """
    found = attempt()
    end = None if timeout is None else time.monotonic() + timeout
    tries, pause = 0, FIRST_PAUSE
    while found is None and (end is None or time.monotonic() < end):
        if tries < YIELDS:
            time.sleep(0)
        else:
            time.sleep(pause)
            pause = min(1.5 * pause, LONGEST_PAUSE)
        tries += 1
        found = attempt()
    return found


def address_of(data: Buffer) -> object:
    """Returns what ctypes passes as the address of these bytes."""
    if isinstance(data, bytes):
        return data
    view = memoryview(data)
    if view.readonly or not view.c_contiguous:
        return view.tobytes()
    return (ctypes.c_char * view.nbytes).from_buffer(view)


def batches_of(messages: Iterable[Buffer]) -> Iterator[list[bytes]]:
    """Returns messages in groups, as many as one call appends. If there is an error, it comes after those before it."""
    parts: list[bytes] = []
    size = 0
    try:
        for data in messages:
            part = data if isinstance(data, bytes) else memoryview(data).tobytes()
            parts.append(part)
            size += len(part)
            if len(parts) == MANY or size >= MANY_BYTES:
                group, parts, size = parts, [], 0
                yield group
    except Exception:
        if parts:
            yield parts
        raise
    if parts:
        yield parts


def names_of(names: Iterable[str]) -> tuple[tuple[str, ...], bytes]:
    """Returns names, and the text of lines that the library takes."""
    found = tuple(names)
    if isinstance(names, str) or not all(name and "\n" not in name for name in found):
        raise error_of(Status.BAD_SETTINGS, "names are texts of 1 to 32 letters, digits, '_', '-' and '.'")
    return found, "\n".join(found).encode()


def moment_of(moment: int | None) -> int:
    """Returns a moment, or the clock's time."""
    return now() if moment is None else number(moment, 64, Status.BAD_MOMENT)


class Owner:
    """Owns a handle. It is ended once, at the latest with this object, and never by another process after fork."""

    # What the handle holds once it is closed.
    _closed = NO_ENDPOINT

    def __init__(self, handle: Handle) -> None:
        self._handle, self._reference, self._process = handle, ctypes.byref(handle), os.getpid()
        self._end = weakref.finalize(self, self._destroy, handle, self._process, self._closed)

    @staticmethod
    def _destroy(handle: Handle, process: int, closed: Handle) -> None:
        if process == os.getpid():
            ended = Handle(handle.at)
            handle.at = closed.at
            library.destroy(ended)

    def _live(self):
        """Returns the handle for a call."""
        if not self._end.alive:
            raise ValueError("it is closed")
        if self._process != os.getpid():
            raise ValueError("it belongs to the process that made it")
        return self._reference

    def close(self) -> None:
        """Ends it. A message that is begun is given up."""
        self._end()

    @property
    def closed(self) -> bool:
        return not self._end.alive

    def __enter__(self):
        return self

    def __exit__(self, *error: object) -> None:
        self.close()


class QueueFacts:
    """What the endpoints of one queue share."""

    def __init__(self, settings: Settings, names: tuple[str, ...]) -> None:
        self.settings, self.names = settings, names
        self.endpoints: weakref.WeakSet[Endpoint] = weakref.WeakSet()
        # What has to live as long as an endpoint does.
        self.owner: object = None
        self._is_ended = False

    def add(self, endpoint: Endpoint) -> None:
        """Adds an endpoint. It is closed at once if another thread has ended the queue meanwhile."""
        self.endpoints.add(endpoint)
        if self._is_ended:
            endpoint.close()

    def living(self) -> list[Endpoint]:
        """Returns the endpoints that are there."""
        while True:
            # It is raised if another thread splits one off meanwhile.
            with contextlib.suppress(RuntimeError):
                return list(self.endpoints)

    def end(self) -> None:
        """Closes all endpoints, for good."""
        self._is_ended = True
        for endpoint in self.living():
            endpoint.close()


class Endpoint(Owner):
    """An endpoint of a queue: it appends messages and reads them. Each thread has one of its own, by `split`.

    Reads go forwards from the start. They return None, and iterations end, where no message has come yet; `wait` and
    `follow` wait for the next one. At the end of a queue that is closed, reads raise Finished, and iterations end.
    """

    def __init__(self, handle: Handle, queue: QueueFacts) -> None:
        super().__init__(handle)
        # What an iteration has read by its last call.
        self._ahead = Batch(memoryview(b""), memoryview(b""))
        self._queue = queue
        queue.add(self)
        ENDPOINTS.add(self)
        self._way = FORWARDS
        self._answers = bytearray(MANY * ANSWER.size)
        self._grow(4096)

    def close(self) -> None:
        """Ends it. A message that is begun is given up."""
        super().close()
        self._ahead.end()

    @property
    def settings(self) -> Settings:
        return self._queue.settings

    @property
    def names(self) -> tuple[str, ...]:
        return self._queue.names

    def split(self) -> Endpoint:
        """Returns another endpoint of the same queue, for another thread. It reads from the start."""
        out = Handle()
        check(library.split(self._live(), out))
        return Endpoint(out, self._queue)

    def meet(self, other: Endpoint) -> None:
        """Lets two endpoints share what they have seen: afterwards each has seen what the other had."""
        if other._queue is not self._queue:
            raise ValueError("they are endpoints of two queues")
        if other is not self:
            check(library.meet(self._live(), other._live()))

    # Appending

    def try_append(self, data: Buffer, moment: int | None = None) -> Index | None:
        """Appends a message; returns None if another endpoint is writing."""
        answer = library.append(self._live(), moment_of(moment), address_of(data), memoryview(data).nbytes)
        if answer.status == Status.BUSY:
            return None
        check(answer.status)
        return Index(answer.index)

    def append(self, data: Buffer, moment: int | None = None, timeout: float | None = None) -> Index:
        """Appends a message, and returns its index.

        It goes to the cycle of `moment`, in milliseconds of Unix time, or of the clock's time; or to the current cycle if
        that is later. While another endpoint writes it tries again, at most `timeout` seconds. Then it raises Busy.
        Closed: the queue is closed.
        """
        index = until(lambda: self.try_append(data, moment), timeout)
        if index is None:
            raise error_of(Status.BUSY)
        return index

    def append_all(self, messages: Iterable[Buffer], moment: int | None = None, timeout: float | None = None) -> Index | None:
        """Appends messages, one after the other, and returns the index of the last one, or None if there is none.

        Each is appended as by `append`, and other endpoints may append between them. While another endpoint writes it tries
        again, at most `timeout` seconds for some hundred messages. If one is refused, those before it stay: `appended` of the
        error is their number. If `messages` raises, what it gave before is appended.

        It draws some hundred messages before it appends them. For a source that gives one now and then use `append`.
        """
        last, appended = None, 0
        for parts in batches_of(messages):
            count, index, status = self._append_batch(parts, moment, timeout)
            appended += count
            last = index if count else last
            if status == Status.WRONG_KIND:
                check(status)
            if status != Status.DONE:
                error = error_of(status, f"after {appended} messages")
                error.appended = appended
                raise error
        return last

    def _append_batch(self, parts: list[bytes], moment: int | None, timeout: float | None) -> tuple[int, Index, int]:
        """Appends messages; returns how many, the index of the last of them, and why there are no more."""
        data = bytearray().join(parts)
        # No message may be as long as the longest of these lengths.
        lengths = array("I", [min(len(part), LONGEST_LENGTH) for part in parts])
        address, (places, _) = ctypes.addressof((ctypes.c_char * len(data)).from_buffer(data)), lengths.buffer_info()
        count, start, last = 0, 0, Index(0)

        def attempt() -> int | None:
            nonlocal count, start, last
            many = library.append_many(
                self._live(), moment_of(moment), address + start, len(data) - start, places + 4 * count, len(parts) - count
            )
            if many.count:
                start += sum(lengths[count : count + many.count])
                count += many.count
                last = Index(many.index)
            return None if many.status == Status.BUSY else many.status

        status = until(attempt, timeout)
        return count, last, Status.BUSY if status is None else status

    @contextlib.contextmanager
    def begin(self, most: int, moment: int | None = None, timeout: float | None = None) -> Iterator[Begun]:
        """Begins a message of at most `most` bytes, which is put in parts.

        At the end of the block it is appended. If the block raises, it is given up.
        """
        most = number(most, 32, Status.BAD_ROOM)

        def attempt() -> bool | None:
            status = library.begin(self._live(), moment_of(moment), most)
            if status == Status.BUSY:
                return None
            check(status)
            return True

        if until(attempt, timeout) is None:
            raise error_of(Status.BUSY)
        message = Begun(self)
        try:
            yield message
            answer = library.complete(self._live())
            check(answer.status)
            message.index = Index(answer.index)
        except BaseException:
            if not self.closed:
                library.roll_back(self._live())
            raise

    def advance(self, moment: int) -> int:
        """Begins the cycle of `moment` if it is later than the current one, and returns the current cycle."""
        answer = library.advance(self._live(), moment_of(moment))
        check(answer.status)
        return answer.index

    # Closing

    def close_queue(self, timeout: float | None = None) -> bool:
        """Closes the queue for all its endpoints, which live on; returns False if it was closed before.

        From then on appends raise Closed. What was appended before is read and taken as before; then reads and takes raise
        Finished. While another endpoint writes it tries again, at most `timeout` seconds. Then it raises Busy.
        """

        def attempt() -> bool | None:
            status = library.close(self._live())
            if status == Status.BUSY:
                return None
            if status == Status.CLOSED:
                return False
            check(status)
            return True

        is_closed_now = until(attempt, timeout)
        if is_closed_now is None:
            raise error_of(Status.BUSY)
        return is_closed_now

    # Reading

    def _grow(self, size: int) -> None:
        # It gets a new buffer, so that views of the old one keep their bytes.
        buffer = bytearray(size)
        self._buffer = buffer, ctypes.addressof((ctypes.c_char * size).from_buffer(buffer)), size

    def _read(self, call: Callable[..., Answer], *arguments: object) -> tuple[Answer, memoryview]:
        """Reads into the endpoint's buffer, which grows if a message is longer. Returns the answer with the bytes."""
        while True:
            buffer, address, size = self._buffer
            answer = call(self._live(), *arguments, address, size)
            if answer.status != Status.NO_ROOM:
                return answer, memoryview(buffer)[: answer.length]
            self._grow(max(answer.length, 2 * size))

    def _read_ahead(self) -> bool:
        """Reads the next messages by one call, and keeps them until they are returned. Returns False if there is none yet."""
        if self._buffer[2] < MANY_BYTES:
            self._grow(MANY_BYTES)
        while True:
            buffer, address, size = self._buffer
            answers = ctypes.addressof((ctypes.c_char * len(self._answers)).from_buffer(self._answers))
            many = library.next_many(self._live(), address, size, answers, MANY)
            if many.count or many.status != Status.NO_ROOM:
                break
            self._grow(max(many.length, 2 * size))
        if not many.count:
            if many.status in (Status.NOT_YET, Status.BEFORE_START):
                return False
            check(many.status)
        try:
            answers = memoryview(self._answers)[: many.count * ANSWER.size]
            self._ahead = Batch(answers, memoryview(buffer))
        except BaseException:
            # It may come from outside, as by a signal. What was read is read again.
            self._unread()
            raise
        return True

    def _unread(self) -> None:
        """Moves back to where the messages begin that were read ahead by the last call."""
        self._ahead.end()
        first = ANSWER.unpack_from(self._answers)[0]
        if library.move_to(self._live(), first) == Status.DONE and self._way == BACKWARDS:
            # Backwards it is after the first one.
            library.direction(self._live(), FORWARDS)
            self._read(library.next)
            library.direction(self._live(), BACKWARDS)

    def _give_back(self) -> None:
        """Moves back to where the messages begin that were read ahead and not returned. What was dropped meanwhile is skipped."""
        left, last = self._ahead.left(), self._ahead.last_returned()
        if not left:
            return
        self._ahead.end()
        if self._way == BACKWARDS and last is None:
            self._unread()
            return
        for message in [last] if self._way == BACKWARDS else left:
            if library.move_to(self._live(), message.index) == Status.DONE:
                return

    def next(self) -> Message | None:
        """Reads the next message in the direction of reading; returns None if there is none yet. Finished: none will come."""
        if self._ahead.has_left():
            self._live()
            return next(self._ahead.rest)
        answer, data = self._read(library.next)
        if answer.status in (Status.NOT_YET, Status.BEFORE_START):
            return None
        check(answer.status)
        return Message(Index(answer.index), bytes(data))

    def __iter__(self) -> Iterator[Message]:
        """Reads message after message, up to the last one that has come.

        It reads some hundred of them by one call of the library. If it ends early, the next read goes on after the last one
        that it returned.
        """
        return chain.from_iterable(self._batches())

    def _batches(self) -> Iterator[Iterator[Message]]:
        """Returns what is left of a batch, and then batch after batch."""
        with contextlib.suppress(Finished):
            while self._ahead.has_left() or self._read_ahead():
                yield self._ahead.rest

    def views(self) -> Iterator[tuple[Index, memoryview]]:
        """Reads message after message without copying it. A view is valid until the next message is read."""
        while True:
            self._give_back()
            answer, data = self._read(library.next)
            if answer.status in (Status.NOT_YET, Status.FINISHED, Status.BEFORE_START):
                return
            check(answer.status)
            yield Index(answer.index), data.toreadonly()

    def next_into(self, buffer: bytearray | memoryview) -> tuple[Index, int] | None:
        """Reads the next message into a buffer of the caller; returns its index and length, or None.

        BufferTooSmall: the message is longer. The next call finds it again. Finished: there is none, and none will come.
        """
        view = memoryview(buffer)
        if view.readonly or not view.c_contiguous:
            raise ValueError("the buffer is read-only, or not contiguous")
        self._give_back()
        answer = library.next(self._live(), address_of(view), view.nbytes)
        if answer.status in (Status.NOT_YET, Status.BEFORE_START):
            return None
        if answer.status == Status.NO_ROOM:
            error = error_of(answer.status, f"{answer.length} bytes")
            assert isinstance(error, BufferTooSmall)
            error.length = answer.length
            raise error
        check(answer.status)
        return Index(answer.index), answer.length

    def peek(self) -> Peeked | None:
        """Returns the index and the length of the next message, or None if there is none yet. It is not read.

        The endpoint stays where it is, and the next read finds the message, unless its cycle is dropped. The message is not
        copied.

        Finished: there is none, and none will come.
        """
        left = self._ahead.left()
        if left:
            self._live()
            return Peeked(left[0].index, len(left[0].data))
        answer = library.peek(self._live())
        if answer.status in (Status.NOT_YET, Status.BEFORE_START):
            return None
        check(answer.status)
        return Peeked(Index(answer.index), answer.length)

    def wait(self, timeout: float | None = None) -> bool:
        """Waits until there is a next message; returns False if none came within `timeout` seconds, or none will come."""
        try:
            return until(self.peek, timeout) is not None
        except Finished:
            return False

    def follow(self, timeout: float | None = None) -> Iterator[Message]:
        """Reads message after message as they come. It ends if none came for `timeout` seconds, or none will come."""
        with contextlib.suppress(Finished):
            while self.wait(timeout):
                yield from self

    def __getitem__(self, index: int) -> bytes:
        """Returns the message with this index. NoMessage: none has it. The endpoint stays where it is."""
        answer, data = self._read(library.read_at, number(index, 64, Status.NOT_YET))
        check(answer.status, f"index {index:016x}")
        return bytes(data)

    def get(self, index: int) -> bytes | None:
        """Returns the message with this index, or None."""
        try:
            return self[index]
        except NoMessage:
            return None

    def backwards(self) -> Iterator[Message]:
        """Reads the messages before this place, the last one first. Afterwards the endpoint reads forwards again."""
        self._turn(BACKWARDS)
        try:
            yield from self
        finally:
            if not self.closed:
                self._turn(FORWARDS)

    def _turn(self, way: int) -> None:
        """Sets the direction of reading. The endpoint stays where it is."""
        self._give_back()
        check(library.direction(self._live(), way))
        self._way = way

    def to_start(self) -> None:
        """Moves before the first message."""
        self._ahead.end()
        check(library.to_start(self._live()))

    def to_end(self) -> Index:
        """Moves to the end, and returns it: the index that the next message of the current cycle gets."""
        self._ahead.end()
        answer = library.to_end(self._live())
        check(answer.status)
        return Index(answer.index)

    def move_to(self, index: int) -> bool:
        """Moves to the message with this index, which is read next. Returns False if none has it, and stays."""
        self._give_back()
        status = library.move_to(self._live(), index) if 0 <= index < 1 << 64 else Status.NO_MESSAGE
        if status == Status.NO_MESSAGE:
            return False
        check(status)
        return True

    @property
    def cursor(self) -> Index:
        """Where the endpoint is: the message that it reads next has this index or a later one."""
        left = self._ahead.left()
        if left and self._way == FORWARDS:
            self._live()
            return left[0].index
        self._give_back()
        answer = library.cursor(self._live())
        check(answer.status)
        return Index(answer.index)

    @property
    def end(self) -> Index:
        """The end: the index that the next message of the current cycle gets. The endpoint stays where it is."""
        answer = library.end(self._live())
        check(answer.status)
        return Index(answer.index)

    def drop_before(self, cycle: int) -> int:
        """Drops the cycles before this one: reads of all endpoints skip them. Returns the cycle before which all are skipped.

        A cycle above the current one counts as that. The endpoint stays where it is.
        """
        self._give_back()
        end = self.end
        answer = library.drop_before(self._live(), max(0, min(cycle, end.cycle)))
        check(answer.status)
        return answer.index

    # Names

    def take(self, name: str) -> Message | None:
        """Takes the next message of a name; returns None if none has come. Of all that take by a name, one alone gets it.

        Finished: none will come.
        """
        word = name.encode()
        answer, data = self._read(library.take, word, len(word))
        while answer.status == Status.MOVED:
            answer, data = self._read(library.take, word, len(word))
        if answer.status == Status.NOT_YET:
            return None
        check(answer.status, name)
        return Message(Index(answer.index), bytes(data))

    def takes(self, name: str, timeout: float | None = 0) -> Iterator[Message]:
        """Takes message after message. It ends if none came for `timeout` seconds, or none will come."""
        with contextlib.suppress(Finished):
            while (message := until(lambda: self.take(name), timeout)) is not None:
                yield message

    def position(self, name: str) -> Index:
        """Returns the position of a name: the message that is taken next has this index or a later one."""
        word = name.encode()
        answer = library.position(self._live(), word, len(word))
        check(answer.status, name)
        return Index(answer.index)

    def seek(self, name: str, to: int, *, expect: int | None = None) -> None:
        """Moves a name to a position. Moved: it was not at `expect`, or another endpoint moved it meanwhile."""
        # It sees the end, up to which a name may be moved.
        check(library.end(self._live()).status)
        word = name.encode()
        before = self.position(name) if expect is None else number(expect, 64, Status.NOT_SEEN)
        answer = library.seek(self._live(), word, len(word), before, number(to, 64, Status.NOT_SEEN))
        if answer.status == Status.MOVED:
            error = error_of(answer.status, f"position {answer.index:016x}")
            assert isinstance(error, Moved)
            error.position = Index(answer.index)
            raise error
        check(answer.status, name)

    # Stopping

    def snapshot(self) -> Saved:
        """Returns a copy of what the queue holds now, while its endpoints go on. Messages that are begun are not in it.

        Each name is at 0, and the floor is 0. The endpoint stays where it is.
        """
        from ._saved import Saved

        out = Handle()
        check(library.snapshot(self._live(), out))
        return Saved(out, self.settings, self.names)

    def stop(self) -> Saved:
        """Stops the queue, and returns what it held. All other endpoints have to be closed (Misused). This one is closed then."""
        from ._saved import Saved

        check(library.stop(self._live()))
        self._end.detach()
        self._ahead.end()
        stopped = Handle(self._handle.at)
        self._handle.at = NO_ENDPOINT.at
        return Saved(stopped, self.settings, self.names)

    def stop_all(self) -> Saved:
        """Closes all other endpoints of the queue, and stops it. Messages that they have begun are given up."""
        while True:
            for other in self._queue.living():
                if other is not self:
                    other.close()
            try:
                return self.stop()
            except Misused:
                # Another thread has split one off meanwhile, from an endpoint that was not closed yet.
                if all(other is self or other.closed for other in self._queue.living()):
                    raise


class Begun:
    """A message that is begun. Once the block has ended, `index` is its index."""

    index: Index | None = None

    def __init__(self, endpoint: Endpoint) -> None:
        self._endpoint = endpoint

    def put(self, data: Buffer) -> None:
        """Puts bytes after those that were put."""
        check(library.put(self._endpoint._live(), address_of(data), memoryview(data).nbytes))


# All endpoints of this process.
ENDPOINTS: weakref.WeakSet[Endpoint] = weakref.WeakSet()


def end_batches() -> None:
    """Lets a child process return nothing of what its parent has read ahead."""
    for endpoint in list(ENDPOINTS):
        endpoint._ahead.end()


if hasattr(os, "register_at_fork"):
    os.register_at_fork(after_in_child=end_batches)


def create(settings: Settings = Settings(), names: Iterable[str] = (), moment: int | None = None) -> Endpoint:
    """Makes a queue in memory, and returns its first endpoint.

    Its first cycle is that of `moment`, in milliseconds of Unix time, or of the clock's time. `names` are the named tailers:
    at most 16, each of 1 to 32 letters, digits, `_`, `-` and `.` of ASCII.
    """
    (declared, lines), out = names_of(names), Handle()
    check(library.create(settings.raw(), lines, len(lines), moment_of(moment), out))
    return Endpoint(out, QueueFacts(settings, declared))
