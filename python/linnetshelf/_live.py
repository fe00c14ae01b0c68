"""A queue in a folder that is kept in a log, so that what was appended survives a crash."""
from __future__ import annotations

import atexit
import contextlib
import ctypes
import fcntl
import os
import pathlib
import threading
import warnings

from ._endpoint import Buffer, Endpoint, Index, QueueFacts
from ._folder import Folder
from ._library import Call, Handle, check, library
from ._saved import Saved
from .errors import LinnetshelfError, Status, Unstored

# Which call of a log the library lists.
LOG_WRITE, LOG_CUT, LOG_SYNC, LOG_SYNC_FOLDER = range(4)

# A write has at most this many bytes, unless one frame has more.
WRITE_BYTES = 65536

# Where nobody waits and nothing comes, a turn is made after this many seconds.
IDLE = 0.005


class LogFile:
    """The file of a log, which is locked, with its folder. It makes the calls that the library lists."""

    def __init__(self, files: Folder) -> None:
        """Opens and locks the log that a save has just made anew in a folder, which is entered."""
        self._log = files.new_log()
        try:
            self._folder = files.open_again()
        except BaseException:
            os.close(self._log)
            raise
        self._grow(WRITE_BYTES)

    def _grow(self, size: int) -> None:
        room = bytearray(size)
        self._room = room, ctypes.addressof((ctypes.c_char * size).from_buffer(room)), size

    def make_calls(self, keeper: object) -> int:
        """Makes all calls that are left of a keeper, and returns how many they were."""
        count = 0
        while True:
            room, address, size = self._room
            call = library.log_call(keeper, address, size)
            if call.status == Status.NO_ROOM:
                self._grow(call.length)
                continue
            if call.status == Status.NO_CALL:
                return count
            check(call.status)
            try:
                self._make(call, memoryview(room)[: call.length])
            except BaseException:
                library.log_done(keeper, False)
                raise
            library.log_done(keeper, True)
            count += 1

    def _make(self, call: Call, data: memoryview) -> None:
        """Makes a call. Python repeats what a signal interrupts, and nothing else: after a sync that failed bytes may be lost."""
        if call.kind == LOG_WRITE:
            place = call.place
            while data:
                count = os.pwrite(self._log, data, place)
                data, place = data[count:], place + count
        elif call.kind == LOG_CUT:
            os.ftruncate(self._log, call.place)
        elif call.kind == LOG_SYNC:
            getattr(os, "fdatasync", os.fsync)(self._log)
        elif call.kind == LOG_SYNC_FOLDER:
            os.fsync(self._folder)
        else:
            raise LinnetshelfError(f"a log has no call {call.kind}")

    def unlock(self) -> None:
        """Releases the lock. Closing would not, while a child that was forked has the open log too."""
        with contextlib.suppress(OSError):
            fcntl.flock(self._log, fcntl.LOCK_UN)

    def close(self) -> None:
        for file in (self._log, self._folder):
            with contextlib.suppress(OSError):
                os.close(file)


class Keeper:
    """A thread that keeps a queue in its log. It does not refer to the `Live`, so that this may be freed before it ends."""

    def __init__(self, files: Folder) -> None:
        self._file = LogFile(files)
        # The thread alone makes it, uses it and destroys it.
        self._handle = Handle()
        self._reference = ctypes.byref(self._handle)
        self._thread: threading.Thread | None = None
        # A call that holds it may be interrupted by another one of its thread: by a signal, or where an object is freed.
        self._lock = threading.RLock()
        self._wake, self._changed = threading.Condition(self._lock), threading.Condition(self._lock)
        self._has_begun = self._is_closing = False
        # Somebody began to wait, or to close, since the last turn began.
        self._is_woken = False
        self.stored = 0
        self.has_ended = False
        self.fault: BaseException | None = None
        OPEN.add(self)

    def begin(self, saved: Saved, endpoint: object) -> None:
        """Starts the thread, which opens the queue and begins the log. `endpoint` refers to the handle of the first endpoint."""
        thread = threading.Thread(target=self._run, args=(saved, endpoint), name="linnetshelf", daemon=True)
        try:
            thread.start()
        except RuntimeError:
            self._release()
            raise
        self._thread = thread
        with self._lock:
            self._changed.wait_for(lambda: self._has_begun)
        if self.fault is not None:
            raise self.fault

    def wait(self, index: int, timeout: float | None) -> bool:
        """Waits until a message is stored, the thread has ended, or the time is over; returns whether the message is stored."""
        with self._lock:
            if self.stored <= index:
                self._is_woken = True
                self._wake.notify()
                self._changed.wait_for(lambda: self.stored > index or self.has_ended, timeout)
            return self.stored > index

    def finish(self) -> None:
        """Lets the thread store what was appended, end and release the log, and does not wait for that."""
        with self._lock:
            self._is_closing = self._is_woken = True
            self._wake.notify()
            # After a fault the log stays locked up to here.
            if self.has_ended:
                self._release()

    def end(self) -> None:
        """Stores what was appended, ends the thread, and releases the log."""
        self.finish()
        if self._thread is not None:
            self._thread.join()

    def leave(self) -> None:
        """Closes the log in a child after fork. Its lock and its thread are the parent's."""
        self._file.close()

    def _run(self, saved: Saved, endpoint: object) -> None:
        try:
            check(library.keep(saved._live(), endpoint, self._reference))
            self._file.make_calls(self._reference)
            with self._lock:
                self.stored = library.stored(self._reference).index
                self._has_begun = True
                self._changed.notify_all()
            self._make_turns()
        except BaseException as fault:
            self.fault = fault
        library.destroy(self._handle)
        with self._lock:
            self._has_begun = self.has_ended = True
            self._changed.notify_all()
            if self._is_closing:
                self._release()

    def _make_turns(self) -> None:
        """Makes turns until it is closed and all is stored, or until one fails."""
        while True:
            with self._lock:
                is_last, self._is_woken = self._is_closing, False
            status = library.turn(self._reference)
            # A later turn keeps what one without memory did not. At the end there is none.
            is_refused = status == Status.OUT_OF_MEMORY and not is_last
            if not is_refused:
                check(status)
            is_idle = not is_refused and self._file.make_calls(self._reference) == 0
            if is_idle and is_last:
                return
            with self._lock:
                stored = library.stored(self._reference).index
                if stored != self.stored:
                    self.stored = stored
                    self._changed.notify_all()
                if is_refused or (is_idle and not self._is_woken):
                    self._wake.wait(IDLE)

    def _release(self) -> None:
        """Releases and closes the log, once."""
        with self._lock:
            if self in OPEN:
                OPEN.discard(self)
                self._file.unlock()
                self._file.close()


# Those of this process whose log is open.
OPEN: set[Keeper] = set()


@atexit.register
def end_all() -> None:
    """Stores what was appended to queues that nobody has closed."""
    for keeper in list(OPEN):
        keeper.end()


def leave_all() -> None:
    """Lets a child process not hold the locks of its parent's logs."""
    for keeper in OPEN:
        keeper.leave()
    OPEN.clear()


if hasattr(os, "register_at_fork"):
    os.register_at_fork(after_in_child=leave_all)


class Live:
    """A queue in a folder that is kept in a log: `with Live(folder) as live`. What is stored survives a crash.

    `queue` is its first endpoint, and `split` makes one for another thread. `append` and `wait` are for all threads. A thread of
    its own writes to the log what was appended, and syncs it. Those who wait share the syncs. Where nobody waits, a message is
    stored some milliseconds after it was appended.

    Opening waits for the folder, plays the log that is there, saves what it gives, and begins a new log. From then on the folder
    is free for those who read it. Others who would write are refused, as are a second `Live` and a `Journal` (IsLive). Nothing
    is saved into the images until the next opening.

    Unstored: a call of the system has failed, as on a full device, or the log has become too long. Nothing more is stored.
    Close it, and open it again: what was stored is there.
    """

    _keeper: Keeper | None = None

    def __init__(self, folder: str | os.PathLike[str], moment: int | None = None) -> None:
        """`moment` is when the first cycle of a queue without images begins; None is the clock's time.

        IsLive: a queue is live in the folder. LogFault: the log cannot be played.
        """
        self.path, self._process, self._is_closed = pathlib.Path(folder), os.getpid(), False
        with Folder(folder, is_alone=True) as files, Saved.fold(files, moment, renews_log=True) as saved:
            self._facts = QueueFacts(saved.settings, saved.names)
            self.queue = Endpoint(Handle(), self._facts)
            keeper = Keeper(files)
            try:
                keeper.begin(saved, self.queue._reference)
                self._writer = self.queue.split()
            except BaseException:
                keeper.end()
                raise
            self._keeper = keeper
        # From here on the lock of the log keeps others out. Whoever has an endpoint keeps the log.
        self._facts.owner = self

    def __enter__(self) -> Live:
        return self

    def __exit__(self, *error: object) -> None:
        self.close()

    def __repr__(self) -> str:
        return f"<linnetshelf.Live {str(self.path)!r}>"

    def __del__(self, _warn=warnings.warn) -> None:
        if self._keeper is not None and not self._is_closed and self._process == os.getpid():
            self._keeper.finish()
            _warn(f"unclosed {self!r}", ResourceWarning, source=self)

    def _kept(self) -> Keeper:
        """Returns what keeps the queue."""
        if self._process != os.getpid():
            raise ValueError("it belongs to the process that made it")
        assert self._keeper is not None
        return self._keeper

    def split(self) -> Endpoint:
        """Returns another endpoint of the queue, for another thread. It reads from the start."""
        return self._writer.split()

    def append(self, data: Buffer, moment: int | None = None, timeout: float | None = None) -> Index:
        """Appends a message, waits until it is stored, and returns its index. Any thread may call it.

        `moment` and `timeout` are as in `Endpoint.append`. Busy: another endpoint was writing, and nothing was appended.
        Unstored: the log has failed. If `index` of the error is not None, the message was appended, and may be stored or not.
        """
        self._writer._live()
        if self._kept().fault is not None:
            raise self._unstored(None)
        index = self._writer.append(data, moment, timeout)
        self.wait(index)
        return index

    def wait(self, index: int, timeout: float | None = None) -> bool:
        """Waits until the message with this index is stored, and those before it: from then on a crash does not take them.

        Returns False if it is not stored after `timeout` seconds. Any thread may wait, also for a message that comes later.
        Unstored: the log has failed, and the message may be stored or not.
        """
        keeper = self._kept()
        if keeper.wait(index, timeout):
            return True
        if keeper.fault is not None:
            raise self._unstored(index)
        if keeper.has_ended:
            raise ValueError("it is closed")
        return False

    def _unstored(self, index: int | None) -> Unstored:
        fault = self._kept().fault
        error = Unstored(f"{self.path}: the log has failed: {fault}", getattr(fault, "status", None))
        error.index, error.__cause__ = index, fault
        return error

    @property
    def stored(self) -> Index:
        """The end below which all messages are stored."""
        return Index(self._kept().stored)

    @property
    def closed(self) -> bool:
        return self._is_closed

    def close(self) -> None:
        """Closes all endpoints of the queue, stores what they have appended, and ends the log. Later calls do nothing.

        Unstored: the log has failed, and what came after `stored` may be stored or not. It is closed all the same. In a child
        after fork nothing is done.
        """
        if self._is_closed or self._process != os.getpid():
            return
        self._facts.end()
        self._kept().end()
        self._is_closed, self._facts.owner = True, None
        if self._kept().fault is not None:
            raise self._unstored(None)
