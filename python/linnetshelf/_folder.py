"""The files of a queue's folder, which the library does not touch: `queue.cqc`, names of images, locks, the log, and saves.

They are those of the program cq (docs/FORMATS.md).
"""
from __future__ import annotations

import contextlib
import datetime
import errno
import fcntl
import os
import pathlib
import re
import stat
from collections.abc import Iterator
from dataclasses import dataclass, field
from typing import BinaryIO

from .errors import FolderFault, IsLive, LogFault

CONFIG, RECORD, LOG, IMAGE = "queue.cqc", "queue.save", "queue.log", ".cqi"

# The length of a cycle in milliseconds, and the form of its name.
ROLLS = {"daily": (86_400_000, "%Y%m%d"), "hourly": (3_600_000, "%Y%m%d-%H"), "minutely": (60_000, "%Y%m%d-%H%M")}
START = datetime.datetime(1970, 1, 1)
# A file that a save may name, and the number of a process.
SAVED, NUMBER = r"(?:queue\.cqc|queue\.log|[^/\n\0]*\.cqi)", r"(0|[1-9][0-9]{0,9})"
PART = re.compile(rf"(?:queue\.save|{SAVED})\.{NUMBER}\.part")
# Both forms of the record of a save: files that parts replace, or such files, if there are any, and files to remove.
RECORDS = (
    re.compile(rf"cq save 1\n{NUMBER}\n((?:{SAVED}\n)+)()end\n"),
    re.compile(rf"cq save 2\n{NUMBER}\n((?:{SAVED}\n)*)\n((?:{SAVED}\n)+)end\n"),
)
MOST_RECORD_BYTES = 1_048_576
# The log that is played has at most as many bytes as the program cq plays.
MOST_LOG_BYTES = 1 << 30
LAST_CYCLE = 2_147_483_646


@dataclass
class Config:
    """The text of `queue.cqc`."""

    roll: str
    epoch: int
    cells: int
    count: int
    spacing: int
    cycles: int
    floor: int = 0
    positions: dict[str, int] = field(default_factory=dict)

    def text(self) -> bytes:
        lines = ["cq 2", f"roll {self.roll}", f"epoch {self.epoch}", f"cells {self.cells}", f"count {self.count}"]
        lines += [f"spacing {self.spacing}", f"cycles {self.cycles}"]
        lines += [f"floor {self.floor}"] if self.floor else []
        lines += [f"name {name} {position}" for name, position in self.positions.items()]
        return "".join(f"{line}\n" for line in lines).encode()

    @classmethod
    def read(cls, text: bytes) -> Config:
        """Reads the text. It has to be one that `text` makes, with numbers within their limits."""
        word = r"(\d{1,20})"
        form = rf"cq 2\nroll (daily|hourly|minutely)\nepoch {word}\ncells {word}\ncount {word}\nspacing {word}\n"
        form += rf"cycles {word}\n(?:floor {word}\n)?((?:name [!-~]+ \d{{1,20}}\n)*)"
        found = re.fullmatch(form, text.decode("ascii", "replace"), re.A)
        if not found:
            hint = ": its version is 1, and `cq migrate` makes version 2 of it" if text.startswith(b"cq 1\n") else ""
            raise FolderFault(f"{CONFIG} is no configuration of version 2{hint}")
        roll, *numbers, floor, lines = found.groups()
        positions = {name: int(position) for name, position in re.findall(r"name (\S+) (\d+)\n", lines)}
        config = cls(roll, *map(int, numbers), int(floor or 0), positions)
        if config.text() != text or config.floor > LAST_CYCLE or any(it >= 1 << 64 for it in positions.values()):
            raise FolderFault(f"{CONFIG} has a number that is not within its limits, or a name twice")
        return config

    def image_name(self, cycle: int) -> str:
        """Returns the name of the image of a cycle."""
        length, form = ROLLS[self.roll]
        return (START + datetime.timedelta(milliseconds=self.epoch + cycle * length)).strftime(form) + IMAGE

    def cycle_of(self, name: str) -> int:
        """Returns the cycle whose image has this name."""
        length, form = ROLLS[self.roll]
        try:
            begins = (datetime.datetime.strptime(name, form + IMAGE) - START) // datetime.timedelta(milliseconds=1)
            # The name leaves out what is below its own unit, so the cycle begins then or within that unit.
            cycle = -((self.epoch - begins) // length)
            if cycle >= 0 and self.image_name(cycle) == name:
                return cycle
        except (ValueError, OverflowError):
            pass
        raise FolderFault(f"{name}: no cycle of the queue has this name")


@dataclass
class Left:
    """What is left of a save whose record is there."""

    process: int
    """The number of the process that wrote the parts."""
    names: list[str]
    """The files that parts replace, unless that is done."""
    removed: list[str]
    """The files to remove, unless that is done."""

    @classmethod
    def read(cls, text: bytes) -> Left | None:
        """Reads the record of a save, in either form. None: it is no record."""
        try:
            found = next(filter(None, (form.fullmatch(text.decode()) for form in RECORDS)), None)
        except UnicodeDecodeError:
            return None
        if not found or len(text) > MOST_RECORD_BYTES or int(found[1]) >= 1 << 32:
            return None
        return cls(int(found[1]), found[2].split("\n")[:-1], found[3].split("\n")[:-1])


class Folder:
    """A folder that is entered: its lock is held, and a save that was cut short is finished, or read through."""

    # The folders that a process has entered alone: device, number, and the process.
    _entered: set[tuple[int, int, int]] = set()

    def __init__(self, path: str | os.PathLike[str], is_alone: bool) -> None:
        self.path, self._is_alone = pathlib.Path(path), is_alone
        self._left: Left | None = None
        # Whether something was renamed or removed that no sync has brought to the disk.
        self._is_unsynced = False
        # What kept the last save from being finished, although it is done.
        self._unfinished: OSError | None = None

    def __enter__(self) -> Folder:
        self.enter()
        return self

    def __exit__(self, *error: object) -> None:
        self.leave()

    def enter(self) -> None:
        """Waits for the lock of the folder: alone, or shared with other readers."""
        self._at = os.open(self.path, os.O_RDONLY | os.O_DIRECTORY | os.O_CLOEXEC)
        found = os.fstat(self._at)
        self._key, self._owner = (found.st_dev, found.st_ino, os.getpid()), os.getpid()
        if self._key in self._entered:
            os.close(self._at)
            raise FolderFault(f"{self.path} is open in this process already")
        try:
            is_held = self._lock()
            if self._is_alone:
                self._entered.add(self._key)
            self._left = self._record()
            if self._is_alone:
                self._finish()
                # Without locks, a part may be that of a process that is running.
                if is_held:
                    self._sweep()
        except BaseException:
            self.leave()
            raise

    def _lock(self) -> bool:
        """Waits for the lock. Returns False where the system has no locks on folders: none is held then."""
        try:
            fcntl.flock(self._at, fcntl.LOCK_EX if self._is_alone else fcntl.LOCK_SH)
            return True
        except InterruptedError:
            raise
        except OSError:
            return False

    def leave(self) -> None:
        """Releases the lock. A child after fork has the same one, and leaves it to its parent."""
        if self._owner == os.getpid():
            if self._is_alone:
                self._entered.discard(self._key)
            with contextlib.suppress(OSError):
                fcntl.flock(self._at, fcntl.LOCK_UN)
        os.close(self._at)

    def has(self, name: str) -> bool:
        try:
            os.stat(name, dir_fd=self._at, follow_symlinks=False)
            return True
        except FileNotFoundError:
            return False

    def read(self, name: str) -> bytes:
        """Reads a plain file; of a save that was cut short, what it wrote. A file that such a save removes is not found."""
        with open(self._open_through(name), "rb") as file:
            return file.read()

    def _open_through(self, name: str) -> int:
        """Opens what `read` reads."""
        if self._left and name in self._left.removed:
            raise FileNotFoundError(errno.ENOENT, os.strerror(errno.ENOENT), str(self.path / name))
        if self._left and name in self._left.names:
            with contextlib.suppress(FileNotFoundError):
                return self._open_plain(self._part(name, self._left.process))
        return self._open_plain(name)

    def read_config(self) -> Config:
        try:
            return Config.read(self.read(CONFIG))
        except FileNotFoundError:
            raise FileNotFoundError(f"{self.path}: no queue is here; init makes one") from None

    def images(self, config: Config) -> Iterator[tuple[str, int]]:
        """Returns the images with their cycles, in the order of the cycles."""
        names = set(os.listdir(self._at))
        if self._left:
            names = names.union(self._left.names).difference(self._left.removed)
        for name in sorted(name for name in names if name.endswith(IMAGE)):
            yield name, config.cycle_of(name)

    def has_log(self) -> bool:
        """Returns whether there is a log with bytes."""
        return self.has(LOG) and os.stat(LOG, dir_fd=self._at, follow_symlinks=False).st_size > 0

    def read_log(self) -> bytes:
        """Reads the log as `read` does, also that of a live queue. If there is none, it has no bytes. LogFault: it is too long."""
        try:
            log = self._open_through(LOG)
        except FileNotFoundError:
            return b""
        with open(log, "rb") as file:
            return self._all_of(file)

    @contextlib.contextmanager
    def locked_log(self) -> Iterator[bytes]:
        """Locks the log for a block, and reads it. If there is none, it has no bytes. IsLive; LogFault: it is too long."""
        try:
            log = self._lock_log()
        except FileNotFoundError:
            yield b""
            return
        with open(log, "rb") as file:
            yield self._all_of(file)

    def new_log(self) -> int:
        """Opens and locks the log that a save has just made anew. The caller closes it.

        Where that save could not be finished it raises why. The next one who enters alone finishes it, and would put the empty
        log in the place of this one. IsLive: another program has put bytes into it.
        """
        if self._unfinished:
            raise self._unfinished
        log = self._lock_log()
        if os.fstat(log).st_size:
            os.close(log)
            raise IsLive(f"{self.path / LOG}: another program writes to it")
        return log

    def _lock_log(self) -> int:
        """Opens the log, and locks it alone. The caller closes it. IsLive: another has locked it."""
        log = self._open_plain(LOG, os.O_RDWR)
        try:
            fcntl.flock(log, fcntl.LOCK_EX | fcntl.LOCK_NB)
        except BaseException as fault:
            os.close(log)
            if isinstance(fault, BlockingIOError):
                raise IsLive(f"{self.path}: a queue is live in this folder") from None
            raise
        return log

    def _all_of(self, log: BinaryIO) -> bytes:
        """Reads a log that is open. LogFault: it is longer than one that is played. Of such a one nothing is read."""
        if os.fstat(log.fileno()).st_size <= MOST_LOG_BYTES:
            data = log.read()
            # That of a live queue grows meanwhile.
            if len(data) <= MOST_LOG_BYTES:
                return data
        raise LogFault(f"{self.path / LOG} has more than {MOST_LOG_BYTES} bytes")

    def open_again(self) -> int:
        """Opens the folder once more, without its lock. The caller closes it."""
        return os.open(".", os.O_RDONLY | os.O_DIRECTORY | os.O_CLOEXEC, dir_fd=self._at)

    def save(self, files: dict[str, bytes], empties_log: bool = False) -> None:
        """Writes files: all of them or none, also if this process stops in between. Those that stay the same are left alone.

        With `empties_log` the log is made anew, without a byte. A save before this one that failed with its record in place is
        finished first.
        """
        self._left = self._record()
        self._finish()
        self._unfinished = None
        changed = {name: data for name, data in files.items() if not (self.has(name) and self._read_plain(name) == data)}
        if empties_log:
            changed[LOG] = b""
        if not changed:
            return
        process = os.getpid()
        try:
            for name, data in changed.items():
                self._write(name, process, data)
            if len(changed) > 1:
                lines = ["cq save 1", str(process), *changed, "end"]
                self._write(RECORD, process, "".join(f"{line}\n" for line in lines).encode())
            self._is_unsynced = True
            for name in [RECORD] if len(changed) > 1 else changed:
                self._place(name, process)
        except BaseException:
            self._give_up(process, [*changed])
            raise
        if len(changed) > 1:
            self._left = Left(process, [*changed], [])
        self._sync()
        # What changed is saved. Renames that fail from here on are made by the next save, or by the next one that is alone.
        try:
            self._settle()
        except OSError as fault:
            self._unfinished = fault
        if self._is_unsynced:
            self._sync()

    def _give_up(self, process: int, names: list[str]) -> None:
        """Removes what a save has made that failed. What cannot be removed is left to the next one.

        A rename can fail and be done nevertheless. So the record goes first, and the parts stay if it cannot go, or may come back.
        """
        with contextlib.suppress(OSError):
            if self.has(RECORD):
                self._remove(RECORD)
                self._sync()
            for name in [RECORD, *names]:
                self._remove(self._part(name, process))

    def _part(self, name: str, process: int) -> str:
        return f"{name}.{process}.part"

    def _place(self, name: str, process: int) -> None:
        """Renames the part of a file to the file."""
        os.rename(self._part(name, process), name, src_dir_fd=self._at, dst_dir_fd=self._at)

    def _open(self, name: str, flags: int, mode: int = 0o666) -> int:
        return os.open(name, flags | os.O_NOFOLLOW | os.O_CLOEXEC, mode, dir_fd=self._at)

    def _open_plain(self, name: str, flags: int = os.O_RDONLY) -> int:
        """Opens a file that is there. A link, a folder or a FIFO of this name is not opened."""
        if not stat.S_ISREG(os.stat(name, dir_fd=self._at, follow_symlinks=False).st_mode):
            raise FolderFault(f"{self.path / name} is no plain file")
        return self._open(name, flags | os.O_NONBLOCK)

    def _read_plain(self, name: str, most: int = -1) -> bytes:
        with open(self._open_plain(name), "rb") as file:
            return file.read(most)

    def _write(self, name: str, process: int, data: bytes) -> None:
        """Writes the part of a file, with the mode of the file that it will replace."""
        part = self._part(name, process)
        self._remove(part)
        with open(self._open(part, os.O_WRONLY | os.O_CREAT | os.O_EXCL), "wb") as file:
            if self.has(name):
                found = os.stat(name, dir_fd=self._at, follow_symlinks=False).st_mode
                if not stat.S_ISREG(found):
                    raise FolderFault(f"{self.path / name} is no plain file")
                os.fchmod(file.fileno(), stat.S_IMODE(found))
            file.write(data)
            file.flush()
            os.fsync(file.fileno())

    def _remove(self, name: str) -> None:
        with contextlib.suppress(FileNotFoundError):
            os.unlink(name, dir_fd=self._at)

    def _record(self) -> Left | None:
        """Returns what is left of a save whose record is there."""
        try:
            text = self._read_plain(RECORD, MOST_RECORD_BYTES + 1)
        except FileNotFoundError:
            return None
        left = Left.read(text)
        if left is None:
            raise FolderFault(f"{self.path / RECORD} is no record of a save")
        return left

    def _finish(self) -> None:
        """Finishes a save whose record is there, if one is, and brings to the disk what one before this left."""
        # The record may not be on the disk yet. Without it a crash could keep some of the renames and lose the others.
        if self._left or self._is_unsynced:
            self._sync()
        self._settle()
        # Else the record could come back after the machine stops, when a later save writes parts of the same names.
        if self._is_unsynced:
            self._sync()

    def _settle(self) -> None:
        """Renames the parts that are left of a save whose record is on the disk, removes the files that are to go, and the record.

        A part that is gone has been renamed, and a file that is gone has been removed.
        """
        if not self._left:
            return
        for name in self._left.names:
            with contextlib.suppress(FileNotFoundError):
                self._place(name, self._left.process)
        for name in self._left.removed:
            self._remove(name)
        self._sync()
        self._is_unsynced = True
        self._remove(RECORD)
        self._left = None

    def _sync(self) -> None:
        """Brings to the disk what was renamed and removed."""
        os.fsync(self._at)
        self._is_unsynced = False

    def _sweep(self) -> None:
        """Removes the parts of saves that were cut short before their record was there."""
        for name in os.listdir(self._at):
            found = PART.fullmatch(name)
            if found and int(found[1]) < 1 << 32:
                with contextlib.suppress(OSError):
                    os.unlink(name, dir_fd=self._at)
