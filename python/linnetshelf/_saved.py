"""What a queue held: images, positions and the floor, as values and as the files of a folder."""
from __future__ import annotations

import os
from collections.abc import Iterable, Iterator, Mapping
from typing import NamedTuple

from ._endpoint import Buffer, Endpoint, Index, Owner, QueueFacts, Roll, Settings, address_of, create, names_of
from ._folder import CONFIG, LOG, Config, Folder
from ._library import NO_SAVED, Handle, check, error_of, library, number
from .errors import BadValue, FolderFault, ImageFault, LogFault, Status, Unsaved


class Image(NamedTuple):
    """The image of a cycle: the bytes of its file."""

    cycle: int
    data: bytes


class Saved(Owner):
    """What was saved of a queue: an image for each cycle, a position for each name, and the floor."""

    _closed = NO_SAVED

    def __init__(self, handle: Handle, settings: Settings, names: tuple[str, ...]) -> None:
        super().__init__(handle)
        self.settings, self.names = settings, names

    @classmethod
    def new(cls, settings: Settings, names: Iterable[str] = ()) -> Saved:
        """Returns a queue without cycles, to which what was saved is added."""
        (declared, lines), out = names_of(names), Handle()
        check(library.saved_new(settings.raw(), lines, len(lines), out))
        return cls(out, settings, declared)

    @classmethod
    def load(cls, folder: str | os.PathLike[str]) -> Saved:
        """Reads what the files of a folder hold, and plays the log that is there, also that of a live queue. No file changes."""
        with Folder(folder, is_alone=False) as files:
            saved = cls.read(files)
            saved._play_log(files, files.read_log())
            return saved

    @classmethod
    def fold(cls, files: Folder, moment: int | None, renews_log: bool = False) -> Saved:
        """Reads what the files of a folder hold, plays the log that is there, and saves what that gives with an empty log.

        The folder is entered already, alone. If no cycle has begun, that of `moment` begins, as in `open`. Without `renews_log` no
        file changes where the log has no bytes. IsLive, LogFault: no file changes.
        """
        saved = cls.read(files)
        if saved.is_new:
            saved = saved.open(moment).stop()
        with files.locked_log() as log:
            saved._play_log(files, log)
            if log or renews_log:
                saved.write(files, empties_log=True)
        return saved

    @classmethod
    def read(cls, files: Folder) -> Saved:
        """Reads what the files of a folder hold, which is entered already. The log is not read."""
        config = files.read_config()
        roll = Roll[config.roll.upper()]
        settings = Settings(config.cells, config.count, config.spacing, config.cycles, roll, config.epoch)
        try:
            saved = cls.new(settings, config.positions)
        except BadValue as fault:
            raise FolderFault(f"{files.path / CONFIG}: {fault}", fault.status) from fault
        for name, cycle in files.images(config):
            try:
                saved.add(cycle, files.read(name))
            except (ImageFault, BadValue) as fault:
                raise FolderFault(f"{files.path / name}: {fault}", fault.status) from fault
        saved.positions, saved.floor = config.positions, config.floor
        return saved

    def add(self, cycle: int, image: Buffer) -> None:
        """Adds a cycle after the others. ImageFault: the bytes are no image of it."""
        cycle = number(cycle, 32, Status.BAD_CONTENTS)
        answer = library.saved_add(self._live(), cycle, address_of(image), memoryview(image).nbytes)
        if Status.CUT <= answer.status <= Status.OVER_SHAPE:
            error = error_of(answer.status, f"byte {answer.index}")
            assert isinstance(error, ImageFault)
            error.at = answer.index
            raise error
        check(answer.status)

    def play(self, log: Buffer) -> int:
        """Plays the bytes of a log on it, which goes on from it, and returns how many turns were played.

        LogFault: the log is at fault, or goes on from something else. Nothing changed then.
        """
        answer = library.play(self._live(), address_of(log), memoryview(log).nbytes)
        if answer.status == Status.BAD_TURN:
            error = error_of(answer.status, f"frame {answer.index}")
            assert isinstance(error, LogFault)
            error.turn = answer.index
            raise error
        check(answer.status)
        return answer.index

    def _play_log(self, files: Folder, log: bytes) -> None:
        """Plays the log of a folder on what its images hold, if it has bytes."""
        try:
            if log:
                self.play(log)
        except LogFault as fault:
            named = LogFault(f"{files.path / LOG}: {fault}", fault.status)
            named.turn = fault.turn
            raise named from fault

    def __len__(self) -> int:
        """Returns how many cycles there are."""
        answer = library.saved_count(self._live())
        check(answer.status)
        return answer.index

    def counts(self) -> dict[int, int]:
        """Returns how many messages each cycle has, by its number."""
        found = {}
        for k in range(len(self)):
            answer = library.saved_length(self._live(), k)
            check(answer.status)
            found[library.saved_cycle(self._live(), k).index] = answer.index
        return found

    def images(self) -> Iterator[Image]:
        """Makes the image of each cycle, in their order."""
        # A cycle has four bytes a cell.
        room = bytearray(4 * self.settings.cells)
        for k in range(len(self)):
            answer = library.saved_image(self._live(), k, address_of(room), len(room))
            check(answer.status)
            yield Image(library.saved_cycle(self._live(), k).index, bytes(memoryview(room)[: answer.length]))

    @property
    def positions(self) -> dict[str, Index]:
        """The position of each name: the message that is taken next has this index or a later one."""
        found = {}
        for k, name in enumerate(self.names):
            answer = library.saved_position(self._live(), k)
            check(answer.status)
            found[name] = Index(answer.index)
        return found

    @positions.setter
    def positions(self, positions: Mapping[str, int]) -> None:
        for k, name in enumerate(self.names):
            position = number(positions[name], 64, Status.BAD_CONTENTS)
            check(library.saved_set_position(self._live(), k, position))

    @property
    def floor(self) -> int:
        """The floor: reads skip all cycles below this one."""
        answer = library.saved_floor(self._live())
        check(answer.status)
        return answer.index

    @floor.setter
    def floor(self, floor: int) -> None:
        check(library.saved_set_floor(self._live(), number(floor, 32, Status.BAD_CONTENTS)))

    @property
    def is_new(self) -> bool:
        """Whether no cycle has begun. Then no position and no floor can be other than 0."""
        if len(self):
            return False
        if self.floor or any(self.positions.values()):
            raise error_of(Status.BAD_CONTENTS, "there is no image, and a position or the floor is not 0")
        return True

    def open(self, moment: int | None = None) -> Endpoint:
        """Makes a queue of it, whose last cycle is the current one, and returns its first endpoint. This stays as it is.

        If no cycle has begun, the first one is that of `moment`, in milliseconds of Unix time, or of the clock's time.
        """
        if self.is_new:
            return create(self.settings, self.names, moment)
        out = Handle()
        check(library.open(self._live(), out))
        return Endpoint(out, QueueFacts(self.settings, self.names))

    def save(self, folder: str | os.PathLike[str]) -> None:
        """Makes a queue of it in a folder that has none. `Journal` is for one that has."""
        if not self.is_new:
            self.open().close()
        with Folder(folder, is_alone=True) as files:
            if files.has(CONFIG) or files.has_log():
                raise FileExistsError(f"{files.path}: a queue is there already, or the log of one")
            self.write(files)

    def write(self, files: Folder, empties_log: bool = False) -> None:
        """Makes the files of a folder what this holds: all of them or none. The folder is entered already, alone.

        With `empties_log` the log is made anew among them, without a byte.
        """
        it = self.settings
        positions = {name: int(position) for name, position in self.positions.items()}
        roll = it.roll.name.lower()
        config = Config(roll, it.epoch, it.cells, it.index_count, it.index_spacing, it.cycles, self.floor, positions)
        changes = {config.image_name(image.cycle): image.data for image in self.images()}
        files.save({**changes, CONFIG: config.text()}, empties_log)


def init(folder: str | os.PathLike[str], settings: Settings = Settings(), names: Iterable[str] = ()) -> None:
    """Makes an empty queue in a folder, which is there already, as `cq init` does."""
    with Saved.new(settings, names) as saved:
        saved.save(folder)


class Journal:
    """A queue in a folder: `with Journal(folder) as queue`.

    The folder is locked as long as the queue is open, so other programs wait, `cq` among them. At the end of the block all
    endpoints of the queue are closed, and what it holds is saved, also if the block raises. What was appended since the
    start is lost if the process ends before. `Live` keeps it in a log.

    A log that is there with bytes is played, and saved into the images. IsLive: a queue is live in the folder.

    Unsaved: it could not be saved, as on a full device. The folder is still locked then, and `save` tries again.
    """

    def __init__(self, folder: str | os.PathLike[str], moment: int | None = None) -> None:
        """`moment` is when the first cycle of a queue without images begins; None is the clock's time."""
        self._files, self._moment = Folder(folder, is_alone=True), moment
        self._last: Endpoint | None = None
        self._saved: Saved | None = None

    def __enter__(self) -> Endpoint:
        self._files.enter()
        try:
            with Saved.fold(self._files, self._moment) as saved:
                queue = saved.open()
            # The queue is stopped by this endpoint, also if the other ones are closed by then.
            self._last = queue.split()
        except BaseException:
            self._files.leave()
            raise
        return queue

    def __exit__(self, *error: object) -> None:
        self.save()

    def save(self) -> None:
        """Closes the queue's endpoints, saves what it holds, and releases the folder. Nothing is left to do after that."""
        if self._last is None:
            return
        try:
            if self._saved is None:
                self._saved = self._last.stop_all()
            self._saved.write(self._files)
        except Exception as fault:
            unsaved = Unsaved(f"{self._files.path}: nothing was saved: {fault}")
            unsaved.journal = self
            raise unsaved from fault
        self.discard()

    def discard(self) -> None:
        """Releases the folder without saving what was not saved yet."""
        for owner in (self._saved, self._last):
            if owner is not None:
                owner.close()
        if self._last is not None:
            self._last = None
            self._files.leave()
