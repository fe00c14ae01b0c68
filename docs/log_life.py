"""What a folder has to hold by what commands on it answered: a part of docs/kill_log.py."""
import copy
import os
import re
import shutil
import time

from log_service import indexes_of, lines_of

# What is said of a fault. ERRORS.md has these texts. That the log was changed is said where a rename to it failed.
TEXTS = re.compile(
    rb"(cq: (folder fault|no queue here|file fault: [\w.-]+|read fault|write fault|the log could not be begun: [^\n]+|"
    rb"the log is not opened: [^\n]+|the log was changed while the queue was opened: [^\n]+|the log has stopped: [^\n]+|"
    rb"[^\n]*: all lines with an index are in queue\.log[^\n]*)\n)+"
)

# The length of a cycle in milliseconds, and the name of the roll.
MINUTE, DAY = 60_000, 86_400_000
ROLLS = {MINUTE: "minutely", DAY: "daily"}

# Cells, count, spacing and cycles of a queue, and its name: cycles of half a MiB.
SHAPE = ["131072", "1024", "1", "32", "reader"]

# No more messages come to a cycle, and no later cycles are begun by `write`.
MOST_MESSAGES, MOST_CYCLES = 3000, 24


def is_cut(status, said, front):
    """Whether a command was killed, or met a fault that another program in front of it made. It has done all of its work or nothing."""
    return status == -9 or bool(front) and status == 1 and bool(TEXTS.fullmatch(said))


class Life:
    """A folder with a queue, whose cycles last a minute or a day and begin at an epoch, and what it has to hold.

    A command that was killed or met a fault has done all of its work or nothing. So there may be several floors and positions,
    until a later answer shows which it is.
    """

    def __init__(self, tried, name, seconds=10_000, length=DAY):
        """Makes a folder in which no cycle has begun, and in which the clock comes to cycle 1 after this many seconds."""
        self.tried, self.folder, self.length = tried, os.path.join(tried.room, name), length
        self.epoch = int((time.time() + seconds) * 1000) - length
        self.messages, self.floors, self.positions = [], {0}, {0}
        # How many messages came before the log was begun, and below which cycle the images may have been removed, all or none.
        self.saved, self.trimmed = 0, 0
        os.makedirs(self.folder)
        assert tried.run("init", self.folder, ROLLS[length], str(self.epoch), *SHAPE) == (0, b"", b"")

    def copied(self, name):
        """The same queue in a copy of the folder."""
        life = copy.copy(self)
        life.messages, life.floors, life.positions = [*self.messages], {*self.floors}, {*self.positions}
        life.folder = os.path.join(self.tried.room, name)
        shutil.copytree(self.folder, life.folder)
        return life

    def end(self):
        shutil.rmtree(self.folder)

    def is_full(self):
        last = self.last_cycle()
        return last >= MOST_CYCLES or self.count_of(last) >= MOST_MESSAGES

    def last_cycle(self):
        return self.messages[-1][0] >> 32 if self.messages else 0

    def count_of(self, cycle):
        return sum(index >> 32 == cycle for index, _ in self.messages)

    def log(self):
        return os.path.join(self.folder, "queue.log")

    def has_log(self):
        return os.path.exists(self.log()) and os.path.getsize(self.log()) > 0

    def fails(self, what, text):
        self.tried.wrong.append(f"{what}: {text}")
        return False

    def read(self, what):
        """The index and the text of each message, by `read`."""
        status, printed, said = self.tried.run("read", self.folder)
        if status or said:
            self.fails(what, f"read: {status} {said!r}")
            return None
        pairs = [line.split(b" ", 1) for line in lines_of(printed)]
        return [(int(index, 16), text) for index, text in pairs]

    def known(self, printed):
        """The messages that are known and not dropped, if they come first in what `read` prints. Keeps the floors that say so."""
        by_floor = {floor: [pair for pair in self.messages if pair[0] >> 32 >= floor] for floor in self.floors}
        by_floor = {floor: old for floor, old in by_floor.items() if printed[:len(old)] == old}
        if not by_floor:
            return None
        longest = max(by_floor.values(), key=len)
        self.floors = {floor for floor, old in by_floor.items() if len(old) == len(longest)}
        return longest

    def compared(self, sent, acks, what, is_whole=False):
        """Compares what `read` prints with what was there, and then a beginning of the lines that came, at least what was
        acknowledged, or all or nothing. Keeps what is there then. Returns whether all is as said."""
        wrong, printed = len(self.tried.wrong), self.read(what)
        if printed is None:
            return False
        old = self.known(printed)
        if old is None:
            return self.fails(what, f"what was there before has changed: {printed[-3:]} after {self.messages[-3:]}")
        new = printed[len(old):]
        if [text for _, text in new] != sent[:len(new)]:
            self.fails(what, f"not the lines that came, in their order: {new[-3:]}")
        if [index for index, _ in new[:len(acks)]] != acks:
            self.fails(what, f"{len(acks)} lines were acknowledged, and {len(new)} are there")
        if is_whole and len(new) not in (0, len(sent)):
            self.fails(what, f"{len(new)} of {len(sent)} lines are there")
        for index, text in new:
            self.add(index, text, what)
        return len(self.tried.wrong) == wrong

    def add(self, index, text, what):
        """A message that came: it is the next of its cycle, and this is the last cycle or a new one."""
        cycle, sequence = index >> 32, index & 0xFFFFFFFF
        if cycle < self.last_cycle() or sequence != self.count_of(cycle):
            self.fails(what, f"the index {index:016x} after {self.count_of(cycle)} messages of the cycle")
        if self.messages and cycle > self.last_cycle():
            self.tried.counts["cycles begun after the first"] += 1
        self.messages.append((index, text))

    def check(self, what):
        """Whether `check` finds the images whole, with all messages that are known. The log counts as saved there."""
        status, printed, said = self.tried.run("check", self.folder)
        shown = [int(count) for count in re.findall(rb"^\S+: (\d+) messages, (?:open|ended)$", printed, re.M)]
        counts = [self.count_of(cycle) for cycle in range(self.last_cycle() + 1)]
        there = [[it for it in counts[first:] if it] for first in {0, self.trimmed}]
        is_well = not status and not said and [it for it in shown if it] in there
        return is_well or self.fails(what, f"check: {status} {printed!r} {said!r}")

    def is_saved(self, what):
        """Has the log saved in the images, and compares what the folder shows before and then. Returns whether all is as said."""
        wrong = len(self.tried.wrong)
        self.check(what)
        # This command saves the log in the images, and does nothing else.
        answer = self.tried.run("take", self.folder, "nobody")
        if answer != (1, b"", b"cq: NoSuchName\n"):
            return self.fails(what, f"take: {answer}")
        if self.has_log():
            self.fails(what, "the log was not saved")
        self.compared([], [], f"{what}, after the log was saved")
        self.check(f"{what}, after the log was saved")
        self.saved = len(self.messages)
        return len(self.tried.wrong) == wrong

    def next_of(self, position, floor):
        """The message that `take` gives."""
        return next((pair for pair in self.messages if pair[0] >= max(position, floor << 32)), None)

    def take(self, what, moment=None, front=()):
        """Takes a message. What is there has to be known."""
        of_log = {pair[0] for pair in self.messages[self.saved:]} if self.has_log() else set()
        status, printed, said = self.tried.run("take", self.folder, "reader", front=front, moment=moment)
        given = {position: {self.next_of(position, floor) for floor in self.floors} for position in self.positions}
        self.tried.counts["takes"] += 1
        if printed == b"not yet\n":
            self.positions = {position for position, pairs in given.items() if None in pairs}
        elif lines_of(printed):
            index, text = printed[:-1].split(b" ", 1)
            pair = int(index, 16), text
            self.positions = {pair[0] + 1 for pairs in given.values() if pair in pairs}
            self.tried.counts["takes of a message that the log alone had"] += pair[0] in of_log
        elif is_cut(status, said, front):
            self.positions |= {pair[0] + 1 for pairs in given.values() for pair in pairs if pair}
            self.tried.counts["takes cut short"] += 1
        else:
            return self.fails(what, f"take: {status} {said!r}")
        return bool(self.positions) or self.fails(what, f"take gave {printed!r}, and not one of {given}")

    def takes_all(self, what):
        """Takes until there is no message left. Returns whether all is as said."""
        while any(self.next_of(position, floor) for position in self.positions for floor in self.floors):
            if not self.take(what):
                return False
        return self.take(what)

    def drop(self, cycle, what, moment=None, front=()):
        """Drops the cycles before one that is not above the last."""
        status, printed, said = self.tried.run("drop", self.folder, str(cycle), moment=moment, front=front)
        floors = {max(floor, cycle) for floor in self.floors}
        self.tried.counts["drops"] += 1
        if lines_of(printed):
            self.floors = floors & {int(printed)}
        elif is_cut(status, said, front):
            self.floors |= floors
            self.tried.counts["drops cut short"] += 1
        else:
            return self.fails(what, f"drop: {status} {said!r}")
        return bool(self.floors) or self.fails(what, f"drop {cycle} gave {printed!r}, and not one of {floors}")

    def trim(self, cycle, what, front=()):
        """Drops the cycles before one that is not above the last, and removes their images."""
        status, printed, said = self.tried.run("trim", self.folder, "--before", f"{cycle << 32:016x}", "--force", front=front)
        self.tried.counts["trims"] += 1
        self.trimmed = cycle
        if is_cut(status, said, front):
            self.floors |= {max(floor, cycle) for floor in self.floors}
            self.tried.counts["trims cut short"] += 1
            return True
        if status or said:
            return self.fails(what, f"trim: {status} {said!r}")
        self.floors = {max(floor, cycle) for floor in self.floors}
        return True

    def write(self, cycle, lines, what, moment=None, front=()):
        """Writes lines at the beginning of a cycle."""
        given = b"".join(line + b"\n" for line in lines)
        words = ("write", self.folder, str(self.epoch + cycle * self.length))
        status, printed, said = self.tried.run(*words, given=given, moment=moment, front=front)
        self.tried.counts["writes"] += 1
        if is_cut(status, said, front):
            self.tried.counts["writes cut short"] += 1
        elif status or said or len(lines_of(printed)) != len(lines):
            return self.fails(what, f"write: {status} {said!r}")
        return self.compared(lines, indexes_of(printed), f"{what}, write", is_whole=True)

    def some_command(self, what, is_killed=False, rolls=True):
        """A command that changes the queue, killed at a random moment or not. Returns whether all is as said."""
        dice = self.tried.dice
        moment = dice.uniform(0, 0.03) if is_killed else None
        kind = dice.choice(["write", "take", "take", "take", "drop"])
        if kind == "write":
            is_roll = rolls and self.last_cycle() < MOST_CYCLES and dice.random() < 0.5
            cycle = self.last_cycle() + dice.randint(1, 2) if is_roll else 0
            return self.write(cycle, [b"between %d" % place for place in range(dice.randint(1, 3))], what, moment)
        if kind == "take":
            return self.take(what, moment)
        last = self.last_cycle()
        return self.drop(last - dice.choice([0, 1, 1, 2, last]) if last > 2 else 0, what, moment)
