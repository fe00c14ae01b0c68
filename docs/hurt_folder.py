#!/usr/bin/env python3
"""Hurts folders of cq while commands work on them: docs/hurt_folder.py [MODE..] [--runs N] [--seed N] [--room DIR].

The modes, all six if none is named:

kills   N times (100 if it is not given) a `write` that rolls or not, a `take` with or without `--limit`, a `drop`, a
        `trim` or a `name` that adds or removes is killed at a random moment.
device  `write`, `take`, `drop`, `trim` and `name add` on a device that is full at every step: a small tmpfs, which root may mount, with space
        for k more pages, or k more files, for each k from 0 until the command is done; and on a full standard output.
calls   Each system call that the same commands make on their folder fails in turn with EIO and with ENOSPC, and the
        command is killed there. It needs strace (apt-get install strace).
beside  N times two `write` at once, N times two `take` at once, of one message or of many, and 7 * N times a `read` at the same time as a `write`
        that rolls.
migrate N times a `migrate` of a folder of version 1 with several images is killed at a random moment, and each of its
        system calls fails, or is killed, as in the mode calls. After that `read` has to print what the folder holds, or
        to name an image of version 2 in a folder of version 1; `migrate` once more leaves the files that one without a
        fault leaves.
repair  N times a `repair` of an image with a wrong record is killed at a random moment, and each of its system calls fails, or is
        killed, as in the mode calls. After that the image is the old one, or has the messages before the fault, and then the old one is
        in FILE.bad. `repair` once more leaves the files that one without a fault leaves, and `check` finds no fault.

The folder is checked after each of the first four:

- `read` and `check` have to print what the queue below gives with all of the command or nothing of it.
- After the next command that is alone in the folder, `queue.cqc` has to say so too, and no file may be left that is none
  of a queue's.
- Then a `write` and a `read` have to be done.

The queue below is written after docs/FORMATS.md and shares nothing with the program. What a command reported has to agree
with what was done.

The folders are in DIR, or where temporary files are; a real disk is a better test there than memory. CQ names the
program; if it is not set, it is crates/cq/out/cq, which `./cq race 1` builds. The status is 0 if all is as said, 1 if
something was wrong, and 2 if a mode could not be tried.
"""
import argparse
import collections
import copy
import os
import random
import re
import shutil
import statistics
import subprocess
import sys
import tempfile
import time

DAY = 86_400_000
CELLS, COUNT, SPACING, CYCLES = 16_384, 64, 1, 16
PAGE = 4096
CALLS = {"statx", "openat", "flock", "getdents64", "read", "write", "fsync", "close", "fchmod", "rename", "unlink"}


class Queue:
    """What a folder holds: the messages of each cycle, the floor, the positions of `reader` and other names, and its version."""

    def __init__(self, version=2):
        self.lists, self.floor, self.position, self.others = {}, 0, 0, {}
        self.version, self.cells = version, CELLS

    def messages(self):
        return [
            ((cycle << 32) + sequence, text)
            for cycle, texts in sorted(self.lists.items())
            for sequence, text in enumerate(texts)
        ]

    def read(self):
        return b"".join(b"%016x %s\n" % pair for pair in self.messages() if pair[0] >> 32 >= self.floor)

    def check(self):
        last = max(self.lists, default=0)
        lines = [
            f"{name_of(cycle)}: {len(texts)} messages, {'open' if cycle == last else 'ended'}\n"
            for cycle, texts in sorted(self.lists.items())
        ]
        return "".join(lines).encode()

    def config(self):
        floor = f"floor {self.floor}\n" if self.floor else ""
        return (
            f"cq {self.version}\nroll daily\nepoch 0\ncells {self.cells}\ncount {COUNT}\nspacing {SPACING}\ncycles {CYCLES}\n"
            f"{floor}name reader {self.position}\n" + "".join(f"name {name} {place}\n" for name, place in self.others.items())
        ).encode()

    def end(self):
        last = max(self.lists, default=0)
        return (last << 32) + len(self.lists.get(last, []))

    def image(self, cycle):
        """The image of a cycle."""
        texts, last = self.lists[cycle], max(self.lists)
        end = b"" if cycle == last else four(0xC0000000)
        if not texts:
            return end
        origin = (0, 0, DAY) if self.version == 2 else ()
        store = b"CQIF" + b"".join(map(four, (self.version, cycle, COUNT, SPACING, self.cells, *origin)))
        at, tables, places, records = 4 + len(store) + 4 + 4 * COUNT, [], [], []
        for sequence, text in enumerate(texts):
            if sequence % (COUNT * SPACING) == 0:
                tables.append(at)
                at += 4 + 4 * COUNT
            places.append(at)
            records.append(four(len(text)) + text + bytes(-len(text) % 4))
            at += len(records[-1])
        parts = [four(0x40000000 + len(store)), store, table_of(tables)]
        for sequence, record in enumerate(records):
            if sequence % (COUNT * SPACING) == 0:
                parts.append(table_of(places[sequence:sequence + COUNT * SPACING:SPACING]))
            parts.append(record)
        return b"".join(parts) + end

    def files(self):
        """The files of the folder."""
        return {"queue.cqc": self.config(), **{name_of(cycle): self.image(cycle) for cycle in self.lists}}

    def migrated(self):
        """The queue of version 2 that one of version 1 becomes."""
        queue = copy.deepcopy(self)
        queue.version, queue.cells = 2, self.cells + 3
        return queue

    def done(self, command):
        """The queue after a command, and what the command prints."""
        queue, last = copy.deepcopy(self), max(self.lists, default=0)
        kind, number, lines = command
        if kind == "write":
            cycle = max(last, number)
            texts = queue.lists.setdefault(cycle, [])
            first = (cycle << 32) + len(texts)
            texts.extend(lines)
            return queue, b"".join(b"%016x\n" % (first + place) for place in range(len(lines)))
        if kind == "drop":
            queue.floor = max(self.floor, min(number, last))
            return queue, b"%d\n" % queue.floor
        if kind == "trim":
            queue.floor = max(self.floor, min(number, last))
            queue.lists = {cycle: texts for cycle, texts in self.lists.items() if cycle >= queue.floor}
            return queue, b"".join(b"%s\n" % name_of(cycle).encode() for cycle in sorted(set(self.lists) - set(queue.lists)))
        if kind == "name":
            name = f"n{number}"
            place = queue.others.pop(name) if lines == [b"remove"] else queue.others.setdefault(name, self.end())
            return queue, b"%s %016x\n" % (name.encode(), place)
        taken = [pair for pair in self.messages() if pair[0] >= self.position and pair[0] >> 32 >= self.floor][: number or 1]
        if taken:
            queue.position = taken[-1][0] + 1
            return queue, b"".join(b"%016x %s\n" % pair for pair in taken)
        return queue, b"" if number else b"not yet\n"


def done_status(command, text):
    """The status of a command that was done and prints this: a `take` with a limit says that there was nothing."""
    return 4 if command[0] == "take" and command[1] and not text else 0


def four(number):
    return number.to_bytes(4, "little")


def table_of(places):
    """The record of a table with these entries."""
    return b"".join(map(four, [0x40000000 + 4 * COUNT] + places + [0] * (COUNT - len(places))))


def name_of(cycle):
    """The file of a cycle of a day each."""
    return time.strftime("%Y%m%d.cqi", time.gmtime(cycle * DAY // 1000))


class Tried:
    """The program, where folders are made, and what was counted and found wrong."""

    def __init__(self, program, room, dice):
        self.program, self.room, self.dice = program, room, dice
        self.counts, self.wrong, self.untried = collections.Counter(), [], []

    def words(self, folder, command):
        """The arguments of a command on a folder, and its input."""
        kind, number, lines = command
        if kind == "write":
            return [self.program, "write", folder, str(number * DAY)], b"".join(line + b"\n" for line in lines)
        if kind == "drop":
            return [self.program, "drop", folder, str(number)], b""
        if kind == "trim":
            return [self.program, "trim", folder, "--before", f"@{number * DAY}", "--force"], b""
        if kind == "name":
            return [self.program, "name", folder, lines[0].decode(), f"n{number}"], b""
        if kind == "migrate":
            return [self.program, "migrate", folder], b""
        if kind == "repair":
            return [self.program, "repair", folder, name_of(number)], b""
        return [self.program, "take", folder, "reader", *(["--limit", str(number)] if number else [])], b""

    def run(self, folder, command, front=(), **how):
        """What a command gives: its status, what it printed, and what it said is wrong."""
        words, given = self.words(folder, command)
        done = subprocess.run([*front, *words], input=given, stderr=subprocess.PIPE, check=False, **{"stdout": subprocess.PIPE, **how})
        return done.returncode, done.stdout, done.stderr

    def asked(self, *words):
        done = subprocess.run([self.program, *words], capture_output=True, check=False)
        return done.returncode, done.stdout, done.stderr

    def made(self, folder, queue):
        """Fills a new folder with what a queue holds."""
        os.makedirs(folder)
        shape = map(str, (CELLS, COUNT, SPACING, CYCLES))
        assert self.asked("init", folder, "daily", "0", *shape, "reader")[0] == 0
        for cycle, texts in sorted(queue.lists.items()):
            assert self.run(folder, ("write", cycle, texts))[0] == 0

    def side(self, folder, old, new, what):
        """Which of two queues a folder holds, by those who only read and then after a command that is alone there."""
        read, check = self.asked("read", folder), self.asked("check", folder)
        self.asked("take", folder, "nobody")
        held = held_in(folder)
        for queue in (new, old):
            names = {"queue.cqc", *map(name_of, queue.lists)}
            is_held = held.get("queue.cqc") == queue.config() and set(held) == names
            if is_held and read == (0, queue.read(), b"") and check == (0, queue.check(), b""):
                return queue
        self.wrong.append(f"{what}: neither all nor nothing: {sorted(held)}, {read[0]} {read[2]!r}, {check[1]!r}")
        return None

    def judge(self, folder, old, command, answer, what):
        """Checks a folder after a command that was hurt, and returns what it holds."""
        new, text = old.done(command)
        queue = self.side(folder, old, new, what)
        if queue is None:
            return None
        status, printed, said = answer
        is_new = queue.__dict__ == new.__dict__
        self.counts[f"{what.split(',')[0]}: {'all' if is_new else 'nothing'} of it"] += 1
        if status in (0, 4) and not (status == done_status(command, text) and is_new and printed in (text, None)):
            self.wrong.append(f"{what}: done, and not so: {printed!r}")
        if status == 1 and not re.fullmatch(rb"cq: [^\n]+\n", said):
            self.wrong.append(f"{what}: said {said!r}")
        if status == 1 and printed and not text.startswith(printed):
            self.wrong.append(f"{what}: printed {printed!r}")
        if status not in (0, 1, 4, -9, 137):
            self.wrong.append(f"{what}: status {status}")
        return self.goes_on(folder, queue, what)

    def goes_on(self, folder, queue, what):
        """Whether the next commands work on a folder."""
        command = ("write", max(queue.lists, default=0), [b"next"])
        queue, text = queue.done(command)
        got = self.run(folder, command)
        if got != (0, text, b"") or self.asked("read", folder) != (0, queue.read(), b""):
            self.wrong.append(f"{what}: the next command: {got}")
        return queue


def held_in(folder):
    """The files of a folder."""
    return {name: open_bytes(os.path.join(folder, name)) for name in os.listdir(folder)}


def open_bytes(path):
    with open(path, "rb") as file:
        return file.read()


def some_lines(dice):
    return [b"%0*d" % (dice.choice([1, 8, 90, 400]), dice.randrange(10)) for _ in range(dice.randint(1, 6))]


def some_command(dice, queue):
    """A command that changes this queue: appends, takes one or many, drops, trims, or changes its names."""
    last = max(queue.lists, default=0)
    kind = dice.choice(["write", "roll", "take", "drop", "trim", "name"])
    if kind == "roll":
        return ("write", last + 1, some_lines(dice))
    if kind in ("drop", "trim"):
        return (kind, dice.randint(0, last + 1), [])
    if kind == "take":
        return (kind, dice.choice([0, 1, 3, 1000]), [])
    if kind == "name":
        number = dice.randrange(10)
        return (kind, number, [b"remove" if f"n{number}" in queue.others else b"add"])
    return (kind, last, some_lines(dice))


def kind_of(queue, command):
    is_roll = command[0] == "write" and command[1] > max(queue.lists, default=0)
    is_many = command[0] == "take" and command[1] > 0
    return "write that rolls" if is_roll else "take of many" if is_many else command[0]


def killed_at(tried, folder, command, moment):
    """What a command gives that is killed at a moment (if given, and if it has not ended by then), and how long it took."""
    words, given = tried.words(folder, command)
    begun = time.monotonic()
    process = subprocess.Popen(words, stdin=subprocess.PIPE, stdout=subprocess.PIPE, stderr=subprocess.PIPE)
    with process.stdin as stream:
        stream.write(given)
    process.stdin = None
    if moment is not None:
        time.sleep(moment)
        process.kill()
    printed, said = process.communicate()
    return (process.returncode, printed, said), time.monotonic() - begun


def try_kills(tried, runs):
    """Kills commands at random moments of the time that one of their kind took when it was left alone."""
    folder, queue, times, killed = None, None, {}, 0
    while killed < runs:
        if queue is None or len(queue.lists) == CYCLES or len(queue.messages()) > 300:
            if folder:
                shutil.rmtree(folder)
            folder, queue = os.path.join(tried.room, f"kills-{killed}"), Queue()
            queue.lists[0] = [b"first"]
            tried.made(folder, queue)
        command = some_command(tried.dice, queue)
        kind = kind_of(queue, command)
        is_alone = kind not in times or tried.dice.random() < 0.05
        moment = None if is_alone else tried.dice.uniform(0, 1.1 * statistics.median(times[kind]))
        answer, took = killed_at(tried, folder, command, moment)
        if is_alone:
            times[kind] = [*times.get(kind, [])[-8:], took]
        killed += answer[0] == -9
        what = f"kills at {kind}" if answer[0] == -9 else f"not killed at {kind}"
        queue = tried.judge(folder, queue, command, answer, f"{what}, kill {killed}")
    if folder:
        shutil.rmtree(folder)


def some_states():
    """A queue whose images take several pages, and commands on it."""
    queue = Queue()
    queue.lists[0] = [b"%0100d" % number for number in range(60)]
    lines = [b"%0100d" % number for number in range(60, 120)]
    return queue, [("write", 0, lines), ("write", 1, lines), ("take", 0, []), ("take", 50, []), ("drop", 0, []), ("trim", 0, []), ("name", 0, [b"add"])]


def try_full(tried, place, command, room, how):
    """A command on a device with this much space after what its folder takes. Returns whether it was done."""
    queue, _ = some_states()
    if command[0] in ("drop", "trim"):
        queue.lists[1] = [b"second"]
        command = (command[0], 1, [])
    what = f"device, full {how} at {kind_of(queue, command)}, with room for {room}"
    subprocess.run(["mount", "-t", "tmpfs", "-o", "size=4m,nr_inodes=1000", "cq", place], check=True, capture_output=True)
    try:
        folder = os.path.join(place, "queue")
        tried.made(folder, queue)
        fill(place, room, how)
        answer = tried.run(folder, command)
        left = [name for name in os.listdir(folder) if name.endswith(".part") or name == "queue.save"]
        if answer[0] and left:
            tried.wrong.append(f"{what}: left {left}")
        for name in os.listdir(place):
            if name != "queue":
                os.remove(os.path.join(place, name))
        tried.judge(folder, queue, command, answer, what)
        return answer[0] == 0
    finally:
        subprocess.run(["umount", place], check=True)


def fill(place, room, how):
    """Leaves space for this many pages or files."""
    state = os.statvfs(place)
    if how == "of files":
        for number in range(state.f_ffree - room):
            with open(os.path.join(place, f"file-{number}"), "wb"):
                pass
        return
    with open(os.path.join(place, "filler"), "wb") as file:
        file.write(bytes((state.f_bavail * state.f_bsize // PAGE - room) * PAGE))


def try_device(tried, _runs):
    """Full devices at every step of a save, and a full output."""
    place = os.path.join(tried.room, "device")
    os.mkdir(place)
    queue, commands = some_states()
    try:
        subprocess.run(["mount", "-t", "tmpfs", "-o", "size=64k", "cq", place], check=True, capture_output=True)
        subprocess.run(["umount", place], check=True)
    except (subprocess.CalledProcessError, FileNotFoundError):
        tried.untried.append("device: a tmpfs is mounted by root alone")
        return
    for command in commands:
        for how in ("of pages", "of files"):
            for room in range(1000):
                if try_full(tried, place, command, room, how):
                    break
            tried.counts["device: steps"] += room
        folder = os.path.join(tried.room, "output")
        tried.made(folder, queue)
        with open("/dev/full", "wb") as full:
            status, _, said = tried.run(folder, command, stdout=full)
        new, text = queue.done(command)
        if (status, said) != ((1, b"cq: write fault\n") if text else (0, b"")):
            tried.wrong.append(f"device, full output: {status} {said!r}")
        if tried.side(folder, new, new, "device, full output") is not None:
            tried.counts["device, full output: all of it"] += 1
        shutil.rmtree(folder)


def traced(tried, folder, command, log):
    """The system calls of a command, each with how many of its name there were, from the first one on its folder on."""
    tried.run(folder, command, front=["strace", "-o", log])
    counts, found, is_there = collections.Counter(), [], False
    with open(log, encoding="utf-8", errors="replace") as file:
        for line in file:
            name = line.split("(")[0]
            counts[name] += 1
            # The arguments of the command name the folder too.
            is_there = is_there or folder in line and name != "execve"
            if is_there and name in CALLS:
                found.append((name, counts[name]))
    return found


def try_calls(tried, _runs):
    """Each system call failing in turn, and a kill there."""
    if shutil.which("strace") is None:
        tried.untried.append("calls: strace is not there (apt-get install strace)")
        return
    queue, commands = some_states()
    queue.lists[1] = [b"second"]
    ready, folder = os.path.join(tried.room, "ready"), os.path.join(tried.room, "calls")
    log = os.path.join(tried.room, "log")
    tried.made(ready, queue)
    takes = [("take", 0, []), ("take", 50, [])]
    for command in [("write", 1, commands[0][2]), ("write", 2, commands[1][2]), *takes, ("drop", 1, []), ("trim", 1, []), commands[-1]]:
        for answer, what in hurt_calls(tried, ready, folder, command, log, f"calls at {kind_of(queue, command)}"):
            tried.counts["calls: failed or killed"] += 1
            tried.judge(folder, queue, command, answer, what)


def hurt_calls(tried, ready, folder, command, log, what):
    """What a command gives on a copy of a folder of which one system call fails or is killed, for each of them."""
    shutil.copytree(ready, folder)
    found = traced(tried, folder, command, log)
    shutil.rmtree(folder)
    if "rename" not in [name for name, _ in found]:
        tried.wrong.append(f"{what}: no rename was seen")
    for name, place in found:
        for how in ("error=EIO", "error=ENOSPC", "signal=KILL"):
            shutil.copytree(ready, folder)
            inject = ["strace", "-o", log, "-e", f"trace={name}", "-e", f"inject={name}:{how}:when={place}"]
            answer = tried.run(folder, command, front=inject)
            marks = ("(INJECTED)", "SIGKILL")
            if not any(mark in open_bytes(log).decode(errors="replace") for mark in marks):
                tried.wrong.append(f"{what}, {name} {place}: nothing was injected")
            yield answer, f"{what}, {how} at {name} {place}"
            shutil.rmtree(folder)


def both(tried, folder, one, two):
    """What two commands give that are begun at once."""
    begun = []
    for command in (one, two):
        words, given = tried.words(folder, command)
        process = subprocess.Popen(words, stdin=subprocess.PIPE, stdout=subprocess.PIPE, stderr=subprocess.PIPE)
        begun.append((process, given))
    return [(*process.communicate(given), process.returncode) for process, given in begun]


def try_two(tried, one, two, what):
    """Two commands at once: what both give has to be what they give in one of their orders."""
    folder, queue = os.path.join(tried.room, "beside"), Queue()
    queue.lists[0] = [b"first", b"second", b"third"]
    tried.made(folder, queue)
    got = [(printed, said, status) for printed, said, status in both(tried, folder, one, two)]
    ends = []
    for order in ((0, 1), (1, 0)):
        end, texts = queue, [b"", b""]
        for place in order:
            end, texts[place] = end.done((one, two)[place])
        if got == [(text, b"", 0) for text in texts]:
            ends.append(end)
    if not ends:
        tried.wrong.append(f"{what}: answered {got}")
    elif tried.side(folder, ends[0], ends[-1], what) is not None:
        tried.counts[f"{what}: each once"] += 1
    shutil.rmtree(folder)


def try_readers(tried, reads):
    """Reads at the same time as a writer that begins a cycle each time: each has to give a beginning of what is written."""
    done = 0
    while done < reads:
        folder = os.path.join(tried.room, "readers")
        queue = Queue()
        queue.lists[0] = [b"first"]
        tried.made(folder, queue)
        whole = queue
        for day in range(1, CYCLES):
            whole, _ = whole.done(("write", day, [b"%0300d" % day, b"last of %d" % day]))
        loop = 'for day in $(seq 1 "$4"); do printf "%0300d\\nlast of %d\\n" $day $day | "$1" write "$2" $((day * $3)) || exit 1; done'
        words = ["bash", "-c", loop, "loop", tried.program, folder, str(DAY), str(CYCLES - 1)]
        writer = subprocess.Popen(words, stdout=subprocess.DEVNULL, stderr=subprocess.PIPE)
        lines = whole.read().splitlines(keepends=True)
        wholes = {b"".join(lines[:count]) for count in range(1, len(lines) + 1, 2)}
        while writer.poll() is None and done < reads:
            status, printed, said = tried.asked("read", folder)
            done += 1
            if status or said or printed not in wholes:
                tried.wrong.append(f"beside, read {done}: {status} {said!r} {printed[-200:]!r}")
        said = writer.communicate()[1]
        if writer.returncode:
            tried.wrong.append(f"beside, the writer: {said!r}")
        elif tried.asked("read", folder)[1] != whole.read():
            tried.wrong.append("beside, the writer: not all was written")
        shutil.rmtree(folder)
    tried.counts["beside, reads"] += done


def try_beside(tried, runs):
    """Commands at once."""
    for number in range(runs):
        lines = [[b"%d of one" % number, b"more"], [b"%d of two" % number, b"%090d" % number]]
        day = number % 2
        try_two(tried, ("write", day, lines[0]), ("write", day, lines[1]), "beside, two writes")
        try_two(tried, ("take", 0, []), ("take", 0, []), "beside, two takes")
        try_two(tried, ("take", 2, []), ("take", 2, []), "beside, two takes of many")
    try_readers(tried, 7 * runs)


def some_old_queue(dice):
    """A queue of version 1 with several images, some of many pages and some without a message."""
    queue, cycle = Queue(version=1), 0
    for _ in range(dice.randint(2, CYCLES)):
        queue.lists[cycle] = some_lines(dice) * dice.choice([0, 1, 1, 20])
        cycle += dice.randint(1, 3)
    queue.floor = dice.choice([0, dice.randint(0, max(queue.lists))])
    queue.position = dice.choice([0, dice.choice(queue.messages() or [(0, b"")])[0]])
    return queue


def put(folder, queue):
    """Makes a folder with the files of a queue."""
    os.makedirs(folder)
    for name, data in queue.files().items():
        with open(os.path.join(folder, name), "wb") as file:
            file.write(data)


def judge_migration(tried, folder, queue, answer, what):
    """Checks a folder after a `migrate` that was hurt, and what one more makes of it."""
    status, printed, said = answer
    new = queue.migrated()
    held = held_in(folder)
    # Once its record is there a save is done, and the next command that writes finishes what it left.
    is_saved = held == new.files() or "queue.save" in held
    if status not in (0, 1, -9, 137) or printed or status == 0 and (said or not is_saved):
        tried.wrong.append(f"{what}: {status} {printed!r} {said!r}")
    if status == 1 and not re.fullmatch(rb"cq: (folder fault|file fault: [^\n]+)\n", said):
        tried.wrong.append(f"{what}: said {said!r}")
    read = tried.asked("read", folder)
    is_mixed = read[:2] == (1, b"") and re.fullmatch(rb"cq: \d{8}\.cqi: WrongStore at 0\n", read[2])
    if read != (0, queue.read(), b"") and not is_mixed:
        tried.wrong.append(f"{what}: read {read}")
    tried.counts[f"{what.split(',')[0]}: {'not read' if is_mixed else 'read'} before the next"] += 1
    again = tried.asked("migrate", folder)
    if again != (0, b"", b"") or held_in(folder) != new.files():
        tried.wrong.append(f"{what}: once more: {again}, {sorted(held_in(folder))}")
    else:
        tried.goes_on(folder, new, what)


def try_migrations(tried, runs):
    """Kills `migrate` at random moments, and has each of its system calls fail."""
    folder, command, times, killed = os.path.join(tried.room, "migrated"), ("migrate", 0, []), [], 0
    while killed < runs:
        queue = some_old_queue(tried.dice)
        put(folder, queue)
        is_alone = not times or tried.dice.random() < 0.05
        moment = None if is_alone else tried.dice.uniform(0, 1.1 * statistics.median(times))
        answer, took = killed_at(tried, folder, command, moment)
        if is_alone:
            times = [*times[-8:], took]
        killed += answer[0] == -9
        what = "migrate killed" if answer[0] == -9 else "migrate not killed"
        judge_migration(tried, folder, queue, answer, f"{what}, kill {killed}")
        shutil.rmtree(folder)
    if shutil.which("strace") is None:
        tried.untried.append("migrate, calls: strace is not there (apt-get install strace)")
        return
    ready, log = os.path.join(tried.room, "old"), os.path.join(tried.room, "migrate-log")
    queue = Queue(version=1)
    queue.lists = {0: [b"%0100d" % number for number in range(60)], 1: [], 2: [b"last"]}
    put(ready, queue)
    for answer, what in hurt_calls(tried, ready, folder, command, log, "migrate at a call"):
        judge_migration(tried, folder, queue, answer, what)


class Broken:
    """A folder with an image that has a wrong record after some messages, and what `repair` makes of it."""

    def __init__(self, dice):
        self.queue = Queue()
        self.queue.lists = {0: [b"%0100d" % number for number in range(60)], 1: [b"second"], 2: [b"%0100d" % number for number in range(60)]}
        self.cycle, self.kept = dice.choice([0, 2]), dice.randint(2, 59)
        # The last of these is above what is kept, so the position moves down.
        self.queue.position = dice.choice([0, 1 << 32, (self.cycle << 32) + 60])
        self.command, self.name = ("repair", self.cycle, []), name_of(self.cycle)
        self.files = self.queue.files()
        image = bytearray(self.files[self.name])
        # The header after the message before, which has no padding.
        at = image.index(b"%0100d" % (self.kept - 1)) + 100
        image[at:at + 4] = four(0x7FFFFFF)
        self.files[self.name] = bytes(image)
        self.mended = copy.deepcopy(self.queue)
        self.mended.lists[self.cycle] = self.queue.lists[self.cycle][:self.kept]
        if self.queue.position == (self.cycle << 32) + 60:
            self.mended.position = (self.cycle << 32) + self.kept
        self.after = {**self.mended.files(), f"{self.name}.bad": self.files[self.name]}

    def put(self, folder):
        os.makedirs(folder)
        for name, data in self.files.items():
            with open(os.path.join(folder, name), "wb") as file:
                file.write(data)

    def judge(self, tried, folder, answer, what):
        """Checks a folder after a `repair` that was hurt, and what one more makes of it."""
        status, _, said = answer
        held = held_in(folder)
        # Once its record is there a save is done, and the next command that writes finishes what it left.
        is_mended = held.get(self.name) == self.after[self.name] or "queue.save" in held
        is_kept = held.get(f"{self.name}.bad") == self.files[self.name]
        if not is_mended and held.get(self.name) != self.files[self.name] or is_mended and not is_kept:
            tried.wrong.append(f"{what}: neither all nor nothing: {sorted(held)}")
        if status not in (0, 1, -9, 137) or status == 0 and not is_mended:
            tried.wrong.append(f"{what}: {status} {said!r}")
        if status == 1 and not re.fullmatch(rb"cq: [^\n]+\n", said):
            tried.wrong.append(f"{what}: said {said!r}")
        tried.counts[f"{what.split(',')[0]}: {'all' if is_mended else 'nothing'} of it"] += 1
        again = tried.run(folder, self.command)
        if again[0] != (1 if is_mended else 0) or held_in(folder) != self.after:
            tried.wrong.append(f"{what}: once more: {again}, {sorted(held_in(folder))}")
        elif tried.asked("check", folder) != (0, self.mended.check(), b""):
            tried.wrong.append(f"{what}: check finds a fault after it")
        else:
            tried.goes_on(folder, self.mended, what)


def try_repairs(tried, runs):
    """Kills `repair` at random moments, and has each of its system calls fail."""
    folder, times, killed = os.path.join(tried.room, "repaired"), [], 0
    while killed < runs:
        broken = Broken(tried.dice)
        broken.put(folder)
        is_alone = not times or tried.dice.random() < 0.05
        moment = None if is_alone else tried.dice.uniform(0, 1.1 * statistics.median(times))
        answer, took = killed_at(tried, folder, broken.command, moment)
        if is_alone:
            times = [*times[-8:], took]
        killed += answer[0] == -9
        what = "repair killed" if answer[0] == -9 else "repair not killed"
        broken.judge(tried, folder, answer, f"{what}, kill {killed}")
        shutil.rmtree(folder)
    if shutil.which("strace") is None:
        tried.untried.append("repair, calls: strace is not there (apt-get install strace)")
        return
    ready, log = os.path.join(tried.room, "broken"), os.path.join(tried.room, "repair-log")
    broken = Broken(tried.dice)
    # Two files are saved together.
    while broken.mended.position == broken.queue.position:
        broken = Broken(tried.dice)
    broken.put(ready)
    for answer, what in hurt_calls(tried, ready, folder, broken.command, log, "repair at a call"):
        broken.judge(tried, folder, answer, what)


MODES = {
    "kills": try_kills,
    "device": try_device,
    "calls": try_calls,
    "beside": try_beside,
    "migrate": try_migrations,
    "repair": try_repairs,
}


def main():
    words = argparse.ArgumentParser(description="Hurts folders of cq while commands work on them.")
    words.add_argument("modes", nargs="*", metavar="MODE", help="kills, device, calls, beside, migrate or repair")
    words.add_argument("--runs", type=int, default=100)
    words.add_argument("--seed", type=int, default=1)
    words.add_argument("--room", default=None)
    given = words.parse_args()
    if not set(given.modes) <= set(MODES):
        words.error(f"the modes are {', '.join(MODES)}")
    here = os.path.dirname(os.path.dirname(os.path.abspath(__file__)))
    program = os.path.abspath(os.environ.get("CQ", os.path.join(here, "crates/cq/out/cq")))
    with tempfile.TemporaryDirectory(dir=given.room) as room:
        tried = Tried(program, room, random.Random(given.seed))
        for mode in given.modes or MODES:
            MODES[mode](tried, given.runs)
    for key, count in sorted(tried.counts.items()):
        print(key, count)
    for line in tried.untried:
        print(f"not tried: {line}")
    print(f"{len(tried.wrong)} wrong")
    for line in tried.wrong[:20]:
        print(line)
    if tried.wrong:
        return 1
    return 2 if tried.untried else 0


sys.exit(main())
