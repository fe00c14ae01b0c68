"""System calls of `cq log` that fail, and devices that are full: the modes faults and full of docs/kill_log.py."""
import collections
import itertools
import os
import pathlib
import re
import resource
import signal
import subprocess

from log_kills import left_by_a_kill
from log_life import TEXTS, Life
from log_service import STRACE, indexes_of, lines_of, served_one_by_one

# How a call fails: once, or it and all later ones of its name.
ERRORS = [("ENOSPC", ""), ("EIO", ""), ("EINTR", ""), ("EIO", "+")]

# The calls on the folder and on the streams that may fail. Not `close`: the system closes a file even if it answers an error, and
# strace does not.
CALLS = {
    "openat", "statx", "flock", "getdents64", "lseek", "read", "write", "pwrite64", "fdatasync", "fsync", "ftruncate", "fchmod",
    "rename", "unlink",
}  # fmt: skip

# Calls whose failure loses nothing, so it need not be named. A part that is not there need not be removed.
SILENT = {"unlink", "lseek", "fchmod"}

LINES = [b"one", b"two", b"three"]

# With each of these options each call fails. The images are saved after the second and the third line.
OPTIONS = [[], ["--checkpoint", "5", "--syncs", "1"]]

# With one of these a device becomes full.
FULL_OPTIONS = [[], ["--checkpoint", "20000"], ["--checkpoint", "20000", "--syncs", "1"]]

# What is said where a checkpoint is not made, and the queue goes on. It names that fault alone.
UNSAVED = re.compile(rb"cq: [^\n]+: the images are not saved yet, and the queue goes on\n")

# Commands that save the log into the images before they do their own work.
COMMANDS = {
    "write": lambda life, what, front: life.write(0, LINES, what, front=front),
    "write that rolls": lambda life, what, front: life.write(life.last_cycle() + 1, LINES, what, front=front),
    "take": lambda life, what, front: life.take(what, front=front),
    "drop": lambda life, what, front: life.drop(life.last_cycle(), what, front=front),
    "trim": lambda life, what, front: life.trim(life.last_cycle(), what, front=front),
}

# How such a command is hurt at a call.
HURTS = ["error=EIO", "error=ENOSPC", "error=EIO+", "signal=KILL"]


def traced_calls(trace, folder):
    """Each system call of a process that may fail, from the first on the folder on: its name, its number among those of this name,
    and its line."""
    numbers, is_there = collections.Counter(), False
    with open(trace, encoding="utf-8", errors="replace") as lines:
        for line in lines:
            name = line.split(None, 1)[1].split("(")[0]
            numbers[name] += 1
            # The arguments of the command name the folder too.
            is_there = is_there or folder in line and name != "execve" and "/proc/" not in line
            if is_there and name in CALLS:
                yield name, numbers[name], line


def calls_on(life, trace, options):
    """Each system call of `cq log` from the first on its folder on: its name, its number among those of this name, and whether
    its failure loses nothing."""
    served_one_by_one([*STRACE, "-o", trace, life.tried.program], life.folder, LINES, options)
    found, seen = [], Seen()
    for name, number, line in traced_calls(trace, life.folder):
        seen.take_call(name, line)
        found.append((name, number, seen.is_silent()))
    return found


class Seen:
    """The last call and where a save of files is.

    All is saved once its record is renamed and the folder is synced. Then the parts are renamed, the folder is synced, the record
    is removed, and the folder is synced once more. If any of this fails, the next command does it.
    """

    def __init__(self):
        self.name, self.is_recorded, self.is_saved, self.is_removed, self.asks = "", False, False, False, 0

    def take_call(self, name, line):
        if self.is_removed and self.name == "fsync":
            self.is_recorded, self.is_saved, self.is_removed = False, False, False
        self.name = name
        self.is_saved = self.is_saved or self.is_recorded and name == "rename"
        self.is_recorded = self.is_recorded or name == "rename" and '/queue.save")' in line
        self.is_removed = self.is_removed or name == "unlink" and '/queue.save")' in line
        # Two calls ask whether the log was replaced since it was opened. It counts as replaced if one of them fails.
        self.asks = 2 if name == "statx" and '"", ' in line else max(0, self.asks - 1)

    def is_silent(self):
        return self.name in SILENT or self.is_saved or self.asks > 0


def is_well_after(life, is_silent, answer, lines, what):
    """Whether a service that met a fault said so, or may have done without the call, lost nothing, and the next one works."""
    return is_answer(life, is_silent, answer, lines, what) and is_served(life, f"{what}, the next")


def is_answer(life, is_silent, answer, lines, what):
    status, acks, said = answer[0], answer[1], UNSAVED.sub(b"", answer[2])
    if status == 0:
        if len(acks) != len(lines) or said:
            life.fails(what, f"status 0, {len(acks)} lines acknowledged, said {answer[2]!r}")
        if not is_silent and not answer[2]:
            life.fails(what, "status 0: the fault was not named")
        life.tried.counts["faults: done without"] += 1
    elif status == 1 and TEXTS.fullmatch(said):
        life.tried.counts["faults: named"] += 1
    else:
        life.fails(what, f"status {status}, said {answer[2]!r}")
    return life.compared(lines, acks, what)


def is_served(life, what):
    """Whether the log is saved, and a service without a fault does all."""
    if not life.is_saved(what):
        return False
    status, acks, said = served_one_by_one([life.tried.program], life.folder, LINES)
    if status or said or len(acks) != len(LINES):
        return life.fails(what, f"status {status}, {len(acks)} lines acknowledged, said {said!r}")
    return life.compared(LINES, acks, what)


def ready_lives(tried):
    """A queue that was closed, one with the log of a queue that was killed, and two in which no cycle has begun: one without a log, and
    one with a log without a byte."""
    closed, left, new, bare = (Life(tried, name) for name in ("closed", "left", "new", "bare"))
    is_served(closed, "before the faults")
    is_served(left, "before the faults")
    left_by_a_kill(left, "before the faults")
    pathlib.Path(bare.folder, "queue.log").touch()
    return {"after a closing": closed, "after a kill": left, "new": new, "new with a log": bare}


def try_faults(tried, runs):
    if not tried.has("strace", "faults"):
        return
    trace, cases = os.path.join(tried.room, "trace"), []
    lives = ready_lives(tried)
    for (state, life), options in itertools.product(lives.items(), OPTIONS):
        copy = life.copied("traced")
        calls = calls_on(copy, trace, options)
        tried.counts["faults: calls that may fail"] += len(calls)
        # Where all writes fail nothing can be said.
        errors = [(call, error) for call in calls for error in ERRORS if (call[0], error) != ("write", ("EIO", "+"))]
        cases += [(state, options, *call, error) for call, error in errors]
        copy.end()
    for state, options, name, number, is_silent, (error, how) in cases if runs >= len(cases) else tried.dice.sample(cases, runs):
        life, what = lives[state].copied("faults"), " ".join([f"{state}, {error} at {name} {number}{how}", *options])
        front = [*STRACE, "-o", trace, "-e", f"trace={name}", "-e", f"inject={name}:error={error}:when={number}{how}"]
        answer = served_one_by_one([*front, tried.program], life.folder, LINES, options)
        with open(trace, encoding="utf-8", errors="replace") as lines:
            if "(INJECTED)" not in lines.read():
                tried.wrong.append(f"{what}: nothing was injected")
        tried.counts["faults: calls that failed"] += 1
        is_well_after(life, is_silent or error == "EINTR", answer, LINES, what)
        life.end()


def try_folds(tried, runs):
    """Commands that save the log of a killed queue into the images, and then do their own work: a call fails, or it and all later
    ones, or the command is killed there. What the log has is never lost, and the rest is done as a whole or not at all."""
    if not tried.has("strace", "folds"):
        return
    trace, cases, ready = os.path.join(tried.room, "trace"), [], Life(tried, "ready")
    for cycle in range(3):
        ready.write(cycle, LINES, "before the log")
    left_by_a_kill(ready, "before the folds")
    for command, done in COMMANDS.items():
        copy = ready.copied("traced")
        done(copy, f"folds: {command}", [*STRACE, "-o", trace])
        calls = [call[:2] for call in traced_calls(trace, copy.folder)]
        # Where all writes fail nothing can be said.
        cases += [(command, *call, hurt) for call in calls for hurt in HURTS if (call[0], hurt) != ("write", "error=EIO+")]
        copy.end()
    tried.counts["folds: cases"] += len(cases)
    for command, name, number, hurt in cases if runs >= len(cases) else tried.dice.sample(cases, runs):
        life, what = ready.copied("folds"), f"{command} with a log, {hurt} at {name} {number}"
        inject = f"inject={name}:{hurt.rstrip('+')}:when={number}{'+' * hurt.count('+')}"
        if COMMANDS[command](life, what, [*STRACE, "-o", trace, "-e", f"trace={name}", "-e", inject]):
            is_served(life, f"{what}, the next")
        with open(trace, encoding="utf-8", errors="replace") as lines:
            if not re.search(r"\(INJECTED\)|SIGKILL", lines.read()):
                tried.wrong.append(f"{what}: nothing was injected")
        tried.counts[f"folds: {command}"] += 1
        life.end()


def limited(program, folder, limit, options):
    """What `cq log` gives where no file may have more bytes than this."""

    def begin():
        signal.signal(signal.SIGXFSZ, signal.SIG_IGN)
        resource.setrlimit(resource.RLIMIT_FSIZE, (limit, limit))

    given = b"".join(line + b"\n" for line in LINES)
    words = [program, "log", folder, *options]
    done = subprocess.run(words, input=given, capture_output=True, preexec_fn=begin, check=False)
    return done.returncode, indexes_of(done.stdout), done.stderr


def try_limits(tried, runs):
    """Files that may not grow past a limit, of which an append may write the first bytes."""
    ready, limits = Life(tried, "ready"), [*range(400), *range(400, 10_000, 40)]
    for limit in limits if runs >= len(limits) else tried.dice.sample(limits, runs):
        life, options = ready.copied("limit"), tried.dice.choice(OPTIONS)
        answer = limited(tried.program, life.folder, limit, options)
        tried.counts["full: files that might not grow"] += answer[0] != 0
        is_well_after(life, True, answer, LINES, " ".join([f"files of at most {limit} bytes", *options]))
        life.end()


def try_device(tried, place, what):
    """Lines come until the device has no space, or a little is left for the images. Then there is space again."""
    life, filler = Life(tried, f"{os.path.basename(place)}/{what.replace(' ', '-')}"), os.path.join(place, "filler")
    state = os.statvfs(place)
    with open(filler, "wb") as file:
        file.write(bytes(max(0, state.f_bavail * state.f_bsize - tried.dice.randint(0, 300_000))))
    lines, options = [b"%0400d" % number for number in range(300)], tried.dice.choice(FULL_OPTIONS)
    given = b"".join(line + b"\n" for line in lines)
    status, printed, said = tried.run("log", life.folder, *options, given=given)
    if status:
        acked = len(lines_of(printed))
        stage = "opening" if acked == 0 else "closing" if acked == len(lines) else "storing lines or saving them"
        tried.counts[f"full: no space while {stage}"] += 1
    is_well = is_answer(life, True, (status, indexes_of(printed), said), lines, what) and is_written_or_refused(life, what)
    os.remove(filler)
    if is_well:
        is_served(life, f"{what}, the next")
    life.end()


def is_written_or_refused(life, what):
    """Whether a `write`, which saves the log first, does all on a device with little space, or says that it does nothing."""
    status, printed, said = life.tried.run("write", life.folder, str(life.epoch), given=b"more\n")
    if status == 1 and not printed and TEXTS.fullmatch(said):
        life.tried.counts["full: no space for a write after it"] += 1
        return life.compared([], [], f"{what}, a write without space")
    if status or said:
        return life.fails(what, f"write: {status} {said!r}")
    return life.compared([b"more"], indexes_of(printed), f"{what}, a write")


def try_full(tried, runs):
    try_limits(tried, runs)
    place, image = (os.path.join(tried.room, name) for name in ("device", "device.image"))
    os.mkdir(place)
    with open(image, "wb") as file:
        file.truncate(4 << 20)
    try:
        subprocess.run(["mkfs.ext4", "-q", "-F", "-m", "0", image], check=True, capture_output=True)
        subprocess.run(["mount", "-o", "loop", image, place], check=True, capture_output=True)
    except (subprocess.CalledProcessError, FileNotFoundError):
        tried.untried.append("full: a file system in a file is mounted by root alone, by mkfs.ext4 and mount -o loop")
        return
    try:
        for number in range(max(1, runs // 5)):
            try_device(tried, place, f"full device {number}")
    finally:
        subprocess.run(["umount", place], check=True)
