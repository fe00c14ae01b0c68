"""Memory that is refused to `cq log`, and to commands that find a log: the mode memory of docs/kill_log.py."""
import functools
import os
import pathlib
import subprocess

import refused_memory
from log_faults import OPTIONS, UNSAVED
from log_kills import left_by_a_kill
from log_life import Life
from log_service import indexes_of, served_one_by_one

# The program ends by this call, which runs nothing that is to run at the end.
REPORT = r"""
#include <sys/syscall.h>

void _exit(int status) {
    report();
    for (;;) syscall(SYS_exit_group, status);
}
"""

LINES = [b"one", b"two", b"three"]

# What `cq log` says of refused memory, and what it may say of a file that it could not open without memory.
REFUSED = (b"memory", b"fault", b"open the queue again")


class Refusals:
    """The library that refuses a growth of memory, and notes that it did."""

    def __init__(self, tried):
        names = ("shim.c", "shim.so", "mark", "count")
        source, self.library, self.mark, self.count = (os.path.join(tried.room, name) for name in names)
        pathlib.Path(source).write_text(refused_memory.SHIM + REPORT, encoding="ascii")
        subprocess.run(["cc", "-O2", "-shared", "-fPIC", "-o", self.library, source], check=True)

    def front(self, number):
        """The words that come before a command whose growth with this number is refused, or none if it is 0."""
        words = [f"LD_PRELOAD={self.library}", f"REFUSED_GROWTH={number}", f"REFUSED_MARK={self.mark}"]
        return ["env", *words, f"GROWTHS={self.count}"]

    def growths(self):
        """How many growths there were."""
        return int(pathlib.Path(self.count).read_text(encoding="ascii"))

    def was_refused(self):
        """Whether a growth was refused since the last time."""
        is_there = os.path.exists(self.mark)
        if is_there:
            os.remove(self.mark)
        return is_there


def serve(life, refusals, number, what, options=()):
    """`cq log` has to say that memory was refused, or to do without."""
    status, acks, said = served_one_by_one([*refusals.front(number), life.tried.program], life.folder, LINES, options)
    fault = UNSAVED.sub(b"", said)
    is_done = status == 0 and len(acks) == len(LINES) and not fault
    if not is_done and not (status == 1 and any(text in fault for text in REFUSED)):
        life.fails(what, f"status {status}, {len(acks)} lines acknowledged, said {said!r}")
    life.compared(LINES, acks, what)


def answer_of(life, refusals, number, what, words, given=b""):
    """What a command gives, or None if it says that memory was refused, and prints nothing."""
    status, printed, said = life.tried.run(words[0], life.folder, *words[1:], given=given, front=refusals.front(number))
    if status == 0 and not said:
        return printed
    if (status, printed, said) != (1, b"", refused_memory.WANT):
        life.fails(what, f"{status} {printed!r} {said!r}")
    return None


def write(life, refusals, number, what):
    given = b"".join(line + b"\n" for line in LINES)
    printed = answer_of(life, refusals, number, what, ["write", str(life.epoch)], given)
    life.compared([] if printed is None else LINES, indexes_of(printed or b""), what)


def take(life, refusals, number, what):
    printed = answer_of(life, refusals, number, what, ["take", "reader"])
    pair = life.messages[0]
    if printed is not None:
        life.positions = {pair[0] + 1}
        if printed != b"%016x %s\n" % pair:
            life.fails(what, f"took {printed!r}")
    life.take(f"{what}, the next")


def drop(life, refusals, number, what):
    printed = answer_of(life, refusals, number, what, ["drop", str(life.last_cycle())])
    if printed is not None:
        life.floors = {life.last_cycle()}
        if printed != b"%d\n" % life.last_cycle():
            life.fails(what, f"dropped to {printed!r}")
    life.compared([], [], what)


def read(life, refusals, number, what):
    printed = answer_of(life, refusals, number, what, ["read"])
    if printed not in (None, b"".join(b"%016x %s\n" % pair for pair in life.messages)):
        life.fails(what, f"read {printed[-50:]!r}")


def check(life, refusals, number, what):
    # The lines of the images are printed before memory is asked for that of the log.
    status, printed, said = life.tried.run("check", life.folder, front=refusals.front(number))
    counts = [life.count_of(0), life.count_of(1)]
    images = [b"%d messages, %s" % pair for pair in zip(counts, (b"ended", b"open"))]
    lines = [line.split(b": ")[1] for line in printed.splitlines()]
    is_whole = (status, said) == (0, b"") and lines == [*images, b"1 messages, not live"]
    is_refused = (status, said) == (1, refused_memory.WANT) and lines in ([], images)
    if not (is_whole or is_refused):
        life.fails(what, f"{status} {printed!r} {said!r}")


SERVICES = {" ".join(["log", *options]): functools.partial(serve, options=options) for options in OPTIONS}
COMMANDS = {**SERVICES, "write": write, "take": take, "drop": drop, "read": read, "check": check}


def try_memory(tried, runs):
    if not tried.has("cc", "memory"):
        return
    refusals = Refusals(tried)
    # Two cycles, and the log of a queue that was killed, which has a line of the second.
    ready = Life(tried, "ready")
    ready.write(0, [b"first", b"second"], "before")
    ready.write(1, [b"third"], "before")
    if not left_by_a_kill(ready, "before"):
        return
    for name, command in COMMANDS.items():
        numbers = [0]
        for number in numbers:
            what, life = f"{name}, growth {number}", ready.copied("memory")
            command(life, refusals, number, what)
            if number == 0:
                every = range(1, refusals.growths() + 1)
                tried.counts[f"growths of {name}"] = len(every)
                numbers += every if runs >= len(every) else tried.dice.sample(every, runs)
            tried.counts[f"growths refused to {name}"] += refusals.was_refused()
            life.is_saved(what)
            life.end()
