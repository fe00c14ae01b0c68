#!/usr/bin/env python3
"""Follows a folder of cq while commands work on it: docs/follow_folder.py [--seconds N] [--seed N] [--room DIR].

- For N seconds (10 if it is not given) one process runs `cq read DIR --follow`, and another one makes commands: `write` at moments of
  one cycle and of the next, `log` with lines that come one by one, `take`, and `drop` and `trim` of cycles that were followed already.
  The first has to print each line once and in order, soon after it was written, and to end by itself with `--for` and status 0.
- Ended by Ctrl-C, it has printed what was there, each line as a whole.
- If the reader of its output is gone, it ends with status 0 and says nothing, once there is a line to print.
- With `--limit` it ends after that many lines, with `--last` it begins with the last ones.
- `take --wait` prints a line that comes while it waits, and ends with status 4 if none comes in time.

The folders are in DIR, or where temporary files are. CQ names the program; if it is not set, it is crates/cq/out/cq, which
`./cq race 1` builds. The last line is `N wrong`, and the status is 0 if that is none, else 1.
"""
import argparse
import os
import pathlib
import queue
import random
import signal
import subprocess
import sys
import tempfile
import threading
import time

DAY = 86_400_000

# How long after a command its lines have to be printed, in seconds. A machine that proves crates at the same time is slow.
SOON = 10


class Followed:
    """A process that follows a folder, and the lines that it printed, as they come."""

    def __init__(self, program, folder, *words):
        self.process = subprocess.Popen(
            [program, "read", folder, "--follow", *words], stdin=subprocess.DEVNULL, stdout=subprocess.PIPE, stderr=subprocess.PIPE)
        self.lines, self.came = [], queue.Queue()
        threading.Thread(target=self.read, daemon=True).start()

    def read(self):
        for line in self.process.stdout:
            self.came.put(line)
        self.came.put(None)

    def wait_for(self, count):
        """Whether this many lines came, within the time."""
        end = time.monotonic() + SOON
        while len(self.lines) < count:
            try:
                line = self.came.get(timeout=max(0, end - time.monotonic()))
            except queue.Empty:
                return False
            if line is None:
                return False
            self.lines.append(line)
        return True

    def end(self):
        """The status and the errors of the process, once it has ended. All lines that are left are added."""
        errors = self.process.stderr.read()
        status = self.process.wait()
        while (line := self.came.get()) is not None:
            self.lines.append(line)
        return status, errors


class Tried:
    """A folder with a queue, the lines that were written to it, and what was wrong."""

    def __init__(self, program, room, dice):
        self.program, self.room, self.dice = program, room, dice
        self.folder, self.cycle, self.written, self.counts, self.wrong = None, 0, [], {}, []

    def begin(self, name):
        """Begins with a new folder."""
        self.folder, self.cycle, self.written = os.path.join(self.room, name), 20_000, []
        os.makedirs(self.folder)
        self.run("init", "daily", "0", "65536", "64", "16", "64", "reader")

    def fails(self, what):
        self.wrong.append(what)
        print(f"wrong: {what}", flush=True)

    def run(self, command, *words, given=b"", wanted=0):
        """Runs a command on the folder, and returns what it printed."""
        done = subprocess.run([self.program, command, self.folder, *words], input=given, capture_output=True, check=False)
        if done.returncode != wanted or (wanted == 0 and done.stderr):
            self.fails(f"{command} {' '.join(words)}: status {done.returncode}, said {done.stderr!r}")
        self.counts[command] = self.counts.get(command, 0) + 1
        return done.stdout

    def noted(self, indexes, texts):
        """Notes lines that were written, with the indexes that were printed."""
        self.written += [b"%s %s\n" % pair for pair in zip(indexes.split(), texts, strict=True)]

    def texts(self):
        """Some lines, each unlike all others."""
        return [b"line %d" % (len(self.written) + k) for k in range(self.dice.randint(1, 50))]

    def write(self):
        """Writes lines to the last cycle, or to the next one."""
        self.cycle += self.dice.random() < 0.3
        texts = self.texts()
        self.noted(self.run("write", str(self.cycle * DAY), given=b"\n".join(texts) + b"\n"), texts)

    def log(self):
        """Keeps the queue open while lines come one by one."""
        service = subprocess.Popen([self.program, "log", self.folder], stdin=subprocess.PIPE, stdout=subprocess.PIPE)
        indexes, texts = b"", self.texts()[:5]
        for text in texts:
            service.stdin.write(text + b"\n")
            service.stdin.flush()
            indexes += service.stdout.readline()
            time.sleep(self.dice.random() / 10)
        service.stdin.close()
        if service.wait():
            self.fails("log ended with a fault")
        # The lines are in the cycle of the clock.
        self.cycle = int(indexes.split()[-1], 16) >> 32
        self.noted(indexes, texts)
        self.counts["log"] = self.counts.get("log", 0) + 1


def try_commands(tried, seconds):
    tried.begin("commands")
    followed, end = Followed(tried.program, tried.folder, "--for", str(seconds)), time.monotonic() + seconds
    first = True
    while time.monotonic() < end - 2:
        step = tried.dice.random()
        if first or step < 0.7:
            tried.write()
        elif step < 0.8:
            tried.log()
        elif step < 0.9:
            tried.run("take", "reader")
        else:
            # All of it was followed, since the follower came to the end of what was written.
            tried.run("drop", str(tried.cycle))
            tried.run("trim", "--before", f"@{tried.cycle * DAY}")
        first = False
        if not followed.wait_for(len(tried.written)):
            tried.fails(f"{len(followed.lines)} of {len(tried.written)} lines came in {SOON} seconds")
            break
        time.sleep(tried.dice.random() / 5)
    status, errors = followed.end()
    if status or errors:
        tried.fails(f"the follower: status {status}, said {errors!r}")
    if followed.lines != tried.written:
        tried.fails(f"the follower printed {len(followed.lines)} lines, and {len(tried.written)} were written")
    if time.monotonic() < end - 1:
        tried.fails("the follower ended too early")


def try_signal(tried):
    tried.begin("signal")
    tried.write()
    followed = Followed(tried.program, tried.folder)
    if not followed.wait_for(len(tried.written)):
        tried.fails("no lines before the signal")
    followed.process.send_signal(signal.SIGINT)
    status, errors = followed.end()
    if status != -signal.SIGINT or errors or followed.lines != tried.written:
        tried.fails(f"Ctrl-C: status {status}, said {errors!r}, {len(followed.lines)} of {len(tried.written)} lines")


def try_pipe(tried):
    tried.begin("pipe")
    tried.write()
    process = subprocess.Popen([tried.program, "read", tried.folder, "--follow"], stdout=subprocess.PIPE, stderr=subprocess.PIPE)
    line = process.stdout.readline()
    process.stdout.close()
    time.sleep(1)
    tried.write()
    try:
        status = process.wait(timeout=SOON)
    except subprocess.TimeoutExpired:
        process.kill()
        status = process.wait()
    errors = process.stderr.read()
    if status or errors or line != tried.written[0]:
        tried.fails(f"a closed pipe: status {status}, said {errors!r}, first {line!r}")


def try_bounds(tried):
    tried.begin("bounds")
    for _ in range(3):
        tried.write()
    last = Followed(tried.program, tried.folder, "--last", "1")
    limited = Followed(tried.program, tried.folder, "--limit", str(len(tried.written) + 1))
    here = len(tried.written)
    last.wait_for(1)
    tried.write()
    if limited.end() != (0, b"") or limited.lines != tried.written[:here + 1]:
        tried.fails(f"--limit: {len(limited.lines)} lines, and {here + 1} were asked for")
    last.wait_for(1 + len(tried.written) - here)
    last.process.send_signal(signal.SIGINT)
    last.end()
    if last.lines != tried.written[here - 1:]:
        tried.fails(f"--last: {last.lines[:2]!r} .., and {tried.written[here - 1:][:2]!r} .. was wanted")


def try_take(tried):
    tried.begin("take")
    begun = time.monotonic()
    taken = tried.run("take", "reader", "--wait", "1", wanted=4)
    if taken or not 0.9 < time.monotonic() - begun < SOON:
        tried.fails(f"take --wait 1 of an empty queue: {taken!r} after {time.monotonic() - begun} seconds")
    waiting = subprocess.Popen([tried.program, "take", tried.folder, "reader", "--wait", "60", "--limit", "2"], stdout=subprocess.PIPE)
    time.sleep(1)
    tried.write()
    printed, status = waiting.communicate(timeout=60)[0], waiting.returncode
    if status or printed != b"".join(tried.written[:2]):
        tried.fails(f"take --wait 60: status {status}, printed {printed!r}")


def main():
    parser = argparse.ArgumentParser(description=__doc__, formatter_class=argparse.RawDescriptionHelpFormatter)
    parser.add_argument("--seconds", type=int, default=10)
    parser.add_argument("--seed", type=int, default=random.randrange(10**6))
    parser.add_argument("--room")
    words = parser.parse_args()
    program = os.environ.get("CQ") or str(pathlib.Path(__file__).resolve().parent.parent / "crates" / "cq" / "out" / "cq")
    if not os.access(program, os.X_OK):
        parser.error(f"there is no program {program}: run ./cq race 1, or set CQ")
    with tempfile.TemporaryDirectory(prefix="follow", dir=words.room) as room:
        tried = Tried(program, room, random.Random(words.seed))
        try_commands(tried, words.seconds)
        for mode in (try_signal, try_pipe, try_bounds, try_take):
            mode(tried)
    print(", ".join(f"{command} {count}" for command, count in sorted(tried.counts.items())))
    print(f"seed {words.seed}")
    print(f"{len(tried.wrong)} wrong")
    return 1 if tried.wrong else 0


if __name__ == "__main__":
    sys.exit(main())
