#!/usr/bin/env python3
"""Programs that keep no promise, and whether the mode torn finds them: the mode wrong of docs/kill_log.py.

Run by itself, with RIGHT_CQ and WRONG_CQ in its environment, this is such a program: `cq`, with another `log`.

early     prints the index of a line at once, and then gives the line to the real `cq log`.
unsynced  is the real `cq log`, with syncs that do nothing.
frames    is the real `cq log`, with one sync for a batch: that of its frame. The one of the gate does nothing.
gates     is the real `cq log`, with one sync for a batch: that of its gate.
"""
import ctypes
import os
import pathlib
import random
import signal
import subprocess
import sys
import time

# Each with the syncs of a batch with which it is tried.
WRONG = [("early", 2), ("unsynced", 2), ("frames", 2), ("gates", 2), ("unsynced", 1)]

# This many kills have to be enough to find each.
KILLS = 200

SYNCS = r"""
#define _GNU_SOURCE
#include <stdlib.h>
#include <string.h>
#include <sys/syscall.h>
#include <unistd.h>

static int count;

/* In a log a sync of a frame and one of a gate take turns: after the empty file, its first gate, the head and its gate. */
int fdatasync(int file) {
    const char *kept = ++count % 2 ? "frames" : "gates";
    return strcmp(getenv("WRONG_CQ"), kept) == 0 ? (int)syscall(SYS_fdatasync, file) : 0;
}
"""


def try_wrong(tried, _runs):
    # This file is run by itself too, without the others.
    from log_service import Tried
    from log_torn import try_torn

    if not tried.has("strace", "wrong") or not tried.has("cc", "wrong"):
        return
    source, shim = (os.path.join(tried.room, name) for name in ("syncs.c", "syncs.so"))
    pathlib.Path(source).write_text(SYNCS, encoding="ascii")
    subprocess.run(["cc", "-O2", "-shared", "-fPIC", "-o", shim, source], check=True)
    os.environ.update(RIGHT_CQ=tried.program, WRONG_SYNCS=shim)
    for name, syncs in WRONG:
        os.environ["WRONG_CQ"] = name
        room = os.path.join(tried.room, f"{name}-{syncs}")
        os.mkdir(room)
        found = Tried(os.path.abspath(__file__), room, random.Random(tried.dice.random()))
        # With checkpoints other syncs come in between.
        found.syncs, found.has_checkpoints = (syncs,), False
        try_torn(found, KILLS, is_one_enough=True)
        if found.wrong:
            tried.counts["wrong programs found"] += 1
            print(f"the wrong program {name} with {syncs} for a batch: {found.wrong[0]}")
        else:
            tried.wrong.append(f"wrong: {name} with {syncs} for a batch was not found by {KILLS} kills")


def next_index(folder):
    """The index that the next line gets: of the last cycle, or of that of the clock."""
    printed = subprocess.run([os.environ["RIGHT_CQ"], "read", folder], stdout=subprocess.PIPE, check=True).stdout
    following = int(printed.splitlines()[-1].split()[0], 16) + 1 if printed else 0
    settings = dict(line.split(" ", 1) for line in pathlib.Path(folder, "queue.cqc").read_text(encoding="ascii").splitlines())
    cycle = (int(time.time() * 1000) - int(settings["epoch"])) // 60_000
    return max(following, cycle << 32)


def end_with_parent():
    """Has the system kill this process once its parent ends."""
    ctypes.CDLL(None).prctl(1, signal.SIGKILL)


def log_early(words):
    index = next_index(words[0])
    how = {"stdin": subprocess.PIPE, "stdout": subprocess.DEVNULL, "preexec_fn": end_with_parent}
    real = subprocess.Popen([os.environ["RIGHT_CQ"], "log", *words], **how)
    for line in sys.stdin.buffer:
        os.write(1, b"%016x\n" % index)
        index += 1
        real.stdin.write(line)
        real.stdin.flush()
    real.stdin.close()
    return real.wait()


def main(words):
    right = os.environ["RIGHT_CQ"]
    if words[0] == "log" and os.environ["WRONG_CQ"] == "early":
        return log_early(words[1:])
    if words[0] == "log":
        os.environ["LD_PRELOAD"] = os.environ["WRONG_SYNCS"]
    return os.execv(right, [right, *words])


if __name__ == "__main__":
    sys.exit(main(sys.argv[1:]))
