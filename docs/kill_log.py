#!/usr/bin/env python3
"""Kills `cq log` while lines come to it, and has its disk fail: docs/kill_log.py [MODE..] [--runs N] [--seed N] [--room DIR].

The modes, all of them if none is named:

random  N times (50 if it is not given) lines come in pieces of random length, and the process gets SIGKILL at a random
        moment, half of the times after the first line was acknowledged. Then `write`, `take` and `drop` come, of which some
        meet the log first, and some are killed too. Cycles begin by the clock and by `write`. Half of the services save the
        images while lines come. Lines are acknowledged after two syncs, one, or none.
torn    N times the process is killed at a random moment or call, or a sync fails. Then the log is made what a power cut may
        leave: what was written since the last sync of the file is there, is not, or in part, or other bytes are in its place,
        such as blocks with open gates, and the file has the old length, the new one, or one between. Where lines are acknowledged
        after one sync, each byte is the old one or the new one. Each kill is tried with three such logs. It needs strace (apt-get install strace).
faults  Each system call on its files and streams fails in turn with ENOSPC, EIO or EINTR, or fails with EIO from then on:
        while it opens a new queue, without a log or with an empty one, one that was closed, or one that was killed, while it stores
        lines, while it saves the images, and while it closes. N of these are tried, or all if N is as large. It needs strace.
folds   A command that saves the log of a killed queue into the images and then does its own work, `write`, `take`, `drop` or `trim`:
        each system call fails in turn with EIO or ENOSPC, or it fails from then on, or the command is killed there. N of these
        are tried, or all if N is as large. It needs strace.
full    N times no file may grow past some length, and N / 5 times a file system is full (root alone may make it). Then there is
        space again. Some of these services save the images while lines come.
calls   The process gets SIGKILL at each of these calls in turn, also while it saves the images, and with one sync for each
        acknowledgement. It needs strace.
syncs   With two syncs for each acknowledgement, one, or none: just as many come before it, and the last one after the last write to
        the log. It needs strace.
memory  Growths of memory are refused, by the library of docs/refused_memory.py: N growths of `cq log`, `write`, `take`, `drop`,
        `read` and `check` each on a folder with a log, or all if N is as large. It needs cc.
wrong   The mode torn has to find wrong programs: one prints an index before the line is stored, one never syncs, whether a batch
        has two syncs or one, and two sync once for a batch of two, before its gate is opened or after. It needs strace and cc.

After each kill `cq read` has to print what was there before, and then a beginning of the lines that came, each once and in
order: at least all that were acknowledged, with the indexes that were printed. `take` has to give the next message, and again
only if a `take` was killed before it printed. What was dropped stays so. After the next command that may write, the log has no
byte, and `read` and `check` have to print the same. While the queue is live `write` has to be refused. What was not killed has
to have acknowledged each line. A fault has to be named with status 1, unless nothing depended on the call, and the next
command has to work.

The folders are in DIR, or where temporary files are. CQ names the program; if it is not set, it is crates/cq/out/cq, which
`./cq race 1` builds. The status is 0 if all is as said, 1 if something was wrong, and 2 if a mode could not be tried.
"""
import argparse
import os
import pathlib
import random
import sys
import tempfile

from log_faults import try_faults, try_folds, try_full
from log_kills import try_calls, try_random, try_syncs
from log_memory import try_memory
from log_service import Tried
from log_torn import try_torn
from log_wrong import try_wrong

MODES = {
    "random": try_random,
    "torn": try_torn,
    "faults": try_faults,
    "folds": try_folds,
    "full": try_full,
    "calls": try_calls,
    "syncs": try_syncs,
    "memory": try_memory,
    "wrong": try_wrong,
}


def main():
    parser = argparse.ArgumentParser(description=__doc__, formatter_class=argparse.RawDescriptionHelpFormatter)
    parser.add_argument("modes", nargs="*", metavar="MODE")
    parser.add_argument("--runs", type=int, default=50)
    parser.add_argument("--seed", type=int, default=None)
    parser.add_argument("--room")
    words = parser.parse_args()
    unknown = [mode for mode in words.modes if mode not in MODES]
    if unknown:
        parser.error(f"no mode {unknown[0]}: one of {', '.join(MODES)}")
    program = os.environ.get("CQ") or str(pathlib.Path(__file__).resolve().parent.parent / "crates" / "cq" / "out" / "cq")
    if not os.access(program, os.X_OK):
        parser.error(f"there is no program {program}: run ./cq race 1, or set CQ")
    seed = random.randrange(10**6) if words.seed is None else words.seed
    with tempfile.TemporaryDirectory(dir=words.room, prefix="cq-log-") as room:
        tried = Tried(os.path.abspath(program), room, random.Random(seed))
        for mode in words.modes or MODES:
            # Each mode has folders of its own.
            tried.room = os.path.join(room, mode)
            os.mkdir(tried.room)
            MODES[mode](tried, words.runs)
    for what, count in sorted(tried.counts.items()):
        print(f"{what}: {count}")
    for text in [*tried.wrong[:20], *tried.untried]:
        print(text)
    print(f"seed {seed}")
    print(f"{len(tried.wrong)} wrong")
    return 1 if tried.wrong else 2 if tried.untried else 0


if __name__ == "__main__":
    sys.exit(main())
