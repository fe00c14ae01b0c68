#!/usr/bin/env python3
"""Runs cq on a terminal, and looks at what it prints there: docs/watch_terminal.py [--room DIR].

- A `write` that begins a cycle says which one, and one that begins none says nothing.
- A command that waits for another one in the folder says so once a second, and erases the line before it prints anything else.
- None of this is printed where standard error is no terminal.

The folders are in DIR, or where temporary files are. CQ names the program; if it is not set, it is crates/cq/out/cq, which
`./cq race 1` builds. The last line is `N wrong`, and the status is 0 if that is none, else 1.
"""
import argparse
import fcntl
import os
import pathlib
import pty
import struct
import subprocess
import sys
import tempfile
import termios
import threading
import time

ERASE = b"\r\x1b[K"


def shown(words, given, held=None, is_whole=False):
    """The status of a command, and what it prints to standard error, which is a terminal of 80 columns. If it is whole, standard output is
    the same terminal. A folder that is held is locked for 2.5 seconds."""
    main, side = pty.openpty()
    fcntl.ioctl(side, termios.TIOCSWINSZ, struct.pack("HHHH", 25, 80, 0, 0))
    lock = None
    if held:
        lock = os.open(held, os.O_RDONLY)
        fcntl.flock(lock, fcntl.LOCK_EX)
    process = subprocess.Popen(words, stdin=subprocess.PIPE, stdout=side if is_whole else subprocess.PIPE, stderr=side)
    os.close(side)
    if held:
        threading.Timer(2.5, os.close, [lock]).start()
    process.stdin.write(given)
    process.stdin.close()
    text = b""
    while True:
        try:
            part = os.read(main, 4096)
        except OSError:
            break
        if not part:
            break
        text += part
    os.close(main)
    return process.wait(), text.replace(b"\r\n", b"\n")


def main():
    parser = argparse.ArgumentParser(description=__doc__, formatter_class=argparse.RawDescriptionHelpFormatter)
    parser.add_argument("--room")
    words = parser.parse_args()
    program = os.environ.get("CQ") or str(pathlib.Path(__file__).resolve().parent.parent / "crates" / "cq" / "out" / "cq")
    if not os.access(program, os.X_OK):
        parser.error(f"there is no program {program}: run ./cq race 1, or set CQ")
    wrong = []

    def expect(what, got, wanted):
        if got != wanted:
            wrong.append(what)
            print(f"wrong: {what}: {got!r}, wanted {wanted!r}", flush=True)

    with tempfile.TemporaryDirectory(prefix="terminal", dir=words.room) as room:
        folder = os.path.join(room, "journal")
        os.mkdir(folder)
        subprocess.run([program, "init", folder, "daily", "0", "65536", "32", "1", "8"], check=True)
        write = [program, "write", folder, "1728000000000"]
        expect("a cycle that begins", shown(write, b"one\n"), (0, b"cq: begins cycle 20241004\n"))
        expect("no cycle that begins", shown(write, b"two\n"), (0, b""))
        # Seconds where milliseconds were meant.
        expect("seconds", shown([program, "write", folder, "1728000000"], b"three\n"), (0, b""))
        begun = time.monotonic()
        status, text = shown([program, "drop", folder, "0"], b"", held=folder)
        lines = text.split(ERASE)
        says = b"cq: at work, or waiting for another command in the folder: %d s"
        expect("a command that waits", (status, lines), (0, [b"", says % 1, says % 2, b""]))
        if len(says % 100_000) > 80:
            wrong.append("the line is longer than a terminal")
        status, text = shown([program, "drop", folder, "0"], b"", held=folder, is_whole=True)
        expect("its output comes after the line", (status, text.split(ERASE)), (0, [b"", says % 1, says % 2, b"0\n"]))
        late = [program, "write", folder, str(1728000000000 + 2 * 86_400_000)]
        status, text = shown(late, b"five\n", held=folder, is_whole=True)
        says = b"cq: at work, or waiting for its input or another command: %d s"
        expect("a write that waits, and begins a cycle", (status, text.split(ERASE)),
               (0, [b"", says % 1, says % 2, b"00004e2200000000\ncq: begins cycle 20241006\n"]))
        if time.monotonic() - begun > 10:
            wrong.append("a command that waits went on too long")
        done = subprocess.run([program, "write", folder, str(1728000000000 + 3 * 86_400_000)], input=b"four\n", capture_output=True, check=False)
        expect("no terminal", (done.returncode, done.stderr), (0, b""))
    print(f"{len(wrong)} wrong")
    return 1 if wrong else 0


if __name__ == "__main__":
    sys.exit(main())
