#!/usr/bin/env python3
"""Runs the examples of the documents: docs/run_examples.py [PROGRAM].

PROGRAM is the program cq: crates/cq/out/cq, which `./cq race 1` builds, if none is given. The documents are
README.md, docs/CLI.md, docs/GUIDE.md, docs/CALLING.md and docs/C.md. The word at the start of a fenced block says what is done
with it:

console  A line that begins with `$ ` is a command, and the lines up to the next one are what it prints, on standard
         output and standard error together. The blocks of a document are run in order in one new folder, where `./cq` is
         the program. `$ echo $?` prints the status of the command before it.
rust     The lines are in a file of src/ of crates/cq_callers, crates/cq_live_tests or crates/cq_stored_threads_tests, one after
         the other, except for spaces at their start.
c        The lines are in an example of c/ or in c/tests/examples.c in the same way. c/run compiles and runs these files.

Blocks with another word or none are skipped: what builds or proves is in a block `sh`, or in one without a word.

The last line is `N wrong`. The status is 0 if N is 0, and otherwise 1. A document without an example is wrong too.
"""
import argparse
import pathlib
import re
import subprocess
import sys
import tempfile

TOP = pathlib.Path(__file__).resolve().parent.parent
DOCUMENTS = ["README.md", "docs/CLI.md", "docs/GUIDE.md", "docs/CALLING.md", "docs/C.md"]
RUST = ["cq_callers", "cq_live_tests", "cq_stored_threads_tests"]
SOURCES = {"rust": [f"crates/{crate}/src/*.rt" for crate in RUST], "c": ["c/*example.c", "c/tests/examples.c"]}


def blocks_of(text):
    """The fenced blocks of a document: the number of its first line, its word, and its lines."""
    word, first, lines, blocks = None, 0, [], []
    for number, line in enumerate(text.splitlines(), 1):
        fence = re.fullmatch(r"```(\w*)", line)
        if fence and word is None:
            word, first, lines = fence[1], number + 1, []
        elif fence:
            blocks.append((first, word, lines))
            word = None
        elif word is not None:
            lines.append(line)
    return blocks


def commands_of(first, lines):
    """The commands of a block: the number of its line, the command, and what it is to print."""
    commands = []
    for number, line in enumerate(lines, first):
        if line.startswith("$ "):
            commands.append((number, line[2:], ""))
        elif commands:
            begun, command, printed = commands[-1]
            commands[-1] = begun, command, printed + line + "\n"
        else:
            commands.append((number, "false", line + "\n"))
    return commands


def run(command, folder, status):
    """What a command prints and its status, after a command with this status."""
    done = subprocess.run(
        ["sh", "-c", f"(exit {status})\n{command}"], cwd=folder, stdin=subprocess.DEVNULL, stdout=subprocess.PIPE,
        stderr=subprocess.STDOUT, env={"PATH": "/usr/bin:/bin", "LC_ALL": "C", "TZ": "UTC"}, timeout=120, check=False)
    return done.stdout.decode(errors="replace"), done.returncode


def is_in(lines, patterns):
    """Whether these lines are in a file of these patterns, one after the other, except for spaces at their start."""
    wanted = "\n".join(line.strip() for line in lines)
    paths = (path for pattern in patterns for path in TOP.glob(pattern))
    texts = ("\n".join(line.strip() for line in path.read_text().splitlines()) for path in paths)
    return any(f"\n{wanted}\n" in f"\n{text}\n" for text in texts)


def try_document(name, program):
    """How many examples a document has, and what is wrong with them."""
    count, status, wrong = 0, 0, []
    with tempfile.TemporaryDirectory() as folder:
        pathlib.Path(folder, "cq").symlink_to(program)
        for first, word, lines in blocks_of((TOP / name).read_text()):
            if word in SOURCES:
                count += 1
                if not is_in(lines, SOURCES[word]):
                    wrong.append(f"{name}:{first}: these lines are not in {' or '.join(SOURCES[word])}")
            elif word == "console":
                for number, command, wanted in commands_of(first, lines):
                    count += 1
                    printed, status = run(command, folder, status)
                    if printed != wanted:
                        wrong.append(f"{name}:{number}: {command}\n  prints {printed!r}\n  and not {wanted!r}")
    if count == 0:
        wrong.append(f"{name}: no example")
    return count, wrong


def main():
    words = argparse.ArgumentParser(description=__doc__, formatter_class=argparse.RawDescriptionHelpFormatter)
    words.add_argument("program", nargs="?", default=TOP / "crates/cq/out/cq", metavar="PROGRAM")
    program = pathlib.Path(words.parse_args().program).resolve()
    if not program.is_file():
        words.error(f"{program} is not there: ./cq race 1 builds it")
    total = []
    for name in DOCUMENTS:
        count, wrong = try_document(name, program)
        print(f"{name}: {count} examples")
        total += wrong
    for line in total:
        print(line)
    print(f"{len(total)} wrong")
    return 1 if total else 0


sys.exit(main())
