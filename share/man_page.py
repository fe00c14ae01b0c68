#!/usr/bin/env python3
"""Prints the page of the manual on cq: share/man_page.py PROGRAM VERSION.

Its text is the help of the program PROGRAM, and the tables of docs/ERRORS.md. So it says what they say.
"""
import pathlib
import re
import subprocess
import sys

TOP = pathlib.Path(__file__).resolve().parent.parent

HEAD = """.TH CQ 1 "" "linnetshelf {version}" "User commands"
.SH NAME
cq \\- an append journal in folders of files
.SH SYNOPSIS
.B cq
.I COMMAND
.RI [ ARGUMENTS ]
.br
.B cq
.B \\-\\-version
.SH DESCRIPTION
A command on a queue reads the files of its folder, does its work, saves what changed, and prints.
Commands that change a folder run one at a time; the others share it.
A message is a line of the input without its LF, unless an option of write says otherwise.
A last line without LF counts. All other bytes are kept.
.SH COMMANDS
"""

TAIL = """.SH FILES
.TP
.I DIR/queue.cqc
The settings of the queue, the position of each name, and the floor.
.TP
.I DIR/*.cqi
The image of a cycle, named by its time.
.TP
.I DIR/*.cqi.bad
What repair kept of an image with a fault.
.TP
.I DIR/queue.save
The record of a save that was cut short. The next command that changes the folder finishes it.
.TP
.I DIR/queue.log
The log of a queue that a program keeps open, or kept open when it ended.
.SH EXIT STATUS
.TP
.B 0
The command was done.
.TP
.B 1
The command failed. Its fault is on standard error.
.TP
.B 2
The command line is not understood, or asks for help.
.TP
.B 4
A take with an option found no message, and printed nothing.
.SH FAULTS
A command that fails prints \\(lqcq: \\(rq and one of these texts.
"""


def help_of(program, *words):
    """Returns the help that the program prints on standard error."""
    ran = subprocess.run([program, *words, "--help"], capture_output=True, text=True, check=False)
    if ran.returncode != 2 or "Usage:" not in ran.stderr:
        sys.exit(f"man_page.py: {program} prints no help for {' '.join(words) or 'itself'}")
    return ran.stderr


def commands_of(text):
    """Returns the names of the commands in the program's help."""
    block = text.split("Commands:\n", 1)[1].split("\n\n", 1)[0]
    return [name for name in re.findall(r"^  (\S+)", block, re.M) if name != "help"]


def troff(text):
    """Returns a text as troff reads it: nothing in it is a command."""
    text = text.replace("\\", "\\e").replace("-", "\\-").replace("'", "\\(aq").replace("`", "\\(ga")
    return re.sub(r"^([.])", r"\\&\1", text, flags=re.M)


def plain(text):
    """Returns a text of a document without its marks."""
    return re.sub(r"\[([^]]*)\]\([^)]*\)", r"\1", text).replace("`", "")


def items(lines):
    """Returns the tagged paragraphs of a block of arguments or options, without `--help`. Later lines are indented."""
    found = []
    for line in lines:
        item = re.match(r" {2,6}(\S.*?) {2,}(\S.*)$", line)
        if item and len(line) - len(line.lstrip()) <= 6:
            found.append([item[1], item[2]])
        else:
            found[-1][1] += " " + line.strip()
    return "".join(f".TP\n.B {troff(tag)}\n{troff(text)}\n" for tag, text in found if text != "Print help")


def command_page(program, name):
    """Returns the section on a command."""
    blocks = help_of(program, name).strip("\n").split("\n\n")
    page = [f".SS {name}\n", f"{troff(blocks[0])}.\n"]
    for block in blocks[1:]:
        head, *lines = block.split("\n")
        if head.startswith("Usage: "):
            page.append(f".PP\n.B {troff(head.removeprefix('Usage: '))}\n")
        elif head in ("Arguments:", "Options:"):
            page.append(items(lines))
        elif head in ("Example:", "Examples:"):
            page.append(".PP\n.EX\n" + "".join(f"{troff(line)}\n" for line in lines) + ".EE\n")
        else:
            page.append(f".PP\n{troff(block)}\n")
    return "".join(page)


def faults():
    """Returns the tables of faults as tagged paragraphs. The statuses of the library for C come after them, and are left out."""
    text = (TOP / "docs" / "ERRORS.md").read_text(encoding="utf-8").split("\n## Statuses", 1)[0]
    rows = re.findall(r"^\| (`.+?`) \| (.*) \| (.*) \|$", text, re.M)
    if not rows:
        sys.exit("man_page.py: docs/ERRORS.md has no table of faults")
    page = ".TP\n.B {}\n{}\n.br\nTo do: {}\n"
    return "".join(page.format(*(troff(plain(cell)) for cell in row)) for row in rows)


def main():
    if len(sys.argv) != 3:
        sys.exit(__doc__.strip())
    program, version = sys.argv[1:]
    names = commands_of(help_of(program))
    print(HEAD.format(version=version), *[command_page(program, name) for name in names], TAIL, faults(), sep="", end="")


if __name__ == "__main__":
    main()
