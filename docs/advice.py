#!/usr/bin/env python3
"""Makes the table of `cq explain` from ERRORS.md.

    docs/advice.py            writes crates/cq_advice/src/table.rt
    docs/advice.py --check    ends with status 1 if that file is not what would be written

Each text of a row of a table whose first column is "Text" is an entry of three lines: the part of the text that is the same
in each message, the text, and the two other columns, with a tab before each printed line of these.
"""
import pathlib
import re
import sys
import textwrap

DOCS = pathlib.Path(__file__).resolve().parent
TABLE = DOCS.parent / "crates" / "cq_advice" / "src" / "table.rt"
HEAD = """\
// Made by docs/advice.py from docs/ERRORS.md: change that file, and run it again.

/// The faults of `cq`, with what they mean and what to do. Each is three lines: the part of its text that is the same in each
/// message, its text, and what is printed below it, with tabs in place of line feeds.
pub(crate) const TABLE: &str = "\\
"""
# What differs from one message to the next.
VARIABLE = r"(?:\.\.|\b(?:FILE|NAME|INDEX|P|N)\b)"


def plain(cell):
    """The text of a cell without the marks of Markdown."""
    cell = re.sub(r"\[([^]]*)\]\([^)]*\)", r"\1", cell)
    return re.sub(r"\*(\w[^*]*\w)\*", r"\1", cell).replace("`", "").strip()


def fixed(text):
    """The longest part of a fault's text that is the same in each message."""
    return max((part.strip() for part in re.split(VARIABLE, text)), key=len)


def rows(document):
    """The cells of each row of the tables whose first column is "Text"."""
    inside = False
    for line in document.splitlines():
        if not line.startswith("|"):
            inside = False
            continue
        cells = [cell.strip() for cell in line.strip("|").split("|")]
        if cells[0] == "Text":
            inside = True
        elif inside and not cells[0].startswith("---"):
            yield cells


def entries(document):
    """The three lines of each fault."""
    for text, causes, remedy in rows(document):
        body = textwrap.wrap(plain(causes), 92) + textwrap.wrap("What to do: " + plain(remedy), 92)
        for fault in re.findall(r"`([^`]*)`", text):
            yield fixed(fault), fault, "".join("\t  " + line for line in body)


def table(document):
    """The source text of the table."""
    text = HEAD
    for entry in entries(document):
        for line in entry:
            quoted = line.replace("\\", "\\\\").replace('"', '\\"').replace("\t", "\\t")
            text += quoted + "\\n\\\n"
    return text + '";\n'


def main():
    made = table((DOCS / "ERRORS.md").read_text())
    if sys.argv[1:] == ["--check"]:
        if not TABLE.exists() or TABLE.read_text() != made:
            sys.exit("crates/cq_advice/src/table.rt is not made of docs/ERRORS.md: run docs/advice.py")
        return
    TABLE.write_text(made)


if __name__ == "__main__":
    main()
