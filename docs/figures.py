#!/usr/bin/env python3
"""Makes the tables of figures in the documents from a file of lines: docs/figures.py [--check] [FILE].

FILE is docs/figures.jsonl if none is given: `./bench figures` writes such a file. A table is between two lines of a document:

    <!-- figures: NAME -->
    <!-- end of figures -->

With --check nothing is changed. The last line is `N wrong`, and the status is 1 if N is not 0: a table is not the one that the file
makes, or a document has no place for it, or a picture is not the one that the file makes (docs/plot.py). Without FILE nothing is
compared.

Figures that were made while other work used the processors are for pictures, which say so. No table is made of them: then a check
looks only whether each table has its place, and the rows and columns that it should.
"""
import argparse
import json
import pathlib
import re
import statistics
import sys

DOCS = pathlib.Path(__file__).resolve().parent
TOP = DOCS.parent

# From this share of the processors on, other work counts.
BUSY = 0.05


class Figures:
    """The figures of a file: of each part and row, those of all turns."""

    def __init__(self, path):
        self.head, self.rates, self.stored = {}, {}, {}
        for text in path.read_text(encoding="utf-8").splitlines():
            line = json.loads(text)
            if line["part"] == "head":
                self.head = line
            elif line["part"] == "stored":
                self.stored.setdefault((line["impl"], line["batch"], line["threads"]), []).append(line)
            else:
                row = line["part"], line["impl"], line["case"], line.get("payload"), line.get("threads")
                # A case in which something was refused has no figure.
                if "value" in line:
                    self.rates.setdefault(row, []).append((line["value"], line["unit"]))

    def is_busy(self):
        """Whether other work used the processors too."""
        return self.head.get("in_use", 1) >= BUSY

    def turns(self, part, impl, case, payload=None, threads=None):
        """The figures of all turns."""
        return [value for value, _ in self.rates.get((part, impl, case, payload, threads), [])]

    def best(self, part, impl, case, payload=None, threads=None):
        """The best figure of the turns: the highest rate or the lowest time. Of quotients the middle one. None if there is none."""
        values = self.turns(part, impl, case, payload, threads)
        if not values:
            return None
        unit = self.rates[part, impl, case, payload, threads][0][1]
        if unit == "ratio":
            return statistics.median(values)
        return max(values) if unit == "msg/s" else min(values)

    def best_stored(self, impl, batch, threads):
        """The most messages a second that a turn stored. None if there is none."""
        turns = self.stored.get((impl, batch, threads))
        return max(line["messages_per_second"] for line in turns) if turns else None

    def has_ours(self, part):
        """Whether there are figures of the queue in this part."""
        return any(impl == "cq" for impl, *_ in self.stored) if part == "stored" else any(row[:2] == (part, "cq") for row in self.rates)


def in_millions(rate):
    return "-" if rate is None else f"{rate / 1e6:.{1 if rate >= 1e6 else 2}f}"


def share(own, other):
    return "-" if own is None or other is None else f"{own / other:.2f}"


def ratio_table(figures):
    """The queue and the same protocol in C, by one thread."""
    rows = [["Case", "Bytes", "Queue, million/s", "C", "Queue / C"]]
    sizes = {"append": [8, 64, 1024], "read": [8, 64, 1024], "read_into": [8, 64, 1024], "read_at": [64]}
    for case, payloads in sizes.items():
        for payload in payloads:
            own, other = (figures.best("ratio", impl, case, payload, "1") for impl in ("cq", "hand"))
            rows.append([case, f"{payload:,}", in_millions(own), in_millions(other), share(own, other)])
    return rows


def other_table(figures):
    """The other sizes, as shares of the C program's speed."""
    rows = [["Case", "256 bytes", "4,096 bytes"]]
    for case in ("append", "read", "read_into"):
        pairs = [[figures.best("ratio", impl, case, payload, "1") for impl in ("cq", "hand")] for payload in (256, 4096)]
        rows.append([f"`{case}`", *(share(own, other) for own, other in pairs)])
    return rows


# The cases by numbers of threads that the C program has too: name, bytes and threads.
BY_THREADS = [
    *((case, payload, threads) for case in ("append", "read", "read_into") for threads in ("1", "2", "4") for payload in (8, 64)),
    *(("flow", payload, threads) for threads in ("1to1", "1to3", "3to1") for payload in (64, 1024)),
]  # fmt: skip


def spread_of(turns):
    """How far the lowest and the highest of some turns are apart, in percent of the middle one."""
    return "-" if not turns else f"{100 * (max(turns) - min(turns)) / statistics.median(turns):.0f} %"


def threads_table(figures):
    """The queue and the same protocol in C, by one thread and several: the middle turns, and how far turns are apart."""
    rows = [["Case", "Bytes", "Threads", "Queue, million/s", "C", "Queue / C", "Spread", "Spread of C"]]
    for case, payload, threads in BY_THREADS:
        own, other = (figures.turns("ratio", impl, case, payload, threads) for impl in ("cq", "hand"))
        middle, middle_of_c = (statistics.median(turns) if turns else None for turns in (own, other))
        row = [f"`{case}`", f"{payload:,}", threads.replace("to", " to "), in_millions(middle), in_millions(middle_of_c)]
        rows.append([*row, share(middle, middle_of_c), spread_of(own), spread_of(other)])
    return rows


def stored_table(figures):
    """Messages that are stored, a second."""
    impls = {"Queue, two syncs": "cq", "Queue, one sync": "cq --one-sync", "File": "append_sync", "SQLite": "sqlite_wal", "LMDB": "lmdb"}
    rows = [["Batch", "Threads", *impls]]
    for batch, threads in ((1, 1), (10, 1), (100, 1), (1000, 1), (1, 4), (1, 16)):
        rates = [figures.best_stored(impl, batch, threads) for impl in impls.values()]
        rows.append([f"{batch:,}", str(threads), *("-" if rate is None else f"{rate:,.0f}" for rate in rates)])
    return rows


# The cases of queues between threads: name, bytes and threads.
BETWEEN = [
    *(("append", payload, threads) for threads in ("1", "2", "4") for payload in (8, 64, 256)),
    *(("read_into", payload, "1") for payload in (8, 64, 256)),
    *(("flow", payload, threads) for threads in ("1to1", "1to3", "3to1") for payload in (64, 1024)),
    ("ping_p50", 64, "1to1"), ("ping_p99", 64, "1to1"),
]  # fmt: skip

# The queues between threads: names in a file, and in a text.
QUEUES = {
    "cq": "Queue", "chronicle": "Chronicle", "disruptor": "Disruptor", "crossbeam": "crossbeam", "mpsc": "mpsc",
    "moodycamel": "moodycamel", "mutex": "mutex", "pipe": "pipe",
}  # fmt: skip


def queues_in(figures):
    """Ours, and the other queues between threads of which there are figures: their names in a text, by those in a file."""
    measured = {"cq"} | {impl for part, impl, *_ in figures.rates if part == "queues"}
    return {impl: name for impl, name in QUEUES.items() if impl in measured}


def cell_of(own, value, is_time):
    """A figure, and how many times as fast as ours it is."""
    if value is None:
        return "-"
    shown = f"{value:,.0f} ns" if is_time else in_millions(value)
    return f"{shown} ({share(own, value) if is_time else share(value, own)})"


def queues_table(figures):
    """Queues between threads: million messages a second, or nanoseconds of a ping, and how many times as fast as ours that is."""
    queues = queues_in(figures)
    rows = [["Case", "Bytes", "Threads", *queues.values()]]
    for case, payload, threads in BETWEEN:
        own, *others = (figures.best("queues", impl, case, payload, threads) for impl in queues)
        is_time = case.startswith("ping")
        cells = [cell_of(own, value, is_time) for value in others]
        rows.append([f"`{case}`", f"{payload:,}", threads.replace("to", " to "), cell_of(None, own, is_time).removesuffix(" (-)"), *cells])
    return rows


# What commands do, in a file and in a text.
COMMANDS = {
    "write": "write 60,000 lines", "read": "read them", "read_last": "read the last one", "write_one": "write one more",
    "take": "take one", "take_100": "take 100, by 100 commands",
}  # fmt: skip


def program_table(figures):
    """The program and sqlite3, in milliseconds."""
    rows = [["Milliseconds", "`cq`", "`sqlite3`", "Times as fast"]]
    for case, text in COMMANDS.items():
        own, other = (figures.best("program", impl, case) for impl in ("cq", "sqlite3"))
        rows.append([text, *("-" if value is None else f"{value:,.1f}" for value in (own, other)), share(other, own)])
    return rows


# The tables of each document.
TABLES = {
    "README.md": {"ratio": ratio_table},
    "docs/MEASURED.md": {"other": other_table, "threads": threads_table, "queues": queues_table, "program": program_table, "stored": stored_table},
}

# The part of the file that a table is made of, where it has another name.
PARTS = {"other": "ratio", "threads": "ratio"}

# What is said before a table, with an empty line between.
BEFORE = {
    "threads": (
        "**By the number of threads**, in million messages a second: the middle of three turns of `./bench ratio`, each the best of ten rounds\n"
        "of three repetitions. The turns go round by round. Each message counts once for each tailer that reads it, but in `flow` once.\n"
        "The last columns say how far the turns of each are apart, in percent of the middle one. Nothing else ran on the machine, but it is a\n"
        "virtual one:"
    ),
    "queues": (
        "**Queues between threads**, in million messages a second: the best of three turns of `./bench peers`. The last two rows say in\n"
        "which time half of the messages, and 99 of 100, came to another thread. In brackets is how many times as fast as the queue that is:"
    ),
    "program": (
        "**The program** on 60,000 lines of 60 bytes, and `sqlite3` on the same: the best of three turns of `bench_peers/program`. The last\n"
        "column says how many times as fast `cq` is:"
    ),
}


def text_of(table, rows):
    """What is between the two lines of a document: the rows as a table, with the first one as its head."""
    before = [BEFORE[table], ""] if table in BEFORE else []
    lines = ["| " + " | ".join(row) + " |" for row in rows]
    return "\n".join([*before, lines[0], "|" + "---|" * len(rows[0]), *lines[1:]]) + "\n"


def place_of(name):
    """The pattern of a table in a document: the line before it, the table, and the line after it."""
    return re.compile(rf"(<!-- figures: {name} -->\n)(.*?)(<!-- end of figures -->\n)", re.DOTALL)


def form_of(table):
    """What a table has besides its figures: the head, and the words and numbers that name a row."""
    lines = [line for line in table.splitlines() if line.startswith("|")]
    names = 0 if not lines else sum(cell.strip() in ("Case", "Bytes", "Batch", "Threads", "Milliseconds") for cell in lines[0].split("|"))
    return [lines[:1], *([cell.strip() for cell in line.split("|")[1 : names + 1]] for line in lines[2:])]


def fault_of(found, wanted, figures):
    """What is wrong with a table, if anything is. A table that has not been made yet is empty."""
    if figures.is_busy():
        return "its rows or columns are others" if found and form_of(found) != form_of(wanted) else None
    return "it is not the table of the file" if found != wanted else None


def try_document(name, figures, is_check):
    """Makes the tables of a document, or looks at them. Returns what is wrong with them."""
    path, wrong = TOP / name, []
    text = path.read_text(encoding="utf-8")
    for table, make in TABLES[name].items():
        place, wanted = place_of(table), text_of(table, make(figures))
        places, fault = place.findall(text), None
        if len(places) != 1:
            fault = f"there are {len(places)} places for it"
        elif not figures.has_ours(PARTS.get(table, table)):
            fault = "the file has no figures of the queue for it"
        elif is_check:
            fault = fault_of(places[0][1], wanted, figures)
        else:
            text = place.sub(lambda found, wanted=wanted: found[1] + wanted + found[3], text)
        wrong += [f"{name}: the table {table}: {fault}"] if fault else []
    if not is_check:
        path.write_text(text, encoding="utf-8")
    return wrong


def main():
    words = argparse.ArgumentParser(description=__doc__, formatter_class=argparse.RawDescriptionHelpFormatter)
    words.add_argument("--check", action="store_true")
    words.add_argument("file", nargs="?", default=DOCS / "figures.jsonl", metavar="FILE", type=pathlib.Path)
    given = words.parse_args()
    if not given.file.is_file():
        print(f"{given.file} is not there: ./bench figures writes such a file")
        if given.check:
            print("0 wrong")
        return 0 if given.check else 1
    figures = Figures(given.file)
    if figures.is_busy() and not given.check:
        print(f"{given.file}: no table is made: other work used {figures.head.get('in_use', 1):.0%} of the processors")
        return 1
    wrong = [line for name in TABLES for line in try_document(name, figures, given.check)]
    if given.check:
        import plot

        wrong += plot.faults(figures)
        if figures.is_busy():
            print("the figures of the tables are not compared: other work used the processors when the file was made")
    for line in wrong:
        print(line)
    print(f"{len(wrong)} wrong")
    return 1 if wrong else 0


if __name__ == "__main__":
    sys.exit(main())
