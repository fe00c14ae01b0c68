#!/usr/bin/env python3
"""Draws pictures of figures: docs/plot.py [FILE [FOLDER]].

FILE has lines of JSON, as `./bench figures` writes them: docs/figures.jsonl if none is given. The pictures go to FOLDER, or to
docs/pictures. `./bench plot` does the same. They are SVG files, which follow the reader's choice of a light or a dark page. Below
each title is of which machine and day the figures are, and whether other work used the processors then. A figure is the best of its
turns. A picture for which the file has no figures says so.
"""
import math
import pathlib
import sys
from html import escape

from figures import COMMANDS, Figures, queues_in

DOCS = pathlib.Path(__file__).resolve().parent

# The series: a name in a text, a color on a light page and one on a dark page.
COLORS = {
    "queue": ("#0969da", "#58a6ff"), "hand": ("#6e7781", "#9da7b1"), "disruptor": ("#bc4c00", "#f0883e"),
    "crossbeam": ("#1a7f37", "#3fb950"), "mpsc": ("#8250df", "#bc8cff"), "moodycamel": ("#bf3989", "#f778ba"),
    "mutex": ("#9a6700", "#d29922"), "pipe": ("#57606a", "#8b949e"), "chronicle": ("#cf222e", "#ff7b72"),
}  # fmt: skip

STYLE = """text { font: 13px system-ui, -apple-system, "Segoe UI", Roboto, sans-serif; fill: #57606a; }
.h { font-weight: 600; font-size: 15px; fill: #1f2328; }
.p { font-weight: 600; fill: #1f2328; }
.n { font-size: 12px; }
.c { text-anchor: middle; }
.r { text-anchor: end; }
.axis { stroke: #6e7781; fill: none; }
.grid { stroke: #d8dee4; fill: none; }
.line { fill: none; stroke-width: 2; }
.own { stroke-width: 3; }
.dashed { stroke-dasharray: 5 4; }
"""

DARK = """text { fill: #9da7b1; }
.h, .p { fill: #f0f3f6; }
.axis { stroke: #9da7b1; }
.grid { stroke: #30363d; }
"""

WIDTH = 860


def style():
    """The style of all pictures: a class of each series for lines, one for areas, and one for texts."""
    rules = ["", ""]
    for page in (0, 1):
        for name, colors in COLORS.items():
            color = colors[page]
            rules[page] += f".s-{name} {{ stroke: {color}; }} .f-{name} {{ fill: {color}; }}\n"
    return f"<style>\n{STYLE}{rules[0]}@media (prefers-color-scheme: dark) {{\n{DARK}{rules[1]}}}\n</style>\n"


def number(value):
    """A number as a short text: three digits that count."""
    if value >= 1e6:
        return f"{number(value / 1e6)}M"
    if value >= 1000:
        return f"{value:,.0f}"
    digits = 0 if value >= 100 else 1 if value >= 10 else 2
    text = f"{value:.{digits}f}"
    return text.rstrip("0").rstrip(".") if "." in text else text


def text(x, y, words, *classes):
    names = f' class="{" ".join(classes)}"' if classes else ""
    return f'<text x="{x:.1f}" y="{y:.1f}"{names}>{escape(words)}</text>\n'


def stroke(points, *classes):
    places = " ".join(f"{x:.1f},{y:.1f}" for x, y in points)
    return f'<polyline points="{places}" class="{" ".join(classes)}"/>\n'


class Scale:
    """Where a value is on an axis, which has a mark for each power of ten, or at equal steps from zero."""

    def __init__(self, values, begin, end, is_log):
        self.begin, self.end, self.is_log = begin, end, is_log
        low, high = min(values), max(values)
        if is_log:
            self.low, self.high = math.floor(math.log10(low)), max(math.ceil(math.log10(high)), math.floor(math.log10(low)) + 1)
            self.marks = [10.0**power for power in range(self.low, self.high + 1)]
        else:
            step = 10 ** math.floor(math.log10(high))
            step = next(part * step for part in (0.2, 0.5, 1, 2) if high / (part * step) <= 6)
            self.low, self.high = 0, math.ceil(high / step) * step
            self.marks = [step * count for count in range(round(self.high / step) + 1)]

    def __call__(self, value):
        place = math.log10(value) if self.is_log else value
        return self.begin + (place - self.low) / (self.high - self.low) * (self.end - self.begin)


class Series:
    """The figures of one program: its name, the class of its color, a value or none for each place, and how it is drawn."""

    def __init__(self, name, color, values, is_dashed=False):
        self.name, self.color, self.values = name, color, values
        self.classes = ["line", f"s-{color}", *(["own"] if color == "queue" else []), *(["dashed"] if is_dashed else [])]

    def is_there(self):
        return any(value is not None for value in self.values)


class Panel:
    """Lines over a few places: a title, the texts below the places, and the series."""

    def __init__(self, title, places, series):
        self.title, self.places, self.series = title, places, [one for one in series if one.is_there()]

    def values(self):
        return [value for one in self.series for value in one.values if value is not None]

    def draw(self, left, right, scale, has_marks):
        """Draws the panel between these places. The marks of the scale have numbers if it is the first one."""
        drawn = text(left, scale.end - 14, self.title, "p")
        for mark in scale.marks:
            drawn += stroke([(left, scale(mark)), (right, scale(mark))], "grid")
            drawn += text(left - 6, scale(mark) + 4, number(mark), "n", "r") if has_marks else ""
        inset = (right - left) / (2 * len(self.places))
        xs = [left + inset + (right - left - 2 * inset) * count / max(1, len(self.places) - 1) for count in range(len(self.places))]
        for x, place in zip(xs, self.places):
            drawn += text(x, scale.begin + 18, place, "n", "c")
        # Ours comes last, so that it is above the others.
        for one in sorted(self.series, key=lambda one: one.color == "queue"):
            points = [(x, scale(value)) for x, value in zip(xs, one.values) if value is not None]
            drawn += stroke(points, *one.classes)
            drawn += "".join(f'<circle cx="{x:.1f}" cy="{y:.1f}" r="3.5" class="f-{one.color}"/>\n' for x, y in points)
        return drawn


def legend(series, top):
    """The names of the series, each after a piece of its line."""
    drawn, x = "", 24.0
    for one in series:
        width = 52 + 7.4 * len(one.name)
        if x + width > WIDTH - 10:
            x, top = 24.0, top + 20
        drawn += stroke([(x, top - 4), (x + 24, top - 4)], *one.classes) + text(x + 30, top, one.name)
        x += width
    return drawn, top


def page(figures, title, said, body, height):
    """A picture with this title and a text for those who do not see it."""
    head = figures.head
    origin = f"{head.get('machine', 'machine not named')}, {head.get('processors', '?')} processors, {head.get('date', 'no date')}"
    if figures.is_busy():
        origin += f". Other work used {head.get('in_use', 1):.0%} of them: no figures to go by"
    return (
        f'<svg xmlns="http://www.w3.org/2000/svg" viewBox="0 0 {WIDTH} {height:.0f}" width="{WIDTH}" height="{height:.0f}" role="img" '
        f'aria-labelledby="t d">\n<title id="t">{escape(title)}</title>\n<desc id="d">{escape(said)}</desc>\n{style()}'
        f"{text(24, 28, title, 'h')}{text(24, 48, origin, 'n')}{body}</svg>\n"
    )


def empty(figures, title):
    """A picture that says that there are no figures for it."""
    said = "The file has no such figures."
    return page(figures, title, said, text(24, 78, said), 96)


def said_of(panels, unit):
    """The figures of panels in words."""
    sentences = []
    for panel in panels:
        for one in panel.series:
            values = ", ".join(f"{place}: {number(value)}" for place, value in zip(panel.places, one.values) if value is not None)
            sentences.append(f"{panel.title}, {one.name}: {values}.")
    return f"In {unit}. " + " ".join(sentences)


def lines(figures, title, unit, panels, is_log=True):
    """A picture of panels with lines, over one scale."""
    panels = [panel for panel in panels if panel.series]
    if not panels:
        return empty(figures, title)
    names = {one.name: one for panel in panels for one in panel.series}
    drawn, bottom = legend(names.values(), 78)
    top, base = bottom + 62, bottom + 322
    scale = Scale([value for panel in panels for value in panel.values()], base, top, is_log)
    drawn += text(24, bottom + 26, f"{unit}; from line to line it is ten times as much" if is_log else unit, "n")
    space = (WIDTH - 76 - 20) / len(panels)
    for count, panel in enumerate(panels):
        drawn += panel.draw(76 + count * space, 76 + (count + 1) * space - 24, scale, count == 0)
    return page(figures, title, said_of(panels, unit), drawn, base + 34)


def bars(figures, title, unit, panels):
    """A picture of panels with bars, over one scale from zero. A series has one value."""
    panels = [panel for panel in panels if panel.series]
    if not panels:
        return empty(figures, title)
    names = list(dict.fromkeys((one.name, one.color) for panel in panels for one in panel.series))
    drawn, space = text(24, 78, unit, "n"), (WIDTH - 120) / len(panels)
    longest = max(value for panel in panels for value in panel.values())
    for row, (name, _) in enumerate(names):
        drawn += text(110, 126 + 26 * row, name, "r", *(["p"] if row == 0 else []))
    for count, panel in enumerate(panels):
        left = 120 + count * space
        drawn += text(left, 102, panel.title, "p")
        drawn += stroke([(left, 108), (left, 116 + 26 * len(names))], "axis")
        shown = {one.name: one for one in panel.series}
        for row, (name, color) in enumerate(names):
            if name in shown:
                value = shown[name].values[0]
                width = max(1.0, value / longest * (space - 76))
                drawn += f'<rect x="{left:.1f}" y="{113 + 26 * row}" width="{width:.1f}" height="18" class="f-{color}"/>\n'
                drawn += text(left + width + 5, 126 + 26 * row, number(value), "n")
    return page(figures, title, said_of(panels, unit), drawn, 128 + 26 * len(names))


def spans(figures, title, unit, rows):
    """A picture of rows with two values each, over one scale of powers of ten: half of the times and nearly all of them."""
    rows = [(name, color, values) for name, color, values in rows if None not in values]
    if not rows:
        return empty(figures, title)
    scale = Scale([value for _, _, values in rows for value in values], 120, WIDTH - 60, True)
    bottom, drawn = 100 + 28 * len(rows), text(24, 78, unit, "n")
    for mark in scale.marks:
        drawn += stroke([(scale(mark), 92), (scale(mark), bottom)], "grid") + text(scale(mark), bottom + 18, number(mark), "n", "c")
    for row, (name, color, (half, most)) in enumerate(rows):
        y = 112 + 28 * row
        drawn += text(110, y + 4, name, "r", *(["p"] if color == "queue" else []))
        drawn += stroke([(scale(half), y), (scale(most), y)], "line", f"s-{color}", *(["own"] if color == "queue" else []))
        drawn += f'<circle cx="{scale(half):.1f}" cy="{y}" r="6" class="f-{color}"/>\n'
        drawn += stroke([(scale(most), y - 7), (scale(most), y + 7)], "line", "own", f"s-{color}")
        drawn += text(scale(most) + 8, y + 4, f"{number(half)}, {number(most)}", "n")
    said = f"In {unit}. " + " ".join(f"{name}: {number(half)} and {number(most)}." for name, _, (half, most) in rows)
    return page(figures, title, said, drawn, bottom + 34)


def queues(figures, case, payload, threads):
    """A series for each queue between threads, with a value for each of these."""
    return [
        Series(name, "queue" if impl == "cq" else impl, [in_millions(figures.best("queues", impl, case, payload, one)) for one in threads])
        for impl, name in queues_in(figures).items()
    ]


def in_millions(rate):
    return None if rate is None else rate / 1e6


def draw_sizes(figures):
    sizes = [8, 64, 256, 1024, 4096]
    panels = []
    for case, title in (("append", "append"), ("read", "read, as owned copies"), ("read_into", "read into a buffer")):
        series = [
            Series(name, color, [in_millions(figures.best("ratio", impl, case, size, "1")) for size in sizes])
            for impl, name, color in (("cq", "Queue", "queue"), ("hand", "the same protocol in C", "hand"))
        ]
        panels.append(Panel(title, [f"{size:,}" for size in sizes], series))
    return lines(figures, "One thread, by the bytes of a message", "million messages a second", panels)


def draw_crews(figures):
    sizes = [8, 64, 256, 1024, 4096]
    panels = []
    for case, title in (("append", "append"), ("read", "read, as owned copies"), ("read_into", "read into a buffer")):
        series = [
            Series(name, color, [in_millions(figures.best("ratio", "cq", case, size, threads)) for size in sizes])
            for threads, name, color in (("1", "1 thread", "queue"), ("2", "2 threads", "mpsc"), ("4", "4 threads", "moodycamel"))
        ]
        panels.append(Panel(title, [f"{size:,}" for size in sizes], series))
    return lines(figures, "Threads on one queue, by the bytes of a message", "million messages a second of all threads", panels)


def draw_threads(figures):
    panels = [Panel(f"{size} bytes", ["1", "2", "4"], queues(figures, "append", size, ["1", "2", "4"])) for size in (8, 64, 256)]
    return lines(figures, "Appends, by the number of threads that append", "million messages a second", panels)


def draw_flow(figures):
    crews = (("1to1", "1 to 1"), ("1to3", "1 to 3, each gets all"), ("3to1", "3 to 1"))
    panels = [Panel(title, ["64 bytes"], queues(figures, "flow", 64, [threads])) for threads, title in crews]
    return bars(figures, "Appends and reads at once, 64 bytes", "million messages a second", panels)


def draw_ping(figures):
    rows = [
        (name, "queue" if impl == "cq" else impl, [figures.best("queues", impl, case, 64, "1to1") for case in ("ping_p50", "ping_p99")])
        for impl, name in queues_in(figures).items()
    ]
    return spans(figures, "From an append to its read by another thread", "nanoseconds: half of them (dot), 99 of 100 (bar)", rows)


def draw_growth(figures):
    panels = []
    for case, title in (("growth", "by one appender"), ("cold_append", "each by a new appender")):
        series = [
            Series(name, color, [figures.best("ratio", impl, f"{case}_{eighth}8th", 8, "1") for eighth in ("first", "last")])
            for impl, name, color in (("cq", "Queue", "queue"), ("hand", "the same protocol in C", "hand"))
        ]
        panels.append(Panel(title, ["first eighth of a cycle", "last eighth"], series))
    return lines(figures, "An append of 8 bytes, early and late in a cycle", "nanoseconds", panels, is_log=False)


def draw_stored(figures):
    kinds = (
        ("cq", "Queue, two syncs", "queue", False), ("cq --one-sync", "Queue, one sync", "queue", True),
        ("append_sync", "plain file", "hand", False), ("sqlite_wal", "SQLite", "disruptor", False), ("lmdb", "LMDB", "crossbeam", False),
    )  # fmt: skip
    panels = []
    for title, cases in (
        ("by the messages of a batch, one thread", [(1, 1), (10, 1), (100, 1), (1000, 1)]),
        ("by the number of threads, batches of 1", [(1, 1), (1, 4), (1, 16)]),
    ):
        places = [f"{batch if 'batch,' in title else threads:,}" for batch, threads in cases]
        series = [
            Series(name, color, [figures.best_stored(impl, *case) for case in cases], is_dashed) for impl, name, color, is_dashed in kinds
        ]
        panels.append(Panel(title, places, series))
    return lines(figures, "Messages of 64 bytes that are stored", "messages a second", panels)


def draw_program(figures):
    panels = []
    for case, title in COMMANDS.items():
        series = [
            Series(name, color, [figures.best("program", impl, case)])
            for impl, name, color in (("cq", "cq", "queue"), ("sqlite3", "sqlite3", "disruptor"))
        ]
        panels.append(Panel(title, ["ms"], series))
    return rows_of_bars(figures, "The program on 60,000 lines of 60 bytes", "milliseconds, each pair on a scale of its own", panels)


def rows_of_bars(figures, title, unit, panels):
    """A picture of bars below each other, each group over a scale of its own."""
    panels = [panel for panel in panels if panel.series]
    if not panels:
        return empty(figures, title)
    drawn, y = text(24, 78, unit, "n"), 98
    for panel in panels:
        drawn += text(24, y + 14, panel.title, "p")
        longest = max(panel.values())
        for one in panel.series:
            width = max(1.0, one.values[0] / longest * 440)
            drawn += text(300, y + 14, one.name, "r")
            drawn += f'<rect x="310" y="{y}" width="{width:.1f}" height="18" class="f-{one.color}"/>\n'
            drawn += text(315 + width, y + 14, number(one.values[0]), "n")
            y += 22
        y += 12
    return page(figures, title, said_of(panels, unit), drawn, y + 4)


# The pictures, and what draws each.
PICTURES = {
    "figures_sizes.svg": draw_sizes, "figures_crews.svg": draw_crews, "figures_threads.svg": draw_threads,
    "figures_flow.svg": draw_flow, "figures_ping.svg": draw_ping, "figures_growth.svg": draw_growth,
    "figures_stored.svg": draw_stored, "figures_program.svg": draw_program,
}  # fmt: skip


def faults(figures, folder=DOCS / "pictures"):
    """What is wrong with the pictures in a folder: those that are not what the figures make."""
    wrong = []
    for name, draw in PICTURES.items():
        path, wanted = folder / name, draw(figures)
        found = path.read_text(encoding="utf-8") if path.exists() else None
        if found != wanted:
            wrong.append(f"{name}: it is not the picture of the file")
    return wrong


def main(words):
    if len(words) > 2:
        print(__doc__, file=sys.stderr)
        return 2
    path = pathlib.Path(words[0]) if words else DOCS / "figures.jsonl"
    if not path.is_file():
        sys.exit(f"{path} is not there: ./bench figures writes such a file")
    figures = Figures(path)
    folder = pathlib.Path(words[1]) if len(words) == 2 else DOCS / "pictures"
    folder.mkdir(parents=True, exist_ok=True)
    for name, draw in PICTURES.items():
        (folder / name).write_text(draw(figures), encoding="utf-8")
        print(folder / name)
    return 0


if __name__ == "__main__":
    sys.exit(main(sys.argv[1:]))
