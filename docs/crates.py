#!/usr/bin/env python3
"""Draws the groups of crates, which MAP.md has, as docs/pictures/crates.svg, and writes the index of names at the end of MAP.md.

    docs/crates.py [--check]

With --check nothing is written. What is wrong is printed: a crate of crates.txt that is in no group or in several, a name in a group
that is no crate, a picture that is not the one that would be drawn, and an index that is not the one that would be written. The last
line is `N wrong`, and the status is 1 if there is any.
"""

import collections
import functools
import pathlib
import re
import sys
import textwrap

TOP = pathlib.Path(__file__).resolve().parent.parent
MAP = TOP / "docs" / "MAP.md"
PICTURE = TOP / "docs" / "pictures" / "crates.svg"

# The index of names is between these lines of MAP.md. A name that this number of crates declare is left out of it. A word that is no
# declared name is in it if one file alone has it, on at least this number of lines. No line is longer than this, in letters.
FIRST, LAST = "<!-- names: made by docs/crates.py -->", "<!-- end of the names -->"
CRATES, LINES, LONGEST = 3, 2, 130

ITEM = re.compile(r'\s*(?:pub(?:\((?:crate|super)\))? )?(?:(?:const|unsafe|extern "C") )*(fn|struct|enum|trait|type|const|static) (\w+)')
VARIANT = re.compile(r"    ([A-Z]\w*)(?:[({,]| [{=]|$)")
DEFINITION = re.compile(r"(?:(?:abbrev|unfoldable) )?pub (?:(?:record|data) )?(\w+)\b")
QUOTED = re.compile(r'\'(?:[^\'\\\n]|\\[^\'\n]+)\'|"(?:[^"\\]|\\.)*"', re.S)
IMPORT = re.compile(r"\s*(?:ghost )?(?:pub(?:\((?:crate|super)\))? )?(?:use|mod)\b")

# What is said of each group next to its name.
SAYS = {
    "Format": "headers, cells, cycles, records, images (dashed: cq_image uses cq_shown)",
    "Model": "states and legal histories",
    "Shared words": "invariant and atomic steps",
    "Calls": "append, read, take, endpoints, shelves",
    "One caller": "a queue without sharing",
    "Folder": "queue.cqc, saves",
    "Journal": "survives a crash",
    "Program": "the commands of cq",
    "C": "the library",
    "Tests": "",
}
CORE = {"One caller", "Calls", "Shared words", "Model", "Format"}

# In pixels: of a letter of a crate's name, between lines, from a box's top to its first line, and between boxes.
LETTER, LINE, HEAD, GAP = 7.25, 19, 48, 34
LEFT, WIDE, HIGH = 20, 860, 16

HEADER = """<svg xmlns="http://www.w3.org/2000/svg" viewBox="0 0 {wide} {high}" width="{wide}" height="{high}" role="img" aria-labelledby="t d">
<title id="t">The groups of crates</title>
<desc id="d">An arrow leads from a group to one that it uses; most arrows that follow from others are left out. C uses Program and One
caller. Program uses One caller, Folder and Journal. One caller uses Calls, Calls use Shared words, Shared words and Folder use Model,
Model uses Format. Journal uses Folder, Calls and Model. In Format the crate cq_image also uses cq_shown of Shared words. Tests use all
groups but C.</desc>
<style>
text {{ font: 13px system-ui, -apple-system, "Segoe UI", Roboto, sans-serif; fill: #1f2328; }}
.h {{ font-weight: 600; font-size: 15px; }}
.m {{ font: 12px ui-monospace, SFMono-Regular, Menlo, Consolas, monospace; }}
rect {{ stroke: #6e7781; fill: #f6f8fa; }}
.core {{ fill: #ddf4ff; }}
.line {{ fill: none; stroke: #6e7781; stroke-width: 1.5; }}
.tip {{ fill: #6e7781; }}
@media (prefers-color-scheme: dark) {{
  text {{ fill: #f0f3f6; }}
  rect {{ stroke: #9da7b1; fill: #21262d; }}
  .core {{ fill: #0c2d4d; }}
  .line {{ stroke: #9da7b1; }}
  .tip {{ fill: #9da7b1; }}
}}
</style>
<defs><marker id="a" viewBox="0 0 8 8" refX="7" refY="4" markerWidth="8" markerHeight="8" orient="auto"><path class="tip" d="M0 0 8 4 0 8z"/></marker></defs>
"""


def groups():
    """Returns the crates of each group, in the order of MAP.md. A group ends at the next heading."""
    found, names = {}, []
    for line in MAP.read_text(encoding="utf-8").splitlines():
        entry = re.match(r"- `(\w+)`:", line)
        if re.match(r"#+ ", line):
            group = next((it for it in SAYS if re.match(rf"### {it}\b", line)), None)
            names = found.setdefault(group, []) if group else []
        elif entry:
            names.append(entry[1])
    return found


def misplaced():
    """Says which crates are in no group or have several entries, and which names of groups are no crate's."""
    lines = (TOP / "crates.txt").read_text(encoding="utf-8").splitlines()
    crates = {re.split(r"[ :]", it)[0] for it in lines if it.strip() and not it.startswith("#")}
    entries = collections.Counter(name for names in groups().values() for name in names)
    yield from (f"MAP.md has no entry for {it}" for it in sorted(crates - set(entries)))
    yield from (f"MAP.md has an entry for {it}, which is no crate" for it in sorted(set(entries) - crates))
    yield from (f"MAP.md has {count} entries for {it}" for it, count in sorted(entries.items()) if count > 1)


class Box:
    """A group of crates, as a box with its name and the names of its crates."""

    def __init__(self, title, names, x, width):
        self.title, self.x, self.width, self.y = title, x, width, 0
        self.lines = wrapped(names, int((width - 24) / LETTER))
        self.height = HEAD + LINE * (len(self.lines) - 1) + 18

    @property
    def bottom(self):
        return self.y + self.height

    @property
    def right(self):
        return self.x + self.width

    @property
    def middle(self):
        return self.x + self.width // 2

    def drawn(self):
        kind = ' class="core"' if self.title in CORE else ""
        says = f' <tspan dx="4">{SAYS[self.title]}</tspan>' if SAYS[self.title] else ""
        yield f'<rect{kind} x="{self.x}" y="{self.y}" width="{self.width}" height="{self.height}"/>'
        yield f'<text x="{self.x + 12}" y="{self.y + 22}"><tspan class="h">{self.title}</tspan>{says}</text>'
        for k, line in enumerate(self.lines):
            yield f'<text class="m" x="{self.x + 12}" y="{self.y + HEAD + LINE * k}">{line}</text>'


def wrapped(names, most):
    """Returns lines of names, with at most this many letters each."""
    lines = []
    for name in names:
        if lines and len(lines[-1]) + 1 + len(name) <= most:
            lines[-1] += " " + name
        else:
            lines.append(name)
    return lines


def stack(boxes, y, gap):
    """Puts boxes below one another, and returns where the last one ends."""
    for box in boxes:
        box.y = y
        y = box.bottom + gap
    return y - gap


def arrow(path, dashed=False):
    dashes = ' stroke-dasharray="4 4"' if dashed else ""
    return f'<path class="line"{dashes} marker-end="url(#a)" d="{path}"/>'


def picture():
    """Returns the picture."""
    found = groups()
    size = {"C": (20, 170), "Program": (230, 380), "Tests": (650, 190), "Folder": (400, 210), "Journal": (400, 210), "Format": (20, 590)}
    box = {title: Box(title, names, *size.get(title, (20, 340))) for title, names in found.items()}
    c, program, tests, folder, journal, layout = (box[it] for it in ("C", "Program", "Tests", "Folder", "Journal", "Format"))
    core = [box[it] for it in ("One caller", "Calls", "Shared words", "Model")]
    c.y = program.y = tests.y = HIGH
    c.height = program.height = max(c.height, program.height)
    begin = c.bottom + GAP
    ends = [stack(core, begin, GAP), stack([folder, journal], begin, GAP + 10)]
    layout.y = max(*ends, tests.bottom - layout.height - GAP) + GAP
    tests.height = layout.bottom - tests.y
    one, calls, words, model = core
    lines = [arrow(f"M{c.right} {c.y + 42} H{program.x - 3}"), arrow(f"M{tests.x} {tests.y + 24} H{program.right + 3}")]
    lines += [arrow(f"M{it} {c.bottom} V{begin - 3}") for it in (c.middle, program.x + 65, folder.middle)]
    lines += [arrow(f"M{program.right} {program.y + 64} H{program.right + 20} V{journal.y + 110} H{journal.right + 3}")]
    lines += [arrow(f"M{journal.middle} {journal.y} V{folder.bottom + 3}")]
    lines += [arrow(f"M{it.middle} {it.bottom} V{after.y - 3}") for it, after in zip(core, [*core[1:], layout])]
    lines += [arrow(f"M{folder.x} {folder.y + 42} H{folder.x - 20} V{model.y + 17} H{model.right + 3}")]
    lines += [arrow(f"M{journal.x} {max(journal.y, calls.y) + 28} H{calls.right + 3}")]
    lines += [arrow(f"M{journal.middle} {journal.bottom} V{model.y + 42} H{model.right + 3}")]
    lines += [arrow(f"M{LEFT} {layout.y + 31} H7 V{words.y + 31} H{LEFT - 3}", dashed=True)]
    drawn = [line for it in box.values() for line in [*it.drawn(), ""]]
    return HEADER.format(wide=WIDE, high=layout.bottom + HIGH) + "\n" + "\n".join([*drawn, *lines, "</svg>", ""])


def code_of(path):
    """Returns the lines of a file that are neither comments nor of imports, and of attributes only those of tests."""
    lines, is_import = [], False
    for line in path.read_text(encoding="utf-8").splitlines():
        is_import = is_import or IMPORT.match(line) is not None
        is_code = line.strip() == "#[test]" or not line.lstrip().startswith(("//", "#[", "#!["))
        if is_code and not is_import:
            lines.append(line)
        is_import = is_import and ";" not in line
    return lines


@functools.cache
def declared(path):
    """Returns the names of a file's types, their variants, constants and functions but tests, in their order."""
    names, is_test, in_enum = [], False, False
    for line in code_of(path):
        item = ITEM.match(line)
        if in_enum:
            names += VARIANT.findall(line)
            in_enum = not line.startswith("}")
        elif item and not is_test:
            names.append(item[2])
        if item:
            in_enum = item[1] == "enum" and not line.endswith("}")
            is_test = False
        is_test = is_test or line.strip() == "#[test]"
    return list(dict.fromkeys(names))


@functools.cache
def defined(path):
    """Returns the names of the definitions of a file of contracts, in their order."""
    found = map(DEFINITION.match, path.read_text(encoding="utf-8").splitlines())
    return list(dict.fromkeys(it[1] for it in found if it and it[1] not in ("mod", "use")))


@functools.cache
def words_of(path):
    """Counts on how many lines of a file's code each word is, but for texts and letters."""
    lines = QUOTED.sub('""', "\n".join(code_of(path))).split("\n")
    return collections.Counter(word for it in lines for word in set(re.findall(r"(?<![\w'])[A-Za-z]\w+", it)))


def named():
    """Returns the names that the entry of each crate gives for each file of it, and those that it gives for the crate, as for None."""
    text = MAP.read_text(encoding="utf-8").partition("\n## Crates\n")[2].partition("\n### Crates with ")[0]
    found = {}
    for entry in re.findall(r"^- `\w+`:.*(?:\n  .*)*", text, re.M):
        names, files, end = collections.defaultdict(set), [None], 0
        found[re.match(r"- `(\w+)`", entry)[1]] = names
        for quoted in re.finditer(r"`([^`]+)`", entry):
            if quoted[1].endswith(".rt"):
                is_more = entry[end : quoted.start()] == ", " and files[-1]
                files = [*(files if is_more else []), pathlib.Path(quoted[1]).name]
                end = quoted.end()
            elif len(files) == 1:
                names[files[0]].update(re.findall(r"\w+", quoted[1]))
    return found


class Names:
    """The names of all crates, and where they are."""

    def __init__(self):
        self.sources = {it: sorted((TOP / "crates" / it / "src").rglob("*.rt")) for names in groups().values() for it in names}
        self.specs = {it: sorted((TOP / "crates" / it / "specs").glob("*.antt")) for it in self.sources}
        self.named, self.crates = named(), collections.defaultdict(set)
        # In how many files a word is of which it is no declared name.
        self.uses = collections.Counter()
        for crate in self.sources:
            for path in self.sources[crate]:
                self.uses.update(words_of(path).keys() - set(declared(path)))
            for name in self.declared_in(crate):
                self.crates[name].add(crate)

    def declared_in(self, crate):
        """Yields what the files of a crate declare and define."""
        yield from (name for path in self.sources[crate] for name in declared(path))
        yield from (name for path in self.specs[crate] for name in defined(path))

    def is_left_out(self, crate, file, name):
        """Whether a name is left out: the crate's entry has it for this file or for the crate, or too many crates declare it."""
        return len(self.crates.get(name, ())) >= CRATES or name in self.named[crate][file] | self.named[crate][None]

    def of_source(self, crate, path):
        """Returns the names of a file, and then in brackets the words that no other file has, but for those that declare them."""
        listed = [it for it in declared(path) if not self.is_left_out(crate, path.name, it)]
        alone = [
            it
            for it, count in words_of(path).items()
            if self.uses[it] == 1 and (count >= LINES or it in self.crates) and it not in declared(path)
        ]
        alone = sorted(it for it in alone if not self.is_left_out(crate, path.name, it))
        return " ".join([", ".join(listed), *([f"({', '.join(alone)})"] if alone else [])]).strip()

    def of_specs(self, crate, path):
        """Returns the definitions of a file of contracts that several files of code cite."""
        said = set().union(*self.named[crate].values())
        return ", ".join(it for it in defined(path) if self.uses[it] > 1 and not self.is_left_out(crate, path.name, it) and it not in said)

    def of_crate(self, crate):
        """Returns the lines of a crate, or none if its entry has all names."""
        parts = [f"{path.name}: {self.of_source(crate, path)}" for path in self.sources[crate]]
        parts += [f"{path.name}: {self.of_specs(crate, path)}" for path in self.specs[crate]]
        text = "; ".join(it for it in parts if not it.endswith(": "))
        wrap = functools.partial(textwrap.wrap, width=LONGEST, subsequent_indent="  ", break_long_words=False, break_on_hyphens=False)
        return wrap(f"{crate}  {text}") if text else []


def index():
    """Returns the index of names, with the lines around it."""
    names = Names()
    lines = [line for crate in names.sources for line in names.of_crate(crate)]
    return "\n".join([FIRST, "```", *lines, "```", LAST, ""])


def with_index(text):
    """Returns the text of MAP.md with the index in its place."""
    before, first, rest = text.partition(FIRST)
    after = rest.partition(LAST + "\n")[2]
    return before + index() + after if first else text.rstrip("\n") + "\n\n" + index()


def main():
    if sys.argv[1:] not in ([], ["--check"]):
        print(__doc__.strip(), file=sys.stderr)
        return 2
    drawn, wrong = picture(), list(misplaced())
    text = MAP.read_text(encoding="utf-8")
    if not sys.argv[1:]:
        PICTURE.write_text(drawn, encoding="utf-8")
        MAP.write_text(with_index(text), encoding="utf-8")
    else:
        if not PICTURE.exists() or PICTURE.read_text(encoding="utf-8") != drawn:
            wrong.append("docs/pictures/crates.svg is not that of MAP.md: docs/crates.py draws it")
        if with_index(text) != text:
            wrong.append("the index of names in docs/MAP.md is not that of the sources: docs/crates.py writes it")
    for line in wrong:
        print(line)
    print(f"{len(wrong)} wrong")
    return int(bool(wrong))


if __name__ == "__main__":
    sys.exit(main())
