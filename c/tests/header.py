"""The header against the library: each status has its name, its number, a comment and a text; each roll has its number, and so
have what happens at the limit of a shelf, and the calls of a log. The version is one in the header, in the library, in its
packages and in the changelog."""
import ctypes
import re
from pathlib import Path

from library import call

TOP = Path(__file__).resolve().parents[2]
NO_STATUS = "no status has this number"


def snake(name):
    """A name of the source as the header writes it."""
    return re.sub(r"(?<!^)(?=[A-Z])", "_", name).upper()


def in_header():
    """The statuses of the header, each as a name and a number. A line without a comment is an error."""
    header = (TOP / "c/linnetshelf.h").read_text()
    (lines,) = re.findall(r"typedef enum \{\n(.*?)\} linnetshelf_status;", header, re.S)
    found = [re.fullmatch(r"    LINNETSHELF_(\w+) = (\d+), /\* .+ \*/", line) for line in lines.splitlines()]
    return [(it[1], int(it[2])) for it in found]


def in_source():
    """The statuses of the library's source in the order of their numbers, each as a name and a text."""
    source = (TOP / "crates/linnetshelf/src/status.rt").read_text()
    (rows,) = re.findall(r"static STATUSES: .*? = \[\n(.*?)\n\];", source, re.S)
    found = re.findall(r'\(\s*Status::(\w+),\s*"([^"]+)",?\s*\)', rows)
    assert len(found) == rows.count("Status::")
    return [(snake(name), text) for name, text in found]


def in_library():
    """The texts that the library has, from 0 to the last number of a status."""
    texts, room = [], ctypes.create_string_buffer(128)
    while True:
        length = call("text", len(texts), room, len(room))
        text = room.raw[:length].decode()
        if text == NO_STATUS:
            return texts
        texts.append(text)


def rolls_in_header():
    """The rolls of the header, each as a name and a number."""
    header = (TOP / "c/linnetshelf.h").read_text()
    (rolls,) = re.findall(r"How long a cycle is\. \*/\nenum \{ (.*?) \};", header)
    return [(name, int(number)) for name, number in re.findall(r"LINNETSHELF_(\w+) = (\d+)", rolls)]


def rolls_in_source():
    """The rolls of the library's source in the order of their numbers."""
    source = (TOP / "crates/cq_cycle/src/roll.rt").read_text()
    (rolls,) = re.findall(r"pub const ROLLS: .*? = \[(.*?)\];", source, re.S)
    return [snake(name) for name in re.findall(r"Roll::(\w+)", rolls)]


def limits_in_header():
    """What happens at the limit of a shelf, each as a name and a number, as in the header."""
    header = (TOP / "c/linnetshelf.h").read_text()
    (limits,) = re.findall(r"one more than may live\. \*/\nenum \{ (.*?) \};", header)
    return [(name, int(number)) for name, number in re.findall(r"LINNETSHELF_(\w+) = (\d+)", limits)]


def limits_in_source():
    """The same, as in the library's source."""
    source = (TOP / "crates/linnetshelf/src/shelf_settings.rt").read_text()
    return [(snake(name), int(number)) for number, name in re.findall(r"(\d+) => Some\(AtLimit::(\w+)\)", source)]


def calls_in_header():
    """The calls of a log, each as a name and a number, as in the header."""
    header = (TOP / "c/linnetshelf.h").read_text()
    (calls,) = re.findall(r"the names in its folder there\. \*/\nenum \{ (.*?) \};", header)
    return [(name, int(number)) for name, number in re.findall(r"LINNETSHELF_LOG_(\w+) = (\d+)", calls)]


def calls_in_source():
    """The same, as in the library's source. It has numbers for calls that are never left, after those of the header."""
    source = (TOP / "crates/linnetshelf/src/log_calls.rt").read_text()
    found = re.findall(r"Call::(\w+)(?:\(\w+\))? => \((\d+), ", source)
    return [(snake(name), int(number)) for name, number in found]


def found(path, pattern):
    """What a file has in the one place that a pattern finds, or else fails."""
    (only,) = re.findall(pattern, (TOP / path).read_text(), re.M)
    return only


def numbers_of_version():
    """The number of the version: in the header, in the library's source, and as the library returns it."""
    source = found("crates/linnetshelf/src/version.rt", r"^const VERSION: u32 = ([\d_]+);")
    return [int(found("c/linnetshelf.h", r"^#define LINNETSHELF_VERSION (\d+) ")), int(source.replace("_", "")), call("version")]


def texts_of_version():
    """The text of the version, wherever a file has it. The changelog names it first."""
    return [
        re.search(r"^## (\S+)", (TOP / "CHANGELOG.md").read_text(), re.M)[1],
        found("c/linnetshelf.h", r"^#define LINNETSHELF_VERSION \d+ /\* (\S+) \*/"),
        found("python/pyproject.toml", r'^version = "(.*)"'),
        found("python/linnetshelf/__init__.py", r'^__version__ = "(.*)"'),
        found("rust/linnetshelf/Cargo.toml", r'^version = "(.*)"'),
        found("crates/cq_command_line/src/command_line.rt", r'^const VERSION: &str = "(.*)";'),
    ]


def check_versions():
    """All have one version. The file for pkg-config gets it from the changelog."""
    texts, numbers = texts_of_version(), numbers_of_version()
    assert len(set(texts)) == 1, texts
    one, two, three = (int(it) for it in texts[0].split("."))
    assert max(two, three) < 1000
    assert set(numbers) == {1_000_000 * one + 1_000 * two + three}, numbers
    assert found("share/linnetshelf.pc.in", "^Version: (.*)") == "@VERSION@"


def main():
    check_versions()
    source = in_source()
    assert in_header() == [(name, number) for number, (name, _) in enumerate(source)]
    assert in_library() == [text for _, text in source]
    assert rolls_in_header() == [(name, number) for number, name in enumerate(rolls_in_source())]
    assert limits_in_header() == limits_in_source()
    assert calls_in_header() == calls_in_source()[:4]


main()
