#!/usr/bin/env python3
"""Tests ./install: share/check.py.

Installs into an empty folder, builds and runs programs by pkg-config alone, runs the installed cq, looks at what the shared
object exports, unpacks the archive elsewhere and does the same, and removes the installation. The page of the manual and
the completions have to name each command and option of cq.

The last line is `N wrong`. The status is 0 if N is 0, and otherwise 1. It needs cc, and pkg-config for what uses it.
"""
import os
import pathlib
import re
import shlex
import shutil
import subprocess
import sys
import tempfile

import man_page

TOP = pathlib.Path(__file__).resolve().parent.parent
COMPLETIONS = [
    "share/bash-completion/completions/cq",
    "share/zsh/site-functions/_cq",
    "share/fish/vendor_completions.d/cq.fish",
]


class Check:
    """Counts what is wrong."""

    def __init__(self):
        self.wrong = 0

    def that(self, is_so, text):
        if not is_so:
            print(f"wrong: {text}", flush=True)
            self.wrong += 1


def run(*words, **how):
    """Runs a command, and returns its status and what it printed."""
    ran = subprocess.run(words, capture_output=True, text=True, errors="replace", stdin=subprocess.DEVNULL, check=False, **how)
    return ran.returncode, ran.stdout, ran.stderr


def names_in(folder):
    """Returns the files and links below a folder."""
    return {str(it.relative_to(folder)) for it in folder.rglob("*") if it.is_symlink() or it.is_file()}


def check_program(check, root, where):
    """The installed program runs from elsewhere."""
    ran = subprocess.run([root / "bin" / "cq", "echo"], input="hello\n", capture_output=True, text=True, cwd="/", check=False)
    check.that((ran.returncode, ran.stdout) == (0, "0 hello\n"), f"{where}: cq echo")


def check_library(check, root, where, folder):
    """A program that names only what pkg-config says is built and runs."""
    exported = run("nm", "-D", "--defined-only", "--format=posix", root / "lib" / "liblinnetshelf.so")[1]
    names = {line.split("@")[0].split()[0] for line in exported.splitlines()} - {"LINNETSHELF_0"}
    header = (root / "include" / "linnetshelf.h").read_text(encoding="utf-8")
    declared = set(re.findall(r"^\w[\w ]* \*?(linnetshelf_\w+)\(", header, re.M))
    check.that(names == declared, f"{where}: the shared object and the header differ in {sorted(names ^ declared)}")
    if not shutil.which("pkg-config"):
        print(f"{where}: not built by pkg-config, which is not there")
        return
    paths = {**os.environ, "PKG_CONFIG_PATH": f"{root}/lib/pkgconfig"}
    status, flags, said = run("pkg-config", "--cflags", "--libs", "linnetshelf", env=paths)
    check.that(status == 0, f"{where}: pkg-config: {said}")
    said = run("pkg-config", "--modversion", "linnetshelf", env=paths)[1]
    check.that(said.strip() == version(), f"{where}: the version of pkg-config is {said}")
    program = folder / "example"
    words = [*shlex.split(flags), f"-Wl,-rpath,{root}/lib"]
    status, _, said = run(os.environ.get("CC", "cc"), TOP / "c" / "example.c", "-o", program, *words)
    check.that(status == 0, f"{where}: c/example.c is not built: {said}")
    check.that(run(program)[:2] == (0, "hello\n"), f"{where}: c/example.c does not print hello")
    check_sources(check, root, where, folder, words)


def check_sources(check, root, where, folder, words):
    """Programs that compile the installed sources are built, and keep a queue in a folder that the installed cq makes."""
    paths = {**os.environ, "PKG_CONFIG_PATH": f"{root}/lib/pkgconfig"}
    said = run("pkg-config", "--variable=sources", "linnetshelf", env=paths)[1].strip().replace("\\ ", " ")
    sources, queue = pathlib.Path(said), folder / f"{where} queue"
    check.that(sources.is_dir() and sources.samefile(root / "share" / "linnetshelf" / "c"), f"{where}: the sources are in {said}")
    queue.mkdir()
    status, _, said = run(root / "bin" / "cq", "init", queue, "daily", "0", "65536", "32", "1", "8")
    check.that(status == 0, f"{where}: cq init: {said}")
    for name, made in (("io_example.c", "linnetshelf_io.c"), ("journal_example.c", "journal.c")):
        own = folder / name
        shutil.copy(TOP / "c" / name, own)
        program, files = folder / f"{where} {name}.out", [own, sources / made, sources / "folder_files.c"]
        status, _, said = run(os.environ.get("CC", "cc"), "-std=c11", f"-I{sources}", *files, "-o", program, *words, "-lpthread")
        check.that(status == 0, f"{where}: c/{name} is not built: {said}")
        status, _, said = run(program, queue, name)
        check.that(status == 0, f"{where}: c/{name} fails: {said}")
    lines = run(root / "bin" / "cq", "read", queue)[1].splitlines()
    check.that([line[17:] for line in lines] == ["io_example.c", "journal_example.c"], f"{where}: cq read prints {lines}")


def check_wheel(check, root, folder):
    """The wheel is installed without a network, and finds its library."""
    wheels = list((root / "share" / "linnetshelf").glob("*.whl"))
    check.that(len(wheels) == 1, "there is no wheel, or more than one")
    if run(sys.executable, "-m", "pip", "--version")[0]:
        print("the wheel is not installed: there is no pip")
        return
    words = ["--no-index", "--no-deps", "--disable-pip-version-check", "--target"]
    status, _, said = run(sys.executable, "-m", "pip", "install", *words, folder / "packages", *wheels)
    check.that(status == 0, f"the wheel: {said}")
    code = "import linnetshelf as l; q = l.create(moment=0); q.append(b'hello', 0); print(q.next().data, l.__version__)"
    paths = {**os.environ, "PYTHONPATH": str(folder / "packages")}
    paths.pop("LINNETSHELF_LIBRARY", None)
    status, printed, said = run(sys.executable, "-c", code, env=paths, cwd="/")
    check.that((status, printed) == (0, f"b'hello' {version()}\n"), f"the package prints {printed}{said}")


def check_pages(check, root):
    """The page of the manual and the completions name each command and option."""
    program = root / "bin" / "cq"
    commands = man_page.commands_of(man_page.help_of(program))
    page = (root / "share" / "man" / "man1" / "cq.1").read_text(encoding="utf-8")
    completions = {it: (root / it).read_text(encoding="utf-8") for it in COMPLETIONS}
    for command in commands:
        check.that(f".SS {command}\n" in page, f"the page of the manual names no {command}")
        for name, text in completions.items():
            check.that(re.search(rf"\b{command}\b", text), f"{name} names no {command}")
        for option in re.findall(r"^ +--([a-z-]+)", man_page.help_of(program, command), re.M):
            check.that(man_page.troff(f"--{option}") in page, f"the page of the manual names no --{option}")
            for name, text in completions.items():
                check.that(re.search(rf"(--|-l ){option}\b", text), f"{name} names no --{option}")
    if shutil.which("man"):
        said = run("man", "--warnings", "-l", root / "share" / "man" / "man1" / "cq.1")[2]
        check.that(not said, f"the page of the manual: {said}")
    for shell, name in zip(("bash", "zsh", "fish"), COMPLETIONS):
        if shutil.which(shell):
            check.that(run(shell, "-n", root / name)[0] == 0, f"{name} is refused by {shell}")


def version():
    return re.search(r"^## (\S+)", (TOP / "CHANGELOG.md").read_text(encoding="utf-8"), re.M)[1]


def main():
    check = Check()
    with tempfile.TemporaryDirectory() as name:
        folder = pathlib.Path(name)
        root = folder / "a prefix"
        status, _, said = run(TOP / "install", root)
        check.that(status == 0, f"install: {said}")
        if status == 0:
            files = names_in(root)
            check_program(check, root, "installed")
            check_library(check, root, "installed", folder)
            check_pages(check, root)
            check_wheel(check, root, folder)
            # A file that only an older installation had goes, and one of somebody else stays.
            (root / "lib" / "old").write_text("", encoding="utf-8")
            (root / "lib" / "other").write_text("", encoding="utf-8")
            with open(root / "share" / "linnetshelf" / "files", "a", encoding="utf-8") as listed:
                listed.write("lib/old\n")
            check.that(run(TOP / "install", root)[0] == 0, "install a second time")
            check.that(names_in(root) == files | {"lib/other"}, "a second installation has other files")
            check.that(run(TOP / "install", "--archive", folder / "all.tar.gz")[0] == 0, "archive")
            moved = folder / "moved"
            moved.mkdir()
            check.that(run("tar", "-xzf", folder / "all.tar.gz", "--strip-components=1", "-C", moved)[0] == 0, "unpack")
            check.that(names_in(moved) == files, "the archive has other files")
            check_program(check, moved, "unpacked")
            check_library(check, moved, "unpacked", folder)
            check.that(run(TOP / "install", "--uninstall", root)[0] == 0, "uninstall")
            check.that(names_in(root) == {"lib/other"}, f"uninstall leaves {sorted(names_in(root))}")
            check.that(run(TOP / "install", "--uninstall", root)[0] == 1, "uninstall where nothing is installed")
            packed = {**os.environ, "DESTDIR": str(folder / "stage")}
            check.that(run(TOP / "install", "/usr", env=packed)[0] == 0, "install with DESTDIR")
            check.that(names_in(folder / "stage" / "usr") == files, "DESTDIR has other files")
    print(f"{check.wrong} wrong")
    return 1 if check.wrong else 0


if __name__ == "__main__":
    sys.exit(main())
