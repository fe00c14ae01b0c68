#!/usr/bin/env python3
"""Tries which program the launcher ./cq builds and runs, in a folder of its own. In place of `prove` is a script that proves nothing.

    docs/try_launcher.py

- The first command builds the basic program, and the next one builds nothing.
- `log` and `race` build the whole program. From then on it runs every command.
- A source that is newer than the program has it built again, and the basic one where the command is neither of these.
- Words reach the program as they were given, and its status is that of the launcher. A link to the launcher serves too.
- If the build fails or cannot begin, the status is 3. SIGTERM and SIGINT end it.
- Commands that begin at once build once. One that waited for the whole program runs that.

The last line is `N wrong`, and the status is 0 if that is none, else 1.
"""
import os
import pathlib
import shutil
import signal
import subprocess
import sys
import tempfile
import time

TOP = pathlib.Path(__file__).resolve().parent.parent

# It is in place of ./prove. What it makes prints which program it is, the name by which it was called and its words, and ends with
# status 4.
PROVE = """\
#!/bin/sh
echo "built $2" >>"${0%/*}/builds"
[ -z "$FAILS" ] || exit 1
[ -z "$LASTS" ] || { sleep "$LASTS" & trap "kill $!; exit 143" TERM; wait $!; }
mkdir -p "${0%/*}/out/proved/$2"
printf '#!/bin/sh\\nprintf "%s, ${0##*/}"\\nprintf " <%%s>" "$@"\\nexit 4\\n' "$2" >"${0%/*}/out/proved/$2/$2"
chmod +x "${0%/*}/out/proved/$2/$2"
"""


class Folder:
    """A folder with the launcher, and how many things in it were wrong."""

    def __init__(self, place):
        self.place, self.wrong = pathlib.Path(place), 0
        for folder in ("cq/src", "cq_basic/src", "cq/specs"):
            (self.place / "crates" / folder).mkdir(parents=True)
        (self.place / "crates.txt").touch()
        shutil.copy(TOP / "cq", self.place)
        (self.place / "prove").write_text(PROVE, encoding="ascii")
        (self.place / "prove").chmod(0o755)

    def start(self, *words, by="cq", **environment):
        """Starts the launcher."""
        streams = {"stdin": subprocess.DEVNULL, "stdout": subprocess.PIPE, "stderr": subprocess.DEVNULL, "text": True}
        return subprocess.Popen([self.place / by, *words], env={**os.environ, **environment}, cwd="/", **streams)

    def run(self, *words, **environment):
        """Runs the launcher. Returns what was printed, and the status."""
        started = self.start(*words, **environment)
        printed = started.communicate(timeout=60)[0]
        return printed, started.returncode

    def builds(self):
        """Returns the programs that were built since the last call."""
        list_of_builds = self.place / "builds"
        built = list_of_builds.read_text(encoding="ascii").split("built ")[1:] if list_of_builds.exists() else []
        list_of_builds.unlink(missing_ok=True)
        return [it.strip() for it in built]

    def wait_for_builds(self, count):
        """Waits until this many builds have begun since the last call of `builds`, for a minute at most."""
        list_of_builds, end = self.place / "builds", time.monotonic() + 60
        while not list_of_builds.exists() or list_of_builds.read_text(encoding="ascii").count("built") < count:
            if time.monotonic() > end:
                sys.exit("no build began within a minute")
            time.sleep(0.05)
        time.sleep(0.2)

    def change(self):
        """Makes a source newer than all programs."""
        time.sleep(1.1)
        (self.place / "crates" / "cq" / "src" / "main.rt").touch()

    def expect(self, what, found, wanted):
        if found != wanted:
            self.wrong += 1
            print(f"{what}: {found}, not {wanted}")


def try_commands(folder):
    folder.expect("the first command", folder.run("echo", "a b", ""), ("cq_basic, cq <echo> <a b> <>", 4))
    folder.expect("its builds", folder.builds(), ["cq_basic"])
    folder.expect("the next one", folder.run("read", "x"), ("cq_basic, cq <read> <x>", 4))
    for words in (["log", "--help"], ["log", "-h"], ["race", "--help"], ["race", "-h"]):
        folder.expect("help", folder.run(*words), (f"cq_basic, cq <{words[0]}> <{words[1]}>", 4))
    folder.expect("race", folder.run("race", "3"), ("cq, cq <race> <3>", 4))
    folder.expect("builds for race", folder.builds(), ["cq"])
    folder.expect("another one", folder.run("take", "log"), ("cq, cq <take> <log>", 4))
    folder.expect("its builds", folder.builds(), [])


def try_changes(folder):
    folder.change()
    folder.expect("after a change", folder.run("echo"), ("cq_basic, cq <echo>", 4))
    folder.expect("log", folder.run("log", "d"), ("cq, cq <log> <d>", 4))
    folder.expect("builds after a change", folder.builds(), ["cq_basic", "cq"])
    (folder.place / "link").symlink_to(folder.place / "cq")
    linked = folder.start("stat", by="link")
    folder.expect("by a link", linked.communicate(timeout=60)[0], "cq, cq <stat>")


def try_failures(folder):
    folder.change()
    folder.expect("a build that fails", folder.run("echo", FAILS="1"), ("", 3))
    folder.expect("one of the whole program", folder.run("race", "1", FAILS="1"), ("", 3))
    folder.expect("builds that fail", folder.builds(), ["cq_basic", "cq"])
    for number, status in ((signal.SIGTERM, 143), (signal.SIGINT, 130)):
        started = folder.start("echo", LASTS="30")
        folder.wait_for_builds(1)
        started.send_signal(number)
        folder.expect("a build that is ended", started.wait(timeout=60), status)
        folder.builds()
    lock = folder.place / "out" / "lock"
    lock.unlink()
    lock.mkdir()
    folder.expect("a build that cannot begin", folder.run("echo"), ("", 3))
    lock.rmdir()
    both = [folder.start("echo", LASTS="1") for _ in range(3)]
    folder.expect("at once", [it.communicate(timeout=60)[0] for it in both], ["cq_basic, cq <echo>"] * 3)
    folder.expect("builds at once", folder.builds(), ["cq_basic"])
    folder.change()
    race = folder.start("race", "1", LASTS="1")
    folder.wait_for_builds(1)
    waited = folder.start("stat")
    folder.expect("one that waited", [it.communicate(timeout=60)[0] for it in (race, waited)], ["cq, cq <race> <1>", "cq, cq <stat>"])
    folder.expect("builds for both", folder.builds(), ["cq"])


def main():
    with tempfile.TemporaryDirectory() as place:
        folder = Folder(place)
        try_commands(folder)
        folder.builds()
        try_changes(folder)
        try_failures(folder)
    print(f"{folder.wrong} wrong")
    return folder.wrong != 0


if __name__ == "__main__":
    sys.exit(main())
