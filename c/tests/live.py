"""While a journal of the library for C is open, the program cq reads its folder, and does not write to it.

The first argument is the program of c/tests/journal.c, the second one is cq."""
import pathlib
import subprocess
import sys
import tempfile

MOMENT = str(20000 * 86400000)
LIVE = "cq: a queue is live in this folder"


def cq(*words, text=""):
    return subprocess.run([sys.argv[2], *map(str, words)], input=text, capture_output=True, text=True, check=False)


def check_refused(*words, text=""):
    done = cq(*words, text=text)
    assert done.returncode == 1 and not done.stdout and done.stderr.startswith(LIVE), (words, done)


def check_printed(want, *words, text=""):
    done = cq(*words, text=text)
    assert (done.returncode, done.stdout, done.stderr) == (0, want, ""), (words, done)


def main():
    with tempfile.TemporaryDirectory() as room:
        folder = pathlib.Path(room) / "queue"
        folder.mkdir()
        check_printed("", "init", folder, "daily", 0, 65536, 32, 1, 8, "reader")
        with subprocess.Popen([sys.argv[1], "hold", folder], stdin=subprocess.PIPE, stdout=subprocess.PIPE, text=True) as holder:
            index = holder.stdout.readline().strip()
            files = {file.name: file.read_bytes() for file in folder.iterdir()}
            check_printed(f"{index} held\n", "read", folder)
            assert cq("check", folder).stdout.splitlines()[-1] == "queue.log: 1 messages, live"
            assert cq("stat", folder).stdout.splitlines()[-1] == "name reader 0000000000000000 1"
            check_refused("write", folder, MOMENT, text="more\n")
            check_refused("take", folder, "reader")
            check_refused("drop", folder, 1)
            check_refused("migrate", folder)
            check_refused("init", folder, "daily", 0, 65536, 32, 1, 8, "reader")
            check_refused("log", folder, text="more\n")
            assert files == {file.name: file.read_bytes() for file in folder.iterdir()}
            holder.stdin.close()
            assert holder.wait() == 0
        after = f"{int(index, 16) + 1:016x}"
        check_printed(f"{after}\n", "write", folder, MOMENT, text="more\n")
        check_printed(f"{index} held\n{after} more\n", "read", folder)
        check_printed(f"{index} held\n", "take", folder, "reader")


if __name__ == "__main__":
    main()
