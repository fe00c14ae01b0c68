"""A folder of the program cq is opened through the library, and what the library saves is a folder of the program.

The second argument is the program."""
import ctypes
import datetime
import pathlib
import subprocess
import sys
import tempfile

from library import DONE, Handle, Settings, call, images_of, messages_of

DAY = 86400000
NAMES = [b"reader", b"other"]


def cq(*words, text=""):
    done = subprocess.run([sys.argv[2], *map(str, words)], input=text, capture_output=True, text=True, check=True)
    return done.stdout


def file_of(folder, cycle):
    return folder / (datetime.date(1970, 1, 1) + datetime.timedelta(days=cycle)).strftime("%Y%m%d.cqi")


def shown(messages):
    return "".join("%016x %s\n" % (index, text.decode()) for index, text in messages)


def opened(folder, settings):
    """The first endpoint of a queue that holds what the folder holds."""
    lines = [line.split() for line in (folder / "queue.cqc").read_text().splitlines()]
    saved, endpoint = Handle(), Handle()
    assert call("saved_new", settings, b"\n".join(NAMES), len(b"\n".join(NAMES)), saved) == DONE
    for file in sorted(folder.glob("*.cqi")):
        cycle = (datetime.datetime.strptime(file.stem, "%Y%m%d").date() - datetime.date(1970, 1, 1)).days
        image = file.read_bytes()
        answer = call("saved_add", saved, cycle, image, len(image))
        assert answer.status == DONE, (file, answer.status, answer.index)
    for k, line in enumerate(line for line in lines if line[0] == "name"):
        assert call("saved_set_position", saved, k, int(line[2])) == DONE
    floor = [int(line[1]) for line in lines if line[0] == "floor"]
    assert call("saved_set_floor", saved, floor[0] if floor else 0) == DONE
    assert call("open", saved, endpoint) == DONE
    call("destroy", saved)
    return endpoint


def save(folder, saved):
    """Makes the folder's files those of what is saved."""
    for cycle, image in images_of(saved):
        file_of(folder, cycle).write_bytes(image)
    config = folder / "queue.cqc"
    lines = [line for line in config.read_text().splitlines() if line.split()[0] not in ("name", "floor")]
    floor = call("saved_floor", saved).index
    lines += ["floor %d" % floor] if floor else []
    lines += ["name %s %d" % (name.decode(), call("saved_position", saved, k).index) for k, name in enumerate(NAMES)]
    config.write_text("\n".join(lines) + "\n")


def main():
    settings = Settings(epoch=0, cells=4096, index_count=16, index_spacing=4, cycles=4, roll=0)
    with tempfile.TemporaryDirectory() as name:
        folder = pathlib.Path(name)
        cq("init", folder, "daily", 0, 4096, 16, 4, 4, *(name.decode() for name in NAMES))
        cq("write", folder, 20000 * DAY, text="".join("line %d\n" % k for k in range(100)))
        cq("write", folder, 20001 * DAY, text="next day\n")
        cq("take", folder, "other")

        endpoint = opened(folder, settings)
        assert shown(messages_of(endpoint)) == cq("read", folder)
        for text in (b"through the library", b"x" * 1000):
            assert call("append", endpoint, 20002 * DAY, text, len(text)).status == DONE
        assert call("take", endpoint, b"other", 5, ctypes.create_string_buffer(64), 64).status == DONE
        whole = Handle()
        assert call("split", endpoint, whole) == DONE
        messages = list(messages_of(whole))
        call("destroy", whole)
        assert call("stop", endpoint) == DONE
        save(folder, endpoint)
        call("destroy", endpoint)

        assert cq("check", folder) == "20241004.cqi: 100 messages, ended\n20241005.cqi: 1 messages, ended\n20241006.cqi: 2 messages, open\n"
        assert cq("read", folder) == shown(messages) and len(messages) == 103
        assert cq("take", folder, "other") == "%016x line 2\n" % ((20000 << 32) + 2)
        assert cq("take", folder, "reader") == "%016x line 0\n" % (20000 << 32)
        cq("drop", folder, 20001)
        cq("write", folder, 20002 * DAY, text="and back\n")

        endpoint = opened(folder, settings)
        assert shown(messages_of(endpoint)) == cq("read", folder)
        call("destroy", endpoint)


main()
