#!/usr/bin/env python3
"""Compares what `cq stat` says of folders with what is counted here: docs/count_folders.py [COUNT [SEED]].

Makes COUNT folders (300 if it is not given) of both versions and all rolls, with floors, names and positions at random, and
images as docs/FORMATS.md has them. What is counted here is counted from the bytes of the files: header after header, and
how many cells a file has. Both the lines and the object of `cq stat` have to say it. One folder in ten has a log: a
`cq log` appends lines, and `cq stat` is asked while it is live, after it was killed, and once the log was saved.

CQ names the program; if it is not set, it is crates/cq/out/cq, which `./cq race 1` builds. The status is 0 if all
agree.
"""
import json
import os
import random
import signal
import subprocess
import sys
import tempfile
import threading
import time

sys.path.insert(0, os.path.dirname(os.path.abspath(__file__)))
import random_images  # noqa: E402

DAY = 86_400_000
ROLLS = {"daily": (DAY, "%Y%m%d"), "hourly": (3_600_000, "%Y%m%d-%H"), "minutely": (60_000, "%Y%m%d-%H%M")}
ENDED, META = 0xC0000000, 0x40000000


def read_config(folder):
    """The settings in `queue.cqc`, with its names and their positions."""
    settings, names = {"floor": "0"}, []
    with open(os.path.join(folder, "queue.cqc"), encoding="utf-8") as file:
        for line in file:
            key, *words = line.split()
            if key == "name":
                names.append((words[0], int(words[1])))
            else:
                settings[key] = words[0]
    return settings, names


def read_image(path):
    """The lengths of the messages of an image, whether it ended, and the cells of the file."""
    with open(path, "rb") as file:
        data = file.read()
    at, lengths, ended = 0, [], False
    while at < len(data):
        header = int.from_bytes(data[at:at + 4], "little")
        length = header & 0x3FFFFFFF
        if header == ENDED:
            ended, length = True, 0
        elif not header & META:
            lengths.append(length)
        at += 4 + (length + 3) // 4 * 4
    return lengths, ended, len(data) // 4


def moment_of(name):
    """When a cycle begins, by its name, in milliseconds of Unix time."""
    form = {8: "%Y%m%d", 11: "%Y%m%d-%H", 13: "%Y%m%d-%H%M"}[len(name)]
    return int(time.mktime(time.strptime(name, form))) * 1000


def count_folder(folder):
    """What `cq stat` has to say, as the object."""
    settings, names = read_config(folder)
    numbers = {key: int(settings[key]) for key in ("epoch", "cells", "count", "spacing", "cycles", "floor")}
    length = ROLLS[settings["roll"]][0]
    begun, indexes, end = [], [], 0
    for file in sorted(it for it in os.listdir(folder) if it.endswith(".cqi")):
        lengths, ended, cells = read_image(os.path.join(folder, file))
        number = (moment_of(file[:-4]) - numbers["epoch"]) // length
        used = cells if ended else cells + 1
        is_dropped = number < numbers["floor"]
        if not is_dropped:
            indexes += [(number << 32) + sequence for sequence in range(len(lengths))]
        end = (number << 32) + len(lengths)
        begun.append({
            "name": file[:-4],
            "number": number,
            "messages": len(lengths),
            "bytes": sum(lengths),
            "cells_used": used,
            "cells_left": numbers["cells"] - used,
            "state": "dropped" if is_dropped else "ended" if ended else "open",
        })
    return {
        "version": int(settings["cq"]),
        "roll": settings["roll"],
        **{key: numbers[key] for key in ("epoch", "cells", "count", "spacing", "cycles")},
        "begun": begun,
        "first": f"{indexes[0]:016x}" if indexes else None,
        "floor": numbers["floor"],
        "end": f"{end:016x}",
        "more_cycles": numbers["cycles"] - len(begun),
        "names": [
            {
                "name": name,
                "position": f"{position:016x}",
                "messages_left": sum(index >= position for index in indexes),
            }
            for name, position in names
        ],
    }


def lines_of(counted):
    """The same as lines."""
    lines = [f"{key} {counted[key]}" for key in ("version", "roll", "epoch", "cells", "count", "spacing", "cycles")]
    lines += ["cycle " + " ".join(str(it) for it in cycle.values()) for cycle in counted["begun"]]
    lines.append(f"first {counted['first'] or 'none'}")
    lines += [f"{key} {counted[key]}" for key in ("floor", "end", "more_cycles")]
    lines += ["name " + " ".join(str(it) for it in name.values()) for name in counted["names"]]
    return "".join(line + "\n" for line in lines)


def make_folder(dice, folder):
    """Makes a folder with some images."""
    version = dice.choice([1, 2])
    roll = dice.choice(list(ROLLS))
    length, form = ROLLS[roll]
    epoch = dice.choice([0, length, 7 * length, 20_000 * DAY])
    cells, count, spacing = dice.choice([(64, 8, 1), (100, 8, 2), (300, 32, 1), (1024, 8, 4), (5000, 16, 2)])
    cycles = dice.choice([1, 2, 4, 9, 64])
    shape = (cells, count, spacing, version)
    begun = sorted(dice.sample(range(200), dice.randint(0, min(cycles, 12))))
    indexes, end = [0], 0
    for cycle in begun:
        messages, lengths = [], []
        most = dice.choice([1, 4, 9, 100])
        for _ in range(dice.choice([0, 1, 3, 17, 200])):
            size = dice.randint(1, most)
            if not random_images.fits(shape, lengths, size):
                break
            lengths.append(size)
            messages.append(dice.randbytes(size))
        name = time.strftime(form, time.gmtime((epoch + cycle * length) // 1000)) + ".cqi"
        with open(os.path.join(folder, name), "wb") as file:
            file.write(random_images.image(cycle, shape, messages, cycle != begun[-1], epoch, length))
        indexes += [(cycle << 32) + sequence for sequence in range(len(messages) + 1)]
        end = indexes[-1]
    floor = dice.choice([0, dice.choice(begun), dice.randint(0, begun[-1])]) if begun else 0
    names = [f"name{n}" for n in range(dice.randint(0, 4))]
    text = f"cq {version}\nroll {roll}\nepoch {epoch}\ncells {cells}\ncount {count}\nspacing {spacing}\ncycles {cycles}\n"
    text += f"floor {floor}\n" if floor else ""
    for name in names:
        position = dice.choice([0, end, dice.choice(indexes), dice.randint(0, end)]) if begun else 0
        text += f"name {name} {position}\n"
    with open(os.path.join(folder, "queue.cqc"), "w", encoding="utf-8") as file:
        file.write(text)


def said(program, folder):
    """What `cq stat` says, as lines and as the object, and whether it failed."""
    runs = [subprocess.run([program, "stat", folder, *more], capture_output=True, check=False) for more in ([], ["--json"])]
    texts = [run.stdout.decode() + run.stderr.decode() for run in runs]
    return texts, any(run.returncode for run in runs)


def compare(program, folder, counted, what):
    """Says what differs from what was counted."""
    (lines, text), failed = said(program, folder)
    wrong = []
    if failed or lines != lines_of(counted):
        wrong.append(f"{what}: {lines!r} in place of {lines_of(counted)!r}")
    try:
        told = json.loads(text)
    except ValueError:
        told = None
    if text.count("\n") != 1 or json.dumps(told) != json.dumps(counted):
        wrong.append(f"{what}: {text!r} in place of {json.dumps(counted)}")
    return wrong


def try_log(program, dice, folder):
    """Tries a folder with a log: while a queue is live, after it was killed, and once the log was saved."""
    subprocess.run([program, "init", folder, "daily", "0", "4096", "32", "1", "4", "one", "two"], check=True)
    if dice.random() < 0.5:
        subprocess.run([program, "write", folder, str(DAY)], input=b"first\nsecond\n", stdout=subprocess.DEVNULL, check=True)
        subprocess.run([program, "take", folder, "two"], stdout=subprocess.DEVNULL, check=True)
    lines = [b"x" * dice.randint(1, 30) + b"\n" for _ in range(dice.randint(1, 20))]
    log = subprocess.Popen([program, "log", folder], stdin=subprocess.PIPE, stdout=subprocess.PIPE)
    end = threading.Timer(60, log.kill)
    end.start()
    log.stdin.write(b"".join(lines))
    log.stdin.flush()
    indexes = [log.stdout.readline().decode().strip() for _ in lines]
    live = said(program, folder)
    log.send_signal(signal.SIGKILL)
    log.wait()
    end.cancel()
    log.stdin.close()
    log.stdout.close()
    killed = said(program, folder)
    # The floor never falls, so this only saves the log.
    subprocess.run([program, "drop", folder, "0"], stdout=subprocess.DEVNULL, check=True)
    counted = count_folder(folder)
    wrong = compare(program, folder, counted, "saved")
    if live != killed or killed != said(program, folder):
        wrong.append(f"the log: live {live!r}, killed {killed!r}, saved {said(program, folder)!r}")
    if counted["end"] != f"{int(indexes[-1], 16) + 1:016x}":
        wrong.append(f"the log: the end is {counted['end']} after {indexes[-1]}")
    return wrong


def main():
    count = int(sys.argv[1]) if len(sys.argv) > 1 else 300
    seed = int(sys.argv[2]) if len(sys.argv) > 2 else 1
    here = os.path.dirname(os.path.dirname(os.path.abspath(__file__)))
    program = os.environ.get("CQ", os.path.join(here, "crates/cq/out/cq"))
    os.environ["TZ"] = "UTC"
    time.tzset()
    dice, wrong, logs = random.Random(seed), [], 0
    for number in range(count):
        with tempfile.TemporaryDirectory() as folder:
            if number % 10 == 9:
                logs += 1
                wrong += try_log(program, dice, folder)
                continue
            make_folder(dice, folder)
            wrong += compare(program, folder, count_folder(folder), f"folder {number}")
    for line in wrong[:10]:
        print(line)
    print(f"{count} folders, {logs} with a log: {len(wrong)} wrong")
    return 1 if wrong else 0


sys.exit(main())
