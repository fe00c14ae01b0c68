"""How many messages a second one thread appends and reads by the package: a line of JSON for each figure.

    python3 python/rate.py [CASE..]

`append_all` and `iterate` make one call of the library for some hundred messages; `append`, `next`,
`next_into` and `peek` are single calls. `rate` is by the processor's time and `by_the_clock` by the clock's, each the best of
REPS turns, which are 5 if it is not set. The library is that of LINNETSHELF_LIBRARY.

The status is 1 if a turn appended or read another number of messages or of bytes than it was to, and 2 if there is no such case.
"""
import json
import os
import pathlib
import sys
import time

sys.path.insert(0, str(pathlib.Path(__file__).resolve().parent))
import linnetshelf

SETTINGS = linnetshelf.Settings(cells=1_048_576, index_count=256, index_spacing=16, cycles=1)
PAYLOADS = (8, 64, 256)

# The cells of a cycle that a turn fills. A message has a cell for its header, and others for its bytes.
CELLS = 1_000_000


def append(queue, messages):
    for message in messages:
        queue.append(message, 0)


def iterate(queue, messages):
    count = size = 0
    for message in queue:
        count += 1
        size += len(message.data)
    return count, size


def read_next(queue, messages):
    count = size = 0
    while (message := queue.next()) is not None:
        count += 1
        size += len(message.data)
    return count, size


def read_into(queue, messages):
    count = size = 0
    buffer = bytearray(len(messages[0]))
    while (found := queue.next_into(buffer)) is not None:
        count += 1
        size += found[1]
    return count, size


def look(queue, messages):
    count = size = 0
    for _ in messages:
        if (peeked := queue.peek()) is not None:
            count += 1
            size += peeked.length
    return count, size


# What a turn measures, and whether the messages are there before it. A case that reads returns how many messages it has read,
# and how many bytes they have together.
CASES = {
    "append_all": (lambda queue, messages: queue.append_all(messages, 0), False),
    "iterate": (iterate, True),
    "append": (append, False),
    "next": (read_next, True),
    "next_into": (read_into, True),
    "peek": (look, True),
}


def turn(case, payload):
    """Returns the messages a second of one turn, by the processor's time and by the clock's."""
    work, are_there = CASES[case]
    count = CELLS // (1 + payload // 4)
    messages = [b"x" * payload] * count
    with linnetshelf.create(SETTINGS, moment=0) as queue:
        if are_there:
            queue.append_all(messages, 0)
        began, started = time.process_time_ns(), time.perf_counter_ns()
        found = work(queue, messages)
        used, passed = time.process_time_ns() - began, time.perf_counter_ns() - started
        # What was appended is read after it was measured.
        found, wanted = found if are_there else iterate(queue, messages), (count, count * payload)
        if found != wanted:
            sys.exit(f"{case}: {found[0]} messages of {found[1]} bytes, and not {wanted[0]} of {wanted[1]}")
    return count * 1e9 / used, count * 1e9 / passed


def main():
    repetitions = int(os.environ.get("REPS", "5"))
    cases = sys.argv[1:] or list(CASES)
    for case in cases:
        if case not in CASES:
            print(f"there is no case {case}: the cases are {', '.join(CASES)}", file=sys.stderr)
            sys.exit(2)
    for case in cases:
        for payload in PAYLOADS:
            turns = [turn(case, payload) for _ in range(repetitions)]
            best = [round(max(figures)) for figures in zip(*turns)]
            print(json.dumps({"case": case, "payload": payload, "rate": best[0], "by_the_clock": best[1]}), flush=True)


main()
