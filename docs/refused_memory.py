#!/usr/bin/env python3
"""Refuses each growth of memory in turn, to commands or tests: docs/refused_memory.py [tests CRATE.. | buffers | cycles]

For each command below and each k, from 1 until nothing is refused any more, the command is run on a copy of its folder
with the k-th growth refused. Within a minute it has to do one of these:

- print `cq: want of memory` as its fault with status 1, print nothing else and leave the folder as it was;
- give the result that it gives with all memory, and leave the folder so, if it can do without what was refused, as `race`
  can without a thread.

The folder is compared after a `take` of a name that is none: as any command that is alone there, it finishes a save whose
record is there.

With the word tests, the tests of the crates are run so, one at a time in an empty folder for their files, as `rt test`
left them in crates/CRATE/out/CRATE_tests. Each test has to pass with all memory. With a growth refused it has to say that
memory was refused, by the name that the refused call gives it, or to pass, within a minute. If it compares what its calls
return with what is wanted, the first other result has to say so: no result before it changed, and none came in its place.
A test of folders of the system says so too if a save that got no memory leaves renames to the next command, which does
them. A test that says anything else, hangs or dies of another signal is wrong. Left out are the tests of THREADS below.

With the word buffers, nothing is refused, and growths are counted: two tests of cq_calls_tests make the same calls,
except that after a read backwards one reads a single message into a buffer, and the other 1,299 of them. Reads into a
buffer allocate nothing, so both have to grow memory equally often.

With the word cycles, commands run in little memory. `read`, `take` and `drop` do so on a queue that may have 64 cycles of
65,536 cells, of which one has begun: slots for all cycles would take 64 MiB. `write` does so on a queue with cycles of
1,048,576 cells, of which the slot of one would take 8 MiB.

A library in front of the C library's malloc, calloc, realloc and aligned_alloc refuses; it is compiled by cc. CQ names
the program; if it is not set, it is crates/cq/out/cq, which `./cq race 1` builds. The status is 0 if all is as said.
"""
import collections
import itertools
import os
import re
import resource
import shutil
import subprocess
import sys
import tempfile

SHIM = r"""
#define _GNU_SOURCE
#include <errno.h>
#include <fcntl.h>
#include <stdio.h>
#include <stdlib.h>
#include <unistd.h>

void *__libc_malloc(size_t), *__libc_calloc(size_t, size_t), *__libc_realloc(void *, size_t), *__libc_memalign(size_t, size_t);

static long count, refused = -1;

static int refuse(void) {
    if (refused < 0) {
        const char *word = getenv("REFUSED_GROWTH");
        refused = word ? atol(word) : 0;
    }
    if (__sync_add_and_fetch(&count, 1) != refused) return 0;
    int file = open(getenv("REFUSED_MARK"), O_CREAT | O_WRONLY, 0600);
    if (file >= 0) close(file);
    errno = ENOMEM;
    return 1;
}

__attribute__((destructor)) static void report(void) {
    const char *name = getenv("GROWTHS");
    int file = name ? open(name, O_CREAT | O_WRONLY | O_TRUNC, 0600) : -1;
    if (file >= 0) dprintf(file, "%ld", count);
}

void *malloc(size_t n) { return refuse() ? NULL : __libc_malloc(n); }
void *calloc(size_t n, size_t k) { return refuse() ? NULL : __libc_calloc(n, k); }
void *realloc(void *p, size_t n) { return refuse() ? NULL : __libc_realloc(p, n); }
void *aligned_alloc(size_t a, size_t n) { return refuse() ? NULL : __libc_memalign(a, n); }
void *memalign(size_t a, size_t n) { return refuse() ? NULL : __libc_memalign(a, n); }
int posix_memalign(void **p, size_t a, size_t n) {
    if (refuse() || !(*p = __libc_memalign(a, n))) return ENOMEM;
    return 0;
}
"""

HERE = os.path.dirname(os.path.dirname(os.path.abspath(__file__)))

INIT = (["init", "D", "daily", "0", "64", "8", "1", "4", "reader"], b"")
HELLO = (["write", "D", "1728000000000"], b"hello\nworld\n")
NEXT = (["write", "D", "1728086400000"], b"a\n")
FILE = "20241004.cqi"
FIRST = [INIT, (["write", "D", "0"], b"hello\n"), (["write", "D", "86400000"], b"a\n")]

# The files of a folder of version 1 with "hello" and "world".
OLD = {
    "queue.cqc": b"cq 1\nroll daily\nepoch 0\ncells 64\ncount 8\nspacing 1\ncycles 4\nname reader 0\n",
    FILE: bytes.fromhex(
        "180000404351494601000000204e0000080000000100000040000000"
        "200000404000000000000000000000000000000000000000000000000000000000000000"
        "200000406400000070000000000000000000000000000000000000000000000000000000"
        "0500000068656c6c6f000000"
        "05000000776f726c64000000"
    ),
}

REPAIRED = b"20241004.cqi: 1 messages would be kept, the old file would be 20241004.cqi.bad\n"
RACED = b"writer 0: 3 in order\nwriter 1: 3 in order\nreader 0: 6 read\nreader 1: 6 read\n"

# What was done to the folder before, or put into it, the bytes that are kept of the image, the command and its input,
# and its result: what it prints with status 0, or its status, what it prints and what it says is wrong.
ROWS = [
    ([], None, (["echo"], b"hello\nworld\n"), b"0 hello\n1 world\n"),
    ([], None, (["echo"], b"hello\n\nworld\n"), (1, b"", b"cq: line 2: BadRoom\n")),
    ([], None, (["cycle", "daily", "0", "1728000000000"], b""), b"20000 20241004 00004e2000000000\n"),
    ([], None, (["race", "3"], b""), RACED),
    ([], None, INIT, b""),
    ([INIT], None, HELLO, b"00004e2000000000\n00004e2000000001\n"),
    ([INIT, HELLO], None, NEXT, b"00004e2100000000\n"),
    ([INIT, HELLO], None, (["read", "D"], b""), b"00004e2000000000 hello\n00004e2000000001 world\n"),
    ([INIT, HELLO], None, (["read", "D", "--back"], b""), b"00004e2000000001 world\n00004e2000000000 hello\n"),
    ([INIT, HELLO], None, (["check", "D"], b""), b"20241004.cqi: 2 messages, open\n"),
    ([INIT, HELLO], None, (["take", "D", "reader"], b""), b"00004e2000000000 hello\n"),
    ([INIT, HELLO], None, (["take", "D", "reader", "--limit", "3"], b""), b"00004e2000000000 hello\n00004e2000000001 world\n"),
    ([INIT, HELLO], None, (["take", "D", "reader", "--peek"], b""), b"00004e2000000000 hello\n"),
    ([INIT], None, (["take", "D", "reader", "--limit", "3"], b""), (4, b"", b"")),
    ([INIT, HELLO], None, (["take", "D", "reader", "--wait", "5"], b""), b"00004e2000000000 hello\n"),
    ([INIT, HELLO], None, (["read", "D", "--follow", "--limit", "2"], b""), b"00004e2000000000 hello\n00004e2000000001 world\n"),
    ([INIT, HELLO], None, (["write", "D", "1728000000000", "--null"], b"a\nb\0c"), b"00004e2000000002\n00004e2000000003\n"),
    ([INIT, HELLO], None, (["write", "D", "1728000000000", "--whole"], b"a\nb\n"), b"00004e2000000002\n"),
    ([INIT, HELLO, NEXT], None, (["drop", "D", "20001"], b""), b"20001\n"),
    ([INIT, HELLO], None, (["salvage", "D", FILE], b""), b"0 hello\n1 world\nwhole\n"),
    ([INIT, HELLO], 127, (["salvage", "D", FILE], b""), b"0 hello\nCut at 124\n"),
    ([INIT, HELLO], 40, (["salvage", "D", FILE], b""), b"Cut at 40\n"),
    ([INIT, HELLO], 127, (["repair", "D", FILE, "--dry-run"], b""), REPAIRED),
    (
        FIRST,
        None,
        (["dump", "D", "19700101.cqi"], b""),
        b"00000000 40000024 store 2 0 8 1 64 0 86400000\n00000028 40000020 top 76 0 0 0 0 0 0 0\n"
        b"0000004c 40000020 table 0 112 0 0 0 0 0 0 0\n00000070 00000005 data 0 68656c6c6f\n0000007c c0000000 end\n",
    ),
    ([OLD], None, (["read", "D"], b""), b"00004e2000000000 hello\n00004e2000000001 world\n"),
    ([OLD], None, (["migrate", "D"], b""), b""),
    ([INIT, HELLO], None, (["migrate", "D"], b""), b""),
]
WANT = b"cq: want of memory\n"

# The threads of these allocate in an order that depends on scheduling, and report of a call without memory that it
# gave no message.
THREADS = [
    "filling_tests", "growing_tests", "many_tests", "parts_tests", "sharing_tests", "thread_tests",
    "waiting_tests::threads_end_the_wait_of_others", "failing_tests::no_call_says_what_is_not_stored", "every_tests",
    "folder_tests::endpoints_go_on_while_a_queue_is_saved",
]  # fmt: skip

# The tests that read one message into a buffer, and all of them.
BUFFERS = [
    "allocating_tests::a_message_is_read_into_a_room_after_a_read_backwards",
    "allocating_tests::all_messages_are_read_into_a_room_after_a_read_backwards",
]

# A queue of many cycles, the commands that read it, their input, what they print, and the memory that they get, in bytes.
MANY = [(["init", "D", "daily", "0", "65536", "64", "16", "64", "reader"], b""), HELLO]
READERS = [
    (["read", "D"], b"", b"00004e2000000000 hello\n00004e2000000001 world\n"),
    (["take", "D", "reader"], b"", b"00004e2000000000 hello\n"),
    (["take", "D", "reader", "--limit", "2"], b"", b"00004e2000000001 world\n"),
    (["drop", "D", "20000"], b"", b"20000\n"),
]
FOR_READERS = 24 << 20

# The same of a queue with large cycles, and what appends to it: to the last cycle, and to one that begins.
LARGE = [(["init", "D", "daily", "0", "1048576", "64", "16", "4"], b""), HELLO]
WRITERS = [
    (["write", "D", "1728000000000"], b"again\n", b"00004e2000000002\n"),
    (["write", "D", "1728086400000"], b"next\n", b"00004e2100000000\n"),
]
FOR_WRITERS = 12 << 20

# How a test ends that failed, or whose comparison failed, and how its text names the refusal of memory.
FAILED, STOPPED = 101, -6
WANTS = re.compile(rb"\b(AllocError|AllocFailed|OutOfMemory|want of memory)\b")
COMPARED = re.compile(rb'  left: "(.*)"\n right: "(.*)"\n', re.S)


def bound(size):
    """Bounds the memory of this process."""
    resource.setrlimit(resource.RLIMIT_AS, (size, resource.getrlimit(resource.RLIMIT_AS)[1]))


def run(program, words, given, folder, more=None, begin=None):
    """What a command, whose process begins so, gives over a folder: its status, what it printed and what it said is wrong."""
    words = [folder if word == "D" else word for word in words]
    how = {"env": dict(os.environ, **(more or {})), "preexec_fn": begin}
    try:
        done = subprocess.run([program, *words], input=given, capture_output=True, timeout=60, check=False, **how)
    except subprocess.TimeoutExpired:
        return None, b"", b"no end within a minute"
    return done.returncode, done.stdout, done.stderr


def held(folder):
    """What a folder holds."""
    files = {}
    for name in sorted(os.listdir(folder)):
        with open(os.path.join(folder, name), "rb") as file:
            files[name] = file.read()
    return files


def put(folder, files):
    """Puts files into a folder."""
    for name, data in files.items():
        with open(os.path.join(folder, name), "wb") as file:
            file.write(data)


def try_row(program, shim, room, row):
    before, keep, (words, given), answer = row
    wanted = answer if isinstance(answer, tuple) else (0, answer, b"")
    first = os.path.join(room, "first")
    os.mkdir(first)
    for done in before:
        if isinstance(done, dict):
            put(first, done)
        else:
            assert run(program, *done, first)[0] == 0
    if keep is not None:
        os.truncate(os.path.join(first, FILE), keep)
    whole = os.path.join(room, "whole")
    shutil.copytree(first, whole)
    wrong = []
    if run(program, words, given, whole) != wanted:
        wrong.append(f"{' '.join(words)}: another answer with all memory")
    old, new, done_without = held(first), held(whole), 0
    for k in range(1, 100_000):
        folder, mark = os.path.join(room, f"at-{k}"), os.path.join(room, f"mark-{k}")
        shutil.copytree(first, folder)
        more = {"LD_PRELOAD": shim, "REFUSED_GROWTH": str(k), "REFUSED_MARK": mark}
        got = run(program, words, given, folder, more)
        run(program, ["take", "D", "nobody"], b"", folder)
        left = held(folder)
        shutil.rmtree(folder)
        if not os.path.exists(mark):
            return k - 1, done_without, wrong
        os.remove(mark)
        if got == wanted and left == new:
            done_without += 1
        elif got != (1, b"", WANT) or left != old:
            wrong.append(f"{' '.join(words)}, growth {k}: {got}, the folder {'kept' if left == old else 'changed'}")
    return k, done_without, wrong + ["too many growths"]


def is_refused(said):
    """Whether the first result that is not the wanted one says that memory was refused."""
    compared = COMPARED.search(said)
    if compared is None:
        return False
    for got, wanted in itertools.zip_longest(*(re.split(rb"[;,] ", side) for side in compared.groups()), fillvalue=b""):
        if got != wanted:
            return WANTS.search(got) is not None
    return False


def run_test(program, test, folder, more=None):
    """How a test ends in a folder, "passed", "want" or "wrong", and what it said."""
    environment = dict(os.environ, TMPDIR=folder, **(more or {}))
    try:
        done = subprocess.run([program, test], cwd=folder, capture_output=True, env=environment, timeout=60, check=False)
    except subprocess.TimeoutExpired:
        return "wrong", b"no end within a minute"
    if done.returncode == 0:
        return "passed", done.stdout
    said = done.stdout + done.stderr
    is_want = done.returncode == FAILED and WANTS.search(said) or done.returncode == STOPPED and is_refused(said)
    return ("want" if is_want else "wrong"), b"status %d: " % done.returncode + said


def try_test(program, shim, room, test):
    """How often a test ended in each way, and what was wrong."""
    ends, wrong = collections.Counter(), []
    mark = os.path.join(room, "mark")
    for k in range(100_000):
        # The first run has all memory.
        more = {"LD_PRELOAD": shim, "REFUSED_GROWTH": str(k), "REFUSED_MARK": mark} if k else {}
        with tempfile.TemporaryDirectory(dir=room) as folder:
            end, said = run_test(program, test, folder, more)
        if k and os.path.exists(mark):
            os.remove(mark)
            ends[end] += 1
        elif end != "passed":
            return ends, wrong + [f"{test}, nothing refused: {said}"]
        elif k:
            return ends, wrong
        if end == "wrong":
            wrong.append(f"{test}, growth {k}: {said}")
    return ends, wrong + [f"{test}: too many growths"]


def try_tests(crates, shim, room):
    """Whether each growth of the tests of these crates may be refused."""
    failed = False
    for crate in crates:
        program = os.path.join(HERE, "crates", crate, "out", f"{crate}_tests")
        listed = subprocess.run([program, "--list"], capture_output=True, text=True, check=True).stdout
        tests = re.findall(r"^(\S+): test$", listed, re.M)
        tests = [test for test in tests if not {test, test.split("::")[0]} & {*THREADS}]
        every, every_wrong = collections.Counter(), []
        for test in tests:
            ends, wrong = try_test(program, shim, room, test)
            every, every_wrong = every + ends, every_wrong + wrong
            counts = f"{ends.total()} growths refused, {ends['want']} want of memory, {ends['passed']} passed, {len(wrong)} wrong"
            print(f"{crate} {test}: {counts}")
            for line in wrong[:5]:
                print("   ", line)
        print(
            f"{crate}: {len(tests)} tests, {every.total()} growths refused, {every['want']} ended with want of memory, "
            f"{every['passed']} passed, {len(every_wrong)} wrong"
        )
        failed = failed or bool(every_wrong) or every.total() == 0
    return not failed


def growths_of(program, shim, room, test):
    """How often a test grows memory."""
    counted = os.path.join(room, "growths")
    end, said = run_test(program, test, room, {"LD_PRELOAD": shim, "GROWTHS": counted})
    assert end == "passed", said
    with open(counted, encoding="utf-8") as file:
        return int(file.read())


def try_buffers(shim, room):
    """Whether reads into a buffer grow no memory."""
    program = os.path.join(HERE, "crates/cq_calls_tests/out/cq_calls_tests_tests")
    one, all_of_them = (growths_of(program, shim, room, test) for test in BUFFERS)
    wrong = int(one != all_of_them or one == 0)
    print(f"1 read into a buffer: {one} growths, 1299 reads: {all_of_them} growths, {wrong} wrong")
    return wrong == 0


def program_named():
    """The program cq."""
    return os.environ.get("CQ", os.path.join(HERE, "crates/cq/out/cq"))


def faults_in_little(room, before, rows, size):
    """What commands do wrong in memory of this size, on a queue that others have made."""
    with tempfile.TemporaryDirectory(dir=room) as folder:
        for words, given in before:
            assert run(program_named(), words, given, folder)[0] == 0, words
        ran = [(words, printed, run(program_named(), words, given, folder, begin=lambda: bound(size))) for words, given, printed in rows]
    return [f"{words[0]}: {result}" for words, printed, result in ran if result != (0, printed, b"")]


def try_cycles(room):
    """Whether commands make no slots."""
    wrong = [*faults_in_little(room, MANY, READERS, FOR_READERS), *faults_in_little(room, LARGE, WRITERS, FOR_WRITERS)]
    print("\n".join([*wrong, f"in little memory: {len(READERS) + len(WRITERS)} commands, {len(wrong)} wrong"]))
    return not wrong


def try_commands(shim, room):
    """Whether each growth of the commands may be refused."""
    program = program_named()
    failed = False
    for number, row in enumerate(ROWS):
        place = os.path.join(room, str(number))
        os.mkdir(place)
        growths, done_without, wrong = try_row(program, shim, place, row)
        print(f"{' '.join(row[2][0])}: {growths} growths refused, {done_without} done without, {len(wrong)} wrong")
        for line in wrong[:5]:
            print("   ", line)
        failed = failed or bool(wrong) or growths == 0
    return not failed


def main(words):
    if words and words not in (["buffers"], ["cycles"]) and (words[0] != "tests" or len(words) == 1):
        print(__doc__.split("\n", 1)[0], file=sys.stderr)
        return 2
    with tempfile.TemporaryDirectory() as room:
        if words == ["cycles"]:
            return 0 if try_cycles(room) else 1
        source, shim = os.path.join(room, "shim.c"), os.path.join(room, "shim.so")
        with open(source, "w", encoding="utf-8") as file:
            file.write(SHIM)
        subprocess.run(["cc", "-O1", "-shared", "-fPIC", "-o", shim, source], check=True)
        if words == ["buffers"]:
            is_well = try_buffers(shim, room)
        else:
            is_well = try_tests(words[1:], shim, room) if words else try_commands(shim, room)
    return 0 if is_well else 1


if __name__ == "__main__":
    sys.exit(main(sys.argv[1:]))
