"""`cq log` is killed, at random moments and at its system calls: the modes random, calls and syncs of docs/kill_log.py."""
import os
import time

from log_life import MINUTE, Life
from log_service import STRACE, Service, served_one_by_one, some_lines

# The system calls at which the process is killed.
CALLS = ["openat", "flock", "read", "write", "pwrite64", "fdatasync", "fsync", "ftruncate", "rename", "unlink", "close"]

# With each of these options each call comes. The images are saved after the second and the third of three short lines.
OPTIONS = [[], ["--checkpoint", "5"], ["--checkpoint", "5", "--syncs", "1"]]

# A folder is made anew after this many kills, before its cycles are full.
KILLS_IN_FOLDER = 25


def is_one_more_kill(tried, life, number, rolls, is_little):
    """Kills a service of a folder, looks at what is there, and goes on with other commands. Returns whether all is as said. Few
    lines come to a little queue, and its takes come to them."""
    what, dice, lines = f"kill {number}", tried.dice, some_lines(tried.dice, 2 if is_little else 40)
    service = Service(tried, life.folder, lines, is_closed=number % 6 == 0)
    if number % 2 and service.first.wait(10):
        if number % 10 == 1:
            service.refuses_a_write(what)
        time.sleep(dice.uniform(0, 0.03))
    else:
        time.sleep(dice.uniform(0, 0.2 if number % 6 == 0 else 0.06))
    acks, is_killed = service.kill(what)
    if not is_killed and len(acks) != len(lines):
        life.fails(what, f"it ended, with {len(acks)} of {len(lines)} lines acknowledged")
    tried.counts["kills at random"] += is_killed
    tried.counts["kills at random after an acknowledgement"] += is_killed and bool(acks)
    tried.counts["ended by itself"] += not is_killed
    tried.counts["lines that came"] += len(lines)
    tried.counts["lines acknowledged"] += len(acks)
    before, cycle = len(life.messages), life.last_cycle()
    if not life.compared(lines, acks, what):
        return False
    tried.counts["lines stored and not acknowledged"] += len(life.messages) - before - len(acks)
    tried.counts["services that began a cycle"] += bool(before) and life.last_cycle() > cycle
    # Commands that change the queue may be the first to meet the log.
    has_log = life.has_log()
    for _ in range(dice.choice([1, 2, 3] if is_little else [0, 0, 1, 2])):
        tried.counts["commands that first met the log"] += has_log
        has_log = False
        if not life.some_command(what, dice.random() < 0.4, rolls) or not life.compared([], [], f"{what}, then"):
            return False
    if not life.is_saved(what):
        return False
    if is_little and dice.random() < 0.7:
        # So the next message that is taken is one of the next log.
        return life.takes_all(what)
    return all(life.some_command(what, dice.random() < 0.2, rolls) for _ in range(dice.choice([0, 1])))


def try_random(tried, runs):
    life, is_well, since, is_little = None, True, 0, False
    for number in range(runs):
        if number % KILLS_IN_FOLDER == 0 or not is_well or life.is_full():
            if life:
                life.end()
            life, since = Life(tried, f"random-{number}", tried.dice.uniform(0.5, 4), MINUTE), number
            is_little = not tried.counts["folders"] % 2
            tried.counts["folders"] += 1
        # The clock begins the first of the later cycles.
        is_well = is_one_more_kill(tried, life, number, number - since > KILLS_IN_FOLDER // 2, is_little)
    acknowledging = tried.counts["kills at random after an acknowledgement"]
    if acknowledging * 3 < runs:
        tried.wrong.append(f"{acknowledging} of {runs} runs acknowledged a line and were killed")
    if life:
        life.end()


def left_by_a_kill(life, what):
    """Leaves the log of a queue that was killed. Returns whether all is as said."""
    service = Service(life.tried, life.folder, [b"more"])
    service.first.wait(10)
    acks, _ = service.kill(what)
    return life.compared([b"more"], acks, what)


def is_killed_at(life, call, number, options):
    """Kills `cq log` at a system call with this number. Returns whether all is as said, and whether it came to that call."""
    lines, what = [b"one", b"two", b"three"], f"kill at {call} {number} {' '.join(options)}"
    front = [*STRACE, "-o", os.devnull, "-e", f"inject={call}:signal=KILL:when={number}"]
    status, acks, said = served_one_by_one([*front, life.tried.program], life.folder, lines, options)
    if said or (status == 0 and len(acks) != len(lines)):
        life.fails(what, f"status {status}, {len(acks)} lines acknowledged, said {said!r}")
    life.tried.counts["kills at calls"] += status != 0
    is_well = life.compared(lines, acks, what) and life.is_saved(what)
    if status == 0 and [text for _, text in life.messages[-3:]] != lines:
        life.fails(what, "not killed, and the lines are not there")
    return is_well, status != 0


def try_calls(tried, _runs):
    if not tried.has("strace", "calls"):
        return
    for call in CALLS:
        for options in OPTIONS:
            try_call(tried, call, options)


def try_call(tried, call, options):
    life, number, is_well, is_killed = Life(tried, f"calls-{call}"), 0, True, True
    while is_killed and is_well:
        number += 1
        # Each second start finds the log of a queue that was killed.
        is_well = number % 2 == 0 or left_by_a_kill(life, f"before a kill at {call} {number}")
        if is_well:
            is_well, is_killed = is_killed_at(life, call, number, options)
    life.end()


def try_syncs(tried, _runs):
    if tried.has("strace", "syncs"):
        for syncs in (2, 1, 0):
            try_order(tried, syncs)


def try_order(tried, syncs):
    life, trace = Life(tried, f"syncs-{syncs}"), os.path.join(tried.room, "trace")
    front = [*STRACE, "-o", trace, "-e", "trace=pwrite64,fdatasync,write"]
    lines = [b"one", b"two", b"three"]
    status, acks, said = served_one_by_one([*front, tried.program], life.folder, lines, ["--syncs", str(syncs)])
    if status or said or len(acks) != 3:
        tried.wrong.append(f"syncs: status {status}, {len(acks)} lines acknowledged, said {said!r}")
    found = acknowledged(trace)
    if len(found) != 3 or not (syncs == 0 or all(is_synced for _, is_synced in found)):
        tried.wrong.append(f"syncs: with {syncs} not each of three indexes comes after a sync of the last write: {found}")
    # Before the first index the queue is opened.
    for made, _ in found[1:]:
        tried.counts[f"acknowledgements after {syncs} syncs"] += 1
        if made != syncs:
            tried.wrong.append(f"syncs: {made} and not {syncs} before an index")
    life.end()


def acknowledged(trace):
    """For each index that was printed: the syncs since the one before, and whether a sync came after the last write to the log."""
    found, made, is_synced = [], 0, False
    with open(trace, encoding="ascii", errors="replace") as calls:
        for call in calls:
            name = call.split(None, 1)[1] if " " in call else call
            if name.startswith("pwrite64("):
                is_synced = False
            elif name.startswith("fdatasync("):
                is_synced, made = name.rstrip().endswith("= 0"), made + 1
            elif name.startswith("write(1, "):
                found.append((made, is_synced))
                made = 0
    return found
