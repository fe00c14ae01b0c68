"""What a power cut may leave of a log: the mode torn of docs/kill_log.py.

strace shows what was written to `queue.log`, what was synced, and what was acknowledged in between. So the file is known that
is on the disk for certain at each moment, and the writes since then. Of these a crash may leave anything, or, where the log has one
sync a batch, of each byte the old one or the new one.
"""
import os
import subprocess
import time

from log_life import MINUTE, Life
from log_service import NO_END, STRACE, Service, some_lines
from log_trace import TRACED, Trace, put_over

# A folder is made anew after this many kills.
KILLS_IN_FOLDER = 50

# After each kill this number of logs is tried: the last one in the folder itself, and the others in copies of it.
LOGS = 3

# What may become of a write where of each byte the old one or the new one is left, and where any bytes are.
BYTEWISE = ["whole", "whole", "none", "front", "back", "sectors", "bytes", "bytes"]
KINDS = [*BYTEWISE, "zeros", "ones", "garbage"]


def part_of(dice, before, data, place, kinds):
    """What a crash may leave where `data` was written over `before`, at this place of the file."""
    length, kind = len(data), dice.choice(kinds)
    if kind == "whole":
        return data
    if kind == "none":
        return before
    if kind == "zeros":
        return bytes(length)
    if kind == "ones":
        # A gate of this byte is open.
        return b"\1" * length
    if kind == "garbage":
        return dice.randbytes(length)
    cut = dice.randint(0, length)
    if kind == "front":
        return data[:cut] + before[cut:]
    if kind == "back":
        return before[:cut] + data[cut:]
    size = 512 if kind == "sectors" else 1
    kept = {sector for sector in range(place // size, (place + length) // size + 1) if dice.random() < 0.5}
    return bytes(data[it] if (place + it) // size in kept else before[it] for it in range(length))


def forged(length):
    """Blocks of this length as they would be after a gate: open, each with the note of a message that never came."""
    note = b"\2" + (6).to_bytes(4, "little") + b"forged"
    block = len(note).to_bytes(4, "little") + note + b"\1"
    return (block * (length // len(block) + 1))[:length]


def torn(dice, log, is_bytewise):
    """What a crash may leave of a log: what was synced, and where it was written since anything, or of each byte the old one or the
    new one. The length is the old one, the new one, or between."""
    kinds = BYTEWISE if is_bytewise else KINDS
    old, new = len(log.synced), max([len(log.synced), *(place + len(data) for place, data in log.writes)])
    held = log.synced.ljust(new, b"\0")
    # Later writes may come to the disk before earlier ones.
    for place, data in dice.sample(log.writes, len(log.writes)):
        held = put_over(held, place, part_of(dice, held[place:place + len(data)], data, place, kinds))
    if new > old and not is_bytewise and dice.random() < 0.25:
        held = held[:old] + forged(new - old)
    return held[:dice.choice([old, new, new, dice.randint(old, new)])]


def traced_service(tried, life, lines, trace, number):
    """`cq log` seen by strace, and killed at a call or a moment, or ended after a sync that fails. Returns the indexes, whether it
    was killed, its process, and whether a power cut may leave of each byte only the old one or the new one."""
    front = [*STRACE, *TRACED, "-o", trace]
    dice, way = tried.dice, number % 5
    if way in (0, 2):
        call = dice.choice(["pwrite64", "pwrite64", "pwrite64", "fdatasync", "fdatasync", "write", "rename"])
        front += ["-e", f"inject={call}:signal=KILL:when={dice.randint(1, 5 if call == 'rename' else 24)}"]
    elif way == 4:
        front += ["-e", f"inject=fdatasync:error=EIO:when={dice.randint(1, 16)}"]
    service = Service(tried, life.folder, lines, front, is_closed=dice.random() < 0.2, syncs=tried.syncs)
    # Not before it has printed or ended: strace may hang if what it is to see is killed before it sees it.
    service.first.wait(NO_END)
    if way in (1, 3):
        time.sleep(dice.uniform(0, 0.04))
    else:
        try:
            service.process.wait(0.2)
        except subprocess.TimeoutExpired:
            pass
    acks, is_killed = service.kill(f"torn {number}", b"cq: the log" if way == 4 else None)
    return acks, is_killed, service.process.pid, service.options[:2] == ["--syncs", "1"]


def put_log(life, held):
    with open(life.log(), "wb") as file:
        file.write(held)


def held_in(path):
    if not os.path.exists(path):
        return b""
    with open(path, "rb") as file:
        return file.read()


def is_seen(life, log, trace, what):
    """Whether the file is what the calls say, with the interrupted write or without it. If with it, it counts as a write."""
    held = held_in(life.log())
    if trace.may_be_replaced and not held:
        log.begin(b"")
    if trace.cut:
        return life.fails(what, "the log was cut, which is not understood")
    if trace.unfinished:
        place, data = trace.unfinished
        if held == put_over(log.shown, place, data):
            log.shown = held
        log.writes.append((place, data))
    return held == log.shown or life.fails(what, f"the log has {len(held)} bytes, and by its calls {len(log.shown)}")


def is_torn(life, log, is_bytewise, lines, acks, what):
    """Puts what a crash may leave of a log into a folder. Returns whether the folder holds what it has to, now and then."""
    counts, held = life.tried.counts, torn(life.tried.dice, log, is_bytewise)
    counts["torn logs"] += 1
    counts["torn logs with one sync"] += is_bytewise
    counts["torn logs with writes after the last sync"] += bool(log.writes)
    counts["torn logs other than the one that was there"] += held != log.shown
    put_log(life, held)
    before = len(life.messages)
    if not life.compared(lines, acks, what):
        return False
    counts["torn logs after an acknowledgement"] += bool(acks)
    counts["lines acknowledged"] += len(acks)
    counts["lines stored and not acknowledged"] += len(life.messages) - before - len(acks)
    if life.tried.dice.random() < 0.3 and not (life.some_command(what) and life.compared([], [], f"{what}, then")):
        return False
    return life.is_saved(what)


def some_count(dice, trace):
    """How many calls a power cut comes after: mostly after a write to the log, if there is one since the last rename."""
    puts = [count for count in range(trace.renames + 1, len(trace.calls) + 1) if trace.calls[count - 1][0] == "put"]
    if puts and dice.random() < 0.8:
        return dice.choice(puts)
    return dice.randint(trace.renames, len(trace.calls))


def is_one_more_torn(tried, life, number):
    lines, trace_file, before = some_lines(tried.dice), os.path.join(tried.room, "trace"), held_in(life.log())
    acks, is_killed, process, is_bytewise = traced_service(tried, life, lines, trace_file, number)
    trace, what = Trace(trace_file, process), f"torn {number}"
    os.remove(trace_file)
    tried.counts["kills"] += is_killed
    tried.counts["syncs that failed"] += ("fail",) in trace.calls
    log, _ = trace.log_after(len(trace.calls), before)
    if not is_seen(life, log, trace, what):
        return False
    # Since the last rename no other file has changed, so the cut may come after any call since then.
    for place in range(LOGS - 1):
        count = some_count(tried.dice, trace)
        earlier, acked = trace.log_after(count, before)
        copy = life.copied(f"torn-copy-{place}")
        is_well = is_torn(copy, earlier, is_bytewise, lines, acks[:acked], f"{what}, after {count} of {len(trace.calls)} calls")
        copy.end()
        if not is_well:
            return False
    return is_torn(life, log, is_bytewise, lines, acks, what)


def try_torn(tried, runs, is_one_enough=False):
    """Kills this many times, or until something is wrong if that is enough."""
    if not tried.has("strace", "torn"):
        return
    life, is_well = None, True
    for number in range(runs):
        if number % KILLS_IN_FOLDER == 0 or not is_well or life.is_full():
            if life:
                life.end()
            life = Life(tried, f"torn-{number}", tried.dice.uniform(0.5, 8), MINUTE)
        is_well = is_one_more_torn(tried, life, number)
        if is_one_enough and tried.wrong:
            break
    if not is_one_enough and runs >= 20 and tried.counts["torn logs other than the one that was there"] * 4 < runs:
        tried.wrong.append("torn: most logs were as they were")
    if life:
        life.end()
