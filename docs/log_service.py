"""The program, `cq log` while lines come to it, and system calls that strace sees: parts of docs/kill_log.py."""
import collections
import random
import shutil
import subprocess
import threading
import time

PIPES = {"stdin": subprocess.PIPE, "stdout": subprocess.PIPE, "stderr": subprocess.PIPE}

# The process that is begun is that of the program, so that it can be killed, and strace is a process next to it.
STRACE = ["strace", "-D", "-f", "-qq"]

# Seconds after which a command counts as one that does not end, and is killed.
NO_END = 60

LIVE = b"cq: a queue is live in this folder: wait until it is closed, or close it\n"


class Tried:
    """The program, what was counted, and what was found wrong."""

    def __init__(self, program, room, dice):
        self.program, self.room, self.dice = program, room, dice
        # How many syncs a batch may have where a power cut comes, and whether images are saved while lines come.
        self.syncs, self.has_checkpoints = (1, 2), True
        self.counts, self.wrong, self.untried = collections.Counter(), [], []

    def run(self, *words, given=b"", front=(), moment=None):
        """What a command gives: its status, what it printed and what it said. It is killed at a moment, if that is given."""
        process = subprocess.Popen([*front, self.program, *words], **PIPES)
        try:
            printed, said = process.communicate(given, NO_END if moment is None else moment)
        except subprocess.TimeoutExpired:
            process.kill()
            printed, said = process.communicate()
        return process.returncode, printed, said

    def has(self, tool, mode):
        """Whether a tool is there. If not, the mode is not tried."""
        if not shutil.which(tool):
            self.untried.append(f"{mode}: there is no {tool} (apt-get install {'gcc' if tool == 'cc' else tool})")
        return bool(shutil.which(tool))


def some_lines(dice, most=40):
    return [b"%0*d" % (dice.choice([1, 8, 90, 400]), dice.randrange(10**8)) for _ in range(dice.randint(1, most))]


def some_options(tried, syncs):
    """How many syncs a batch has, one of these numbers. Half of the services save the images while lines come, some of them after
    each line, if any may."""
    dice, options = tried.dice, ["--syncs", str(tried.dice.choice(syncs))]
    if not tried.has_checkpoints or dice.random() < 0.5:
        return options
    return [*options, "--checkpoint", str(dice.choice([1, 200, 2000]))]


def feed(stream, lines, dice, is_closed):
    """Writes lines to a stream in pieces of random length, until the stream is closed. Closes it at the end if that is wanted."""
    text = b"".join(line + b"\n" for line in lines)
    try:
        while text:
            length = dice.randint(1, 300)
            stream.write(text[:length])
            stream.flush()
            text = text[length:]
            if dice.random() < 0.3:
                time.sleep(dice.uniform(0, 0.003))
        if is_closed:
            stream.close()
    except (BrokenPipeError, ValueError):
        pass


def lines_of(printed):
    """The lines that were printed whole."""
    return printed.split(b"\n")[:-1]


def indexes_of(printed):
    return [int(line, 16) for line in lines_of(printed)]


class Service:
    """`cq log` on a folder: a thread gives it lines, and another keeps what it prints. Its input ends after them if that is
    wanted."""

    def __init__(self, tried, folder, lines, front=(), is_closed=False, syncs=(0, 1, 2)):
        self.tried, self.folder, self.printed, self.first = tried, folder, b"", threading.Event()
        self.options = some_options(tried, syncs)
        tried.counts["services with checkpoints"] += "--checkpoint" in self.options
        tried.counts["services with one sync"] += "1" in self.options[:2]
        self.process = subprocess.Popen([*front, tried.program, "log", folder, *self.options], **PIPES)
        feeding = (self.process.stdin, lines, random.Random(tried.dice.random()), is_closed)
        self.threads = [threading.Thread(target=feed, args=feeding), threading.Thread(target=self.keep)]
        for thread in self.threads:
            thread.start()

    def keep(self):
        for line in self.process.stdout:
            self.printed += line
            self.first.set()
        self.first.set()

    def refuses_a_write(self, what):
        answer = self.tried.run("write", self.folder, "0", given=b"no\n")
        if answer != (1, b"", LIVE):
            self.tried.wrong.append(f"{what}: a write next to it: {answer}")

    def ended(self):
        """Waits until it ends. Returns its status, the indexes that it printed, and what it said."""
        said = self.process.stderr.read()
        status = self.process.wait()
        for thread in self.threads:
            thread.join()
        for stream in (self.process.stdin, self.process.stdout, self.process.stderr):
            try:
                stream.close()
            except BrokenPipeError:
                pass
        return status, indexes_of(self.printed), said

    def kill(self, what, fault=None):
        """Kills it, unless it was killed or has ended, which it may do by itself with this fault. Returns the indexes that it
        printed, and whether it was killed."""
        self.process.kill()
        status, acks, said = self.ended()
        if fault and status == 1 and said.startswith(fault):
            return acks, False
        if said or status not in (-9, 0):
            self.tried.wrong.append(f"{what}: status {status}, said {said!r}")
        return acks, status == -9


def served_one_by_one(command, folder, lines, options=()):
    """Gives lines to `cq log`, each once the one before is acknowledged. Returns its status, the indexes, and what it said."""
    process = subprocess.Popen([*command, "log", folder, *options], **PIPES)
    end = threading.Timer(NO_END, process.kill)
    end.start()
    printed = b""
    try:
        for line in lines:
            process.stdin.write(line + b"\n")
            process.stdin.flush()
            ack = process.stdout.readline()
            printed += ack
            if not ack.endswith(b"\n"):
                break
    except BrokenPipeError:
        pass
    try:
        process.stdin.close()
    except BrokenPipeError:
        pass
    printed += process.stdout.read()
    said = process.stderr.read()
    end.cancel()
    return process.wait(), indexes_of(printed), said
