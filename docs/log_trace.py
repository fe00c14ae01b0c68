"""The calls on a log that strace saw, and what is on the disk for certain after them: a part of docs/kill_log.py."""
import re

# What strace is to show, and how: whole, in hexadecimal digits.
TRACED = ["--seccomp-bpf", "-xx", "-s", "100000000", "-e", "trace=openat,pwrite64,fdatasync,fsync,ftruncate,rename,write"]

# A call with its process, name, arguments, and result if there is one. An interrupted one is in two lines.
CALL = re.compile(r"(\d+) +(?:<\.\.\. )?(\w+)(?:\(| resumed>)(.*?)(?: <unfinished \.\.\.>|\) += (-?\d+|\?).*|)$")
STRING = re.compile(r'"((?:\\x[0-9a-f]{2})*)"')


class Log:
    """A file by the calls on it: what is on the disk for certain, what the system shows, and the writes of which a crash may leave
    anything: those since the last sync, and those before a sync that failed, of which a later one proves nothing."""

    def __init__(self, held):
        self.begin(held)

    def begin(self, held):
        """The file is one that holds this, and all of it is on the disk."""
        self.synced, self.shown, self.writes, self.doubtful = held, held, [], []

    def put(self, place, data):
        self.shown = put_over(self.shown, place, data)
        self.writes.append((place, data))

    def sync(self):
        self.synced, self.writes = self.shown, [*self.doubtful]

    def fail(self):
        self.doubtful = [*self.writes]


def put_over(held, place, data):
    held = held.ljust(place, b"\0")
    return held[:place] + data + held[place + len(data):]


class Trace:
    """The calls that count, in their order: (`put`, place, bytes), (`sync`,), (`fail`,) for a sync that failed, (`acks`, how many),
    (`renamed`,), and (`replaced`,) for a rename to the log.

    `unfinished` is the write to the log that the kill interrupted, if it did, and `may_be_replaced` says that it interrupted a
    rename to the log. Neither is in `calls`.
    """

    def __init__(self, path, main):
        self.main, self.calls, self.files, self.unfinished, self.halves = str(main), [], {}, None, {}
        self.renames, self.cut, self.may_be_replaced = 0, False, False
        with open(path, encoding="ascii", errors="replace") as lines:
            for line in lines:
                self.take_line(line)
        for name, process, words in self.halves.values():
            if name == "pwrite64" and self.is_log(process, words):
                self.unfinished = written(words)
            elif name == "rename" and strings_of(words)[-1].endswith(b"/queue.log"):
                self.may_be_replaced = True

    def take_line(self, line):
        found = CALL.match(line)
        if not found:
            return
        process, name, words, result = found.groups()
        if " resumed>" in line:
            words = self.halves.pop(process, (name, process, ""))[2] + words
        if result is None or result == "?":
            self.halves[process] = name, process, words
        elif int(result) >= 0:
            self.take_call(process, name, words, int(result))
        elif name in ("fdatasync", "fsync") and self.is_log(process, words):
            self.calls.append(("fail",))

    def is_log(self, process, words):
        return (process, words.split(",")[0].strip(" )")) in self.files

    def take_call(self, process, name, words, result):
        strings = strings_of(words)
        if name == "openat":
            self.files.pop((process, str(result)), None)
            if strings[0].endswith(b"/queue.log") and "O_RDWR" in words:
                self.files[process, str(result)] = True
        elif name == "rename":
            self.renames = len(self.calls) + 1
            self.calls.append(("replaced" if strings[1].endswith(b"/queue.log") else "renamed",))
        elif name == "write" and process == self.main and words.startswith("1,"):
            self.calls.append(("acks", strings[0].count(b"\n")))
        elif name in ("pwrite64", "fdatasync", "fsync", "ftruncate") and self.is_log(process, words):
            if name == "ftruncate":
                self.cut = True
            elif name == "pwrite64":
                place, data = written(words)
                self.calls.append(("put", place, data[:result]))
            else:
                self.calls.append(("sync",))

    def log_after(self, count, held):
        """The log after this many calls, if the file held this at first, and how many lines were acknowledged by then."""
        log, acks = Log(held), 0
        for call in self.calls[:count]:
            if call[0] == "put":
                log.put(call[1], call[2])
            elif call[0] == "sync":
                log.sync()
            elif call[0] == "fail":
                log.fail()
            elif call[0] == "replaced":
                log.begin(b"")
            elif call[0] == "acks":
                acks += call[1]
        return log, acks


def strings_of(words):
    return [bytes.fromhex(it.replace("\\x", "")) for it in STRING.findall(words)]


def written(words):
    """The place and the bytes of a pwrite64."""
    place = words.rsplit(",", 1)[1]
    return int(place.strip(" )")), strings_of(words)[0]
