"""Tests of the package: python3 python/tests/test_linnetshelf.py LIBRARY [PROGRAM].

LIBRARY is liblinnetshelf.so, and PROGRAM the program cq, without which the tests of folders do not run.
"""
import contextlib
import gc
import io
import itertools
import multiprocessing
import os
import pathlib
import random
import re
import resource
import shutil
import signal
import struct
import subprocess
import sys
import tempfile
import threading
import time
import traceback
import unittest
import unittest.mock
import warnings

TOP = pathlib.Path(__file__).resolve().parent.parent.parent
sys.path.insert(0, str(TOP / "python"))
os.environ["LINNETSHELF_LIBRARY"], CQ = str(pathlib.Path(sys.argv[1]).resolve()), (sys.argv[2:] or [None])[0]

import linnetshelf
from linnetshelf import _endpoint, _folder, _library, _live

DAY = 86_400_000
SMALL = linnetshelf.Settings(cells=4096, index_count=16, index_spacing=4, cycles=3)


def cq(*words, text=""):
    """Runs the program, and returns what it prints."""
    return subprocess.run([CQ, *map(str, words)], input=text, capture_output=True, text=True, check=True).stdout


def data_of(messages):
    return [message.data for message in messages]


def in_child(call):
    """Runs a call in a child process, and returns how that ended: 0 if the call returns a true value."""
    with warnings.catch_warnings():
        # Later versions of Python warn of a fork while threads run.
        warnings.simplefilter("ignore", DeprecationWarning)
        child = os.fork()
    if child == 0:
        status = 3
        try:
            status = 0 if call() else 1
        except BaseException:
            traceback.print_exc()
        finally:
            os._exit(status)
    return os.waitpid(child, 0)[1]


class Header(unittest.TestCase):
    """The package says what the header says."""

    def setUp(self):
        self.header = (TOP / "c" / "linnetshelf.h").read_text(encoding="utf-8")

    def test_statuses(self):
        listed = {name: int(number) for name, number in re.findall(r"^    LINNETSHELF_(\w+) = (\d+), /\*", self.header, re.M)}
        self.assertEqual(listed, {status.name: status.value for status in linnetshelf.Status})

    def test_calls(self):
        declared = dict(re.findall(r"^\w[\w ]* \*?linnetshelf_(\w+)\(([^)]*)\);", self.header, re.M))
        # The package has no shelves. It keeps the settings of a queue, and reads the text of queue.cqc itself. A turn to which
        # nothing came settles a log.
        left_out = {"settings_of", "names_of", "config_read", "config_write", "settle"}
        self.assertEqual({name for name in declared if not name.startswith("shelf_")} - left_out, set(_library.CALLS))
        for name, (_, *arguments) in _library.CALLS.items():
            self.assertEqual(len(arguments), 0 if declared[name] == "void" else len(declared[name].split(",")), name)

    def test_each_status_has_a_text(self):
        texts = [linnetshelf.text_of(status) for status in linnetshelf.Status]
        self.assertEqual(texts[:2], ["it is done", "there is no such message yet"])
        self.assertEqual(len(set(texts)), len(linnetshelf.Status))


class Batches(unittest.TestCase):
    """The messages of one call are made of its answers, and of the buffer where their bytes follow one another."""

    def test_messages_of_one_length_and_of_others(self):
        cases = {
            "none": [],
            "one": [b"abc"],
            "two of one length": [b"ab", b"cd"],
            "many of one length": [b"%03d" % k for k in range(_endpoint.MANY)],
            "the last one is longer": [b"ab", b"cd", b"efg"],
            "the last one is shorter": [b"ab", b"cd", b"e"],
            "the first one is longer": [b"abc", b"de", b"fg"],
            "one between is shorter": [b"ab", b"c", b"de"],
            "the first and the last one are longer": [b"abc", b"d", b"efg"],
        }
        for name, parts in cases.items():
            with self.subTest(name):
                # No index follows from the one before it, since each message may be in a cycle of its own.
                wanted = [(k << 32 | 7 * k + 1, part) for k, part in enumerate(parts)]
                # linnetshelf_answer: uint64_t index, uint32_t length, uint32_t status. The buffer is longer than the messages.
                answers = bytearray(b"".join(struct.pack("QII", index, len(part), 0) for index, part in wanted))
                buffer = bytearray(b"".join(parts) + b"what was there before")
                batch = _endpoint.Batch(memoryview(answers), memoryview(buffer))
                # They are copies: the next call writes to the same places.
                answers[:], buffer[:] = bytes(len(answers)), bytes(len(buffer))
                self.assertEqual((batch.last_returned(), batch.has_left(), batch.left()), (None, bool(parts), wanted))
                messages = list(batch.rest)
                self.assertEqual(messages, wanted)
                kinds = {(type(message), type(message.index), type(message.data)) for message in messages}
                self.assertEqual(kinds, {(linnetshelf.Message, linnetshelf.Index, bytes)} if parts else set())
                self.assertEqual((batch.last_returned(), batch.has_left(), batch.left()), (wanted[-1] if parts else None, False, []))


class Calls(unittest.TestCase):
    def setUp(self):
        self.queue = linnetshelf.create(SMALL, ["reader", "other"], 0)
        self.addCleanup(self.queue.close)

    def test_append_and_read(self):
        self.assertEqual([self.queue.append(b"m%d" % k, 0) for k in range(3)], [0, 1, 2])
        self.assertEqual(data_of(self.queue), [b"m0", b"m1", b"m2"])
        self.assertIsNone(self.queue.next())
        self.assertEqual(self.queue.cursor, 3)
        self.assertEqual(data_of(self.queue.backwards()), [b"m2", b"m1", b"m0"])
        self.assertEqual(data_of(self.queue), [b"m0", b"m1", b"m2"])
        self.assertEqual((self.queue[1], self.queue.get(1), self.queue.get(3)), (b"m1", b"m1", None))
        for index in (3, DAY, -1, 1 << 64):
            with self.assertRaises(linnetshelf.NoMessage):
                self.queue[index]

    def test_moves(self):
        for k in range(3):
            self.queue.append(b"%d" % k, 0)
        self.assertTrue(self.queue.move_to(1))
        self.assertEqual(self.queue.next(), (1, b"1"))
        self.assertFalse(self.queue.move_to(7))
        self.assertFalse(self.queue.move_to(1 << 64))
        self.assertEqual(self.queue.to_end(), 3)
        self.queue.to_start()
        self.assertEqual(self.queue.next().index, 0)

    def test_buffers(self):
        parts = (b"abc", bytearray(b"abc"), memoryview(b"abc"), memoryview(bytearray(b"xabcx"))[1:4], memoryview(b"a-b-c")[::2])
        for data in parts:
            self.queue.append(data, 0)
        self.assertEqual(data_of(self.queue), [b"abc"] * len(parts))

    def test_long_messages_and_views(self):
        self.queue.append(b"x" * 9000, 0)
        self.queue.append(b"y", 0)
        seen = [(index, len(view), view.readonly) for index, view in self.queue.views()]
        self.assertEqual(seen, [(0, 9000, True), (1, 1, True)])
        self.queue.to_start()
        buffer = bytearray(10)
        with self.assertRaises(linnetshelf.BufferTooSmall) as fault:
            self.queue.next_into(buffer)
        self.assertEqual((fault.exception.length, self.queue.peek()), (9000, (0, 9000)))
        self.assertEqual(self.queue.next().data, b"x" * 9000)
        self.assertEqual((self.queue.next_into(buffer), bytes(buffer[:1])), ((1, 1), b"y"))
        self.assertEqual((self.queue.next_into(buffer), self.queue.peek()), (None, None))
        with self.assertRaises(ValueError):
            self.queue.next_into(memoryview(b"read-only"))

    def test_the_next_message_is_peeked_either_way(self):
        self.assertIsNone(self.queue.peek())
        indices = [self.queue.append(b"x" * (k + 1), k // 2 * DAY) for k in range(4)]
        places = [(index, k + 1) for k, index in enumerate(indices)]
        for place in places:
            self.assertEqual([self.queue.peek(), self.queue.peek()], [place, place])
            self.assertEqual(self.queue.next().index, place[0])
        self.assertIsNone(self.queue.peek())
        backwards = self.queue.backwards()
        self.assertEqual(next(backwards).index, indices[3])
        self.assertEqual((self.queue.peek(), next(backwards).index), (places[2], indices[2]))
        self.assertEqual(self.queue.peek(), places[1])
        backwards.close()
        self.assertEqual((self.queue.peek().index, self.queue.cursor), (indices[2], indices[2]))
        self.queue.close()
        with self.assertRaises(ValueError):
            self.queue.peek()

    def test_a_zero_handle_is_destroyed(self):
        _library.library.destroy(_library.Handle())
        self.assertEqual(self.queue.append(b"there", 0), 0)
        self.assertEqual(self.queue.next(), (0, b"there"))

    def test_many_messages(self):
        data = [b"%d" % k * (k % 7 + 1) for k in range(3000)]
        with linnetshelf.create(moment=0) as queue:
            self.assertEqual(queue.append_all(data[:2000], 0), 1999)
            self.assertEqual(queue.append_all((bytearray(it) for it in data[2000:]), 0), 2999)
            self.assertIsNone(queue.append_all([], 0))
            self.assertEqual([(message.index, message.data) for message in queue], list(enumerate(data)))
            self.assertEqual((queue.cursor, queue.end), (3000, 3000))
            self.assertEqual(data_of(queue.backwards()), data[::-1])
            queue.append_all([b"x" * 200_000, b"y"], 0)
            queue.to_end()
            queue.move_to(2999)
            self.assertEqual([len(message.data) for message in queue.follow(0)], [len(data[2999]), 200_000, 1])

    def test_a_message_of_many_is_refused(self):
        def refused(error, messages, **how):
            with self.assertRaises(error) as fault:
                self.queue.append_all(messages, 0, **how)
            return fault.exception.appended

        self.assertEqual(refused(linnetshelf.BadValue, [b"a", b"b", b"", b"c"]), 2)
        count = refused(linnetshelf.Full, itertools.repeat(b"x" * 1000, 4000))
        self.assertEqual(data_of(self.queue), [b"a", b"b"] + [b"x" * 1000] * count)
        self.assertEqual(self.queue.end, count + 2)
        with self.queue.split() as other, other.begin(4, DAY) as message:
            self.assertEqual(refused(linnetshelf.Busy, [b"d"], timeout=0), 0)
            message.put(b"e")
        self.queue.close_queue()
        self.assertEqual(refused(linnetshelf.Closed, [b"d"]), 0)
        self.queue.close()
        with self.assertRaises(ValueError):
            self.queue.append_all([b"d"], 0)

    def test_a_source_of_many_raises(self):
        def source():
            yield from (b"a", b"b")
            raise KeyError("source")

        with self.assertRaises(KeyError):
            self.queue.append_all(source(), 0)
        with self.assertRaises(TypeError):
            self.queue.append_all([b"c", "no bytes", b"d"], 0)
        self.assertEqual(data_of(self.queue), [b"a", b"b", b"c"])

    def test_an_iteration_is_interrupted_while_it_reads(self):
        data = [b"%d" % k for k in range(20)]
        self.queue.append_all(data, 0)

        def interrupted(messages, number):
            # What a signal raises while messages are read ahead.
            made = itertools.count()

            def make(index):
                if next(made) == number:
                    raise KeyboardInterrupt
                return linnetshelf.Index(index)

            with unittest.mock.patch.object(_endpoint, "Index", make), self.assertRaises(KeyboardInterrupt):
                list(messages)

        interrupted(self.queue, 7)
        self.assertEqual(data_of(itertools.islice(self.queue, 15)), data[:15])
        interrupted(self.queue.backwards(), 0)
        interrupted(self.queue.backwards(), 3)
        self.assertEqual(data_of(self.queue.backwards()), data[14::-1])
        self.assertEqual(data_of(self.queue), data)
        interrupted(self.queue.backwards(), 5)
        self.assertEqual(data_of(self.queue.backwards()), data[::-1])

    def test_an_iteration_ends_early(self):
        indices = [self.queue.append(b"%d" % k, k // 2 * DAY) for k in range(6)]
        self.assertEqual(data_of(itertools.islice(self.queue, 2)), [b"0", b"1"])
        self.assertEqual((self.queue.peek(), self.queue.next().data), ((indices[2], 1), b"2"))
        self.assertEqual(next(iter(self.queue)).data, b"3")
        self.assertEqual(self.queue.cursor, indices[4])
        self.assertEqual(data_of(itertools.islice(self.queue.backwards(), 2)), [b"3", b"2"])
        self.assertEqual(self.queue.cursor, indices[2])
        self.assertEqual(data_of(itertools.islice(self.queue, 1)), [b"2"])
        self.assertFalse(self.queue.move_to(99))
        self.assertEqual([bytes(view) for _, view in itertools.islice(self.queue.views(), 1)], [b"3"])
        self.assertEqual(data_of(itertools.islice(self.queue, 1)), [b"4"])
        buffer = bytearray(1)
        self.assertEqual((self.queue.next_into(buffer), bytes(buffer)), ((indices[5], 1), b"5"))
        self.queue.to_start()
        self.assertEqual(data_of(itertools.islice(self.queue, 1)), [b"0"])
        self.assertEqual(self.queue.drop_before(1), 1)
        self.assertEqual(data_of(itertools.islice(self.queue, 1)), [b"2"])
        self.queue.to_start()
        self.assertEqual(data_of(self.queue), [b"2", b"3", b"4", b"5"])
        iteration = iter(self.queue)
        self.queue.to_start()
        next(iteration)
        self.queue.close()
        with self.assertRaises(ValueError):
            next(iteration)

    def test_a_view_is_kept_when_the_buffer_grows(self):
        self.queue.append(b"first", 0)
        self.queue.append(b"x" * 9000, 0)
        views = self.queue.views()
        _, first = next(views)
        next(views)
        self.assertEqual(bytes(first), b"first")

    def test_errors_have_names(self):
        wrong = (
            (linnetshelf.BadValue, linnetshelf.Status.BAD_ROOM, lambda: self.queue.append(b"", 0)),
            (linnetshelf.BadValue, linnetshelf.Status.BAD_MOMENT, lambda: self.queue.append(b"x", 1 << 63)),
            (linnetshelf.BadValue, linnetshelf.Status.BAD_MOMENT, lambda: self.queue.append(b"x", -1)),
            (linnetshelf.Full, linnetshelf.Status.CYCLE_FULL, lambda: self.queue.append(b"x" * 20000, 0)),
            (linnetshelf.NoSuchName, linnetshelf.Status.NO_SUCH_NAME, lambda: self.queue.take("nobody")),
            (linnetshelf.BadValue, linnetshelf.Status.BAD_SETTINGS, lambda: linnetshelf.create(linnetshelf.Settings(cells=1))),
            (linnetshelf.BadValue, linnetshelf.Status.BAD_SETTINGS, lambda: linnetshelf.create(linnetshelf.Settings(cells=-1))),
            (linnetshelf.BadValue, linnetshelf.Status.BAD_MOMENT, lambda: self.queue.advance(1 << 64)),
            (linnetshelf.BadValue, linnetshelf.Status.BAD_MOMENT, lambda: self.queue.begin(1, 1 << 64).__enter__()),
            (linnetshelf.BadValue, linnetshelf.Status.BAD_ROOM, lambda: self.queue.begin(1 << 32, 0).__enter__()),
            (linnetshelf.NotSeen, linnetshelf.Status.NOT_SEEN, lambda: self.queue.seek("reader", 1 << 64)),
            *(
                (linnetshelf.BadValue, linnetshelf.Status.BAD_SETTINGS, lambda names=names: linnetshelf.create(SMALL, names))
                for names in (["a\nb"], [""], "abc", ["a", "a"], ["x" * 33])
            ),
        )
        for error, status, call in wrong:
            with self.assertRaises(error) as fault:
                call()
            self.assertEqual(fault.exception.status, status)
        self.assertTrue(issubclass(linnetshelf.BadValue, ValueError) and issubclass(linnetshelf.NoMessage, LookupError))

    def test_messages_in_parts(self):
        with self.queue.begin(10, 0) as message:
            message.put(b"ab")
            message.put(bytearray(b"cd"))
        self.assertEqual((message.index, self.queue[0]), (0, b"abcd"))
        with self.assertRaises(RuntimeError), self.queue.begin(10, 0) as message:
            message.put(b"zz")
            raise RuntimeError
        with self.assertRaises(linnetshelf.BadValue), self.queue.begin(1, 0) as message:
            message.put(b"zz")
        with self.assertRaises(linnetshelf.BadValue), self.queue.begin(1, 0):
            pass
        with self.assertRaises(linnetshelf.Misused), self.queue.begin(1, 0):
            self.queue.append(b"x", 0)
        self.assertEqual(self.queue.append(b"after", 0), 1)

    def test_a_message_that_is_begun_ends_with_its_endpoint(self):
        other = self.queue.split()
        block = other.begin(10, 0)
        block.__enter__()
        self.assertIsNone(self.queue.try_append(b"x", 0))
        with self.assertRaises(linnetshelf.Busy):
            self.queue.append(b"x", 0, timeout=0.01)
        other.close()
        self.assertEqual(self.queue.append(b"x", 0, timeout=0.01), 0)

    def test_names(self):
        for k in range(4):
            self.queue.append(b"%d" % k, 0)
        self.assertEqual(self.queue.take("reader"), (0, b"0"))
        self.assertEqual(data_of(self.queue.takes("reader")), [b"1", b"2", b"3"])
        self.assertIsNone(self.queue.take("reader"))
        self.queue.seek("reader", 2)
        with self.assertRaises(linnetshelf.Moved) as moved:
            self.queue.seek("reader", 3, expect=9)
        self.assertEqual(moved.exception.position, 2)
        self.assertEqual(self.queue.position("reader"), 2)
        self.assertEqual(self.queue.take("reader").data, b"2")
        with self.assertRaises(linnetshelf.NotSeen):
            self.queue.seek("reader", 100)

    def test_cycles(self):
        self.queue.append(b"a", 0)
        self.queue.append(b"b", 5 * DAY)
        self.assertEqual(self.queue.next().data, b"a")
        self.assertEqual(self.queue.drop_before(9), 5)
        self.assertEqual((self.queue.next().data, str(self.queue.cursor)), (b"b", "0000000500000001"))
        with self.assertRaises(linnetshelf.NoMessage) as gone:
            self.queue[0]
        self.assertEqual(gone.exception.status, linnetshelf.Status.GONE)
        self.assertEqual(self.queue.advance(6 * DAY), 6)
        with self.assertRaises(linnetshelf.Full) as full:
            self.queue.append(b"c", 7 * DAY)
        self.assertEqual(full.exception.status, linnetshelf.Status.NO_CYCLE_LEFT)

    def test_a_closed_queue_takes_no_messages(self):
        other = self.queue.split()
        self.queue.append(b"a", 0)
        self.assertEqual((self.queue.close_queue(), self.queue.close_queue(), other.close_queue()), (True, False, False))
        self.assertFalse(self.queue.closed)
        calls = (
            lambda it: it.append(b"x", 0),
            lambda it: it.try_append(b"x", 0),
            lambda it: it.append(b"x" * 20000, 0),
            lambda it: it.begin(1, 0).__enter__(),
            lambda it: it.advance(DAY),
        )
        for endpoint in (self.queue, other, other.split()):
            for call in calls:
                with self.assertRaises(linnetshelf.Closed) as closed:
                    call(endpoint)
                self.assertEqual(closed.exception.status, linnetshelf.Status.CLOSED)
        self.assertEqual(self.queue.advance(0), 0)

    def test_a_closed_queue_is_read_to_its_end(self):
        for k in range(4):
            self.queue.append(b"m%d" % k, 0)
        self.assertEqual(self.queue.take("reader").data, b"m0")
        self.queue.close_queue()
        self.assertEqual(data_of(self.queue), [b"m0", b"m1", b"m2", b"m3"])
        self.assertEqual(data_of(self.queue.takes("reader", timeout=None)), [b"m1", b"m2", b"m3"])
        calls = (
            self.queue.next,
            self.queue.peek,
            lambda: self.queue.next_into(bytearray(8)),
            lambda: self.queue.take("reader"),
            lambda: self.queue[4],
        )
        for call in calls:
            with self.assertRaises(linnetshelf.Finished) as finished:
                call()
            self.assertEqual(finished.exception.status, linnetshelf.Status.FINISHED)
        self.assertTrue(issubclass(linnetshelf.Finished, linnetshelf.NoMessage))
        self.assertEqual((self.queue.get(4), self.queue.wait(None), self.queue.wait(0)), (None, False, False))
        for rest in (self.queue, self.queue.views(), self.queue.follow(), self.queue.takes("reader")):
            self.assertEqual(list(rest), [])
        self.assertEqual(data_of(self.queue.backwards()), [b"m3", b"m2", b"m1", b"m0"])
        self.assertEqual(data_of(self.queue.follow()), [b"m0", b"m1", b"m2", b"m3"])
        self.queue.to_start()
        self.assertEqual([bytes(view) for _, view in self.queue.views()], [b"m0", b"m1", b"m2", b"m3"])
        with self.queue.stop() as saved, saved.open() as again:
            self.assertEqual(again.append(b"m4", 0), 4)
            self.assertEqual(len(data_of(again)), 5)
            self.assertIsNone(again.next())

    def test_a_queue_is_closed_after_the_message_that_is_begun(self):
        other = self.queue.split()
        with self.queue.begin(8, 0) as message:
            with self.assertRaises(linnetshelf.Misused):
                self.queue.close_queue()
            with self.assertRaises(linnetshelf.Busy):
                other.close_queue(timeout=0.01)
            self.assertIsNone(other.next())
            message.put(b"begun")
        self.assertTrue(other.close_queue(timeout=0))
        self.assertEqual(data_of(other), [b"begun"])

    def test_meet(self):
        other = self.queue.split()
        self.queue.meet(other)
        self.queue.meet(self.queue)
        with linnetshelf.create(SMALL, moment=0) as stranger, self.assertRaises(ValueError):
            self.queue.meet(stranger)

    def test_snapshot(self):
        other = self.queue.split()
        for k in range(3):
            self.queue.append(b"m%d" % k, k * DAY)
        self.assertEqual(self.queue.next().data, b"m0")
        with other.begin(8, 2 * DAY) as message:
            message.put(b"begun")
            with self.queue.snapshot() as copy:
                self.assertEqual(copy.counts(), {0: 1, 1: 1, 2: 1})
                self.assertEqual((copy.settings, copy.names, copy.floor), (self.queue.settings, self.queue.names, 0))
                with copy.open() as again:
                    self.assertEqual(data_of(again), [b"m0", b"m1", b"m2"])
            with self.assertRaises(ValueError):
                copy.counts()
        self.assertEqual(data_of(self.queue), [b"m1", b"m2", b"begun"])
        self.queue.close()
        with self.assertRaises(ValueError):
            self.queue.snapshot()

    def test_cycles_have_names(self):
        daily, hourly = linnetshelf.Settings(), linnetshelf.Settings(roll=linnetshelf.Roll.HOURLY)
        for settings, moment, cycle, name in ((daily, 1_728_000_000_000, 20_000, "20241004"),
                                              (hourly, 1_728_028_799_999, 480_007, "20241004-07")):
            self.assertEqual(settings.cycle_of(moment), cycle)
            self.assertEqual(settings.cycle_name(cycle), name)
            self.assertEqual(settings.cycle_named(name), cycle)
        for call in (lambda: daily.cycle_of(-1), lambda: daily.cycle_of(1 << 63), lambda: daily.cycle_name(1 << 32),
                     lambda: daily.cycle_name(0xFFFFFFFF), lambda: daily.cycle_named("20241004-07"),
                     lambda: daily.cycle_named("20240231"), lambda: linnetshelf.Settings(epoch=-1).cycle_of(0)):
            with self.assertRaises(linnetshelf.BadValue):
                call()

    def test_stop(self):
        other = self.queue.split()
        with self.assertRaises(linnetshelf.Misused):
            self.queue.stop()
        self.queue.append(b"a", 0)
        with self.queue.stop_all() as saved:
            self.assertTrue(other.closed)
            self.assertEqual([image.cycle for image in saved.images()], [0])
            self.assertEqual(saved.counts(), {0: 1})
            with saved.open() as again:
                self.assertEqual(again.next().data, b"a")
            with linnetshelf.Saved.new(SMALL, ["reader", "other"]) as wrong:
                image = next(saved.images()).data
                with self.assertRaises(linnetshelf.ImageFault) as fault:
                    wrong.add(0, image[:-3])
                self.assertEqual(fault.exception.status, linnetshelf.Status.CUT)
                self.assertGreater(fault.exception.at, 0)
                wrong.add(0, image)
                self.assertEqual(len(wrong), 1)
        for endpoint in (self.queue, other):
            with self.assertRaises(ValueError):
                endpoint.next()

    def test_endpoints_that_are_forgotten_end(self):
        for _ in range(10):
            self.queue.split()
        gc.collect()
        self.queue.stop().close()

    def test_a_child_leaves_what_is_not_its_own(self):
        self.queue.append_all([b"a", b"b"], 0)
        messages = iter(self.queue)
        self.assertEqual(next(messages).data, b"a")

        def works():
            for read in (self.queue.next, lambda: next(messages)):
                with contextlib.suppress(ValueError):
                    read()
                    return False
            self.queue.close()
            with linnetshelf.create(SMALL, moment=0) as own:
                own.append(b"x", 0)
                return data_of(own) == [b"x"]

        self.assertEqual(in_child(works), 0)
        self.assertEqual(next(messages).data, b"b")

    def test_a_closed_endpoint_returns_nothing_that_it_has_read(self):
        self.queue.append_all([b"a", b"b"], 0)
        messages = iter(self.queue)
        self.assertEqual(next(messages).data, b"a")
        self.queue.close()
        with self.assertRaises(ValueError):
            next(messages)

    def test_threads(self):
        count, writers = 3000, 6
        total = count * writers
        with linnetshelf.create(linnetshelf.Settings(cells=262_144, cycles=1), ["worker"], 0) as queue:

            def write(endpoint, who):
                with endpoint:
                    for k in range(count):
                        endpoint.append(b"%d %d" % (who, k), 0)

            taken, is_written = [[], []], threading.Event()

            def take(endpoint, into):
                with endpoint:
                    while True:
                        is_last = is_written.is_set()
                        into.extend(data_of(endpoint.takes("worker")))
                        if is_last:
                            return

            writing = [threading.Thread(target=write, args=(queue.split(), who)) for who in range(writers)]
            taking = [threading.Thread(target=take, args=(queue.split(), into)) for into in taken]
            for thread in [*writing, *taking]:
                thread.start()
            seen = data_of(itertools.islice(queue.follow(timeout=120), total))
            for thread in writing:
                thread.join()
            is_written.set()
            for thread in taking:
                thread.join()
            self.assertIsNone(queue.next())
            for who in range(writers):
                self.assertEqual([it for it in seen if it.startswith(b"%d " % who)], [b"%d %d" % (who, k) for k in range(count)])
            self.assertEqual(sorted(taken[0] + taken[1]), sorted(seen))


    def test_threads_end_when_the_queue_is_closed(self):
        counts, seen, taken = [0, 0], [[], []], [[], []]

        def write(endpoint, who):
            with contextlib.suppress(linnetshelf.Closed):
                while True:
                    try:
                        endpoint.append(b"%d %d" % (who, counts[who]), 0)
                        counts[who] += 1
                    except linnetshelf.Full:
                        time.sleep(0.001)  # the thread that closes the queue is late

        def read(endpoint, which):
            seen[which].extend(data_of(endpoint.follow()))

        def take(endpoint, which):
            taken[which].extend(data_of(endpoint.takes("worker", timeout=None)))

        with linnetshelf.create(linnetshelf.Settings(cells=524_288, cycles=4), ["worker"], 0) as queue:
            works = [(work, which) for work in (write, read, take) for which in range(2)]
            threads = [threading.Thread(target=work, args=(queue.split(), which)) for work, which in works]
            for thread in threads:
                thread.start()
            while min(counts) < 200 and all(thread.is_alive() for thread in threads):
                time.sleep(0.001)
            self.assertTrue(queue.close_queue())
            for thread in threads:
                thread.join()
            for found in seen:
                for who in range(2):
                    own = [it for it in found if it.startswith(b"%d " % who)]
                    self.assertEqual(own, [b"%d %d" % (who, k) for k in range(counts[who])])
                self.assertEqual(len(found), sum(counts))
            self.assertEqual(sorted(taken[0] + taken[1]), sorted(seen[0]))
            self.assertEqual(data_of(queue), seen[0])

    def test_threads_go_on_while_their_endpoints_are_closed(self):
        """A call that comes too late is refused, wherever its thread was."""
        before = sys.getswitchinterval()
        sys.setswitchinterval(1e-6)
        self.addCleanup(sys.setswitchinterval, before)
        for _ in range(60):
            ends = []

            def work(endpoint, call):
                try:
                    while True:
                        call(endpoint)
                except ValueError as error:
                    ends.append(str(error))

            queue = linnetshelf.create(SMALL, ["worker"], 0)
            last = queue.split()
            calls = (lambda it: it.cursor, lambda it: it.take("worker"), lambda it: it.next(), lambda it: it.to_end())
            threads = [threading.Thread(target=work, args=(queue.split(), call)) for call in calls]
            for thread in threads:
                thread.start()
            with last.stop_all() as saved:
                self.assertEqual(len(saved), 1)
            for thread in threads:
                thread.join()
            self.assertEqual(ends, ["it is closed"] * len(calls))


def hold(folder, entered, release):
    """Keeps a journal open until it may end."""
    with linnetshelf.Journal(folder) as queue:
        queue.append(b"held", 1_728_000_000_000)
        entered.set()
        release.wait(60)


class Records(unittest.TestCase):
    """A save that was cut short after its record was there is finished, or read through."""

    MOMENT = 1_728_000_000_000
    FIRST, LAST, CONFIG = "20241004.cqi", "20241005.cqi", "queue.cqc"
    SAVES = {
        # The record, the files that it removes, and the messages that are there afterwards.
        "replaces": ("cq save 1\n77\n20241005.cqi\nqueue.cqc\nend\n", [], [b"one", b"two", b"three"]),
        "replaces the log": ("cq save 1\n77\n20241005.cqi\nqueue.log\nend\n", [], [b"one", b"two", b"three"]),
        "removes": ("cq save 2\n77\n\n20241004.cqi\nend\n", [FIRST], [b"two"]),
        "does both": ("cq save 2\n77\n20241005.cqi\nqueue.cqc\n\n20241004.cqi\nend\n", [FIRST], [b"two", b"three"]),
        "names one twice": ("cq save 2\n77\n20241004.cqi\nqueue.cqc\n\n20241004.cqi\nend\n", [FIRST], [b"two"]),
        "removes more": ("cq save 2\n77\nqueue.cqc\n\n20241003.cqi\n20241004.cqi\nqueue.log\nend\n", [FIRST, "queue.log"], [b"two"]),
    }

    def setUp(self):
        room = tempfile.TemporaryDirectory()
        self.addCleanup(room.cleanup)
        self.room, self.made = pathlib.Path(room.name), 0
        queue = self.room / "queue"
        queue.mkdir()
        linnetshelf.init(queue, SMALL, ["a"])
        with linnetshelf.Journal(queue, self.MOMENT) as journal:
            journal.append(b"one", self.MOMENT)
            journal.append(b"two", self.MOMENT + DAY)
        self.before = self.files_of(queue)
        with linnetshelf.Journal(queue) as journal:
            journal.append(b"three", self.MOMENT + DAY)
            journal.drop_before(20_001)
        self.after = self.files_of(queue)

    @staticmethod
    def files_of(folder):
        return {name: (folder / name).read_bytes() for name in os.listdir(folder)}

    def folder_with(self, files):
        folder, self.made = self.room / f"copy{self.made}", self.made + 1
        folder.mkdir()
        for name, data in files.items():
            (folder / name).write_bytes(data)
        return folder

    def cut_short(self, record, done):
        """Makes a folder with this record, in which this number of its renames and removals are done."""
        names, removed = _folder.Left.read(record.encode()).names, _folder.Left.read(record.encode()).removed
        files = {**self.before, "queue.save": record.encode(), "queue.cqc.8.part": b"of another"}
        if "queue.log" in removed:
            files["queue.log"] = b""
        for k, name in enumerate(names):
            files[name if k < done else f"{name}.77.part"] = self.after.get(name, b"")
        for name in removed[: max(done - len(names), 0)]:
            files.pop(name, None)
        return self.folder_with(files), len(names) + len(removed)

    def test_a_record_of_either_form_at_each_step(self):
        for which, (record, removed, messages) in self.SAVES.items():
            done, steps = 0, 1
            while done <= steps:
                with self.subTest(save=which, done=done):
                    folder, steps = self.cut_short(record, done)
                    held = self.files_of(folder)
                    floor = 20_001 if "queue.cqc" in record else 0
                    with linnetshelf.Saved.load(folder) as saved:
                        self.assertEqual(saved.floor, floor)
                        saved.floor = 0
                        with saved.open() as queue:
                            self.assertEqual(data_of(queue), messages)
                    self.assertEqual(self.files_of(folder), held)
                    with linnetshelf.Journal(folder):
                        pass
                    left = self.files_of(folder)
                    wanted = {self.FIRST, self.LAST, self.CONFIG} | ({"queue.log"} if "replaces the log" == which else set())
                    self.assertEqual(set(left), wanted - set(removed))
                    self.assertEqual(left[self.CONFIG], (self.after if floor else self.before)[self.CONFIG])
                    if CQ:
                        cq("check", folder)
                done += 1

    def test_a_record_of_any_other_form_is_refused(self):
        both = self.SAVES["does both"][0]
        changes = [("save 2", "save 1"), ("save 2", "save 3"), ("save 2", "save 02"), ("\n77", "\n077"), ("\n77", "\n+77")]
        changes += [("\n77", "\n4294967296"), ("\n77", ""), ("20241005", "a/20241005"), ("\n20241004", "\n../20241004")]
        changes += [("cqc\n\n", "cqc\n"), ("20241004.cqi\n", ""), ("\n\n20241004.cqi", ""), ("\n\n", "\n\n\n"), ("end", "\nend")]
        changes += [("end\n", ""), ("end\n", "end"), ("end\n", "end\nx"), ("end\n", "end\n\n"), ("queue.cqc", "queue.cqd"), ("2024", "\0")]
        changes += [("queue.cqc", "queue.save"), ("\n", "\r\n"), ("cq save", " cq save")]
        wrong = [both.replace(*change).encode() for change in changes]
        wrong += [b"", b"cq save 1\n", b"cq save 1\n77\nend\n", b"cq save 1\n77\n\nend\n", b"cq save 2\n77\nend\n", b"cq save 2\n77\n\nend\n"]
        wrong += [b"cq save 1\n77\n\xff.cqi\nend\n", b"cq save 2\n77\n\n\xff.cqi\nend\n"]
        longest = b"cq save 2\n1\n\n" + b"queue.cqc\n" * 104_855 + b"12345.cqi\nend\n"
        self.assertEqual(len(longest), 1_048_577)
        folder = self.folder_with(self.before)
        for record in [*wrong, longest]:
            (folder / "queue.save").write_bytes(record)
            held = self.files_of(folder)
            for enter in (linnetshelf.Saved.load, lambda folder: linnetshelf.Journal(folder).__enter__()):
                with self.subTest(record=record[:60]), self.assertRaises(linnetshelf.FolderFault):
                    enter(folder)
                self.assertEqual(self.files_of(folder), held)
        (folder / "queue.save").write_bytes(longest.replace(b"12345", b"1234"))
        with self.assertRaises(FileNotFoundError):
            linnetshelf.Saved.load(folder)

    @contextlib.contextmanager
    def calls(self, fault=None):
        """Lists the calls that change or sync the folder, of which the one with this number fails."""
        made = []

        def listed(name, real):
            def call(first, *arguments, **named):
                what = first if isinstance(first, str) else "folder" if os.path.isdir(f"/proc/self/fd/{first}") else "file"
                made.append(f"{name} {what}".replace(f".{os.getpid()}.part", ".part").replace(".77.part", ".part"))
                if len(made) - 1 == fault:
                    raise OSError(5, "Input/output error")
                return real(first, *arguments, **named)

            return call

        with contextlib.ExitStack() as stack:
            for name in ("fsync", "rename", "unlink"):
                stack.enter_context(unittest.mock.patch.object(_folder.os, name, listed(name, getattr(os, name))))
            yield made

    def test_the_record_is_synced_before_parts_are_renamed(self):
        folder, _ = self.cut_short(self.SAVES["does both"][0], 0)
        (folder / "queue.cqc.8.part").unlink()
        with self.calls() as made, _folder.Folder(folder, is_alone=True):
            pass
        renames = ["rename 20241005.cqi.part", "rename queue.cqc.part", "unlink 20241004.cqi"]
        self.assertEqual(made, ["fsync folder", *renames, "fsync folder", "unlink queue.save", "fsync folder"])
        folder = self.folder_with(self.before)
        with _folder.Folder(folder, is_alone=True) as files, self.calls() as made:
            files.save({name: self.after[name] for name in (self.LAST, self.CONFIG)})
        parts = [f"{it}.part" for it in (self.LAST, self.CONFIG, "queue.save")]
        wanted = [call for part in parts for call in (f"unlink {part}", "fsync file")]
        wanted += ["rename queue.save.part", "fsync folder", "rename 20241005.cqi.part", "rename queue.cqc.part"]
        self.assertEqual(made, [*wanted, "fsync folder", "unlink queue.save", "fsync folder"])

    def test_a_save_that_left_its_record_is_finished_before_the_next_one(self):
        first = {self.LAST: self.after[self.LAST], self.CONFIG: self.after[self.CONFIG]}
        fault, is_refused = 0, True
        while is_refused:
            folder, is_refused = self.folder_with(self.before), False
            with _folder.Folder(folder, is_alone=True) as files:
                with self.calls(fault) as made:
                    try:
                        files.save(first)
                    except OSError:
                        is_refused = True
                was_left = (folder / "queue.save").exists()
                is_saved = was_left or self.files_of(folder) == self.after
                with self.calls() as again:
                    files.save(self.before)
                written = again.index("unlink 20241005.cqi.part") if is_saved else 0
                self.assertEqual("unlink queue.save" in again[:written], was_left, (fault, again))
                if is_refused and is_saved:
                    self.assertEqual(again[0], "fsync folder")
            self.assertEqual(self.files_of(folder), self.before, fault)
            is_refused |= fault < len(made)
            fault += 1
        self.assertEqual(fault, len(made) + 1)


@unittest.skipUnless(CQ, "there is no program")
class Folders(unittest.TestCase):
    MOMENT = 1_728_000_000_000

    def setUp(self):
        room = tempfile.TemporaryDirectory()
        self.addCleanup(room.cleanup)
        self.folder = pathlib.Path(room.name)

    def test_both_ways(self):
        for roll, length in (("daily", DAY), ("hourly", DAY // 24), ("minutely", 60_000)):
            for epoch in (0, 3_600_000, 12_345_678):
                with self.subTest(roll=roll, epoch=epoch):
                    folder = self.folder / f"{roll}{epoch}"
                    folder.mkdir()
                    settings = linnetshelf.Settings(4096, 16, 4, 4, linnetshelf.Roll[roll.upper()], epoch)
                    linnetshelf.init(folder, settings, ["a", "b"])
                    with self.assertRaises(FileExistsError):
                        linnetshelf.init(folder, settings)
                    cq("write", folder, self.MOMENT, text="one\ntwo\n")
                    cq("take", folder, "b")
                    with linnetshelf.Journal(folder) as queue:
                        queue.append(b"three", self.MOMENT + length)
                        self.assertEqual(queue.take("b").data, b"two")
                        queue.drop_before((self.MOMENT - epoch) // length)
                    checked = [line.split(": ")[1] for line in cq("check", folder).splitlines()]
                    self.assertEqual(checked, ["2 messages, ended", "1 messages, open"])
                    self.assertEqual([line[17:] for line in cq("read", folder).splitlines()], ["one", "two", "three"])
                    self.assertEqual(cq("take", folder, "b")[17:], "three\n")
                    with linnetshelf.Saved.load(folder) as saved, saved.open() as queue:
                        self.assertEqual(data_of(queue), [b"one", b"two", b"three"])
                        self.assertEqual(saved.floor, (self.MOMENT - epoch) // length)

    def test_a_new_queue(self):
        linnetshelf.init(self.folder, SMALL, ["a"])
        with linnetshelf.Journal(self.folder, self.MOMENT) as queue:
            queue.split()
            queue.append(b"first", self.MOMENT)
        self.assertEqual(cq("read", self.folder), "00004e2000000000 first\n")
        self.assertEqual(sorted(os.listdir(self.folder)), ["20241004.cqi", "queue.cqc"])

    def test_what_was_appended_is_saved_after_an_error(self):
        linnetshelf.init(self.folder, SMALL)
        with self.assertRaises(RuntimeError), linnetshelf.Journal(self.folder, self.MOMENT) as queue:
            queue.append(b"kept", self.MOMENT)
            block = queue.begin(10, self.MOMENT)
            block.__enter__().put(b"given up")
            raise RuntimeError
        self.assertEqual(cq("read", self.folder), "00004e2000000000 kept\n")

    def test_others_wait_for_the_folder(self):
        linnetshelf.init(self.folder, SMALL)
        context = multiprocessing.get_context("fork")
        entered, release = context.Event(), context.Event()
        holder = context.Process(target=hold, args=(self.folder, entered, release))
        holder.start()
        self.assertTrue(entered.wait(60))
        writer = subprocess.Popen([CQ, "write", self.folder, str(self.MOMENT)], stdin=subprocess.PIPE, stdout=subprocess.DEVNULL)
        writer.stdin.write(b"later\n")
        writer.stdin.close()
        reader = subprocess.Popen([CQ, "read", self.folder], stdout=subprocess.DEVNULL)
        time.sleep(0.2)
        self.assertEqual((writer.poll(), reader.poll()), (None, None))
        release.set()
        holder.join()
        self.assertEqual((writer.wait(60), reader.wait(60)), (0, 0))
        self.assertEqual([line[17:] for line in cq("read", self.folder).splitlines()], ["held", "later"])

    def test_a_save_that_was_killed_is_whole(self):
        """A child is killed at each of these calls of a save in turn: the folder has all of it or nothing, for us and for cq."""
        linnetshelf.init(self.folder, SMALL)
        cq("write", self.folder, self.MOMENT, text="one\n")
        calls = ("rename", "fsync", "unlink", "open", "fchmod")
        whole, kills, status = "00004e2000000000 one\n00004e2100000000 two\n", 0, None
        while status != 0:
            folder, at = self.folder / f"copy{kills}", kills
            folder.mkdir()
            for name in ("queue.cqc", "20241004.cqi"):
                (folder / name).write_bytes((self.folder / name).read_bytes())

            def saves(folder=folder, at=at):
                journal, counted = linnetshelf.Journal(folder), itertools.count()

                def counting(call):
                    def counts(*arguments, **named):
                        if next(counted) == at:
                            os.kill(os.getpid(), signal.SIGKILL)
                        return call(*arguments, **named)

                    return counts

                queue = journal.__enter__()
                queue.append(b"two", self.MOMENT + DAY)
                for name in calls:
                    setattr(_folder.os, name, counting(getattr(os, name)))
                journal.save()
                return True

            status = in_child(saves)
            self.assertIn(status, (0, signal.SIGKILL))
            with linnetshelf.Saved.load(folder) as saved, saved.open() as queue:
                ours = "".join(f"{index} {data.decode()}\n" for index, data in queue)
            self.assertIn(ours, ("00004e2000000000 one\n", whole))
            self.assertEqual(cq("read", folder), ours)
            with linnetshelf.Journal(folder):
                pass
            self.assertEqual(cq("read", folder), ours)
            self.assertFalse([name for name in os.listdir(folder) if name.endswith((".part", ".save"))])
            kills += 1
        self.assertEqual(ours, whole)
        self.assertGreater(kills, 10)

    def test_a_save_that_failed_is_tried_again(self):
        linnetshelf.init(self.folder, SMALL)
        cq("write", self.folder, self.MOMENT, text="one\n")
        for name in ("open", "fsync", "rename"):
            real = getattr(os, name)

            def fails(*arguments, name=name, real=real, **named):
                setattr(_folder.os, name, real)
                raise OSError(28, "No space left on device")

            with self.assertRaises(linnetshelf.Unsaved) as fault, linnetshelf.Journal(self.folder) as queue:
                queue.append(name.encode(), self.MOMENT)
                setattr(_folder.os, name, fails)
            self.assertIsInstance(fault.exception.__cause__, OSError)
            self.assertEqual(sorted(os.listdir(self.folder)), ["20241004.cqi", "queue.cqc"])
            fault.exception.journal.save()
            fault.exception.journal.save()
        self.assertEqual([line[17:] for line in cq("read", self.folder).splitlines()], ["one", "open", "fsync", "rename"])

    def test_a_queue_is_not_overwritten(self):
        linnetshelf.init(self.folder, SMALL, ["a"])
        with linnetshelf.Saved.load(self.folder) as saved, self.assertRaises(FileExistsError):
            saved.save(self.folder)
        other = self.folder / "other"
        other.mkdir()
        cq("write", self.folder, self.MOMENT, text="one\n")
        with linnetshelf.Saved.load(self.folder) as saved:
            saved.save(other)
            saved.floor = 30_000
            empty = self.folder / "empty"
            empty.mkdir()
            with self.assertRaises(linnetshelf.BadValue):
                saved.save(empty)
            self.assertEqual(os.listdir(empty), [])
        self.assertEqual(cq("read", other), "00004e2000000000 one\n")

    def test_positions_are_not_lost_with_the_images(self):
        linnetshelf.init(self.folder, SMALL, ["a"])
        cq("write", self.folder, self.MOMENT, text="one\n")
        cq("take", self.folder, "a")
        config = (self.folder / "queue.cqc").read_bytes()
        os.unlink(self.folder / "20241004.cqi")
        with self.assertRaises(linnetshelf.BadValue) as fault, linnetshelf.Journal(self.folder):
            pass
        self.assertEqual(fault.exception.status, linnetshelf.Status.BAD_CONTENTS)
        self.assertEqual((self.folder / "queue.cqc").read_bytes(), config)

    def test_a_folder_is_open_once_in_a_process(self):
        linnetshelf.init(self.folder, SMALL)
        with linnetshelf.Journal(self.folder):
            for again in (linnetshelf.Journal(self.folder).__enter__, lambda: linnetshelf.Saved.load(self.folder)):
                with self.assertRaises(linnetshelf.FolderFault):
                    again()
        linnetshelf.Saved.load(self.folder).close()

    def test_a_child_leaves_the_lock_to_its_parent(self):
        linnetshelf.init(self.folder, SMALL)
        reader, writer = os.pipe()
        with linnetshelf.Journal(self.folder, self.MOMENT) as queue:
            queue.append(b"one", self.MOMENT)
            child = os.fork()
            if child == 0:
                try:
                    os.close(writer)
                    os.read(reader, 1)
                finally:
                    os._exit(0)
        self.assertEqual(cq("read", self.folder), "00004e2000000000 one\n")
        os.close(writer)
        os.close(reader)
        self.assertEqual(os.waitpid(child, 0)[1], 0)

    def test_the_working_folder_may_change(self):
        linnetshelf.init(self.folder, SMALL)
        os.chmod(self.folder / "queue.cqc", 0o600)
        before = os.getcwd()
        os.chdir(self.folder.parent)
        self.addCleanup(os.chdir, before)
        with linnetshelf.Journal(self.folder.name, self.MOMENT) as queue:
            queue.append(b"one", self.MOMENT)
            os.chdir("/")
        self.assertEqual((self.folder / "queue.cqc").stat().st_mode & 0o777, 0o600)
        self.assertEqual(cq("read", self.folder), "00004e2000000000 one\n")

    def test_faults(self):
        with self.assertRaises(FileNotFoundError):
            linnetshelf.Saved.load(self.folder)
        linnetshelf.init(self.folder, SMALL, ["a"])
        config = (self.folder / "queue.cqc").read_text(encoding="ascii")
        wrong_texts = ("cq 1" + config[4:], config + "x", config.replace("16", "016"), config + "name a 0\n", "")
        wrong_texts += (config.replace("a 0", "a 18446744073709551617"), config.replace("name", "floor 0\nname"))
        wrong_texts += (config.replace("name", "floor 2147483647\nname"), config.replace("cells 4096", "cells 4294971392"))
        for wrong in wrong_texts:
            (self.folder / "queue.cqc").write_text(wrong, encoding="ascii")
            with self.assertRaises(linnetshelf.FolderFault):
                linnetshelf.Saved.load(self.folder)
        (self.folder / "queue.cqc").write_text(config, encoding="ascii")
        (self.folder / "20241004.cqi").write_bytes(b"\x01")
        with self.assertRaises(linnetshelf.FolderFault) as fault:
            linnetshelf.Saved.load(self.folder)
        self.assertEqual(fault.exception.status, linnetshelf.Status.CUT)
        os.rename(self.folder / "20241004.cqi", self.folder / "2024.cqi")
        with self.assertRaises(linnetshelf.FolderFault):
            linnetshelf.Saved.load(self.folder)
        os.unlink(self.folder / "2024.cqi")
        os.symlink("queue.cqc", self.folder / "20241004.cqi")
        with self.assertRaises(linnetshelf.FolderFault):
            linnetshelf.Saved.load(self.folder)
        os.unlink(self.folder / "20241004.cqi")
        for record in (b"cq save 1\n", b"cq save 1\n1\n\xff.cqi\nend\n", b"cq save 1\n1\n" + 100_000 * b"12345678.cqi\n" + b"end\n"):
            (self.folder / "queue.save").write_bytes(record)
            with self.assertRaises(linnetshelf.FolderFault):
                linnetshelf.Journal(self.folder).__enter__()
            self.assertEqual((self.folder / "queue.save").read_bytes(), record)


class LiveQueues(unittest.TestCase):
    """Queues that are kept in the log of a folder."""

    MOMENT = 1_728_000_000_000
    SETTINGS = linnetshelf.Settings(cells=65536, index_count=64, index_spacing=16, cycles=64)
    REFUSED = "cq: a queue is live in this folder"

    def setUp(self):
        room = tempfile.TemporaryDirectory()
        self.addCleanup(room.cleanup)
        self.room = pathlib.Path(room.name)
        self.folder = self.new_folder("queue")

    def new_folder(self, name):
        folder = self.room / name
        folder.mkdir()
        linnetshelf.init(folder, self.SETTINGS, ["reader"])
        return folder

    def open(self, folder=None):
        return linnetshelf.Live(folder or self.folder, self.MOMENT)

    def append(self, endpoint, data):
        return endpoint.append(data, self.MOMENT)

    def found(self, folder=None):
        """Returns the messages that the files of a folder hold, which do not change."""
        with linnetshelf.Saved.load(folder or self.folder) as saved, saved.open(self.MOMENT) as queue:
            return data_of(queue)

    def files(self, folder=None):
        return {file.name: file.read_bytes() for file in (folder or self.folder).iterdir()}

    def crash(self, data, folder=None):
        """Lets a child store messages and end without closing, so that they are in the log alone."""

        def stores():
            live = self.open(folder)
            for part in data:
                live.append(part, self.MOMENT)
            return True

        self.assertEqual(in_child(stores), 0)

    def script(self, text):
        """Runs a program of its own that opens a live queue of the folder, with all warnings."""
        begin = f"import os, sys, linnetshelf\nfolder, moment = sys.argv[1], {self.MOMENT}\n"
        begin += "live = linnetshelf.Live(folder, moment)\n"
        command = [sys.executable, "-B", "-X", "dev", "-W", "always", "-W", "ignore::DeprecationWarning", "-c", begin + text]
        env = {**os.environ, "PYTHONPATH": str(TOP / "python")}
        return subprocess.run([*command, self.folder], capture_output=True, text=True, env=env, check=False, timeout=120)

    def test_what_was_appended_is_there_again(self):
        for turn in range(3):
            with self.open() as live:
                self.assertEqual(len(data_of(live.queue)), 60 * turn)
                for k in range(60):
                    moment = self.MOMENT + (60 * turn + k) // 40 * DAY
                    if k % 10 == 0:
                        index = live.append(b"%d" % (60 * turn + k), moment)
                        self.assertGreater(live.stored, index)
                    else:
                        index = live.queue.append(b"%d" % (60 * turn + k), moment)
                self.assertTrue(live.wait(index))
                self.assertEqual(self.found(), [b"%d" % k for k in range(60 * turn + 60)])
                self.assertEqual(live.queue.take("reader").data, b"%d" % turn)
                self.assertEqual((type(live.stored), live.stored), (linnetshelf.Index, live.queue.end))
        with linnetshelf.Saved.load(self.folder) as saved:
            self.assertEqual((saved.positions["reader"].sequence, len(saved)), (3, 5))

    def test_a_wait_has_a_time(self):
        with self.open() as live:
            index = live.append(b"one", self.MOMENT)
            self.assertEqual((live.wait(index, 0), live.wait(index + 1, 0), live.wait(index + 1, 0.02)), (True, False, False))
            with live.queue.begin(3, self.MOMENT) as message:
                message.put(b"two")
                with self.assertRaises(linnetshelf.Busy):
                    live.append(b"refused", self.MOMENT, timeout=0.01)
            later = threading.Timer(0.05, self.append, (live.queue, b"three"))
            later.start()
            self.assertTrue(live.wait(index + 2, 60))
            later.join()
        self.assertEqual(self.found(), [b"one", b"two", b"three"])

    def test_a_signal_comes_while_a_thread_waits(self):
        with self.open() as live:
            index, main = live.append(b"one", self.MOMENT), threading.main_thread().ident

            def interrupted(number):
                later = threading.Timer(0.05, signal.pthread_kill, (main, number))
                later.start()
                try:
                    return live.wait(index + 9, 0.2)
                finally:
                    later.join()

            # A shell starts what runs in the background with SIGINT ignored.
            handlers = {
                signal.SIGUSR1: lambda *_: live.append(b"of a handler", self.MOMENT),
                signal.SIGINT: signal.default_int_handler,
            }
            for number, handler in handlers.items():
                self.addCleanup(signal.signal, number, signal.signal(number, handler))
            self.assertFalse(interrupted(signal.SIGUSR1))
            with self.assertRaises(KeyboardInterrupt):
                interrupted(signal.SIGINT)
            live.append(b"two", self.MOMENT)
        self.assertEqual(self.found(), [b"one", b"of a handler", b"two"])

    def test_the_keeper_stays_in_its_thread(self):
        calls, places = ("keep", "turn", "log_call", "log_done", "stored", "destroy"), []

        def noted(name):
            real = getattr(_library.library, name)

            def call(*arguments):
                places.append((name, threading.current_thread()))
                return real(*arguments)

            return unittest.mock.patch.object(_library.library, name, call)

        with contextlib.ExitStack() as stack:
            for name in calls:
                stack.enter_context(noted(name))
            with self.open() as live:
                live.append(b"one", self.MOMENT)
        # Endpoints and what is saved are destroyed by the others.
        threads = {thread for name, thread in places if name != "destroy"}
        self.assertEqual(len(threads), 1)
        self.assertNotIn(threading.current_thread(), threads)
        last = [name for name, thread in places if thread in threads]
        self.assertEqual((last[0], last[-1], last.count("keep"), last.count("destroy")), ("keep", "destroy", 1, 1))

    def test_one_that_is_closed(self):
        live = self.open()
        index, endpoint = live.append(b"one", self.MOMENT), live.split()
        self.append(endpoint, b"two")
        begun = endpoint.begin(8, self.MOMENT)
        begun.__enter__().put(b"given up")
        self.assertFalse(live.closed)
        live.close()
        live.close()
        self.assertEqual((live.closed, live.queue.closed, endpoint.closed), (True, True, True))
        self.assertEqual((live.wait(index), live.stored), (True, index + 2))
        for call in (lambda: live.append(b"x"), live.split, lambda: live.wait(index + 2), lambda: endpoint.append(b"x")):
            with self.assertRaises(ValueError):
                call()
        with self.assertRaises(RuntimeError), self.open() as live:
            self.append(live.queue, b"three")
            raise RuntimeError
        self.assertEqual(self.found(), [b"one", b"two", b"three"])
        self.assertFalse(_live.OPEN)

    def test_one_that_is_closed_while_an_endpoint_is_split_off(self):
        live, real = self.open(), _library.library.split

        def split(endpoint, out):
            status = real(endpoint, out)
            live.close()
            return status

        with unittest.mock.patch.object(_library.library, "split", split):
            endpoint = live.split()
        self.assertTrue(endpoint.closed)
        with self.assertRaises(ValueError):
            self.append(endpoint, b"lost")

    def test_threads_share_it(self):
        count, who = 25, range(8)

        def work(live, own, k):
            with live.split() as endpoint:
                for number in range(count):
                    if k % 2:
                        own.append(live.append(b"%d %d" % (k, number), self.MOMENT))
                    else:
                        own.append(self.append(endpoint, b"%d %d" % (k, number)))
                        live.wait(own[-1])
                    self.assertGreater(live.stored, own[-1])

        with self.open() as live:
            indices = [[] for _ in who]
            threads = [threading.Thread(target=work, args=(live, indices[k], k)) for k in who]
            for thread in threads:
                thread.start()
            for thread in threads:
                thread.join()
            stored = self.found()
        self.assertEqual(len(stored), count * len(who))
        with self.open() as live:
            for k in who:
                self.assertEqual([live.queue[index] for index in indices[k]], [b"%d %d" % (k, number) for number in range(count)])
            self.assertEqual(data_of(live.queue), stored)

    def test_threads_go_on_while_it_is_closed(self):
        """What was appended before the end is there, and nothing is appended after it, also by endpoints that are split off."""
        for turn in range(5):
            live, done, ends = self.open(), [[] for _ in range(4)], []

            def work(live, own, who, turn=turn, ends=ends):
                try:
                    while True:
                        with live.split() as endpoint:
                            data = b"%d %d %d" % (turn, who, len(own))
                            endpoint.append(data, self.MOMENT + turn * DAY)
                            own.append(data)
                except ValueError as error:
                    ends.append(str(error))

            threads = [threading.Thread(target=work, args=(live, own, who)) for who, own in enumerate(done)]
            for thread in threads:
                thread.start()
            while min(map(len, done)) < 5:
                time.sleep(0.001)
            live.close()
            for thread in threads:
                thread.join()
            self.assertEqual(ends, ["it is closed"] * 4)
            found = [it for it in self.found() if it.startswith(b"%d " % turn)]
            for who, own in enumerate(done):
                self.assertEqual([it for it in found if it.startswith(b"%d %d " % (turn, who))], own)
            self.assertEqual(len(found), sum(map(len, done)))

    def append_until_killed(self, to):
        """In a child: appends in eight threads, and writes each message to a pipe once it is stored."""
        live = self.open()
        there = data_of(live.queue)

        def work(who):
            endpoint = live.split()
            for number in itertools.count(sum(it.startswith(b"%d " % who) for it in there)):
                data = b"%d %d" % (who, number)
                if who % 2:
                    live.append(data, self.MOMENT)
                else:
                    live.wait(self.append(endpoint, data))
                os.write(to, data + b"\n")

        threads = [threading.Thread(target=work, args=(who,)) for who in range(8)]
        for thread in threads:
            thread.start()
        for thread in threads:
            thread.join()

    def test_processes_that_append_are_killed(self):
        """Each message that was acknowledged is there, once and in its writer's order, whoever opens the folder then."""
        openings = [self.found, lambda: self.open().close(), self.enter_journal]
        if CQ:
            openings.append(lambda: cq("drop", self.folder, 0))
        stored = [0] * 8
        for turn in range(8):
            reader, writer = os.pipe()
            child = os.fork()
            if child == 0:
                try:
                    self.append_until_killed(writer)
                finally:
                    os._exit(3)
            os.close(writer)
            with open(reader, "rb") as acknowledged:
                lines = [acknowledged.readline() for _ in range(8 + 3 * turn)]
                time.sleep(0.002 * random.random())
                os.kill(child, signal.SIGKILL)
                lines += acknowledged.readlines()
            self.assertEqual(os.waitpid(child, 0)[1], signal.SIGKILL)
            for line in lines:
                who, number = map(int, line.split())
                self.assertEqual(number, stored[who])
                stored[who] += 1
            openings[turn % len(openings)]()
            found = self.found()
            for who in range(8):
                numbers = [int(it.split()[1]) for it in found if it.startswith(b"%d " % who)]
                self.assertEqual(numbers, list(range(len(numbers))))
                # The last message of each thread may be stored without having been acknowledged.
                self.assertIn(len(numbers) - stored[who], (0, 1))
                stored[who] = len(numbers)
            if CQ:
                self.assertEqual([line[17:].encode() for line in cq("read", self.folder).splitlines()], found)

    def enter_journal(self, folder=None):
        journal = linnetshelf.Journal(folder or self.folder)
        try:
            with journal:
                pass
        finally:
            journal.discard()

    @staticmethod
    def at_call(number, does, counted):
        """Lets the call of the system with this number do something else, of those that change or sync the folder and its log."""

        def replaced(real):
            def call(*arguments, **named):
                if next(counted) == number:
                    does()
                return real(*arguments, **named)

            return call

        names = ("rename", "unlink", "fsync", "pwrite", "fdatasync", "ftruncate", "open")
        stack = contextlib.ExitStack()
        for name in names:
            stack.enter_context(unittest.mock.patch.object(os, name, replaced(getattr(os, name))))
        return stack

    def open_and_close(self, folder):
        with self.open(folder):
            # No log is handed out that a save could still replace.
            self.assertFalse((folder / "queue.save").exists())

    def test_an_opening_is_killed_or_fails_at_each_call(self):
        """Nothing that was stored is lost, and the next opening works, also in the same process."""
        wanted, is_past = [b"one", b"two", b"three"], self.room / "past"
        self.crash(wanted)

        def kill():
            os.kill(os.getpid(), signal.SIGKILL)

        def fail():
            raise OSError(5, "Input/output error")

        for opens, does in itertools.product((self.open_and_close, self.enter_journal), (kill, fail)):
            number = 0
            while not is_past.exists():
                folder = self.room / "copy"
                shutil.copytree(self.folder, folder)

                def works(folder=folder, number=number, does=does, opens=opens):
                    counted = itertools.count()
                    errors = (OSError, linnetshelf.Unstored, linnetshelf.Unsaved)
                    with contextlib.suppress(*errors), self.at_call(number, does, counted):
                        opens(folder)
                    if next(counted) <= number:
                        is_past.touch()
                    with self.open(folder) as live:
                        return data_of(live.queue) == wanted

                self.assertEqual(in_child(works), 0 if does is fail or is_past.exists() else signal.SIGKILL, number)
                self.assertEqual(self.found(folder), wanted)
                with self.open(folder) as live:
                    self.assertEqual(data_of(live.queue), wanted)
                self.assertFalse([name for name in os.listdir(folder) if name.endswith((".part", ".save"))])
                shutil.rmtree(folder)
                number += 1
            is_past.unlink()
            self.assertGreater(number, 20)

    def test_calls_of_the_log_fail(self):
        """Nothing is acknowledged from then on, a sync is not made again, and what was stored is there."""
        for name, at in itertools.product(("pwrite", "fdatasync"), range(5)):
            with self.subTest(name=name, at=at):
                folder, made, real, stored = self.new_folder(f"{name}{at}"), [], getattr(os, name), []

                def fails(*arguments, made=made, real=real, at=at):
                    made.append(arguments)
                    if len(made) == at + 1:
                        raise OSError(5, "Input/output error")
                    return real(*arguments)

                live = self.open(folder)
                with unittest.mock.patch.object(os, name, fails):
                    with self.assertRaises(linnetshelf.Unstored) as fault:
                        for k in range(40):
                            stored.append(live.append(b"%d" % k, self.MOMENT))
                    self.assertEqual((fault.exception.index.sequence, fault.exception.__cause__.errno), (len(stored), 5))
                    index = self.append(live.queue, b"lost")
                    for call, given in ((lambda: live.append(b"x"), None), (lambda: live.wait(index), index), (live.close, None)):
                        with self.assertRaises(linnetshelf.Unstored) as fault:
                            call()
                        self.assertEqual((fault.exception.index, fault.exception.__cause__.errno), (given, 5))
                    self.assertEqual(len(made), at + 1)
                live.close()
                with self.open(folder) as live:
                    found = data_of(live.queue)
                self.assertEqual(found[: len(stored)], [b"%d" % k for k in range(len(stored))])
                self.assertLessEqual(len(found), len(stored) + 1)

    def test_a_log_that_failed_is_locked_until_it_is_closed(self):
        live = self.open()
        with unittest.mock.patch.object(os, "pwrite", side_effect=OSError(5, "Input/output error")):
            with self.assertRaises(linnetshelf.Unstored):
                live.append(b"one", self.MOMENT)
        with self.assertRaises(linnetshelf.IsLive):
            self.open()
        with self.assertRaises(linnetshelf.Unstored):
            live.close()
        self.open().close()

    def test_a_file_may_not_grow(self):
        """As on a full device."""

        def works():
            live, (_, most), stored = self.open(), resource.getrlimit(resource.RLIMIT_FSIZE), 0
            signal.signal(signal.SIGXFSZ, signal.SIG_IGN)
            resource.setrlimit(resource.RLIMIT_FSIZE, (6000, most))
            with self.assertRaises(linnetshelf.Unstored) as fault:
                for stored in range(1000):
                    live.append(b"%d" % stored, self.MOMENT)
            self.assertEqual((fault.exception.__cause__.errno, fault.exception.index.sequence), (27, stored))
            self.assertGreater(stored, 0)
            with self.assertRaises(linnetshelf.Unstored):
                live.close()
            resource.setrlimit(resource.RLIMIT_FSIZE, (most, most))
            found = self.found()
            self.assertEqual(found[:stored], [b"%d" % k for k in range(stored)])
            self.assertLessEqual(len(found), stored + 1)
            with self.open() as live:
                return data_of(live.queue) == found

        self.assertEqual(in_child(works), 0)

    def test_writes_that_are_short_go_on(self):
        real = os.pwrite
        with unittest.mock.patch.object(os, "pwrite", lambda file, data, place: real(file, data[:7], place)), self.open() as live:
            live.append(b"x" * 100_000, self.MOMENT)
            live.append(b"y", self.MOMENT)
        self.assertEqual(self.found(), [b"x" * 100_000, b"y"])

    def test_turns_are_out_of_memory(self):
        real, refused = _library.library.turn, iter(range(3))
        turn = lambda keeper: real(keeper) if next(refused, None) is None else linnetshelf.Status.OUT_OF_MEMORY
        with self.open() as live, unittest.mock.patch.object(_library.library, "turn", turn):
            live.append(b"one", self.MOMENT)
            self.assertIsNone(next(refused, None))
        live = self.open()
        with unittest.mock.patch.object(_library.library, "turn", lambda keeper: linnetshelf.Status.OUT_OF_MEMORY):
            self.assertFalse(live.wait(self.append(live.queue, b"two"), 0.05))
            with self.assertRaises(linnetshelf.Unstored) as fault:
                live.close()
            self.assertIsInstance(fault.exception.__cause__, linnetshelf.OutOfMemory)
        self.assertEqual(self.found(), [b"one"])

    def test_others_are_refused_meanwhile(self):
        with self.open() as live:
            live.append(b"one", self.MOMENT)
            files = self.files()

            def refused():
                for opens in (self.open, linnetshelf.Journal(self.folder).__enter__):
                    with self.assertRaises(linnetshelf.IsLive):
                        opens()
                return True

            self.assertTrue(refused())
            self.assertEqual(in_child(refused), 0)
            with self.assertRaises(FileExistsError):
                linnetshelf.init(self.folder)
            self.assertEqual((self.found(), self.files()), ([b"one"], files))
        with linnetshelf.Journal(self.folder) as queue:
            self.assertEqual(data_of(queue), [b"one"])
            self.assertEqual(self.files()["queue.log"], b"")
            with self.assertRaises(linnetshelf.FolderFault):
                self.open()

    @unittest.skipUnless(CQ, "there is no program")
    def test_commands_meanwhile(self):
        with self.open() as live:
            index = live.append(b"one", self.MOMENT)
            files = self.files()
            for words in (("write", self.folder, self.MOMENT), ("take", self.folder, "reader"), ("log", self.folder)):
                done = subprocess.run([CQ, *map(str, words)], input="more\n", capture_output=True, text=True, check=False)
                self.assertEqual((done.returncode, done.stdout, done.stderr.startswith(self.REFUSED)), (1, "", True), done)
            self.assertEqual(cq("read", self.folder), f"{index} one\n")
            self.assertEqual(cq("check", self.folder).splitlines()[-1], "queue.log: 1 messages, live")
            self.assertEqual(self.files(), files)
        self.assertEqual(cq("check", self.folder).splitlines()[-1], "queue.log: 1 messages, not live")
        cq("write", self.folder, self.MOMENT, text="two\n")
        with self.open() as live:
            self.assertEqual(data_of(live.queue), [b"one", b"two"])

    @unittest.skipUnless(CQ, "there is no program")
    def test_the_log_of_the_program(self):
        with subprocess.Popen([CQ, "log", self.folder], stdin=subprocess.PIPE, stdout=subprocess.PIPE) as holder:
            holder.stdin.write(b"one\ntwo\n")
            holder.stdin.flush()
            lines = [holder.stdout.readline() for _ in range(2)]
            for opens in (self.open, linnetshelf.Journal(self.folder).__enter__):
                with self.assertRaises(linnetshelf.IsLive):
                    opens()
            self.assertEqual(self.found(), [b"one", b"two"])
            holder.kill()
        with self.open() as live:
            self.assertEqual([live.queue[int(line, 16)] for line in lines], [b"one", b"two"])

    def test_it_waits_for_the_folder(self):
        context = multiprocessing.get_context("fork")
        entered, release, found = context.Event(), context.Event(), []
        holder = context.Process(target=hold, args=(self.folder, entered, release))
        holder.start()
        self.assertTrue(entered.wait(60))

        def work():
            with self.open() as live:
                found.extend(data_of(live.queue))

        thread = threading.Thread(target=work)
        thread.start()
        thread.join(0.2)
        self.assertTrue(thread.is_alive())
        release.set()
        thread.join()
        holder.join()
        self.assertEqual(found, [b"held"])

    def test_a_save_that_was_cut_short_is_finished(self):
        config = (self.folder / "queue.cqc").read_bytes()
        for name, data in {"queue.cqc": b"cq 1\n", "queue.cqc.77.part": config, "queue.log.77.part": b""}.items():
            (self.folder / name).write_bytes(data)
        (self.folder / "queue.save").write_bytes(b"cq save 1\n77\nqueue.cqc\nqueue.log\nend\n")
        with self.open() as live:
            live.append(b"one", self.MOMENT)
            self.assertEqual(sorted(self.files()), ["20241004.cqi", "queue.cqc", "queue.log"])
        self.assertEqual(self.found(), [b"one"])

    def test_a_journal_saves_the_log(self):
        self.crash([b"one", b"two"])
        files = self.files()
        self.assertEqual((self.found(), self.files()), ([b"one", b"two"], files))
        with linnetshelf.Journal(self.folder) as queue:
            self.assertEqual(self.files()["queue.log"], b"")
            self.append(queue, b"three")
        (self.folder / "queue.log").unlink()
        self.assertEqual(self.found(), [b"one", b"two", b"three"])

    def test_logs_at_fault(self):
        openings = (self.open, linnetshelf.Journal(self.folder).__enter__, lambda: linnetshelf.Saved.load(self.folder))
        log = self.folder / "queue.log"

        def refused(error=linnetshelf.LogFault):
            files, faults = self.files() if log.is_file() and log.stat().st_size < 1 << 30 else None, []
            for opens in openings:
                with self.assertRaises(error) as fault:
                    opens()
                self.assertIn("queue.log", str(fault.exception))
                faults.append((fault.exception.status, getattr(fault.exception, "turn", None)))
            if files:
                self.assertEqual(self.files(), files)
            self.assertEqual(len(set(faults)), 1)
            return faults[0]

        self.crash([b"one", b"two"])
        good = log.read_bytes()
        self.assertEqual(good[:1], b"\1")
        turn = 5 + struct.unpack_from("<I", good, 1)[0]
        log.write_bytes(good[: turn + 5] + b"\x09" + good[turn + 6 :])
        self.assertEqual(refused(), (linnetshelf.Status.BAD_TURN, 1))
        log.write_bytes(b"\1\2\0\0\0ab\0")
        self.assertEqual(refused(), (linnetshelf.Status.BAD_HEAD, 0))
        log.unlink()
        with linnetshelf.Journal(self.folder) as queue:
            self.append(queue, b"other")
        log.write_bytes(good)
        self.assertEqual(refused(), (linnetshelf.Status.OTHER_LOG, 0))
        os.truncate(log, (1 << 30) + 1)
        self.assertEqual(refused(), (None, 0))
        log.unlink()
        log.symlink_to("queue.cqc")
        refused(linnetshelf.FolderFault)
        log.unlink()
        log.mkdir()
        refused(linnetshelf.FolderFault)
        log.rmdir()
        log.write_bytes(b"no log")
        self.assertEqual(self.found(), [b"other"])
        with self.open() as live:
            self.assertEqual(data_of(live.queue), [b"other"])

    def test_no_queue_is_made_over_a_log(self):
        self.crash([b"one"])
        folder = self.room / "other"
        folder.mkdir()
        shutil.copy(self.folder / "queue.log", folder)
        with self.assertRaises(FileExistsError):
            linnetshelf.init(folder)
        (folder / "queue.log").write_bytes(b"")
        linnetshelf.init(folder)

    def test_a_folder_without_a_queue(self):
        for folder in (self.room, self.room / "missing"):
            with self.assertRaises(FileNotFoundError):
                self.open(folder)
        self.assertFalse(_live.OPEN)

    def test_one_that_is_forgotten_is_closed(self):
        live = self.open()
        queue = live.queue
        self.append(queue, b"one")
        del live
        gc.collect()
        # Whoever has an endpoint keeps the log.
        with self.assertRaises(linnetshelf.IsLive):
            self.open()
        self.append(queue, b"two")
        with warnings.catch_warnings(record=True) as warned:
            warnings.simplefilter("always")
            del queue
            gc.collect()
        self.assertEqual([it.category for it in warned], [ResourceWarning])
        while _live.OPEN:
            time.sleep(0.001)
        with self.open() as live:
            self.assertEqual(data_of(live.queue), [b"one", b"two"])

    def test_a_program_ends_without_closing(self):
        done = self.script("live.queue.append_all([b'one', b'two'], moment)")
        self.assertEqual((done.returncode, done.stdout), (0, ""))
        self.assertIn("ResourceWarning: unclosed <linnetshelf.Live", done.stderr)
        self.assertEqual(self.found(), [b"one", b"two"])
        done = self.script("live.queue.append(b'three', moment)\nraise SystemExit(7)")
        self.assertEqual((done.returncode, self.found()), (7, [b"one", b"two", b"three"]))

    def test_a_child_leaves_it_to_its_parent(self):
        with self.open() as live:
            index = live.append(b"one", self.MOMENT)

            def refused():
                calls = (lambda: live.append(b"x"), lambda: live.wait(index), lambda: live.stored, live.split, live.queue.next)
                for call in calls:
                    with self.assertRaises(ValueError):
                        call()
                with self.assertRaises(linnetshelf.IsLive):
                    self.open()
                live.close()
                return not live.closed

            self.assertEqual(in_child(refused), 0)
            live.append(b"two", self.MOMENT)
            with self.assertRaises(linnetshelf.IsLive):
                self.open()
        self.assertEqual(self.found(), [b"one", b"two"])

    def test_a_child_ends_as_a_program_does(self):
        done = self.script(
            "live.append(b'one', moment)\n"
            "child = os.fork()\n"
            "if child == 0: sys.exit(0)\n"
            "ended = os.waitpid(child, 0)[1]\n"
            "live.append(b'two', moment)\n"
            "try: linnetshelf.Live(folder)\n"
            "except linnetshelf.IsLive: print('live')\n"
            "live.close()\n"
            "sys.exit(ended)\n"
        )
        self.assertEqual((done.returncode, done.stdout, done.stderr), (0, "live\n", ""))
        self.assertEqual(self.found(), [b"one", b"two"])

    def test_a_child_does_not_keep_the_log_of_a_parent_that_was_killed(self):
        (reader, writer), (waits, ends) = os.pipe(), os.pipe()
        parent = os.fork()
        if parent == 0:
            try:
                live = self.open()
                live.append(b"one", self.MOMENT)
                warnings.simplefilter("ignore", DeprecationWarning)
                os.fork()
                os.close(ends)
                # Both write, so that both are there.
                os.write(writer, b"x")
                os.read(waits, 1)
            finally:
                os._exit(3)
        self.assertEqual(os.read(reader, 1) + os.read(reader, 1), b"xx")
        os.kill(parent, signal.SIGKILL)
        os.waitpid(parent, 0)
        with self.open() as live:
            self.assertEqual(data_of(live.queue), [b"one"])
        for file in (reader, writer, waits, ends):
            os.close(file)


class Document(unittest.TestCase):
    """The examples of docs/PYTHON.md run, one after the other in one folder, and print what the comments say."""

    def test_examples(self):
        text = (TOP / "docs" / "PYTHON.md").read_text(encoding="utf-8")
        blocks = re.findall(r"^```python\n(.*?)^```$", text, re.M | re.S)
        self.assertGreater(len(blocks), 3)
        before = os.getcwd()
        with tempfile.TemporaryDirectory() as folder:
            os.chdir(folder)
            self.addCleanup(os.chdir, before)
            known = {}
            for block in blocks:
                printed = io.StringIO()
                with contextlib.redirect_stdout(printed):
                    exec(compile(block, "docs/PYTHON.md", "exec"), known)
                wanted = "".join(f"{line}\n" for line in re.findall(r"# prints: (.*)$", block, re.M))
                self.assertEqual(printed.getvalue(), wanted, block)
            os.chdir(before)


if __name__ == "__main__":
    unittest.main(argv=sys.argv[:1])
