"""The library from Python: two threads, of which one appends and one reads; a queue that is saved and opened; and a shelf."""
import ctypes
import threading

from library import BUSY, DONE, FINISHED, Handle, Settings, ShelfSettings, call, images_of, messages_of

SETTINGS = Settings(epoch=0, cells=65536, index_count=64, index_spacing=16, cycles=2, roll=0)
TEXTS = [b"message %d" % k for k in range(5000)]


def append_all(endpoint):
    for text in TEXTS:
        while call("append", endpoint, 0, text, len(text)).status == BUSY:
            pass


def read_all(endpoint, found):
    while len(found) < len(TEXTS):
        found.extend(messages_of(endpoint))


def use_shelf():
    writer, reader, found, room = Handle(), Handle(), [], ctypes.create_string_buffer(64)
    narrow = Settings(epoch=0, cells=64, index_count=8, index_spacing=1, cycles=1, roll=0)
    assert call("shelf_create", ShelfSettings(narrow, 2, 0), b"", 0, 0, writer) == DONE
    assert call("shelf_reader", writer, reader) == DONE
    for text in TEXTS:
        appended = call("shelf_append", writer, 0, text, len(text))
        answer = call("shelf_next", reader, room, len(room))
        assert (appended.status, answer.status) == (DONE, DONE)
        assert (answer.queue, answer.index) == (appended.queue, appended.index)
        found.append(room.raw[:answer.length])
    assert found == TEXTS and answer.queue > 500
    assert call("shelf_close", writer) == DONE
    assert call("shelf_next", reader, room, len(room)).status == FINISHED
    for handle in (writer, reader):
        call("destroy", handle)


def main():
    use_shelf()
    queue, reader, found = Handle(), Handle(), []
    assert call("create", SETTINGS, b"", 0, 0, queue) == DONE
    assert call("split", queue, reader) == DONE
    threads = [threading.Thread(target=append_all, args=(queue,)),
               threading.Thread(target=read_all, args=(reader, found))]
    for thread in threads:
        thread.start()
    for thread in threads:
        thread.join()
    assert found == list(enumerate(TEXTS))
    call("destroy", reader)

    saved, again = Handle(), Handle()
    assert call("stop", queue) == DONE
    assert call("saved_new", SETTINGS, b"", 0, saved) == DONE
    for cycle, image in images_of(queue):
        assert call("saved_add", saved, cycle, image, len(image)).status == DONE
    assert call("open", saved, again) == DONE
    assert list(messages_of(again)) == found
    for handle in (queue, saved, again):
        call("destroy", handle)


main()
