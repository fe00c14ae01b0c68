"""The calls of the library that the tests from Python make, by ctypes."""
import ctypes
import sys

library = ctypes.CDLL(sys.argv[1])


class Handle(ctypes.Structure):
    _fields_ = [("at", ctypes.c_void_p)]


class Settings(ctypes.Structure):
    _fields_ = [("epoch", ctypes.c_uint64), ("cells", ctypes.c_uint32), ("index_count", ctypes.c_uint32),
                ("index_spacing", ctypes.c_uint32), ("cycles", ctypes.c_uint32), ("roll", ctypes.c_uint32)]


class Answer(ctypes.Structure):
    _fields_ = [("index", ctypes.c_uint64), ("length", ctypes.c_uint32), ("status", ctypes.c_uint32)]


class Many(ctypes.Structure):
    _fields_ = [("index", ctypes.c_uint64), ("count", ctypes.c_uint64), ("length", ctypes.c_uint32), ("status", ctypes.c_uint32)]


class ShelfSettings(ctypes.Structure):
    _fields_ = [("queue", Settings), ("most", ctypes.c_uint32), ("at_limit", ctypes.c_uint32)]


class ShelfAnswer(ctypes.Structure):
    _fields_ = [("queue", ctypes.c_uint64), ("index", ctypes.c_uint64), ("length", ctypes.c_uint32), ("status", ctypes.c_uint32)]


DONE, NOT_YET, BUSY, FINISHED = 0, 1, 8, 36
HANDLE, BYTES, SIZE = ctypes.POINTER(Handle), ctypes.c_char_p, ctypes.c_size_t
WORD, LONG = ctypes.c_uint32, ctypes.c_uint64
LENGTHS, ANSWERS = ctypes.POINTER(WORD), ctypes.POINTER(Answer)
CALLS = {
    "create": (WORD, ctypes.POINTER(Settings), BYTES, SIZE, LONG, HANDLE),
    "split": (WORD, HANDLE, HANDLE),
    "destroy": (None, Handle),
    "append": (Answer, HANDLE, LONG, BYTES, SIZE),
    "next": (Answer, HANDLE, BYTES, SIZE),
    "append_many": (Many, HANDLE, LONG, BYTES, SIZE, LENGTHS, SIZE),
    "next_many": (Many, HANDLE, BYTES, SIZE, ANSWERS, SIZE),
    "take": (Answer, HANDLE, BYTES, SIZE, BYTES, SIZE),
    "stop": (WORD, HANDLE),
    "saved_count": (Answer, HANDLE),
    "saved_cycle": (Answer, HANDLE, WORD),
    "saved_image": (Answer, HANDLE, WORD, BYTES, SIZE),
    "saved_position": (Answer, HANDLE, WORD),
    "saved_floor": (Answer, HANDLE),
    "saved_new": (WORD, ctypes.POINTER(Settings), BYTES, SIZE, HANDLE),
    "saved_add": (Answer, HANDLE, WORD, BYTES, SIZE),
    "saved_set_position": (WORD, HANDLE, WORD, LONG),
    "saved_set_floor": (WORD, HANDLE, WORD),
    "open": (WORD, HANDLE, HANDLE),
    "shelf_create": (WORD, ctypes.POINTER(ShelfSettings), BYTES, SIZE, LONG, HANDLE),
    "shelf_reader": (WORD, HANDLE, HANDLE),
    "shelf_append": (ShelfAnswer, HANDLE, LONG, BYTES, SIZE),
    "shelf_close": (WORD, HANDLE),
    "shelf_next": (ShelfAnswer, HANDLE, BYTES, SIZE),
    "text": (SIZE, WORD, BYTES, SIZE),
    "size": (SIZE, WORD),
    "version": (WORD,),
}


def call(name, *arguments):
    function = getattr(library, "linnetshelf_" + name)
    function.restype, *function.argtypes = CALLS[name]
    return function(*arguments)


STRUCTS = {0: Handle, 1: Settings, 2: Answer, 3: ShelfAnswer, 4: ShelfSettings, 6: Many}
assert all(call("size", which) == ctypes.sizeof(it) for which, it in STRUCTS.items())


def images_of(saved):
    """The number and the image of each cycle that is saved."""
    for k in range(call("saved_count", saved).index):
        image = ctypes.create_string_buffer(call("saved_image", saved, k, b"", 0).length or 1)
        answer = call("saved_image", saved, k, image, len(image))
        assert answer.status == DONE
        yield call("saved_cycle", saved, k).index, image.raw[:answer.length]


def messages_of(endpoint):
    """The messages that an endpoint reads from where it is, each with its index."""
    room = ctypes.create_string_buffer(4096)
    while (answer := call("next", endpoint, room, len(room))).status != NOT_YET:
        assert answer.status == DONE
        yield answer.index, room.raw[:answer.length]
