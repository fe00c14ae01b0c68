"""Linnetshelf: an append-only journal in memory that many endpoints share, and the folders of the program cq.

    import linnetshelf

    with linnetshelf.create(names=["reader"]) as queue:
        queue.append(b"hello")
        for message in queue:
            print(message.index, message.data)

Each thread has an endpoint of its own: `split` makes one. See docs/PYTHON.md.
"""
from ._endpoint import Begun, Endpoint, Index, Message, Peeked, Roll, Settings, create, now
from ._library import text_of
from ._live import Live
from ._saved import Image, Journal, Saved, init
from .errors import (
    BadValue,
    BufferTooSmall,
    Busy,
    Closed,
    Finished,
    FolderFault,
    Full,
    ImageFault,
    IsLive,
    LinnetshelfError,
    LogFault,
    Misused,
    Moved,
    NoMessage,
    NoSuchName,
    NotSeen,
    OutOfMemory,
    Status,
    Unsaved,
    Unstored,
)

__version__ = "0.1.0"

__all__ = [
    "BadValue",
    "Begun",
    "BufferTooSmall",
    "Busy",
    "Closed",
    "Endpoint",
    "Finished",
    "FolderFault",
    "Full",
    "Image",
    "ImageFault",
    "Index",
    "IsLive",
    "Journal",
    "LinnetshelfError",
    "Live",
    "LogFault",
    "Message",
    "Misused",
    "Moved",
    "NoMessage",
    "NoSuchName",
    "NotSeen",
    "OutOfMemory",
    "Peeked",
    "Roll",
    "Saved",
    "Settings",
    "Status",
    "Unsaved",
    "Unstored",
    "create",
    "init",
    "now",
    "text_of",
]
