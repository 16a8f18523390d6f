"""The host in a Python program: a call over files in memory, by the proved library.

    library = Library('/path/to/liblio.so')
    response = library.run(['policy.json', 'hello.lio'], {'policy.json': policy, 'hello.lio': script})
    response.status is Status.DONE, response.said, response.files['out.txt']

`tools/bindings` makes the shared library. What a call promises is the contract of `lio_host` in `crates/lio_c`; that the bytes are put
together and taken apart rightly here is only tested.
"""
from __future__ import annotations

import ctypes
import enum
import os
from dataclasses import dataclass, field
from typing import Iterable, Iterator, Mapping

__all__ = ['BundleFault', 'Cause', 'Error', 'Library', 'NoMemory', 'Response', 'Status', 'items', 'netstring', 'netstrings']

# how much room the first call gives its reply; where that is too little, it is made again
FIRST_ROOM = 1 << 16


class Status(enum.IntEnum):
    """How a call ended: the exit statuses of the program."""

    DONE = 0
    BAD_WORDS = 1
    MISSING = 2
    BAD_POLICY = 4
    BAD_SCRIPT = 5
    BAD_START = 6
    NO_MEMORY = 9
    NOT_A_RUN = 10
    CLASH = 11


class Cause(enum.IntEnum):
    """Why no call was made."""

    WORDS_BROKEN = 20
    WORD_NOT_TEXT = 21
    FILES_BROKEN = 22
    FILE_ALONE = 23
    FILE_TWICE = 24


_CAUSES = frozenset(Cause)


class Error(Exception):
    """No call was made, or its reply isn't there."""


class NoMemory(Error):
    """Memory was refused."""


class BundleFault(Error):
    """The bytes of the words or of the files are wrong: why, and at which byte, word or netstring."""

    def __init__(self, cause: Cause, place: int) -> None:
        super().__init__(f'{cause.name} at {place}')
        self.cause, self.place = cause, place


@dataclass(frozen=True)
class Response:
    """What a call answers: its status, what the program says, what it prints on standard error, and the files that it writes."""

    status: Status
    said: bytes = b''
    message: str = ''
    files: Mapping[str, bytes] = field(default_factory=dict)


class _Told(ctypes.Structure):
    _fields_ = [('status', ctypes.c_uint32), ('place', ctypes.c_size_t), ('needed', ctypes.c_size_t)]


def netstring(item: bytes) -> bytes:
    """An item with its length before it."""
    return b'%d:%s,' % (len(item), item)


def netstrings(items: Iterable[bytes]) -> bytes:
    """Items, one after another."""
    return b''.join(map(netstring, items))


def items(reply: memoryview | bytes) -> Iterator[bytes]:
    """The items of netstrings that the library wrote."""
    data, at = bytes(reply), 0
    while at < len(data):
        begin = data.index(b':', at) + 1
        end = begin + int(data[at:begin - 1])
        yield data[begin:end]
        at = end + 1


def _name(name: str) -> bytes:
    return name.encode('utf-8', 'surrogateescape')


def _response(status: Status, reply: memoryview) -> Response:
    said, message, *rest = items(reply)
    files = {name.decode('utf-8', 'surrogateescape'): data for name, data in zip(rest[::2], rest[1::2])}
    return Response(status, said, message.decode('utf-8', 'replace'), files)


class Library:
    """The proved library, loaded. Several threads may call it at once."""

    def __init__(self, path: str | os.PathLike[str]) -> None:
        self._call = ctypes.CDLL(os.fspath(path)).lio_host
        sized = [ctypes.c_char_p, ctypes.c_size_t]
        self._call.argtypes = [*sized, *sized, ctypes.POINTER(ctypes.c_char), ctypes.c_size_t, ctypes.POINTER(_Told)]
        self._call.restype = None

    def call(self, words: bytes, files: bytes, room: int = FIRST_ROOM) -> tuple[int, int, int, memoryview | None]:
        """One call by bytes, with so much room: the status, the place, how many bytes the reply has, and the reply where it had room."""
        # a buffer of no bytes has no address of its own
        out, told = ctypes.create_string_buffer(max(room, 1)), _Told()
        self._call(words, len(words), files, len(files), out, room, ctypes.byref(told))
        reply = memoryview(out)[:told.needed].cast('B') if told.needed <= room else None
        return told.status, told.place, told.needed, reply

    def run(self, words: Iterable[str], files: Mapping[str, bytes]) -> Response:
        """Does what the words ask for, as `lio_host WORDS` does in a folder that has the files."""
        given = netstrings(_name(word) for word in words)
        bundle = netstrings(part for name, data in files.items() for part in (_name(name), bytes(data)))
        room = FIRST_ROOM
        while True:
            status, place, needed, reply = self.call(given, bundle, room)
            if status in _CAUSES:
                raise BundleFault(Cause(status), place)
            if status == Status.NO_MEMORY:
                raise NoMemory('memory was refused')
            if reply is not None:
                return _response(Status(status), reply)
            room = needed
