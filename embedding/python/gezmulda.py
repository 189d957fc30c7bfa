"""Plays networks in Python, by the library that was proved.

    import gezmulda
    gezmulda.play("network 1;\\ntemplate main(): Int ~> Int = iPre 0;\\n", "0 1\\n20 2\\n").lines

    with gezmulda.Engine("network 1;\\ntemplate main(): Int ~> Int = iPre 0;\\n") as engine:
        engine.feed("0 1\\n")

The library is libgezmulda.so, which embedding/build.py makes, in the folder that GEZMULDA names, or in embedding/out. The proof ends
at the calls of the library: nothing proves what stands here.
"""

import ctypes
import os
import threading
from typing import NamedTuple

DONE, FAULT, BAD_LINE, REFUSED, NO_ROOM = 0, 3, 4, 5, 6
# A rule with its place is shorter than this.
REFUSAL = 64
BESIDE = os.path.join(os.path.dirname(os.path.abspath(__file__)), "..", "out")


class Played(NamedTuple):
    """How a run ended, by its status, and the lines that it gave."""

    end: int
    lines: str


class Handle(ctypes.Structure):
    """What the library keeps a run by. It holds one from `gezmulda_make` to `gezmulda_free`."""

    _fields_ = [("held", ctypes.c_void_p)]


def opened():
    library = ctypes.CDLL(os.path.join(os.environ.get("GEZMULDA", BESIDE), "libgezmulda.so"))
    bytes_in, size = ctypes.c_char_p, ctypes.c_size_t
    library.gezmulda_play.argtypes = [bytes_in, size, bytes_in, size, ctypes.c_bool, ctypes.c_char_p, size, ctypes.POINTER(size)]
    library.gezmulda_check.argtypes = [bytes_in, size, ctypes.c_char_p, size, ctypes.POINTER(size)]
    library.gezmulda_play.restype = library.gezmulda_check.restype = ctypes.c_uint8
    handle = ctypes.POINTER(Handle)
    library.gezmulda_make.argtypes = [bytes_in, size, ctypes.c_bool, handle, ctypes.c_char_p, size, ctypes.POINTER(size)]
    library.gezmulda_feed.argtypes = [handle, bytes_in, size, ctypes.POINTER(size)]
    library.gezmulda_finish.argtypes = [handle, ctypes.POINTER(size)]
    library.gezmulda_take.argtypes = [handle, ctypes.c_char_p, size]
    library.gezmulda_free.argtypes = [handle]
    library.gezmulda_make.restype = library.gezmulda_feed.restype = library.gezmulda_finish.restype = ctypes.c_uint8
    library.gezmulda_take.restype, library.gezmulda_free.restype = size, None
    return library


LIBRARY = opened()


def play_into(network, lines, probes, room):
    """The status, what was written into a room of that size, and how many bytes are given."""
    out, given = ctypes.create_string_buffer(max(room, 1)), ctypes.c_size_t()
    status = LIBRARY.gezmulda_play(network, len(network), lines, len(lines), probes, out, room, given)
    return status, out.raw[: min(room, given.value)], given.value


def play(network, lines, probes=False):
    """Plays lines through the network that a text is, which calls no stored functions."""
    network, lines = network.encode(), lines.encode()
    status, out, given = play_into(network, lines, probes, 4 * len(lines) + 256)
    if given > len(out):
        # The same run once more: what a network gives for lines is always the same.
        status, out, given = play_into(network, lines, probes, given)
    return Played(status, out.decode())


def refusal(network):
    """The rule that a text breaks and the place where it does, as "C5 BarePre 2:31". None where it is accepted without stored functions."""
    network = network.encode()
    out, given = ctypes.create_string_buffer(REFUSAL), ctypes.c_size_t()
    status = LIBRARY.gezmulda_check(network, len(network), out, len(out), given)
    return None if status == DONE else out.raw[: given.value].decode()


class Engine:
    """A run that is fed its input piece by piece. It stays on the thread that made it, and keeps its memory until it is closed.

    `end` is the status with which the run has ended, or None while it goes on.
    """

    def __init__(self, network, probes=False):
        """A run at its start, of the network that a text is, which calls no stored functions. ValueError says what it is refused for."""
        text = network.encode()
        self.end, self.thread, self.handle = None, threading.get_ident(), Handle()
        out, given = ctypes.create_string_buffer(REFUSAL), ctypes.c_size_t()
        if LIBRARY.gezmulda_make(text, len(text), probes, self.handle, out, len(out), given) != DONE:
            self.handle = None
            raise ValueError(out.raw[: given.value].decode())

    def feed(self, piece):
        """Feeds a piece of the input, and answers what it gives. A line is played once its line feed is there. After the end it gives nothing."""
        self.look()
        piece, waiting = piece.encode(), ctypes.c_size_t()
        status = LIBRARY.gezmulda_feed(self.handle, piece, len(piece), waiting)
        if status != DONE:
            self.end = status
        return self.take(waiting.value)

    def finish(self):
        """Ends the input, whose last line may have no line feed, and answers what that gives. Nothing comes after it."""
        self.look()
        waiting = ctypes.c_size_t()
        self.end = LIBRARY.gezmulda_finish(self.handle, waiting)
        return self.take(waiting.value)

    def take(self, waiting):
        """What waits, which is so many bytes."""
        room = ctypes.create_string_buffer(max(waiting, 1))
        taken = LIBRARY.gezmulda_take(self.handle, room, waiting)
        return room.raw[:taken].decode()

    def close(self):
        """Lets the run go, with its memory. A second time it does nothing."""
        if self.handle:
            self.look()
            LIBRARY.gezmulda_free(self.handle)
            self.handle = None

    def look(self):
        """Refuses what would break the library's contract."""
        if not self.handle:
            raise ValueError("the engine is closed")
        if threading.get_ident() != self.thread:
            raise RuntimeError("the engine belongs to another thread")

    def __enter__(self):
        return self

    def __exit__(self, *_):
        self.close()
