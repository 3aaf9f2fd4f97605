"""The calls of the library for C, by ctypes, as include/golly_canon.h declares them."""

import ctypes
import random

SQUARES = 1 << 31
LINE_TOO_LONG, FULL, MEMORY, SPENT, AMBIGUOUS, NO_ROOM = 20, 21, 22, 23, 43, 64
SEEDS = random.Random(23)  # no answer depends on the seed, so each call has another


class Stream(ctypes.Structure):
    """A file that comes in pieces."""

    _fields_ = [("is_open", ctypes.c_uint32), ("session", ctypes.c_void_p)]


def loaded(path="libgolly_canon.so.1"):
    """The shared library. Without a path it is that which the system finds."""
    library = ctypes.CDLL(path)
    library.golly_canon_close.restype = None
    return library


def seed():
    return ctypes.c_uint64(SEEDS.getrandbits(64))


def _said(call, *arguments):
    """The bytes that a call gives, which takes these arguments first, as a text."""
    out, needed = ctypes.create_string_buffer(256), ctypes.c_size_t()
    assert call(*arguments, out, ctypes.c_size_t(256), ctypes.byref(needed)) == 0
    return out.raw[: needed.value].decode()


def name_of(library, status):
    """The name of a status."""
    return _said(library.golly_canon_status_name, ctypes.c_uint32(status))


def sentence_of(library, status):
    """What a status means, in a sentence."""
    return _said(library.golly_canon_sentence, ctypes.c_uint32(status))


def advice_of(library, status, file, is_table=False):
    """What a file is that was refused with a status."""
    return _said(library.golly_canon_advice, ctypes.c_uint32(status), file, ctypes.c_size_t(len(file)), ctypes.c_uint32(is_table))


def warning_of(library, file):
    """The warning of a file."""
    return _said(library.golly_canon_warning, file, ctypes.c_size_t(len(file)))


def warning_of_stream(library, stream):
    """The warning of the file of a stream."""
    return _said(library.golly_canon_stream_warning, ctypes.byref(stream))
