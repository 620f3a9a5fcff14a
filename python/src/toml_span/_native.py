"""The calls of the library ``libtoml_span.so.0`` (include/toml_span.h)."""

from __future__ import annotations

import ctypes
import os
import struct
from typing import Any

READ, INVALID, UNREAD, UNMADE, MEMORY = range(5)
STRING, INTEGER, FLOAT, BOOLEAN, DATETIME, ARRAY, TABLE = range(1, 8)
NONE = (1 << 64) - 1
LONGEST = 16777216

# a record: kind, boolean, span, key span, key and text (source, at and length each), parent, position, children, next,
# integer, number
NODE = struct.Struct("=II14Qqd")
FAULT = struct.Struct("=II6Q")
NAME = "libtoml_span.so.0"


class Change(ctypes.Structure):
    """A change of a text: its kind, its path and its value."""

    _fields_ = [("change", ctypes.c_uint32), ("path", ctypes.c_char_p), ("value", ctypes.c_char_p)]


def _library() -> ctypes.CDLL:
    """Loads the library: from TOML_SPAN_LIBRARY, this folder, out/lib of the repository, or the system."""
    folder = os.path.dirname(os.path.abspath(__file__))
    places = [os.path.join(folder, NAME), os.path.join(folder, "..", "..", "..", "out", "lib", NAME)]
    named = os.environ.get("TOML_SPAN_LIBRARY")
    try:
        library = ctypes.CDLL(named or next((place for place in places if os.path.exists(place)), NAME))
    except OSError as error:
        message = f"{error} (build it with scripts/c_library.sh, or set TOML_SPAN_LIBRARY to its path)"
        raise ImportError(message) from None
    size, pointer, text = ctypes.c_size_t, ctypes.c_void_p, ctypes.c_char_p
    for name, result, arguments in (
        ("parse", ctypes.c_uint32, [text, size, pointer, size, pointer, size, pointer, pointer]),
        ("message", ctypes.c_uint32, [text, size, pointer, size, pointer]),
        ("report", ctypes.c_uint32, [text, size, text, size, pointer, size, pointer]),
        ("code", None, [ctypes.c_uint32, pointer, size, pointer]),
        ("find", size, [pointer, size, pointer, size, text]),
        ("sort", None, [pointer, size, pointer]),
        ("edit", ctypes.c_uint32, [text, size, pointer, size, pointer, size, pointer, pointer, pointer]),
        ("format", ctypes.c_uint32, [text, size, size, size, pointer, size, pointer, pointer]),
        ("pickle", None, [pointer, size, pointer, ctypes.c_int, pointer, size, pointer]),
    ):
        function: Any = getattr(library, "toml_span_" + name)
        function.restype, function.argtypes = result, arguments
    return library


lib = _library()


def text_of(call: Any, *arguments: Any) -> str:
    """Returns the text that ``call`` writes, which takes a buffer after the arguments."""
    needed, room = ctypes.c_size_t(), 512
    while True:
        out = ctypes.create_string_buffer(room)
        if call(*arguments, out, room, ctypes.byref(needed)) == MEMORY:
            raise MemoryError
        if needed.value <= room:
            return out.raw[: needed.value].decode()
        room = needed.value
