"""Edits and formats texts."""

from __future__ import annotations

import ctypes
import re
from typing import Any, AnyStr, Callable, Generic, Iterable, List, Optional, Tuple, Union

from . import _native as native
from ._encode import value_text
from ._node import Node, parse
from ._path import path_text

Path = Union[str, Node, Iterable[Union[str, int]]]


def _path(path: Path) -> str:
    """Returns a path as it is written."""
    return path_text(path.path if isinstance(path, Node) else path)


class EditError(ValueError):
    """An edit was refused. msg: the reason. index: the index of the edit, from 0. path: its path."""

    def __init__(self, msg: str, index: int, path: str) -> None:
        super().__init__(f"edit {index + 1}, at {path!r}: {msg}")
        self.msg, self.index, self.path = msg, index, path

    def __reduce__(self) -> Any:
        return type(self), (self.msg, self.index, self.path)


def _checked(text: AnyStr) -> AnyStr:
    if not isinstance(text, (str, bytes)):
        raise TypeError(f"Expected str or bytes object, not '{type(text).__qualname__}'")
    return text


def _data(text: Union[str, bytes]) -> bytes:
    return text.encode("utf-8", "surrogatepass") if isinstance(text, str) else text


def _made(text: AnyStr, room: int, call: Callable[..., int], refused: Callable[[str], Exception]) -> AnyStr:
    """Returns the new text that a call of the library makes from a text.

    Raises TOMLDecodeError if the text is not valid. If the library refuses to make a new text, raises the exception
    that ``refused`` makes from the reason.
    """
    data = _data(text)
    needed = ctypes.c_size_t()
    fault = ctypes.create_string_buffer(native.FAULT.size)
    while True:
        out = ctypes.create_string_buffer(room)
        status = call(data, len(data), out, room, ctypes.byref(needed), fault)
        if status == native.MEMORY:
            raise MemoryError
        if status in (native.INVALID, native.UNREAD):
            # (raises the error)
            parse(text)
            raise AssertionError("a text is refused and read")
        if needed.value <= room:
            break
        room = needed.value
    new = ctypes.string_at(out, needed.value)
    if status == native.UNMADE:
        raise refused(new.decode())
    return new.decode() if isinstance(text, str) else new


class Edits(Generic[AnyStr]):
    """A list of edits of a text, which ``finish`` makes one after the other.

    A path is a dotted key with positions, such as ``server.ports[0]``; a JSON Pointer, such as ``/server/ports/0``; or
    names and positions, such as ``("server", "ports", 0)``; or a Node of the text as it is before the edits. Values are
    written as ``dumps`` writes them. Each method except ``finish`` returns the list, so that calls can be chained.
    """

    def __init__(self, text: AnyStr) -> None:
        self._text: AnyStr = _checked(text)
        self._changes: List[Tuple[int, bytes, bytes]] = []

    def _add(self, change: int, path: Path, value: Optional[str]) -> Edits[AnyStr]:
        texts = [_path(path), "" if value is None else value]
        if not isinstance(texts[1], str):
            raise TypeError(f"a name must be a str, not '{type(value).__qualname__}'")
        if any(re.search("[\0\ud800-\udfff]", text) for text in texts):
            raise ValueError("a path or a name must not contain a null character or a surrogate")
        self._changes.append((change, texts[0].encode(), texts[1].encode()))
        return self

    def set(self, path: Path, value: Any) -> Edits[AnyStr]:
        """Replaces a value, unless it is a table or array that headers or dotted keys define."""
        return self._add(1, path, value_text(value))

    def replace(self, path: Path, value: Any) -> Edits[AnyStr]:
        """Replaces a value, even a table or array that headers or dotted keys define."""
        return self._add(2, path, value_text(value))

    def set_or_add(self, path: Path, value: Any) -> Edits[AnyStr]:
        """Replaces a value. If there is none, adds it, with the missing tables on the way."""
        return self._add(3, path, value_text(value))

    def rename(self, path: Path, name: str) -> Edits[AnyStr]:
        """Renames a key at every place where it is written."""
        return self._add(4, path, name)

    def remove(self, path: Path) -> Edits[AnyStr]:
        """Removes a value with its key, or an element."""
        return self._add(5, path, None)

    def add(self, path: Path, value: Any) -> Edits[AnyStr]:
        """Adds a value to an existing table. The last name of the path is the new key."""
        return self._add(6, path, value_text(value))

    def add_table(self, path: Path) -> Edits[AnyStr]:
        """Adds an empty table, with the missing tables on the way."""
        return self._add(7, path, None)

    def append(self, path: Path, value: Any) -> Edits[AnyStr]:
        """Adds a value at the end of an array. If there is no value at the path, adds an array with this element."""
        return self._add(8, path, value_text(value))

    def insert(self, path: Path, value: Any) -> Edits[AnyStr]:
        """Adds a value before the element at the path, or at the end of the array."""
        return self._add(9, path, value_text(value))

    def move(self, path: Path, target: Path) -> Edits[AnyStr]:
        """Moves a value to another path. There must be no value at that path, unless the path leads into an array."""
        return self._add(10, path, _path(target))

    def finish(self) -> AnyStr:
        """Makes the edits, and returns the new text.

        Raises TOMLDecodeError if the text is not valid TOML, and EditError for the first edit that was refused.
        """
        count, index = len(self._changes), ctypes.c_size_t()
        changes = (native.Change * count)(*(native.Change(*change) for change in self._changes))

        def call(data: bytes, size: int, out: Any, room: int, needed: Any, fault: Any) -> int:
            status: int = native.lib.toml_span_edit(
                data, size, changes, count, out, room, needed, ctypes.byref(index), fault
            )
            return status

        room = 2 * len(self._text) + sum(len(path) + len(value) for _, path, value in self._changes) + 512
        return _made(
            self._text, room, call, lambda msg: EditError(msg, index.value, self._changes[index.value][1].decode())
        )


def edit(text: AnyStr) -> Edits[AnyStr]:
    """Returns an empty list of edits of a text, or of its bytes. ``finish`` makes the edits:

    >>> toml_span.edit("a = 1 # one\\n").set("a", 2).add("b", [True]).finish()
    'a = 2 # one\\nb = [true]\\n'
    """
    return Edits(text)


def format(text: AnyStr, *, width: int = 80, indent: int = 4) -> AnyStr:
    """Formats a text, or its bytes. Raises TOMLDecodeError if it is not valid TOML.

    An array is written on one line if the line then has at most ``width`` columns. Otherwise each element is on a line
    of its own, indented by ``indent`` spaces per level, at most 64.
    """
    if width < 0 or not 0 <= indent <= 64:
        raise ValueError("width must not be negative, and indent must be from 0 to 64")

    def call(data: bytes, size: int, out: Any, room: int, needed: Any, fault: Any) -> int:
        status: int = native.lib.toml_span_format(data, size, min(width, 1 << 32), indent, out, room, needed, fault)
        return status

    room = 2 * len(_checked(text)) + 512
    return _made(text, room, call, lambda msg: AssertionError("the formatter would change a value"))
