"""The values of a text, with their spans, lines and columns."""

from __future__ import annotations

import os
from bisect import bisect_right
from typing import Any, Dict, Iterable, Iterator, List, Optional, Tuple, TypeVar, Union, overload

from ._decode import Document, Span, encoded, error_at
from ._native import ARRAY, NONE, TABLE, lib
from ._path import path_text

_KINDS = ("string", "integer", "float", "boolean", "datetime", "array", "table")
Key = Union[str, int]
Default = TypeVar("Default")


class _Source(Document):
    """The records of a text, with a cache of look-ups."""

    __slots__ = ("starts", "held")

    def __init__(self, text: str, data: bytes, name: str) -> None:
        super().__init__(text, data, name)
        # the offsets at which lines start, in bytes and in characters; and the children of tables and arrays
        self.starts: Optional[Tuple[List[int], List[int]]] = None
        self.held: Dict[int, Dict[Key, int]] = {}

    def name(self, index: int) -> Key:
        """Returns the name, or the position, that the record with this index has in its parent."""
        record = self.record(index)
        if self.record(record[12])[0] == ARRAY:
            position: int = record[13]
            return position
        source, at, length = record[6:9]
        return (self.strings if source else self.data)[at : at + length].decode()

    def children(self, index: int) -> Dict[Key, int]:
        """Returns the indices of the records of the children of a table or array, by their names or positions."""
        found = self.held.get(index)
        if found is None:
            found, child, end = {}, index + 1, self.record(index)[15]
            while child < end:
                found[self.name(child)] = child
                child = self.record(child)[15]
            self.held[index] = found
        return found

    def place(self, offset: int) -> Tuple[int, int, int]:
        """Returns the line and the column of a byte, both counted from 1, and how many characters are before it."""
        if self.starts is None:
            bytes_before, chars_before = [0], [0]
            for row in self.data.split(b"\n")[:-1]:
                bytes_before.append(bytes_before[-1] + len(row) + 1)
                chars_before.append(chars_before[-1] + len(row.decode()) + 1)
            self.starts = bytes_before, chars_before
        line = bisect_right(self.starts[0], offset)
        column = len(self.data[self.starts[0][line - 1] : offset].decode())
        # (a byte order mark has no column)
        mark = line == 1 and column > 0 and self.data.startswith(b"\xef\xbb\xbf")
        return line, column + 1 - mark, self.starts[1][line - 1] + column

    def __reduce__(self) -> Any:
        return type(self), (self.text, self.data, "<string>")


class Node:
    """A value with its span, line and column.

    A table works like a dict, an array like a list. ``==``, ``in`` and truth are those of the value. Iteration follows
    the text; ``sorted(node)`` returns the names in order.
    """

    __slots__ = ("_source", "_index")
    __hash__ = None  # type: ignore[assignment]

    def __init__(self, source: _Source, index: int) -> None:
        self._source, self._index = source, index

    def __reduce__(self) -> Any:
        return type(self), (self._source, self._index)

    @property
    def _record(self) -> Tuple[Any, ...]:
        return self._source.record(self._index)

    @property
    def kind(self) -> str:
        """``string``, ``integer``, ``float``, ``boolean``, ``datetime``, ``array`` or ``table``."""
        return _KINDS[self._record[0] - 1]

    @property
    def value(self) -> Any:
        """The value as ``loads`` returns it."""
        return self._source.value(self._index)

    @property
    def key(self) -> Optional[str]:
        """The name of the value's key; None for elements and for the root."""
        name = None if self._index == 0 else self._source.name(self._index)
        return name if isinstance(name, str) else None

    @property
    def parent(self) -> Optional[Node]:
        """The table or array that contains the value; None for the root."""
        index = self._record[12]
        return None if index == NONE else Node(self._source, index)

    @property
    def path(self) -> Tuple[Key, ...]:
        """The path from the root: names and positions."""
        steps: List[Key] = []
        index = self._index
        while index != 0:
            steps.append(self._source.name(index))
            index = self._source.record(index)[12]
        return tuple(reversed(steps))

    @property
    def span(self) -> Span:
        """The bytes of the value, as (start, end), the end exclusive; for a string, those between its quotes."""
        return self._record[2], self._record[3]

    @property
    def key_span(self) -> Optional[Span]:
        """The bytes of the value's key, as (start, end); None for elements and for the root."""
        return None if self.key is None else (self._record[4], self._record[5])

    def _characters(self, span: Optional[Span]) -> Optional[Span]:
        return span and (self._source.place(span[0])[2], self._source.place(span[1])[2])

    @property
    def char_span(self) -> Span:
        """The span in characters: ``text[start:end]`` is the text of the value."""
        start, end = self.span
        return self._source.place(start)[2], self._source.place(end)[2]

    @property
    def key_char_span(self) -> Optional[Span]:
        """The span of the value's key in characters; None for elements and for the root."""
        return self._characters(self.key_span)

    @property
    def line(self) -> int:
        """The line in which the value starts, counted from 1."""
        return self._source.place(self._record[2])[0]

    @property
    def column(self) -> int:
        """The column at which the value starts, in characters, counted from 1."""
        return self._source.place(self._record[2])[1]

    def find(self, path: Union[str, Iterable[Key]]) -> Optional[Node]:
        """Returns the value at a dotted key with positions, such as ``server.ports[0]`` or ``dependencies."a/b"``; at a
        JSON Pointer, such as ``/server/ports/0``; or at names and positions, such as ``("server", "ports", 0)``.
        Returns None if there is no such value."""
        source, name = self._source, path_text(path).encode("utf-8", "surrogatepass")
        if b"\0" in name:
            return None
        index: int = lib.toml_span_find(source.address, source.count, source.sources, self._index, name)
        return None if index == NONE else Node(source, index)

    def pointer(self, pointer: str) -> Optional[Node]:
        """Returns the value at a JSON Pointer, such as ``/server/ports/0``, or None if there is no such value."""
        if pointer and pointer[0] != "/":
            raise ValueError(f"a pointer that is not empty begins with a slash: {pointer!r}")
        node = self
        for step in pointer.split("/")[1:]:
            name: Key = step.replace("~1", "/").replace("~0", "~")
            if node.kind == "array":
                if not (step.isascii() and step.isdigit()) or (step[0] == "0" and step != "0"):
                    return None
                name = int(step)
            index = node._source.children(node._index).get(name)
            if index is None:
                return None
            node = Node(node._source, index)
        return node

    def _children(self, *kinds: int) -> Dict[Key, int]:
        if self._record[0] not in (kinds or (ARRAY, TABLE)):
            expected = {(): "neither a table nor an array", (TABLE,): "not a table"}[kinds]
            raise TypeError(f"the {self.kind} at line {self.line} is {expected}")
        return self._source.children(self._index)

    def __len__(self) -> int:
        return len(self._children())

    def __bool__(self) -> bool:
        return bool(self._record[14] if self._record[0] in (ARRAY, TABLE) else self.value)

    def __iter__(self) -> Iterator[Any]:
        """The names of a table, the elements of an array."""
        held = self._children()
        return iter(held if self._record[0] == TABLE else [Node(self._source, index) for index in held.values()])

    def __contains__(self, item: object) -> bool:
        """Whether a table has this name, or an array an element with this value."""
        if self._record[0] == TABLE:
            return item in self._children()
        self._children()
        return (item.value if isinstance(item, Node) else item) in self.value

    def __eq__(self, other: object) -> bool:
        return bool(self.value == (other.value if isinstance(other, Node) else other))

    @overload
    def __getitem__(self, item: Key) -> Node: ...
    @overload
    def __getitem__(self, item: slice) -> List[Node]: ...
    def __getitem__(self, item: Union[Key, slice]) -> Union[Node, List[Node]]:
        """The value of a name, the element at a position (which may count from the end), or a list for a slice."""
        held = self._children()
        if self._record[0] == TABLE:
            return Node(self._source, held[item])  # type: ignore[index]
        if isinstance(item, slice):
            return [Node(self._source, held[at]) for at in range(len(held))[item]]
        try:
            return Node(self._source, held[range(len(held))[item]])  # type: ignore[index]
        except TypeError:
            raise TypeError(f"indices of the array at line {self.line} must be integers, not {item!r}") from None
        except IndexError:
            raise IndexError(f"the array at line {self.line} has {len(held)} elements, none at {item}") from None

    @overload
    def get(self, name: str) -> Optional[Node]: ...
    @overload
    def get(self, name: str, default: Default) -> Union[Node, Default]: ...
    def get(self, name: str, default: Any = None) -> Any:
        """The value of a table's entry with this name, or the default if there is none."""
        index = self._children(TABLE).get(name)
        return default if index is None else Node(self._source, index)

    def keys(self) -> List[str]:
        """The names of a table."""
        return [str(name) for name in self._children(TABLE)]

    def values(self) -> List[Node]:
        """The values of a table."""
        return [Node(self._source, index) for index in self._children(TABLE).values()]

    def items(self) -> List[Tuple[str, Node]]:
        """The names of a table with their values."""
        return list(zip(self.keys(), self.values()))

    def __repr__(self) -> str:
        start, end = self.span
        return f"<{self.kind} {'/'.join(map(str, self.path)) or 'root'} {start}..{end}>"


def parse(
    source: Union[str, bytes], name: Union[str, bytes, "os.PathLike[str]", "os.PathLike[bytes]"] = "<string>"
) -> Node:
    """Parses a text, or its bytes, and returns its root, which is a table. Raises TOMLDecodeError if it is not
    valid TOML.

    ``name`` is the name of the file, for the report of an error.
    """
    name = os.fsdecode(name)
    if isinstance(source, str):
        return Node(_Source(source, encoded(source), name), 0)
    if not isinstance(source, bytes):
        raise TypeError(f"Expected str or bytes object, not '{type(source).__qualname__}'")
    try:
        return Node(_Source(source.decode(), source, name), 0)
    except UnicodeDecodeError as error:
        text = source.decode("utf-8", "replace")
        raise error_at(error.start, error.end, "not-utf-8", text, source, name) from None
