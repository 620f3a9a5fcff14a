"""Parses a text into a dict, like ``tomllib``."""

from __future__ import annotations

import ctypes
import gc
import io
import pickle
import re
import struct
import sys
from datetime import date, datetime, time, timedelta, timezone
from typing import TYPE_CHECKING, Any, BinaryIO, Callable, Dict, Optional, Tuple, Union

from . import _native as native

if TYPE_CHECKING or sys.version_info < (3, 11):
    _DecodeError = ValueError
else:
    from tomllib import TOMLDecodeError as _DecodeError

Span = Tuple[int, int]
Moment = Union[datetime, date, time]


class TOMLDecodeError(_DecodeError):
    """The text is not valid TOML. From Python 3.11 on, it is also a ``tomllib.TOMLDecodeError``.

    msg: the headline of the report. doc: the text. pos: the index of the error in the text. lineno and colno: its line
    and column, both counted from 1, the column in characters, without a byte order mark. Three attributes may be None.
    code: the kind of error, such as ``duplicate-key``. span: the bytes of the error, as (start, end). report: the
    source lines with marks, to print.
    """

    def __init__(
        self,
        msg: str,
        doc: str,
        pos: int,
        code: Optional[str] = None,
        span: Optional[Span] = None,
        report: Optional[str] = None,
    ) -> None:
        lineno = doc.count("\n", 0, pos) + 1
        colno = pos - doc.rfind("\n", 0, pos) - (lineno == 1 and pos > 0 and doc[0] == "\ufeff")
        place = "end of document" if pos >= len(doc) else f"line {lineno}, column {colno}"
        ValueError.__init__(self, f"{msg} (at {place})")
        self.msg, self.doc, self.pos, self.lineno, self.colno = msg, doc, pos, lineno, colno
        self.code, self.span, self.report = code, span, report

    @property
    def char_span(self) -> Optional[Span]:
        """The span of the error in characters: ``doc[start:end]`` is the wrong text. None if the span is not known."""
        if self.span is None:
            return None
        data = self.doc.encode("utf-8", "surrogatepass")[self.span[0] : self.span[1]]
        return self.pos, self.pos + len(data.decode("utf-8", "replace"))

    def __reduce__(self) -> Any:
        return type(self), (self.msg, self.doc, self.pos, self.code, self.span, self.report)


def _is_too_large(data: bytes, start: int, end: int) -> bool:
    """Returns whether an integer has more than 64 bits. start and end delimit its digits, without a prefix."""
    prefix = data[max(start - 2, 0) : start]
    try:
        number = int((prefix if prefix in (b"0x", b"0o", b"0b") else b"") + data[start:end], 0)
    except ValueError:
        return False
    return not -(2**63) <= number < 2**63


def error_at(start: int, end: int, code: str, text: str, data: bytes, name: str) -> TOMLDecodeError:
    """Returns the error at these bytes. Its report is the one of the library."""
    file = name.encode("utf-8", "replace")
    report = native.text_of(native.lib.toml_span_report, data, len(data), file, len(file))
    if code == "invalid-number" and _is_too_large(data, start, end):
        msg = "integer out of range: it must be from -2**63 to 2**63 - 1"
    else:
        # the headline, such as `error[wanted]: this header is not closed`
        msg = report.partition("\n")[0].partition(": ")[2]
    return TOMLDecodeError(
        "".join(char if char.isprintable() else char.encode("unicode_escape").decode() for char in msg),
        text,
        len(data[:start].decode("utf-8", "ignore")),
        code,
        (start, end),
        report,
    )


_COUNTS = struct.Struct("=2Q")
# the first fields of a record
_HEAD = struct.Struct("=II2Q")
_Sources = ctypes.c_char_p * 2


def _address(array: bytearray) -> int:
    return ctypes.addressof(ctypes.c_char.from_buffer(array))


def encoded(text: str) -> bytes:
    """Encodes a text as UTF-8. Raises TOMLDecodeError for a surrogate."""
    try:
        return text.encode()
    except UnicodeEncodeError as error:
        raise TOMLDecodeError("a surrogate is not a character", text, error.start) from None


class Document:
    """The records of a text, in the order of the text, and the bytes that they refer to."""

    __slots__ = ("text", "data", "count", "records", "strings", "address", "sources")

    def __init__(self, text: str, data: bytes, name: str) -> None:
        size = len(data)
        # (the strings never have more bytes than the text)
        room, nodes = size // 12 + 16, _COUNTS.size + native.FAULT.size
        while True:
            strings = nodes + room * native.NODE.size
            block = bytearray(strings + size + 1)
            at = _address(block)
            status = native.lib.toml_span_parse(
                data, size, at + nodes, room, at + strings, size, at, at + _COUNTS.size
            )
            if status == native.INVALID:
                number, _, start, end = native.FAULT.unpack_from(block, _COUNTS.size)[:4]
                code = native.text_of(native.lib.toml_span_code, number)
                raise error_at(start, end, code, text, data, name)
            if status == native.MEMORY:
                raise MemoryError
            if status != native.READ:
                raise error_at(native.LONGEST, size, "too-long", text, data, name)
            count, length = _COUNTS.unpack_from(block)
            if count <= room:
                break
            room = count
        self.text, self.data, self.count = text, data, count
        self.strings = bytes(block[strings : strings + length])
        self.records = bytearray(count * native.NODE.size)
        self.address = _address(self.records)
        self.sources = _Sources(data, self.strings)
        native.lib.toml_span_sort(at + nodes, count, self.address)

    def record(self, index: int) -> Tuple[Any, ...]:
        """Returns all fields of the record with this index."""
        fields: Tuple[Any, ...] = native.NODE.unpack_from(self.records, index * native.NODE.size)
        return fields

    def moment(self, start: int, end: int) -> Moment:
        """Returns the date, time or datetime at these bytes. Raises TOMLDecodeError if Python can't represent it."""
        try:
            return _moment(self.data[start:end].decode())
        except (ValueError, OverflowError) as error:
            pos = len(self.data[:start].decode())
            msg = f"Python has no such date or time: {error}"
            raise TOMLDecodeError(msg, self.text, pos, None, (start, end)) from None

    def value(self, index: int, parse_float: Callable[[str], Any] = float) -> Any:
        """Returns the value of the record with this index, with all values inside it."""
        arguments = self.address, index, self.sources, parse_float is not float
        room, needed = len(self.data) + 16 * self.count + 64, ctypes.c_size_t()
        if index > 0:
            record = self.record(index)
            if record[0] == native.INTEGER:
                return record[16]
            if record[0] == native.STRING:
                source, at, length = record[9:12]
                return (self.strings if source else self.data)[at : at + length].decode()
            # (enough for most values: names in headers are not in the span of a table)
            room = record[3] - record[2] + 16 * (record[15] - index) + 64
        while True:
            out = bytearray(room)
            native.lib.toml_span_pickle(*arguments, _address(out), room, ctypes.byref(needed))
            if needed.value <= room:
                break
            room = needed.value
        # (a tree has no reference cycles, but the garbage collector would walk over it again and again as it grows)
        collects = gc.isenabled()
        gc.disable()
        try:
            builder = _Builder(io.BytesIO(out))
            builder.document, builder.parse_float = self, parse_float
            return builder.load()
        finally:
            if collects:
                gc.enable()


class _Builder(pickle.Unpickler):
    """Unpickles the output of toml_span_pickle. It has no classes, so nothing is imported or called."""

    document: Document
    parse_float: Callable[[str], Any]

    def find_class(self, module: str, name: str) -> Any:
        raise pickle.UnpicklingError(name)

    def persistent_load(self, index: int) -> Any:
        kind, _, start, end = _HEAD.unpack_from(self.document.records, index * native.NODE.size)
        if kind == native.DATETIME:
            return self.document.moment(start, end)
        value = self.parse_float(self.document.data[start:end].decode())
        if isinstance(value, (dict, list)):
            raise ValueError("parse_float must not return dicts or lists")
        return value


_CLOCK = r"(\d\d):(\d\d)(?::(\d\d)(?:\.(\d+))?)?"
_DATE_TIME = re.compile(rf"(?:(\d{{4}})-(\d\d)-(\d\d)[Tt ])?{_CLOCK}([Zz]|[+-]\d\d:\d\d)?")
# whether fromisoformat reads every date and time that TOML allows: from Python 3.11 on
_HAS_ISO = sys.version_info >= (3, 11)


def _zone(offset: str) -> timezone:
    if offset in "Zz":
        return timezone.utc
    sign = -1 if offset[0] == "-" else 1
    return timezone(sign * timedelta(hours=int(offset[1:3]), minutes=int(offset[4:6])))


def _moment(text: str) -> Moment:
    """Converts a date, time or datetime. Raises ValueError if Python can't represent it, such as a second 60."""
    if text[2] == ":" and _HAS_ISO:
        return time.fromisoformat(text)
    if len(text) == 10 and text[4] == "-":
        return date.fromisoformat(text)
    if _HAS_ISO:
        return datetime.fromisoformat(text.replace("z", "Z"))
    found = _DATE_TIME.fullmatch(text)
    assert found is not None
    year, month, day, hour, minute, second, fraction, offset = found.groups()
    clock = time(int(hour), int(minute), int(second or 0), int((fraction or "")[:6].ljust(6, "0")))
    if year is None:
        return clock
    return datetime.combine(date(int(year), int(month), int(day)), clock, _zone(offset) if offset else None)


def loads(s: str, /, *, parse_float: Callable[[str], Any] = float) -> Dict[str, Any]:
    """Parses a text into a dict, like ``tomllib.loads``. Raises TOMLDecodeError if it is not valid TOML.

    ``parse_float`` is called with the text of each float.
    """
    if not isinstance(s, str):
        raise TypeError(f"Expected str object, not '{type(s).__qualname__}'")
    root: Dict[str, Any] = Document(s, encoded(s), "<string>").value(0, parse_float)
    return root


def load(fp: BinaryIO, /, *, parse_float: Callable[[str], Any] = float) -> Dict[str, Any]:
    """Parses a file that is open in binary mode, like ``tomllib.load``. Raises TOMLDecodeError for invalid TOML."""
    data = fp.read()
    try:
        text = data.decode()
    except AttributeError:
        raise TypeError("File must be opened in binary mode, e.g. use `open('foo.toml', 'rb')`") from None
    return loads(text, parse_float=parse_float)
