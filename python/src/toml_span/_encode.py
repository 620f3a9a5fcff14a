"""Writes a dict as TOML."""

from __future__ import annotations

from datetime import date, datetime, time
from typing import Any, Dict, Iterator, List, Mapping, Tuple, Union

from ._decode import TOMLDecodeError, loads
from ._node import Node
from ._path import key_text, string_text

# the maximum nesting depth of a text
_DEEPEST = 128


def _scalar(value: Any) -> str:
    if isinstance(value, bool):
        return "true" if value else "false"
    if isinstance(value, str):
        return string_text(value)
    if isinstance(value, int):
        return int.__repr__(value)
    if isinstance(value, float):
        return float.__repr__(value)
    if isinstance(value, (datetime, date, time)):
        return value.isoformat()
    raise TypeError(f"TOML has no value for an object of the type '{type(value).__qualname__}'")


def _inline(value: Any, depth: int) -> str:
    if depth > _DEEPEST:
        raise ValueError(f"nested deeper than {_DEEPEST} levels")
    if isinstance(value, dict):
        entries = [f"{key_text(name)} = {_inline(held, depth + 1)}" for name, held in value.items()]
        return "{ " + ", ".join(entries) + " }" if entries else "{}"
    if isinstance(value, list):
        return "[" + ", ".join(_inline(held, depth + 1) for held in value) + "]"
    return _scalar(value)


def _is_tables(value: Any) -> bool:
    """Returns whether a value is written as an array of tables, with headers: [[name]]."""
    return isinstance(value, list) and bool(value) and all(isinstance(held, dict) and held for held in value)


def _lines(table: Dict[str, Any], path: Tuple[str, ...]) -> Iterator[str]:
    """Yields the lines of a table, after its header."""
    if len(path) > _DEEPEST:
        raise ValueError(f"nested deeper than {_DEEPEST} levels")
    below: List[Tuple[str, Any]] = []
    for name, value in table.items():
        if isinstance(value, dict) or _is_tables(value):
            below.append((name, value))
        else:
            yield f"{key_text(name)} = {_inline(value, len(path) + 1)}\n"
    for name, value in below:
        inner = (*path, key_text(name))
        for held in value if isinstance(value, list) else [value]:
            yield "\n[[" + ".".join(inner) + "]]\n" if isinstance(value, list) else "\n[" + ".".join(inner) + "]\n"
            yield from _lines(held, inner)


def _plain(value: Any, depth: int = 0) -> Any:
    """Converts mappings to dicts, tuples to lists and nodes to values, as ``loads`` returns them."""
    if isinstance(value, Node):
        return value.value
    if depth > 2 * _DEEPEST:
        raise ValueError(f"nested deeper than {_DEEPEST} levels")
    if isinstance(value, Mapping):
        for name in value:
            if not isinstance(name, str):
                raise TypeError(f"a key must be a str, not '{type(name).__qualname__}'")
        return {name: _plain(held, depth + 1) for name, held in value.items()}
    if isinstance(value, (list, tuple)):
        return [_plain(held, depth + 1) for held in value]
    return value


def _is_same(one: Any, other: Any) -> bool:
    """Returns whether two values are equal and of the same type, where a nan equals a nan."""
    if isinstance(one, dict):
        return isinstance(other, dict) and one.keys() == other.keys() and all(
            _is_same(value, other[name]) for name, value in one.items()
        )
    if isinstance(one, list):
        return isinstance(other, list) and len(one) == len(other) and all(map(_is_same, one, other))
    if isinstance(one, float):
        return isinstance(other, float) and (repr(one) == repr(other) or (one != one and other != other))
    return isinstance(one, type(other)) and bool(one == other)


def dumps(mapping: Union[Mapping[str, Any], Node], /) -> str:
    """Writes a mapping as TOML, with a header for each table, a tuple as an array, and a Node as its value.

    Raises TypeError for a type that TOML does not have, and ValueError for a value that TOML can't represent, such as
    an integer of more than 64 bits. The text is parsed again, and is returned only if ``loads`` reads the same values.
    """
    plain = _plain(mapping)
    if not isinstance(plain, dict):
        raise TypeError(f"Expected a mapping, not '{type(mapping).__qualname__}'")
    return _checked("".join(_lines(plain, ())).lstrip("\n"), plain)


def _checked(text: str, plain: Any) -> str:
    """Returns the text if ``loads`` reads this value from it. Otherwise raises ValueError."""
    try:
        same = _is_same(plain, loads(text))
    except TOMLDecodeError as error:
        line = text.split("\n")[error.lineno - 1].encode("utf-8", "backslashreplace").decode()
        raise ValueError(f"TOML can't hold this: {error.msg}: {line}") from None
    if not same:
        raise ValueError("TOML can't hold this: it would be read as another value")
    return text


def value_text(value: Any) -> str:
    """Returns a value on one line, as ``dumps`` writes it."""
    plain = _plain(value)
    return _checked(f"v = {_inline(plain, 0)}", {"v": plain})[4:]
