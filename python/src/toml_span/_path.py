"""Writes strings, keys and paths as TOML."""

from __future__ import annotations

import re
from typing import Iterable, Union

_BARE = re.compile(r"[A-Za-z0-9_-]+")
_ESCAPED = re.compile(r'[\x00-\x08\x0a-\x1f"\\\x7f]')
_SHORT = {"\n": "\\n", "\r": "\\r", "\f": "\\f", "\b": "\\b", '"': '\\"', "\\": "\\\\"}


def string_text(text: str) -> str:
    """Returns a string in quotes."""
    return '"' + _ESCAPED.sub(lambda found: _SHORT.get(found[0]) or f"\\u{ord(found[0]):04x}", text) + '"'


def key_text(name: str) -> str:
    """Returns a name as a key, in quotes if it needs them."""
    return name if _BARE.fullmatch(name) else string_text(name)


def path_text(path: Union[str, Iterable[Union[str, int]]]) -> str:
    """Returns a path of names and positions as a dotted key, such as ``server.ports[0]``, and a str as it is."""
    if isinstance(path, str):
        return path
    if isinstance(path, (bytes, bytearray)) or not isinstance(path, Iterable):
        raise TypeError(f"a path must be a str or its steps, not '{type(path).__qualname__}'")
    text = ""
    for step in path:
        if isinstance(step, str):
            text += f".{key_text(step)}" if text else key_text(step)
        elif isinstance(step, int):
            text += f"[{int(step)}]"
        else:
            raise TypeError(f"a step of a path must be a str or an int, not '{type(step).__qualname__}'")
    return text
