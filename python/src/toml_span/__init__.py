"""Parses TOML 1.1, and says where each value and each key is.

``loads`` and ``load`` replace those of ``tomllib``. ``parse`` returns the values with their places:

    >>> root = toml_span.parse('[server]\\nport = 8080\\n')
    >>> port = root["server"]["port"]
    >>> port.value, port.span, port.key_span, port.line
    (8080, (16, 20), (9, 13), 2)

``edit`` changes a text and keeps all its other bytes, and ``format`` formats it:

    >>> toml_span.edit('port = 80 # open\\n').set("port", 8080).finish()
    'port = 8080 # open\\n'

``dumps`` writes a mapping as TOML. ``python3 -m toml_span FILE`` checks a file.
"""

from ._decode import TOMLDecodeError, load, loads
from ._edit import EditError, Edits, edit, format
from ._encode import dumps
from ._node import Node, parse

__all__ = ["EditError", "Edits", "Node", "TOMLDecodeError", "dumps", "edit", "format", "load", "loads", "parse"]
__version__ = "0.7.2"
