"""Prints the line, column and path of each value of a TOML file, and then the edited file: python3 example.py FILE"""

import sys

import toml_span


def show(node, path=""):
    for name, held in node.items() if node.kind == "table" else enumerate(node):
        print(f"{held.line}:{held.column}: {path}/{name}: {held.kind}")
        if held.kind in ("table", "array"):
            show(held, f"{path}/{name}")


try:
    with open(sys.argv[1], encoding="utf-8", newline="") as file:
        text = file.read()
    root = toml_span.parse(text, sys.argv[1])
except toml_span.TOMLDecodeError as error:
    sys.exit(error.report or str(error))
show(root)
port = root.find("server.ports[0]")
if port is not None:
    print(f"the first port is {port.value}, at the bytes {port.span} and the characters {port.char_span}")
try:
    edits = toml_span.edit(text).set_or_add("edited.times", 1).append("edited.by", "me")
    print(toml_span.format(edits.finish()), end="")
except toml_span.EditError as error:
    sys.exit(f"{sys.argv[1]}: {error}")
