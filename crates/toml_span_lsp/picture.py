#!/usr/bin/env python3
"""Draws a terminal as SVG: tmux capture-pane -e -p | python3 picture.py TITLE >FILE"""

import re
import sys
from html import escape

WIDTH, HEIGHT, EDGE = 8.4, 19, 10
FONT = "ui-monospace, Menlo, Consolas, 'DejaVu Sans Mono', 'Liberation Mono', monospace"
# the colors of a terminal: 0 to 15, for text without a color, for the background
NAMED = """#2e3440 #ff7b72 #7ee787 #e3b341 #79c0ff #d2a8ff #56d4dd #c9d1d9
#6e7681 #ffa198 #7ee787 #f2cc60 #a5d6ff #d2a8ff #76e3ea #ffffff""".split()
INK, PAPER = "#c9d1d9", "#161b22"


def color(number):
    """Returns a color of the 256 that terminals have."""
    if number < 16:
        return NAMED[number]
    if number > 231:
        return "#" + f"{8 + 10 * (number - 232):02x}" * 3
    steps = [(number - 16) // 36, (number - 16) // 6 % 6, (number - 16) % 6]
    return "#" + "".join(f"{step and 55 + 40 * step:02x}" for step in steps)


def changed(style, codes):
    """Returns a style after an escape sequence with these codes."""
    codes = [int(code or 0) for code in codes.split(";")]
    while codes:
        code = codes.pop(0)
        if code == 0:
            style = {}
        elif code in (38, 48, 58):
            kind = codes.pop(0)
            value = color(codes.pop(0)) if kind == 5 else "#%02x%02x%02x" % tuple(codes.pop(0) for _ in range(3))
            style = {**style, {38: "ink", 48: "paper", 58: "line"}[code]: value}
        elif code in (39, 49):
            style = {**style, "ink" if code == 39 else "paper": None}
        elif code // 10 in (3, 9):
            style = {**style, "ink": color(code % 10 + (code >= 90) * 8)}
        elif code // 10 in (4, 10):
            style = {**style, "paper": color(code % 10 + (code >= 100) * 8)}
        else:
            style = {**style, code: True}
    return style


def drawn(text, style, row, column):
    """Returns the elements for a text in one style."""
    ink, paper = style.get("ink") or INK, style.get("paper") or PAPER
    if style.get(7):
        ink, paper = paper, ink
    x, y, found = EDGE + column * WIDTH, EDGE + row * HEIGHT, ""
    if paper != PAPER:
        found += f'<rect x="{x:.1f}" y="{y}" width="{len(text) * WIDTH:.1f}" height="{HEIGHT}" fill="{paper}"/>\n'
    if style.get(4):
        line = style.get("line") or ink
        found += f'<rect x="{x:.1f}" y="{y + 16}" width="{len(text) * WIDTH:.1f}" height="1" fill="{line}"/>\n'
    if text.strip():
        x += (len(text) - len(text.lstrip())) * WIDTH
        bold = ' font-weight="bold"' if style.get(1) else ""
        found += f'<text x="{x:.1f}" y="{y + 14}" fill="{ink}"{bold}>{escape(text.strip(), quote=False)}</text>\n'
    return found


rows, columns, style, elements = 0, 0, {}, ""
for line in sys.stdin.read().split("\n")[:-1]:
    column = 0
    for codes, text in re.findall(r"\x1b\[([\d;]*)m|([^\x1b]+)", line):
        if text:
            elements += drawn(text, style, rows, column)
            column += len(text)
        else:
            style = changed(style, codes)
    rows, columns = rows + 1, max(columns, column)
width, height = round(2 * EDGE + columns * WIDTH), 2 * EDGE + rows * HEIGHT
print(f'<svg xmlns="http://www.w3.org/2000/svg" viewBox="0 0 {width} {height}" width="{width}" height="{height}"')
print(f'  font-family="{FONT}" font-size="14" xml:space="preserve"><title>{escape(sys.argv[1])}</title>')
print(f'<rect width="{width}" height="{height}" rx="6" fill="{PAPER}"/>\n{elements}</svg>')
