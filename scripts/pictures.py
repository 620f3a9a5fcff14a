#!/usr/bin/env python3
"""Draws the pictures of the pages: pictures.py (writes them), pictures.py --check (only compares)

docs/check.svg   the output of a stored run of `check`, in the colors that `--color always` has
docs/schema.svg  the same with a schema
docs/crates.svg  which crate of crates.txt uses which; a use that follows from others is left out
docs/speed.svg   the bars of the table "Typical files" in docs/SPEED.md

docs/editor.svg is drawn by crates/toml_span_lsp/editors.sh. Status 1 if a picture is not as drawn here.
"""

import os
import re
import shlex
import subprocess
import sys
from html import escape

from transcripts import all_runs

TOP = os.path.dirname(os.path.dirname(os.path.abspath(__file__)))
# a run with colors and the same without, by which the colors are tested
COLORED, PLAIN = "colour", "text"
FONT = "ui-sans-serif, -apple-system, 'Segoe UI', Helvetica, Arial, 'DejaVu Sans', sans-serif"
INK, PALE, PAPER, EDGE = "#24292f", "#57606a", "#ffffff", "#d0d7de"
RED, YELLOW, BLUE, BOLD, PLAINLY = "\x1b[1;31m", "\x1b[1;33m", "\x1b[1;34m", "\x1b[1m", "\x1b[0m"


def text_of(path):
    with open(f"{TOP}/{path}", encoding="utf-8") as file:
        return file.read()


# ---- the output of `check`


def colored(report):
    """Returns a plain output of `check` with the colors of toml_span_report/specs/Rendering.antt."""
    ink, lines = RED, []
    for line in report.split("\n"):
        if head := re.fullmatch(r"((error|warning)\[[^]]*\])(.*)", line):
            ink = RED if head[2] == "error" else YELLOW
            line = f"{ink}{head[1]}{PLAINLY}{BOLD}{head[3]}{PLAINLY}"
        elif place := re.fullmatch(r"( *--> )(.*)", line):
            line = f"{BLUE}{place[1]}{PLAINLY}{place[2]}"
        elif note := re.fullmatch(r"( *= )(note: |help: )(.*)", line):
            line = f"{BLUE}{note[1]}{PLAINLY}{BOLD}{note[2]}{PLAINLY}{note[3]}"
        elif mark := re.fullmatch(r"( *\|) ( *([-^]).*)", line):
            line = f"{BLUE}{mark[1]}{PLAINLY} {ink if mark[3] == '^' else BLUE}{mark[2]}{PLAINLY}"
        elif source := re.fullmatch(r"( *\d* \|)(.*)", line):
            line = f"{BLUE}{source[1]}{PLAINLY}{source[2]}"
        lines.append(line)
    return "\n".join(lines)


def terminal(run):
    """Draws a run in a terminal."""
    runs = all_runs("toml_span_cli")
    if colored(runs[PLAIN]["stdout"].decode()) != runs[COLORED]["stdout"].decode():
        sys.exit(f"pictures.py: the runs {PLAIN} and {COLORED} of toml_span_cli differ in more than `colored` expects")
    command = shlex.join(["toml-span", *runs[run]["args"].decode().splitlines()])
    output = colored(runs[run]["stdout"].decode()) + runs[run]["stderr"].decode()
    draw = ["python3", f"{TOP}/crates/toml_span_lsp/picture.py", command]
    return subprocess.run(draw, input=f"$ {command}\n{output}", text=True, stdout=subprocess.PIPE, check=True).stdout


# ---- charts


def svg(width, height, title, elements):
    """Returns a picture with these elements."""
    head = f'<svg xmlns="http://www.w3.org/2000/svg" viewBox="0 0 {width} {height}" width="{width}" height="{height}"'
    frame = f'<rect x="0.5" y="0.5" width="{width - 1}" height="{height - 1}" rx="6" fill="{PAPER}" stroke="{EDGE}"/>'
    head += f'\n  font-family="{FONT}" font-size="13"><title>{escape(title)}</title>\n{frame}\n'
    return head + "".join(f"{it}\n" for it in elements) + "</svg>\n"


def label(x, y, text, anchor="start", ink=INK, more=""):
    return f'<text x="{x}" y="{y}" fill="{ink}" text-anchor="{anchor}"{more}>{escape(text, quote=False)}</text>'


def bars():
    """Draws the rows of docs/SPEED.md that have one number in each column."""
    section = re.search(r"(?ms)^## Typical files$(.*?)^## ", text_of("docs/SPEED.md"))[1]
    rows = [[it.strip() for it in line.strip("|").split("|")] for line in section.split("\n") if line[:1] == "|"]
    (_, _, _, *names), rows = rows[0], rows[2:]
    rows = [row for row in rows if all(re.fullmatch(r"[\d.]+", it) for it in row[1:])]
    inks = dict(zip(["here", *names], ["#1f6feb", "#8c959f", "#a9714b", "#7d8590", "#b6bcc4"]))
    known = {"DeTable": "toml (DeTable)", "Rust crate": "toml-span in Rust", "Kit": "toml of the kit"}
    unit, left, y = 48, 200, 52
    elements = [label(16, 28, "Instructions to parse a file, as multiples of toml_span's", more=' font-weight="bold"')]
    for name, size, _, *numbers in rows:
        elements.append(label(16, y + 14, name[0].upper() + name[1:]))
        elements.append(label(16, y + 31, f"{size} KB", ink=PALE))
        for of, number in zip(["here", *names], ["1", *numbers]):
            long = round(float(number) * unit)
            elements.append(f'<rect x="{left}" y="{y}" width="{long}" height="15" fill="{inks[of]}"/>')
            shown = "toml_span" if of == "here" else f"{number}  {known.get(of, of)}"
            elements.append(label(left + long + 6, y + 12, shown, ink=PALE))
            y += 18
        y += 14
    title = "Bars: toml_span, and how many times as many instructions other parsers execute"
    return svg(700, y + 2, title, elements)


# ---- crates


def crates():
    """Returns the crates that each crate uses, and those that are not libraries by their kind."""
    uses, kinds = {}, {}
    for line in text_of("crates.txt").split("\n"):
        if found := re.match(r"(\w+)( staticlib)?:([^#]*)(# unproved)?", line):
            name = found[1]
            uses[name] = [it for it in found[3].split() if it.startswith("toml_span")]
            is_program = os.path.exists(f"{TOP}/crates/{name}/src/main.rt")
            kinds[name] = "tests" if found[4] else "program" if is_program else "library"
            kinds[name] = "laws" if name.endswith("_laws") else kinds[name]
    return uses, kinds


def layers(uses):
    """Returns the crates in rows, each above those that it uses, and only the uses that don't follow from others."""
    below, rows = {}, []
    while len(below) < len(uses):
        row = [it for it in sorted(uses) if it not in below and all(use in below for use in uses[it])]
        for it in row:
            below[it] = {*uses[it]}.union(*(below[use] for use in uses[it]))
        rows.append(row)
    direct = {it: [use for use in uses[it] if not any(use in below[other] for other in uses[it])] for it in uses}
    return rows, direct


def routed(rows, direct):
    """Returns the rows with a place for each line that passes them, and the lines, each from place to place."""
    level = {it: k for k, row in enumerate(rows) for it in row}
    rows, lines = [[*row] for row in rows], []
    for it in sorted(direct):
        for use in direct[it]:
            passed = [(it, use, k) for k in range(level[it] - 1, level[use], -1)]
            for place in passed:
                rows[place[2]].append(place)
            lines.append([it, *passed, use])
    return rows, lines


def ordered(rows, lines, width_of):
    """Returns the horizontal place of each crate and of each line that passes a row, with few lines that cross."""
    near = {}
    for line in lines:
        for one, other in zip(line, line[1:]):
            near.setdefault(one, []).append(other)
            near.setdefault(other, []).append(one)
    middle = {}
    for turn in range(24):
        for row in rows if turn % 2 == 0 else rows[::-1]:
            wanted = {}
            for it in row:
                known = [middle[other] for other in near.get(it, []) if other in middle]
                wanted[it] = sum(known) / len(known) if known else middle.get(it, 0)
            row.sort(key=lambda it: (wanted[it], str(it)))
            left = -sum(map(width_of, row)) / 2
            for it in row:
                middle[it] = left + width_of(it) / 2
                left += width_of(it)
    return middle


def graph():
    """Draws the crates in rows, with a line from each to those that it uses."""
    uses, kinds = crates()
    rows, lines = routed(*layers(uses))
    wide, high, gap = 96, 26, 46
    width_of = lambda it: wide + 12 if isinstance(it, str) else 14
    middle = ordered(rows, lines, width_of)
    left = min(middle[it] - width_of(it) / 2 for row in rows for it in row) - 14
    width = round(2 * -left)
    top = {it: 40 + (len(rows) - 1 - k) * (high + gap) for k, row in enumerate(rows) for it in row}
    fills = {"library": "#ddf4ff", "program": "#dafbe1", "laws": "#fff8c5", "tests": "#f6f8fa"}
    drawn, boxes = [], []
    for line in lines:
        path = ""
        for one, other in zip(line, line[1:]):
            x, y, a, b = middle[one] - left, top[one] + high, middle[other] - left, top[other]
            start = f"M{x:.0f} {y}" if not path else f"L{x:.0f} {y}"
            path += f"{start} C{x:.0f} {y + gap * 0.5:.0f} {a:.0f} {b - gap * 0.5:.0f} {a:.0f} {b}"
        drawn.append(f'<path d="{path}" fill="none" stroke="#8c959f" stroke-opacity="0.7"/>')
    for it in sorted(uses):
        x, y = middle[it] - left, top[it]
        size = f'width="{wide}" height="{high}" rx="5" fill="{fills[kinds[it]]}" stroke="{EDGE}"'
        boxes.append(f'<rect x="{x - wide / 2:.0f}" y="{y}" {size}/>')
        boxes.append(label(f"{x:.0f}", y + 17, it.removeprefix("toml_span_"), "middle"))
    key = []
    for k, (kind, fill) in enumerate(fills.items()):
        key.append(f'<rect x="{16 + k * 90}" y="12" width="12" height="12" rx="3" fill="{fill}" stroke="{EDGE}"/>')
        key.append(label(33 + k * 90, 22, kind, ink=PALE))
    height = 56 + len(rows) * (high + gap) - gap
    return svg(width, height, "The crates, each above those that it uses", [*key, *drawn, *boxes])


PICTURES = {
    "docs/check.svg": lambda: terminal("several_text"),
    "docs/schema.svg": lambda: terminal("schema_text"),
    "docs/crates.svg": graph,
    "docs/speed.svg": bars,
}


def stale():
    """Yields the pictures that are not as drawn here."""
    for path, draw in PICTURES.items():
        if not os.path.exists(f"{TOP}/{path}") or text_of(path) != draw():
            yield path


def main(words):
    if words == ["--check"]:
        wrong = [f"{it} is not as drawn: run scripts/pictures.py" for it in stale()]
        print(*wrong, f"{len(PICTURES)} pictures, {len(wrong)} faults", sep="\n")
        return 1 if wrong else 0
    for path, draw in PICTURES.items():
        with open(f"{TOP}/{path}", "w", encoding="utf-8") as file:
            file.write(draw())
    return 0


if __name__ == "__main__":
    sys.exit(main(sys.argv[1:]))
