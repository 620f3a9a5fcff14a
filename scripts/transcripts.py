#!/usr/bin/env python3
"""Reads the stored runs of a program: transcripts.py expand CRATE FOLDER

A transcript crates/CRATE/runs/NAME.run has several runs, each of which begins with a line `== NAME`. Then come, with
the lines that belong to them below, indented by four spaces:

    # ...                a remark
    file PATH            a file of the folder in which the program runs, beside those of runs/data
    input                standard input
    $ toml-span ARGUMENT..  the command, quoted as in a shell, and what it writes to standard output
    errors               what it writes to standard error; without this line, anything is accepted
    ? STATUS             the exit status, if it is not 0
    after PATH           a file of the folder after the run; the others are as before
    refused STATUS REQUESTS GUESSES  the run again with each request for memory refused (scripts/runs.py)

After `file`, `input`, `$`, `errors` and `after`, each line ends with a line feed. Where a text does not, or has bytes
that an editor would change, the word `escaped` ends the line above it: its lines follow each other with nothing between
them, and `\\n`, `\\r`, `\\t`, `\\\\` and `\\xHH` stand for bytes.

`expand` writes the runs into FOLDER, a folder for each with the files args, stdin, stdout, stderr, status, requests,
data/PATH and after/PATH. `transcripts.py collect CRATE` is the way back: it writes such folders of crates/CRATE/runs
into transcripts, one for each first argument, and removes the folders.
"""
import os
import re
import shlex
import shutil
import sys

TOP = os.path.dirname(os.path.dirname(os.path.abspath(__file__)))
MEMBERS = {"file": "data/", "after": "after/", "input": "stdin", "errors": "stderr"}
COMMANDS = "add append check config edit explain fmt get insert lsp move remove rename schema set show help".split()
PARTS = "fix schema tagged".split()
ESCAPES = {b"\n": r"\n", b"\r": r"\r", b"\t": r"\t", b"\\": r"\\"}


def fail(path, at, what):
    sys.exit(f"{path}:{at + 1}: {what}")


def bytes_of(lines, is_escaped):
    """Returns the bytes for which these lines stand."""
    if not is_escaped:
        return "".join(f"{it}\n" for it in lines).encode()
    byte = {code: key for key, code in ESCAPES.items()}
    parts = re.findall(r"\\x[0-9a-f]{2}|\\.|[^\\]+", "".join(lines))
    return b"".join(byte.get(it) or (bytes.fromhex(it[2:]) if it[:2] == r"\x" else it.encode()) for it in parts)


def lines_of(data):
    """Returns lines that stand for these bytes, and whether they are escaped."""
    try:
        text = data.decode()
    except UnicodeDecodeError:
        text = None
    if text is not None and not re.search("[\0-\b\v-\x1f\x7f-\x9f\u2028\ufeff]|[^\n]\\Z", text):
        return text.split("\n")[:-1], False
    pieces = data.split(b"\n")
    pieces = [it + b"\n" for it in pieces[:-1]] + [pieces[-1]] * bool(pieces[-1])
    escape = lambda it: ESCAPES.get(it) or (it.decode() if b" " <= it < b"\x7f" else f"\\x{it[0]:02x}")
    return ["".join(escape(it[k : k + 1]) for k in range(len(it))) for it in pieces], True


def runs_of(path):
    """Returns the runs of a transcript: the files of each by their names, with the arguments as `args`."""
    with open(path, encoding="utf-8", newline="\n") as it:
        lines = it.read().split("\n")
    runs, at = {}, 0
    while at < len(lines):
        head, begun = lines[at], at
        at += 1
        while at < len(lines) and lines[at][:4] in ("", "    "):
            at += 1
        is_last = at == len(lines) or lines[at].startswith("== ")
        body = [it[4:] for it in lines[begun + 1 : at - is_last]]
        word, _, rest = head.partition(" ")
        rest, is_escaped = rest.removesuffix(" escaped"), f" {rest}".endswith(" escaped")
        if word == "==":
            run = runs.setdefault(rest, {})
        elif word == "$":
            run["args"] = "".join(f"{it}\n" for it in shlex.split(rest)[1:]).encode()
            if body:
                run["stdout"] = bytes_of(body, is_escaped)
        elif word in MEMBERS:
            run[MEMBERS[word] + (rest if word in ("file", "after") else "")] = bytes_of(body, is_escaped)
        elif word in ("?", "refused"):
            run["status" if word == "?" else "requests"] = f"{rest}\n".encode()
        elif head and word != "#":
            fail(path, begun, f"`{head}` begins no part of a run")
    return runs


def transcript_of(program, runs):
    """Returns a transcript with these runs."""
    out = []

    def add(head, data):
        lines, is_escaped = lines_of(data)
        out.extend([head + " escaped" * is_escaped, *(f"    {it}" if it else "" for it in lines)])

    for name, run in runs.items():
        out.append(f"== {name}")
        for path in sorted(it for it in run if it.startswith("data/")):
            add(f"file {path[5:]}", run[path])
        if "stdin" in run:
            add("input", run["stdin"])
        words = run.get("args", b"").decode().splitlines()
        add(f"$ {shlex.join([program, *words])}", run.get("stdout", b""))
        if "stderr" in run:
            add("errors", run["stderr"])
        if "status" in run:
            out.append(f"? {run['status'].decode().strip()}")
        for path in sorted(it for it in run if it.startswith("after/")):
            add(f"after {path[6:]}", run[path])
        if "requests" in run:
            out.append(f"refused {run['requests'].decode().strip()}")
        out.append("")
    return "\n".join(out)


def files_below(folder):
    """Returns the files below a folder, by their paths in it."""
    found = {}
    for at, _, names in os.walk(folder):
        for name in names:
            with open(f"{at}/{name}", "rb") as it:
                found[os.path.relpath(f"{at}/{name}", folder)] = it.read()
    return found


def all_runs(crate):
    """Returns the runs of all transcripts of a crate."""
    folder, runs = f"{TOP}/crates/{crate}/runs", {}
    for file in sorted(it for it in os.listdir(folder) if it.endswith(".run")):
        found = runs_of(f"{folder}/{file}")
        for name in found.keys() & runs.keys():
            sys.exit(f"{folder}/{file}: there are two runs {name}")
        runs |= found
    return runs


def expand(crate, into):
    for name, run in all_runs(crate).items():
        for path, data in run.items():
            os.makedirs(os.path.dirname(f"{into}/{name}/{path}"), exist_ok=True)
            with open(f"{into}/{name}/{path}", "wb") as it:
                it.write(data)


def collect(crate):
    folder, groups = f"{TOP}/crates/{crate}/runs", {}
    program = {"toml_span_cli": "toml-span"}.get(crate, crate)
    names = sorted(it for it in os.listdir(folder) if os.path.isdir(f"{folder}/{it}") and it != "data")
    for name in names:
        found = files_below(f"{folder}/{name}")
        run = {"args": b""} | {path: it for path, it in found.items() if it or path != "stdout"}
        group = (run["args"].decode().split() or [""])[0]
        if group == "check" and name.split("_")[0] in PARTS:
            group = name.split("_")[0]
        if crate != "toml_span_cli":
            group = crate.removeprefix("toml_span_")
        group = group if group in (*COMMANDS, *PARTS, "example") else "usage"
        groups.setdefault(group, {})[name] = run
    for group, runs in groups.items():
        path = f"{folder}/{group}.run"
        old = runs_of(path) if os.path.exists(path) else {}
        with open(path, "w", encoding="utf-8") as it:
            it.write(transcript_of(program, dict(sorted((old | runs).items()))))
        if runs_of(path) != old | runs:
            sys.exit(f"{path}: not as the folders were")
        for name in runs:
            shutil.rmtree(f"{folder}/{name}")


if __name__ == "__main__":
    verb, *words = sys.argv[1:]
    {"expand": expand, "collect": collect}[verb](*words)
