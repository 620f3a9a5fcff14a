#!/usr/bin/env python3
"""Runs toml-span on the suite toml-test (TOML 1.1) and counts: toml_test.py [--rows | PROGRAM ARGUMENT..]

The source package golang-toml of Debian's sid has the suite. apt fetches it from the mirror of this machine, into a
temporary folder. PROGRAM with its arguments reads a document from standard input: of a valid one it prints
the values with their types, which are compared with those of the suite by value; it ends with status 1 if one is
invalid. It is `toml-span get --tagged - ''` of a native build (scripts/native.sh) unless it is given. --rows runs
nothing: it prints a row `refused` of toml_span_rows for each invalid document that is UTF-8.

Status: 0 if all pass, 1 if one does not, 2 if the suite cannot be fetched, as without a network or apt.
"""
import json
import re
import subprocess
import sys
import tempfile
from pathlib import Path

TOP = Path(__file__).resolve().parent.parent
# a line of apt's archives
HOST = r"(?m)^Debian \w+ (\S+)$"


def moment(text):
    """Returns a date or time in one spelling: with `T` and `Z`, and no zeros at the end of a fraction."""
    text = re.sub(r"[+-]00:00$", "Z", text.upper().replace(" ", "T"))
    return re.sub(r"\.(\d*?)0*(?=[Z+-]|$)", lambda it: it[1] and f".{it[1]}", text)


SAME = {"integer": lambda one, other: int(one) == int(other)}
SAME["float"] = lambda one, other: float(one) == float(other) or {one, other} <= {"nan", "+nan", "-nan"}
for kind in ("datetime", "datetime-local", "date-local", "time-local"):
    SAME[kind] = lambda one, other: moment(one) == moment(other)


def same(wanted, written):
    """Returns whether two answers have the same values."""
    if isinstance(wanted, list):
        return isinstance(written, list) and len(wanted) == len(written) and all(map(same, wanted, written))
    if not isinstance(written, dict) or wanted.keys() != written.keys():
        return False
    if wanted.keys() != {"type", "value"} or not isinstance(wanted["type"], str):
        return all(same(wanted[name], written[name]) for name in wanted)
    compare = SAME.get(wanted["type"], str.__eq__)
    return wanted["type"] == written["type"] and compare(wanted["value"], written["value"])


def documents(folder):
    """Yields each document of the suite for TOML 1.1: its name, its bytes, and the expected answer if it is valid."""
    part = (folder.parent / "version.go").read_text(encoding="utf-8").split('"1.1.0"')[1].split("}")[0]
    out = [name.removesuffix("*") for name in re.findall(r'"([^"]+)"', part)]
    for path in sorted(folder.glob("*alid/**/*.toml")):
        name = str(path.relative_to(folder)).removesuffix(".toml")
        if not any(name == it or (it[-1] == "/" and name.startswith(it)) for it in out):
            answer = path.with_suffix(".json")
            yield name, path.read_bytes(), answer.read_text(encoding="utf-8") if answer.exists() else None


def passes_all(program, folder):
    """Runs the documents and prints how many pass. Returns whether all do, and there are some of each kind."""
    passed, count = [0, 0], [0, 0]
    for name, document, wanted in documents(folder):
        ran = subprocess.run(
            program, input=document, stdout=subprocess.PIPE, stderr=subprocess.STDOUT, timeout=60, check=False
        )
        is_valid = wanted is not None
        good = ran.returncode == 1 - is_valid and (not is_valid or same(json.loads(wanted), json.loads(ran.stdout)))
        count[is_valid] += 1
        passed[is_valid] += good
        if not good:
            print(f"toml-test: {name}: status {ran.returncode}: {ran.stdout.decode(errors='replace').rstrip()}")
    state = re.search(r"date\s*=\s*(\S+)", (folder / "version.toml").read_text())[1]
    print(f"toml-test, state of {state}: valid {passed[1]} of {count[1]}, invalid {passed[0]} of {count[0]}")
    return passed == count and min(count) > 0


def print_rows(folder):
    """Prints the invalid documents as rows, each once. Returns 0."""
    named = {"\\": r"\\", "\n": r"\n", "\r": r"\r", "\t": r"\t"}
    shown = lambda c: named.get(c) or (c if " " <= c <= "~" else f"\\u{{{ord(c):x}}}")
    texts = {it.decode(errors="replace"): it for _, it, wanted in documents(folder) if wanted is None}
    for text in (text for text, document in texts.items() if text.encode() == document):
        print(f"refused: {''.join(map(shown, text))}\n    refused")
    return 0


def called(*words, **named):
    """Returns the output of a command, or None if it fails or does not exist."""
    try:
        return subprocess.run(words, check=True, timeout=900, stdout=subprocess.PIPE, text=True, **named).stdout
    except (OSError, subprocess.SubprocessError):
        return None


def native(crate):
    """Returns a build of a program (scripts/native.sh). Ends with status 2 if there is none."""
    made = called("bash", TOP / "scripts/native.sh", crate, stdin=subprocess.DEVNULL)
    if not made:
        sys.exit(2)
    return made.strip()


class Unreachable(Exception):
    """Why packages cannot be fetched."""


def apt_of(work, kind="deb-src"):
    """Returns the words of an apt-get command that knows only the packages of Debian's sid (`deb` or `deb-src`)."""
    list_targets = ("apt-get", "indextargets", "--format", "$(ORIGIN) $(RELEASE) $(REPO_URI)")
    hosts = re.findall(HOST, called(*list_targets) or "")
    if not hosts and called("apt-get", "-qq", "update") is not None:
        hosts = re.findall(HOST, called(*list_targets) or "")
    if not hosts:
        raise Unreachable("apt knows no Debian archive: run apt-get update")
    for folder in ("lists/partial", "cache/archives/partial", "sources"):
        (work / folder).mkdir(parents=True)
    (work / "status").touch()
    (work / "sources.list").write_text(f"{kind} {hosts[0]} sid main\n")
    options = {"Dir::Etc::SourceList": work / "sources.list", "Dir::Etc::SourceParts": "/dev/null"}
    options |= {"Dir::State::Lists": work / "lists", "Dir::Cache": work / "cache", "Acquire::Retries": 1}
    options |= {"Dir::State::status": work / "status", "Debug::NoLocking": 1, "Acquire::http::Timeout": 30}
    options |= {"APT::Sandbox::User": called("id", "-un").strip()}
    apt = ["apt-get", "-qq", *(part for name, value in options.items() for part in ("-o", f"{name}={value}"))]
    if called(*apt, "update") is None:
        raise Unreachable("apt reaches no list of packages (is there a network?)")
    return apt


def fetch(work):
    """Fetches the suite into a folder and unpacks it. Returns why that fails, if it does."""
    try:
        apt = apt_of(work)
    except Unreachable as why:
        return why
    if called(*apt, "source", "--download-only", "--tar-only", "golang-toml", cwd=work) is None:
        return "apt cannot fetch golang-toml"
    for packed in work.glob("*.orig.tar.*"):
        if called("tar", "-xf", packed, "-C", work / "sources") is None:
            return f"{packed.name} cannot be unpacked"
    return None


def main(program):
    with tempfile.TemporaryDirectory() as work:
        if why := fetch(Path(work)):
            print(f"toml-test: the suite cannot be fetched: {why}", file=sys.stderr)
            return 2
        for version in Path(work).glob("sources/**/toml-test/tests/version.toml"):
            if program == ["--rows"]:
                return print_rows(version.parent)
            program = program or [native("toml_span_cli"), "get", "--tagged", "-", ""]
            return 0 if passes_all(program, version.parent) else 1
        print("toml-test: no suite is in these sources", file=sys.stderr)
        return 2


if __name__ == "__main__":
    sys.exit(main(sys.argv[1:]))
