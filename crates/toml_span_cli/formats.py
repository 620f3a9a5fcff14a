#!/usr/bin/env python3
"""Tests the checker's formats that other programs read: formats.py PROGRAM [ARGUMENT..]

The checker (PROGRAM with the arguments that come before an option) runs on files with awkward names and contents. The
script derives what `--format github` and `--format sarif` must write from `--format json`, with lines and columns that
it counts itself: lines that are escaped in the way that GitHub's runner undoes, and a document with the members of the
SARIF 2.1.0 schema. The rules of the document must be the codes of all errors that a row of toml_span_rows reports, the
two of files that are not text, and those of schemas, each with the title of its page, if it has one. No line of
`--format short` may be a command.
"""
import functools
import json
import os
import re
import subprocess
import sys
import tempfile
import urllib.parse

CRATES = os.path.dirname(os.path.dirname(os.path.realpath(__file__)))
HIDDEN = "\u061c\u200e\u200f\u2028\u2029\u202a\u202b\u202c\u202d\u202e\u2066\u2067\u2068\u2069"
CLASH = b"port = 80\nport = 81\n"
FILES = {
    b"::error file=x,line=1::y%.toml": CLASH,
    b"##[error]a,b.toml": b'# \xc3\xa9\n"50%, a:b" = 1\n\t"50%, a:b" = 2\n',
    b"li\nne\r\x1b[1m.toml": b"a = 1\r\nb = \r\n",
    "caf\u00e9 \u202e\u2028.toml".encode(): b"\xef\xbb\xbf\xc3\xa9 = 1\n",
    b"-.toml": b"\xef\xbb\xbfa = \n",
    b"..toml": 'a = "\u00e9\U0001f600", b\n'.encode(),
    b"lines.toml": b'a = 1\na.b = """x\ny"""\n',
    b"short.toml": b"a = [1,",
    b"word.toml": "a = \u00e9t\u00e9\n".encode(),
    b"nothing.toml": b"",
    b"good.toml": b"a = 1\n",
    b"bytes.toml": b"a = '\xff'\n",
    b"below/%41?#&;=.toml": CLASH,
}
TEXTS = {os.path.basename(name).decode(): text for name, text in FILES.items()}


def expect(what, wanted, told):
    """Prints a message and ends with status 1."""
    if wanted != told:
        sys.exit(f"formats: {what}\nexpected: {wanted}\nis:       {told}")


def position(text, at):
    """Returns the line and column of the character at an offset, counted from 1; a byte order mark has no column."""
    line = text[text[:at].rfind(b"\n") + 1 : at].decode(errors="ignore")
    return text[:at].count(b"\n") + 1, len(line.removeprefix("\ufeff")) + 1


def label_of(fault):
    """Returns the label at which an error is reported, or None."""
    return next((label for label in fault["labels"] if label["primary"]), None)


def escaped(text, chars):
    return "".join(f"%{ord(char):02X}" if char in f"%\r\n{chars}" else char for char in text)


def visible(text):
    """Returns a text in which each hidden character is replaced by its number, except those that end a line."""
    is_hidden = lambda it: it in HIDDEN or it not in "\r\n" and (ord(it) < 32 or 127 <= ord(it) < 160)
    return "".join(f"\\u{ord(it):04x}" if is_hidden(it) else it for it in text)


def annotation(fault, text):
    """Returns the line for GitHub of an error."""
    properties, label = {"file": visible(fault["file"])}, label_of(fault)
    if label:
        start, end = label["start"], label["end"]
        # # (an annotation does not end in the line after it)
        end -= start < end and text[end - 1 : end] == b"\n"
        (line, column), (last, after) = position(text, start), position(text, end)
        properties |= {"line": line, "endLine": last}
        properties |= {"col": column, "endColumn": after} if line == last else {}
    properties["title"] = fault["code"]
    listed = ",".join(f"{name}={escaped(str(it), ':,')}" for name, it in properties.items())
    return f"::error {listed}::{escaped(fault['message'], '')}"


def artifact(name):
    """Returns the location of a file."""
    return {"uri": f"{'file://' if name.startswith('/') else ''}{urllib.parse.quote(name)}"}


def region(span, text):
    """Returns the region of a span. It ends at the end of the source at the latest."""
    start, end = (min(span[it], len(text)) for it in ("start", "end"))
    (line, column), (last, after) = position(text, start), position(text, end)
    found = {"startLine": line, "startColumn": column, "endLine": last, "endColumn": after}
    return found | {"byteOffset": start, "byteLength": end - start}


def location(name, label, text):
    """Returns a location of SARIF."""
    physical = {"artifactLocation": artifact(name)}
    if not label:
        return {"physicalLocation": physical}
    said = {"message": {"text": label["message"]}} if label["message"] else {}
    return {"physicalLocation": physical | {"region": region(label, text)}} | said


def result(fault, text):
    """Returns a result of SARIF."""
    others = [label for label in fault["labels"] if not label["primary"]]
    changes = [
        {"deletedRegion": region(fix, text), "insertedContent": {"text": fix["text"]}} for fix in fault["fixes"]
    ]
    fix = {"artifactChanges": [{"artifactLocation": artifact(fault["file"]), "replacements": changes}]}
    return {
        "ruleId": fault["code"],
        "level": "error",
        "message": {"text": fault["message"]},
        "locations": [location(fault["file"], label_of(fault), text)],
        "relatedLocations": [location(fault["file"], label, text) for label in others],
    } | ({"fixes": [fix]} if changes else {})


def all_codes():
    """Returns the codes of all errors that a row reports, those of whole files, and those of schemas."""
    with open(f"{CRATES}/toml_span_rows/stdout", encoding="utf-8") as rows:
        told = re.findall(r"(?m)^parse .*\n    error ([a-z-]+) ", rows.read())
    with open(f"{CRATES}/toml_span_commands/src/schema_pages.rt", encoding="utf-8") as pages:
        schemas = re.findall(r'(?m)^ +"(schema[a-z-]*)",$', pages.read())
    return sorted({*told, *schemas, "too-many-errors", "newer-toml", "not-utf-8", "too-long"})


@functools.lru_cache(maxsize=None)
def page_of(program, code):
    """Returns what `explain` prints for a code, or "" if it has no page."""
    ran = subprocess.run([program, "explain", code], stdout=subprocess.PIPE, stderr=subprocess.PIPE, check=False)
    return "" if ran.returncode else ran.stdout.decode()


def title_of(program, code):
    """Returns the title of the page of a code as a sentence, or "" if it has no page."""
    title = page_of(program[0], code).partition("\n")[0].removeprefix(f"{code}: ")
    return title and f"{title[0].upper()}{title[1:]}."


def check(program, names):
    """Compares the output of the checker for some files."""
    made = {}
    for form in ("json", "short", "github", "sarif"):
        ran = subprocess.run([*program, "--format", form, "--", *names], stdout=subprocess.PIPE, check=False)
        made[form] = ran.stdout.decode(), ran.returncode
    expect("the statuses differ", 1, len({status for _, status in made.values()}))
    json_lines, short, github, sarif = (text for text, _ in made.values())
    faults = [json.loads(line) for line in json_lines.splitlines()]
    texts = [TEXTS[os.path.basename(fault["file"])] for fault in faults]
    expect("a line of short is a command", [], re.findall(r"(?m)^\s*::.*", short))
    expect("the lines for GitHub", "".join(f"{annotation(*it)}\n" for it in zip(faults, texts)), github)
    log = json.loads(sarif)
    ran = log["runs"][0]
    driver = ran["tool"].pop("driver")
    expect("the rules", all_codes(), sorted(rule["id"] for rule in driver["rules"]))
    expect("the members of the driver", {"name", "version", "rules"}, {*driver})
    for rule in driver["rules"]:
        title = rule.pop("shortDescription")
        expect("the members of a rule", ["text"], [*title, *(rule.keys() - {"id"})])
        expect("the title of a rule", title_of(program, rule["id"]) or title["text"], title["text"])
    results = [result(*it) for it in zip(faults, texts)]
    wanted = {"tool": {}, "columnKind": "unicodeCodePoints", "results": results}
    expect("the document for SARIF", {"$schema": log["$schema"], "version": "2.1.0", "runs": [wanted]}, log)


def main(program):
    program[0] = os.path.realpath(program[0])
    with tempfile.TemporaryDirectory() as folder:
        os.chdir(folder)
        os.mkdir("below")
        for name, text in FILES.items():
            with open(name, "wb") as file:
                file.write(text)
        names = [*FILES]
        above = [os.path.join(os.fsencode(folder), name) for name in names]
        for some in (names, names[::-1], above, [b"/" + name for name in above], [b"good.toml", b"nothing.toml"]):
            check(program, some)


main(sys.argv[1:])
