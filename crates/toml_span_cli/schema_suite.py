#!/usr/bin/env python3
"""Runs the official JSON-Schema-Test-Suite through `toml-span check --schema`.

    python3 crates/toml_span_cli/schema_suite.py [--draft NAME].. [--optional] [SUITE [PROGRAM]]

SUITE is a folder with tests/ and remotes/, by default that of Debian's libtest-json-schema-acceptance-perl. PROGRAM is a
build of toml_span_cli; by default scripts/native.sh makes one. Each instance that TOML can hold (none with null inside)
becomes the entry `value` of a file, and the program's answer is compared with the suite's. The suite's remotes and the
metaschemas (of Python's package jsonschema_specifications, if it is installed) are named by `--schema-map`.

Prints each difference and a table, and ends with status 1 if a required test differs.
"""

import json
import pathlib
import subprocess
import sys
import tempfile

DRAFTS = ["draft4", "draft6", "draft7", "draft2019-09", "draft2020-12"]
DEFAULTS = {
    "draft4": "http://json-schema.org/draft-04/schema#",
    "draft6": "http://json-schema.org/draft-06/schema#",
    "draft7": "http://json-schema.org/draft-07/schema#",
    "draft2019-09": "https://json-schema.org/draft/2019-09/schema",
    "draft2020-12": "https://json-schema.org/draft/2020-12/schema",
}
SUITE = "/usr/share/perl5/auto/share/dist/Test-JSON-Schema-Acceptance"
WRAPPER = {"properties": {"value": {"$ref": "tested.json"}}}


def quoted(text):
    """Returns a TOML string."""
    out = ['"']
    for c in text:
        if c in '"\\':
            out.append("\\" + c)
        elif ord(c) < 32 or ord(c) == 127:
            out.append(f"\\u{ord(c):04x}")
        else:
            out.append(c)
    return "".join(out) + '"'


def number(text):
    """Returns a TOML number, or None if it is too large for an integer."""
    if "." in text or "e" in text or "E" in text:
        return text
    return text if -(2**63) <= int(text) < 2**63 else text + ".0"


class Number(str):
    """A number of JSON as text."""


def toml(value):
    """Returns a value in TOML, or None if it has null inside."""
    if value is None:
        return None
    if isinstance(value, bool):
        return "true" if value else "false"
    if isinstance(value, Number):
        return number(value)
    if isinstance(value, (int, float)):
        return number(repr(value))
    if isinstance(value, str):
        return quoted(value)
    if isinstance(value, list):
        items = [toml(item) for item in value]
        return None if None in items else "[" + ", ".join(items) + "]"
    entries = [(quoted(key), toml(item)) for key, item in value.items()]
    if any(item is None for _, item in entries):
        return None
    return "{" + ", ".join(f"{key} = {item}" for key, item in entries) + "}"


def read(path):
    return json.loads(path.read_text(), parse_int=Number, parse_float=Number)


def text_of(value):
    """Returns JSON whose numbers are as they were."""
    if isinstance(value, Number):
        return str(value)
    if isinstance(value, list):
        return "[" + ",".join(map(text_of, value)) + "]"
    if isinstance(value, dict):
        return "{" + ",".join(json.dumps(k) + ":" + text_of(v) for k, v in value.items()) + "}"
    return json.dumps(value)


def with_draft(schema, draft):
    """Returns a schema that names its draft."""
    if isinstance(schema, dict) and "$schema" not in schema:
        return {"$schema": DEFAULTS[draft], **schema}
    return schema


def documents(suite, draft):
    found = []
    for path in sorted((suite / "remotes").rglob("*.json")):
        name = path.relative_to(suite / "remotes").as_posix()
        schema = read(path)
        if isinstance(schema, dict) and "$schema" not in schema:
            folder = name.split("/")[0]
            schema = with_draft(schema, folder if folder in DEFAULTS else draft)
            if folder == "draft-next":
                continue
        elif name.startswith("draft-next/"):
            continue
        found.append(["http://localhost:1234/" + name, text_of(schema)])
    try:
        from jsonschema_specifications import REGISTRY

        for address in REGISTRY:
            found.append([address.rstrip("#"), json.dumps(REGISTRY.contents(address))])
    except ImportError:
        pass
    return found


def names_others(text, draft):
    """Returns whether a schema names another document, apart from its draft."""
    plain = text.replace(json.dumps("$schema") + ":" + json.dumps(DEFAULTS[draft]), "")
    return "localhost:1234" in plain or "json-schema.org" in plain


def built():
    """Returns a build of the program."""
    native = pathlib.Path(__file__).resolve().parents[2] / "scripts" / "native.sh"
    words = ["bash", native, "toml_span_cli"]
    return subprocess.run(words, stdout=subprocess.PIPE, check=True, text=True).stdout.strip()


def answers(program, schema, values, *words):
    """Returns `valid` or `invalid` for each value, or what is wrong with the schema. The values are TOML."""
    with tempfile.TemporaryDirectory() as folder:
        for name, text in (("schema.json", json.dumps(WRAPPER)), ("tested.json", schema)):
            pathlib.Path(folder, name).write_text(text)
        names = [f"{n}.toml" for n in range(len(values))]
        for name, value in zip(names, values):
            pathlib.Path(folder, name).write_text(f"value = {value}\n")
        words = [program, "check", "--format", "json", "--schema", "schema.json", *words, *names]
        ran = subprocess.run(words, cwd=folder, capture_output=True, check=False, text=True)
    if ran.returncode > 1:
        return [ran.stderr.split("\n")[0]] * len(values)
    reports = map(json.loads, ran.stdout.splitlines())
    wrong = {report["file"] for report in reports if report["severity"] == "error"}
    return ["invalid" if name in wrong else "valid" for name in names]


def compared(program, suite, draft, paths, maps, *words):
    """Returns the number of right answers to the tests of some files, and the differences."""
    right, differences = 0, []
    for path in paths:
        for group in read(path):
            tests = [(test, toml(test["data"])) for test in group["tests"]]
            tests = [(test, value) for test, value in tests if value is not None]
            schema = text_of(with_draft(group["schema"], draft))
            others = maps if names_others(schema, draft) else []
            found = answers(program, schema, [value for _, value in tests], *words, *others)
            for (test, _), answer in zip(tests, found, strict=True):
                if answer == ("valid" if test["valid"] else "invalid"):
                    right += 1
                else:
                    differences.append((path.name, group["description"], test["description"], answer))
    return right, differences


def sets_of(suite, draft, optional):
    """Returns the files of a draft by name."""
    folder = suite / "tests" / draft
    sets = {"required": sorted(folder.glob("*.json"))}
    if optional:
        for path in sorted((folder / "optional").rglob("*.json")):
            sets["optional " + path.relative_to(folder / "optional").as_posix()] = [path]
    return sets


def main(words):
    drafts = [words[i + 1] for i, word in enumerate(words) if word == "--draft"] or DRAFTS
    plain = [word for i, word in enumerate(words) if not word.startswith("--") and words[i - 1 : i] != ["--draft"]]
    suite = pathlib.Path(plain[0] if plain else SUITE)
    program = plain[1] if len(plain) > 1 else built()
    failed = False
    for draft in drafts:
        with tempfile.TemporaryDirectory() as folder:
            maps = []
            for n, (address, text) in enumerate(documents(suite, draft)):
                pathlib.Path(folder, f"{n}.json").write_text(text)
                maps += ["--schema-map", f"{address}={folder}/{n}.json"]
            for name, paths in sets_of(suite, draft, "--optional" in words).items():
                formats = [] if name.startswith("optional format/") else ["--no-formats"]
                right, differences = compared(program, suite, draft, paths, maps, *formats)
                print(f"{draft:14} {name:40} {right:5} right {len(differences):4} different")
                for difference in differences:
                    print("   ", " | ".join(difference))
                failed = failed or (name == "required" and bool(differences))
    return 1 if failed else 0


if __name__ == "__main__":
    sys.exit(main(sys.argv[1:]))
