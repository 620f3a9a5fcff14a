#!/usr/bin/env python3
"""Compares toml-span with Python's tomllib on many documents: tomllib_test.py [check|fmt] [COUNT [SEED]]

The documents are COUNT generated ones, and those of toml-test (fetched as by scripts/toml_test.py, and left out if that
fails). The program is a native build (scripts/native.sh).

check: `check --toml 1.0` and tomllib, which reads TOML 1.0, both accept or both refuse a document. A million are
generated, many of them with what TOML 1.1 added. Differences are counted by what one of the two reports, with the
shortest document of each kind. Some are expected: integers over 64 bits, and what Python's datetimes do not have, the
year 0 and the second 60.

fmt: after `fmt`, a document has the same words and comments and, if tomllib reads it, the same keys and values in the
same order. A second run changes nothing. With --sort-keys the order may differ, and the keys of a document without
blank lines and headers are sorted. 100,000 are generated, and the files of this repository are formatted too.

Status: 0 if all are as described, 1 if not, 2 if there is no program. Without check or fmt it does both.
"""
import random
import re
import subprocess
import sys
import tempfile
import tomllib
from collections import Counter
from pathlib import Path

import toml_test

BATCH = 5000
WORD = re.compile(r"\"{3}(?:\\.|[^\\])*?\"{3,5}|'{3}.*?'{3,5}|\"(?:\\.|[^\"\\\n])*\"|'[^'\n]*'|#[^\n]*|[^\s,]", re.S)
NUMBER = "a number over 64 bits"
MOMENT = "the year 0 or the second 60"

# ---- documents: valid ones, and wild ones, many of which are not valid

SCALARS = ['"""\nl1\n  l2\t\n"""', '"\\u00e9日本"', f'"{"x" * 40}"', f'"{"w" * 75}"', "1979-05-27 07:32:00.5+01:00"]
SCALARS += """1 -2 0x1F -1.5e+3 inf -nan true 1979-05-27 07:32:00 'lit' "x" '' "" "#" '''m''' """.split()
KEYS = ["a", "d-e", "1", '"q"', "'l'", '"a b"', '"é"', "true", '""'] + [f"k{n}" for n in range(60)]
WILD_KEYS = ["a", "b", "c", "d-1", "1", '"a"', "'b'", '"\\e"', '"\\x61"', '""', "'\\x'"]
WILD_WORDS = "1 -0 +1_0 0x1F 1.5 1e3 inf -nan 01 9223372036854775808 true false true false x".split()
ESCAPES = [r"\e", r"\x41", r"\xe9", r"\x7F", r"\u001B", r"\U0001F600", r"\n", r"\\", r"\\e", r"\"", r"\x4", r"\q"]
TIMES = ["07:32", "07:32:00", "07:32:00.5", "07:32:60", "24:00", "7:32", "23:59:5", "00:00.5"]
DATES = ["1979-05-27", "2000-02-29", "1979-05-27", "0000-01-01", "1979-5-27"]
LINES = ["", "", "", "", "#", "# c  ", "#é\t", "# [a] = {", '# "', "# , }"]
ALPHABET = "{}[]=,.#\"'\\ \t\n\rae1x0-:TZ\u00e9\x00"
choice = random.choice


def gap(lines=False):
    """Returns blanks or, where lines may end, lines with comments."""
    ends = [choice(LINES) + "\n" for _ in range(choice([0, 0, 0, 1, 1, 2, 3]) if lines else 0)]
    return "".join(choice(["", "", " ", "  ", "\t"]) + it for it in [*ends, ""])


def key(used, is_wild):
    """Returns a key, and adds its first part to `used`. Unless is_wild, that part was not in `used` before."""
    pool = choice([KEYS, WILD_KEYS]) if is_wild else KEYS
    used.append(choice([it for it in pool if is_wild or it not in used]))
    parts = [used[-1], *random.choices(pool, k=choice([0, 0, 0, 0, 1, 2]))]
    return gap() + (gap() + "." + gap()).join(parts) + gap()


def scalar(is_wild):
    if not is_wild or choice([True, False]):
        return choice(SCALARS)
    moment = choice(DATES) + choice("T t") + choice(TIMES) + choice(["", "", "Z", "z", "+01:30", "-00:00", "+25:00"])
    quotes = choice(['"', '"', '"', "'", '"""', "'''"])
    parts = ["a", "é", " ", "#", ",", "}", *choice([[], ESCAPES])] + ["\\e", "\\"] * (quotes == "'")
    parts += ["\n", "\r\n", '"', "'", "\\\n  ", "\\ \r\n"] * (len(quotes) == 3)
    string = quotes + "".join(random.choices(parts, k=random.randrange(4))) + quotes
    return choice([choice(WILD_WORDS), choice([choice(TIMES), choice(DATES), moment]), string, string])


def value(depth, is_new, is_wild):
    """Returns a value. If is_new, its inline tables may have line ends and trailing commas, as in TOML 1.1."""
    kind = choice(["scalar", "[]", "{}"]) if depth else "scalar"
    if kind == "scalar":
        return scalar(is_wild)
    used, count = [], choice([0, 1, 2, 3, 5])
    lines = kind == "[]" or is_new and choice([True, False])
    keys = [key(used, is_wild) + gap(lines) + "=" if kind == "{}" else "" for _ in range(count)]
    values = ",".join(it + gap(lines) + value(depth - 1, is_new, is_wild) + gap(lines) for it in keys)
    return kind[0] + gap(lines) + values + choice(["", "", ","] if lines and keys else [""]) + gap(lines) + kind[1]


def document(is_wild):
    used, top, is_new, out = [], [], choice([False, False, True]), choice(["", "", "\ufeff"])
    for n in random.choices([0, 0, 0, 0, 1, 2], k=choice([1, 2, 3] if is_wild else [0, 1, 2, 4, 9])):
        used = [] if n else used
        line = "[" * n + key(top, is_wild) + "]" * n if n else key(used, is_wild) + "=" + gap()
        out += gap(True) + line + ("" if n else value(3, is_new, is_wild)) + gap() + choice(["", "", "# c "]) + "\n"
    out = choice([out, out + gap(True), out.rstrip()]).replace("\n", choice(["\n", "\n", "\r\n"]))
    if is_wild and random.random() < 0.15:
        at = random.randrange(len(out) + 1)
        out = out[:at] + choice(["", choice(ALPHABET)]) + out[at + random.randrange(2) :]
    return out.encode()


def suite(pattern):
    """Returns the documents of toml-test whose path matches, or none if the suite can't be fetched."""
    with tempfile.TemporaryDirectory() as work:
        if why := toml_test.fetch(Path(work)):
            print(f"tomllib: toml-test cannot be fetched: {why}", file=sys.stderr)
        return [it.read_bytes() for it in sorted(Path(work).glob(f"sources/**/toml-test/tests/{pattern}/**/*.toml"))]


def batches(count, is_wild):
    """Yields this many generated documents, in batches."""
    for start in range(0, count, BATCH):
        yield [document(is_wild) for _ in range(min(BATCH, count - start))]


def ran(texts, *commands):
    """Runs commands on a folder with these documents. Returns their results and the documents after them."""
    with tempfile.TemporaryDirectory() as folder:
        paths = [Path(folder, f"{n}.toml") for n in range(len(texts))]
        for path, text in zip(paths, texts):
            path.write_bytes(text)
        runs = [subprocess.run([*it, folder], stdout=subprocess.PIPE, timeout=900, check=False) for it in commands]
        return runs, [it.read_bytes() for it in paths]


# ---- check


def fault_of_python(text):
    """Returns why tomllib refuses a text in bytes, or None."""
    try:
        tomllib.loads(text.decode())
    except (ValueError, RecursionError) as error:
        return re.sub(r"\(at .*|'.*'|[\d.]+", "", f"{type(error).__name__} {error}").strip()
    return None


def kind_of(text, python, own):
    """Returns the kind of a difference between the results of tomllib and of the program for a text."""
    if own and own.startswith("invalid-number") and re.search(rb"\d{19}", text):
        return NUMBER
    if python and not own and not fault_of_python(text.replace(b":60", b":59").replace(b"0000-", b"0004-")):
        return MOMENT
    return f"only tomllib refuses: {python}" if python else f"only toml-span refuses: {own}"


def compare(program, texts, count, shortest):
    """Compares a batch: adds to the counts, and keeps the shortest text of each kind of difference."""
    (checked,), _ = ran(texts, [program, "check", "--toml", "1.0", "--format", "short"])
    if checked.returncode > 1:
        sys.exit(f"tomllib: status {checked.returncode}")
    found = {}
    for name, rest in re.findall(r"(?m)^\S*?/(\d+)\.toml(?::\d+:\d+)?: (.*)$", checked.stdout.decode()):
        found.setdefault(int(name), rest)
    for i, text in enumerate(texts):
        python, own = fault_of_python(text), found.get(i)
        count["newer"] += bool(own) and own.startswith("newer-toml")
        if bool(python) == bool(own):
            count["both refuse" if own else "both accept"] += 1
            continue
        kind = kind_of(text, python, own)
        count[kind] += 1
        if len(text) < len(shortest.get(kind, text + b" ")):
            shortest[kind] = text


def check(program, number):
    """Compares which documents both programs accept. Returns whether all differences are expected."""
    known, good = [it for it in suite("*alid") if it.decode(errors="ignore").encode() == it], True
    for name, parts in (("toml-test", [known]), ("generated", batches(number, True))):
        count, shortest = Counter(), {}
        for texts in parts:
            compare(program, texts, count, shortest)
        print(f"tomllib: {name}: both accept {count['both accept']}, both refuse {count['both refuse']},", end=" ")
        print(f"of which newer-toml {count['newer']}; different {sum(count[kind] for kind in shortest)}")
        for kind, text in shortest.items():
            print(f"  {count[kind]} {kind}: {text!r}")
        good &= set(shortest) <= {NUMBER, MOMENT}
    return good


# ---- fmt


def plain(it):
    """Returns a value that compares equal for every order of keys, and for every NaN."""
    if isinstance(it, list):
        return [plain(element) for element in it]
    return {name: plain(held) for name, held in it.items()} if isinstance(it, dict) else repr(it)


def content(text, is_sorted, is_read=True):
    """Returns the words of a document without spaces and commas, its comments, and its values if tomllib reads it."""
    text = text.decode().removeprefix("\ufeff")
    values = tomllib.loads(text) if is_read and not fault_of_python(text.encode()) else None
    words = WORD.findall(text)
    words, notes = [it for it in words if it[0] != "#"], [it.rstrip() for it in words if it[0] == "#"]
    if is_sorted:
        return sorted(words), sorted(notes), values and plain(values)
    return words, notes, values and repr(values)


def is_ordered(new):
    """Returns whether keys are sorted, if the document has neither blank lines nor headers and tomllib reads it."""
    text = new.decode().removeprefix("\ufeff").replace("\r\n", "\n")
    if "\n\n" in text or "\n[" in "\n" + text or fault_of_python(text.encode()):
        return True
    keys = [it.encode() for it in tomllib.loads(text)]
    return keys == sorted(keys)


def wrong_ones(program, texts, option):
    """Formats documents. Returns those for which a check fails, or the error of the program."""
    is_sorted, command = option == "--sort-keys", [program, "fmt", option]
    runs, formatted = ran(texts, command, [*command, "--check"])
    wrong = [it.stdout for it in runs if it.returncode]
    for old, new in zip(texts, formatted):
        before = content(old, is_sorted)
        is_same = before == content(new, is_sorted, before[2] is not None)
        wrong += [] if is_same and (not is_sorted or is_ordered(new)) else [old]
    return wrong


def fmt(program, number):
    """Formats documents. Returns whether all are as they must be."""
    known, wrong = suite("valid"), []
    own = [it for it in toml_test.TOP.glob("**/*.toml") if not subprocess.call([program, "check", "--quiet", it])]
    for texts in (known, [it.read_bytes() for it in own], *batches(number, False)):
        wrong += wrong_ones(program, texts, "--width=80") + wrong_ones(program, texts, "--sort-keys")
    print(*wrong[:5], f"formatting: {len(wrong)} wrong of {number} generated,", sep="\n", end=" ")
    print(f"{len(known)} of toml-test, {len(own)} of this repository")
    return not wrong


def main(words):
    tests = {"check": (check, 1_000_000), "fmt": (fmt, 100_000)}
    named = [words.pop(0)] if words[:1] and words[0] in tests else [*tests]
    count, seed = [*words, None, None][:2]
    program, good = toml_test.native("toml_span_cli"), True
    for test, usual in map(tests.get, named):
        random.seed(int(seed or 1))
        good &= test(program, int(count or usual))
    return 0 if good else 1


if __name__ == "__main__":
    sys.exit(main(sys.argv[1:]))
