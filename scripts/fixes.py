#!/usr/bin/env python3
"""Attacks `toml-span check --fix`: fixes.py [--mistakes N] [--values N] [--seed N] [--unsafe] [--keep] [PROGRAM]

Puts one mistake at a time into a valid document: a statement of MISTAKES, or a valid statement after one of CHANGES, and
N times a value without quotes. The program fixes the documents, with --unsafe by unsafe fixes too. Then this must hold:

    outside    all lines outside the statement are as before, and lines end as before
    faultless  the file is as before, or the statement and the file are valid (for TOML 1.0: tomllib). A bracket put into
               a value of several lines, or taken from it, may divide it into several statements, of which not all may
               have a fix: then the file has fewer errors
    others     the values of all other statements are as before, unless the statement is a header
    comments   the statement's comments have the same texts, their markers aside
    quotes     quotes that were added enclose one whole value, without blanks or special characters (without --unsafe)
    told       the program says that it fixed as many files as it changed

Documents, mistakes and values are random, but the same for the same seed (--seed, 1 by default). PROGRAM is the proved
build, else a native build (scripts/native.sh). With --keep the documents and the results stay in a folder, which the
last line names. The status is 1 if something does not hold.
"""

import argparse
import collections
import difflib
import os
import random
import re
import shutil
import subprocess
import sys
import tempfile
import tomllib

TOP = os.path.dirname(os.path.dirname(os.path.abspath(__file__)))

# Statements with a mistake. @ is a new key, and ~ ends a line. After each tab comes the text of a comment.
MISTAKES = """
@ = localhost|@ = hello;|@ = my-host.example|@ = a@b.c|@ = /usr/bin|@ = ~/x|@ = https://example.com
@ = ${DATABASE_URL}|@ = $HOME|@ = foo]|@ = a[0]|@ = my-app{x}|@ = ^1, <2|@ = >=1.0,<2|@ = ^1.2|@ = *|@ = 1h 30m
@ = npm run a && echo "b"|@ = x "y" z|@ = "x" "y"|@ = "a" + "b"|@ = f"x"|@ = r"x"|@ = `x`|@ = (1, 2)|@ = a\\b
@ = “x”|@ = ‘x’|@ = “Hello – world”|@ = \u00a0"x"|@ = "x"\u00a0|@ = 'it's'|@ = "say "hi""|@ = '''it'''s'''
@ = "C:\\Users\\me"|@ = "\\d+\\.\\d"|@ = "\\uD800"|@ = "\\u12"|@ = "cargo build \\~  --all"|@ = "one~  two"|@ = "x~
@ = \"""~hello~|@ = '''x''|'@ = 1|"@ = 1|@ = 'a|@ = "a"b"|@ = "a\u0001b"|@ = a"b"
@ = True|@ = TRUE|@ = False|@ = yes|@ = no|@ = on|@ = off|@ = None|@ = none|@ = null|@ = nil|@ = undefined|@ =
@ = 007|@ = 0755|@ = 1,000|@ = 1,5|@ = .5|@ = 5.|@ = 1.e5|@ = 50%|@ = 10s|@ = 10MB|@ = 3 days|@ = 0xGG|@ = 0XFF
@ = 0B12|@ = 0O7|@ = 0b12|@ = ++1|@ = +0x1|@ = -0xFF|@ = 1__000|@ = 1000_|@ = _1|@ = NaN|@ = Inf|@ = -Inf|@ = +Inf
@ = +NaN|@ = Infinity|@ = 99999999999999999999|@ = 1.2.3|@ = 127.0.0.1|@ = 1E|@ = 1e+|@ = 0x|@ = --1|@ = 1_|@ = 1 000
@ = 2024-13-45|@ = 2024-1-5|@ = 2023-02-30|@ = 01/05/2024|@ = 2024-01-05 12:00 PM|@ = 25:00:00|@ = 10 UTC|@ = 1:30
@ = 2024-01-01T00:00:00 UTC|@ = 2024-01-01T00:00:00+0100|@ = 2024-01-05 10:00:00 +02:00|@ = 2024-01-01T0:0:0
@ "x"|@ == 1|@ := 1|@ => 1|@: "x"|@ : 1|@: x|@ = = 1|@ += 1|@ -= 3|@ ?= 1|@ += ["x"]|@ = 1 = 2|@[0] = 1|@ =~  1
@ = 1,|@ = 1;|@ = "x";|@ = [1];|@ = {a = 1};|@ = 1;;|@ = 1 ;|@ = 1; @ = 2|@ = "x"; @ = "y"|@ = [1, 2]; @ = 3|@ = 1 @ = 2
@ = 1, @ = 2|[@] @ = 1|[@]; @ = 1|[@] = 1|[@=1]|[@ b]|[@, b]|[@|[[@]|[@]]|[@~x = 1|[]|[@.]|[.@]|[@..b]|[@:b]|{@}|<@>
max @ = 10|This is a @ = important|@ @ = 1|export @=1|@.. = 1|.@ = 1|@. = 1|@/b = 1|@+ = 1|größe@ = 1|@types/@ = "1"
Note: @ = 80|@ = 80, 443|@|hello @|- @ = 1|--- @|@:~  host: a|@:~  - a|<<<<<<< @|{% if @ %}|@ = {{ value }}|1 [@]
@ = [1 2]|@ = [1, 2|@ = [1; 2]|@ = ["a" "b"]|@ = [1,,2]|@ = [,1]|@ = [1, 2}|@ = [a b]|@ = [a, b]|@ = [a]|@ = [1, null, 3]
@ = [a,~  b]|@ = [~  1~  2~]|@ = ["a"~  "b"]|@ = [1, 2]]|@ = [[1, 2]|@ = [1.5.2]|@ = [a = 1]|@ = [x;y]|@ = ["a",~
@ = { x = 1; y = 2 }|@ = {x=1;y=2}|@ = {a = x; b = y}|@ = {x = 1 y = 2}|@ = {x: 1}|@ = {x = 1,, y = 2}|@ = {x}|@ = {1, 2}
@ = {x = 1|@ = {"a": 1}|@ = {x = a}|@ = {x = a b}|@ = {x = 1}}|@ = {a = [1 2]}|@ = {a = True}|@ = {,}|@ = {x = }|"@": 1,
@ = 1 // c\tc|// c\tc|@ = hello // c\tc|@ = /* off */ 0|/* a */|@ = 1 /* a */|; c\tc|@ = 1 ; c\tc|-- c\tc|@ = 1 -- c\tc
@ = 1; # c\tc|@ = hello # c\tc|@ = True # c\tc|@ = 1, # c\tc|@ = [1 # c~2]\tc|@ = [1 2] # c\tc|@ = [~1 # c~2~]\tc
@ = [ # c~  a, # d~  "b" # e~]\tc\td\te|@ = "x" // a # b\ta # b|@ = hello#c|@ = 1#c;\tc;|@ = hello; # c\tc|[@ # c\tc
@ = { x = 1; y = 2 } # c\tc|@ = 1 2 # c\tc|[@] // c\tc|["@" b = 1 # c\tc|@ = a.b # c; d\tc; d|@ = 'x # y|@ = 007 # c\tc
"""

# What may stand in a value without quotes
PIECES = """a b x1 foo Foo localhost my-app v1 1 2 10 0 3.14 -1 true false inf nan 2024-01-05 12:30:00 ${HOME} $x /usr/bin ~/x
./a ../b C:\\x a@b.c https://a.b/c?d=e&f=g a:b :8080 0.0.0.0:80 10s 50% 1/2 * ** *.toml ^1.2 >=1 <2 ~> | && || ! !x ? ; , =
== => := + ++ - -- _ . .. ... ( ) [ ] { } [0] (x) {x} <a> & % @ # #c " ' ` \\ \\n "a" 'a' “a” ‘a’ é 日本 😀 // /* */ ;; null
None yes no on off True NaN +Inf 0x1F 0b1 1e5 1_000 007 rgb(1,2,3) a=b k: {{x}} {%x%} <<a sha256:abc 5 000 v1.2.3-rc.1+5
""".split()


def comments_of(text):
    """Returns the texts of the comments of valid TOML, without markers and outer blanks."""
    found = []
    tokens = r'\"\"\"(?:\\.|[^\\])*?\"\"\"+|\'\'\'.*?\'\'\'+|"(?:\\.|[^"\\\n])*"|\'[^\'\n]*\'|#([^\n]*)'
    for match in re.finditer(tokens, text, re.S):
        if match[1] is not None:
            found.append(match[1].strip())
    return found


def strings_of(text):
    """Returns the strings of valid TOML that are on one line and in double quotes, without the quotes."""
    tokens = r'\"\"\"(?:\\.|[^\\])*?\"\"\"+|\'\'\'.*?\'\'\'+|\'[^\'\n]*\'|#[^\n]*|"((?:\\.|[^"\\\n])*)"'
    return [match[1] for match in re.finditer(tokens, text, re.S) if match[1] is not None]


class Maker:
    """Makes random documents, mistakes and values."""

    def __init__(self, seed):
        self.random = random.Random(seed)
        self.count = 0

    def name(self):
        self.count += 1
        return f"k{self.count}"

    def comment(self):
        words = ["c", "a # b", "x = 1", "[t]", 'say "hi"', "it's", "a; b", "// c", "😀"]
        return self.random.choice(["", "", "", " # " + self.random.choice(words)])

    def value(self, depth=0):
        plain = ["1", "-7", "3.5", "1e5", "inf", "0xFF", "true", "false", "1979-05-27", "07:32:00", "1979-05-27T07:32:00Z",
                 '"x"', '"a # b"', '"a = b"', '"it\'s; ok"', '"q\\"q"', "'C:\\x'", "'# no'", '""', '"[x]"', '"😀"']
        lines = ['"""\none\n  x = 1\n# no comment\n[no.header]\n"""', "'''\na = [\n'''", '"""a \\\n  b"""']
        kind = self.random.randrange(8 if depth < 2 else 4)
        if kind < 4:
            return self.random.choice(plain if kind or depth else lines)
        items = [self.value(depth + 1) for _ in range(self.random.randrange(4))]
        if kind == 4:
            return "[" + ", ".join(items) + "]"
        if kind == 5:
            return "[\n" + "".join(f"    {item},{self.comment()}\n" for item in items) + "]"
        if kind == 6:
            items = [item for item in items if "\n" not in item]
            return "{" + ", ".join(f"{self.name()} = {item}" for item in items) + "}"
        return self.random.choice(plain)

    def statement(self):
        kind = self.random.randrange(12)
        if kind == 0:
            return self.random.choice(["", "# note", "# [x]", "#a = 1", "  # a; b"]) + "\n"
        if kind == 1:
            header = self.random.choice(["[%s]", "[[%s]]", "[ %s ]", "[%s.a]", '["%s".b]'])
            return header % self.name() + self.comment() + "\n"
        key = self.random.choice(["%s", "%s", "%s", '"%s"', "'%s x'", "%s.a", "%s . b", '%s."c.d"']) % self.name()
        return self.random.choice(["", "", "  "]) + key + " = " + self.value() + self.comment() + "\n"

    def document(self):
        return [self.statement() for _ in range(self.random.randrange(1, 12))]

    def mistake(self):
        """Returns a statement of MISTAKES, and the texts of its comments."""
        line, *comments = self.random.choice(MISTAKES.replace("\n", "|").strip("|").split("|")).split("\t")
        line = re.sub(r"(?<!a)@", lambda _: self.name(), line)
        return re.sub(r"~(?![/>])", "\n", line) + "\n", comments

    def change(self, statement):
        """Returns a valid statement with something changed, and None, since its comments may have changed too."""
        pick = self.random.randrange(5)
        line = statement.rstrip("\n")
        if pick == 0:
            places = [at for at, c in enumerate(line) if c in "\"'=,[]{}"]
            if places:
                at = self.random.choice(places)
                return line[:at] + line[at + 1:] + "\n", None
        if pick == 1:
            return line.replace(" = ", self.random.choice([": ", " ", " == ", " := ", " => ", " += "]), 1) + "\n", None
        if pick == 2:
            return line.replace(", ", self.random.choice([" ", "; ", ",, ", " , , "]), 1) + "\n", None
        if pick == 3:
            at = self.random.randrange(len(line) + 1)
            return line[:at] + self.random.choice(";,\"'=x# []{}") + line[at:] + "\n", None
        return line + self.random.choice([";", ",", " ;", " x", "]", "}", " // c", " y = 1", "; z = 2"]) + "\n", None

    def unquoted(self):
        """Returns an assignment of a value without quotes."""
        pieces = [self.random.choice(PIECES) for _ in range(self.random.choice([1, 1, 1, 2, 2, 3, 4]))]
        value = self.random.choice(["", "", "", " "]).join(pieces)
        form = self.random.choice(["%s = %s", "%s = %s", "%s=%s", "%s = [%s]", "%s = [1, %s, 2]", "%s = { a = %s }"])
        return form % (self.name(), value) + "\n", None


class Case:
    """A document with a mistake: the text before the statement, the statement, the text after it."""

    def __init__(self, maker, is_value):
        statements = maker.document()
        self.is_crlf = maker.random.randrange(5) == 0
        self.is_divided = False
        at = maker.random.randrange(len(statements) + 1)
        after = statements[at:]
        if is_value:
            bad, self.comments = maker.unquoted()
        elif maker.random.randrange(2) and after and after[0].strip(" \n")[:1] not in ("", "#"):
            bad, self.comments = maker.change(after[0])
            self.is_divided = "\n" in bad[:-1]
            after = after[1:]
        else:
            bad, self.comments = maker.mistake()
            if self.comments == [] and "\n" not in bad[:-1] and maker.random.randrange(4) == 0:
                bad = bad[:-1] + " # z\n"
                self.comments = None
        self.before, self.bad, self.after = "".join(statements[:at]), bad, "".join(after)
        if maker.random.randrange(4) == 0 and not after:
            self.bad = self.bad[:-1]
        if self.is_crlf:
            for field in ("before", "bad", "after"):
                setattr(self, field, getattr(self, field).replace("\n", "\r\n"))
        self.text = self.before + self.bad + self.after
        self.is_crlf = "\r\n" in self.text

    def is_mistake(self):
        try:
            tomllib.loads(self.text)
            return False
        except (tomllib.TOMLDecodeError, ValueError):
            return True

    def wrong(self, new, is_unsafe, errors, left):
        """Returns what does not hold for the file after the fixes, or None. It had `errors` errors, and has `left` now."""
        if new == self.text:
            return None
        if not new.startswith(self.before) or not new.endswith(self.after):
            return "outside"
        if len(new) < len(self.before) + len(self.after):
            return "outside"
        made = new[len(self.before):len(new) - len(self.after)]
        if self.is_crlf and "\n" in made.replace("\r\n", ""):
            return "outside"
        # (TOML 1.1 allows a comma before `}`)
        older = [re.sub(r",(\s*})", r"\1", text) for text in (made, new)]
        try:
            statement, tree = map(tomllib.loads, older)
        except (tomllib.TOMLDecodeError, ValueError):
            return None if self.is_divided and left < errors else "faultless"
        is_header = any(line.lstrip().startswith("[") for line in made.split("\n")[:1])
        if not is_header and not contains(tree, tomllib.loads(self.before + self.after)):
            return "others"
        if self.comments is not None:
            if comments_of(made) != self.comments:
                return "comments"
        elif not keeps_comments(self.bad, made):
            return "comments"
        if not is_unsafe and not quotes_fit(self.bad, made):
            return "quotes"
        return None


def contains(tree, part):
    """Returns whether a tree has all the values of another one."""
    if isinstance(part, dict) and isinstance(tree, dict):
        return all(key in tree and contains(tree[key], value) for key, value in part.items())
    if isinstance(part, list) and isinstance(tree, list) and len(part) == len(tree):
        return all(contains(*pair) for pair in zip(tree, part))
    return repr(tree) == repr(part)


def keeps_comments(old, new):
    """Returns whether each comment of a fixed statement ends a line of the old one, and the other way round as far as
    the old statement has only closed strings."""
    lines = old.replace("\r", "").split("\n")
    ends = [line.rstrip() for line in lines]
    for comment in comments_of(new.replace("\r", "")):
        marked = [line for line in ends if line.endswith(comment)]
        fronts = [line[:len(line) - len(comment)].rstrip() for line in marked]
        if not any(front.endswith(("#", "//", ";", "--")) for front in fronts):
            return False
    # (a line that begins with `;` or `//` is a comment, with all that is in it)
    others = [line for line in lines if not line.lstrip().startswith((";", "//"))]
    plain = re.sub(r'"(?:\\.|[^"\\\n])*"|\'[^\'\n]*\'', '""', "\n".join(others))
    if re.search(r"[\"'`“”‘’]", plain.replace('""', "")):
        return True
    wanted = [match[1].strip() for match in re.finditer(r"#([^\n]*)", plain)]
    have = [re.sub(r'"(?:\\.|[^"\\\n])*"|\'[^\'\n]*\'', '""', text) for text in comments_of(new.replace("\r", ""))]
    return all(text in have for text in wanted)


def quotes_fit(old, new):
    """Returns whether each string that is in a fixed statement but not in the old one was a whole value there: after
    `=`, `:`, `[`, `,` or `{` and blanks, line ends or comments, before a line end, a comment, a comma or a bracket."""
    for string in strings_of(new):
        if any(left + string + right in old for left, right in ('""', "''", "``", "“”", "‘’", "“\"", "\"”")):
            continue
        if "“" in old or "‘" in old or "`" in old or "\\" in string:
            continue
        if not re.fullmatch(r"[^\s\"'#;=,\\\[\]{}]+", string):
            return False
        before = r"(?:[=:\[,{]|=>)(?:\s|#[^\n]*\n)*"
        after = r"[ \t]*(?:;?[ \t]*(?:[\r\n#]|//|--|;|$)|[,\]}])"
        if not re.search(before + re.escape(string) + after, old):
            return False
    return True


def run(program, cases, is_unsafe, folder):
    """Fixes these cases, and returns what is wrong: cases with the names of what does not hold."""
    shutil.rmtree(folder, ignore_errors=True)
    os.makedirs(folder)
    paths = [f"{folder}/{at:04}.toml" for at in range(len(cases))]
    for path, case in zip(paths, cases):
        with open(path, "w", encoding="utf-8", newline="") as file:
            file.write(case.text)
    counts = []
    for options in ([], ["--fix", "--unsafe-fixes"] if is_unsafe else ["--fix"]):
        words = [program, "check", "--format", "short", *options, folder]
        result = subprocess.run(words, capture_output=True, text=True, timeout=600)
        if result.returncode not in (0, 1):
            print(result.stderr[-2000:])
            sys.exit(f"fixes: status {result.returncode}")
        counts.append(collections.Counter(line.split(":")[0] for line in result.stdout.splitlines()))
    wrong, changed = [], 0
    for path, case in zip(paths, cases):
        with open(path, encoding="utf-8", newline="") as file:
            new = file.read()
        changed += new != case.text
        name = case.wrong(new, is_unsafe, counts[0][path], counts[1][path])
        if name:
            wrong.append((name, case.text, new))
    told = re.search(r"^fixed \d+ errors? in (\d+) files?$", result.stderr, re.M)
    if (int(told[1]) if told else 0) != changed:
        wrong.append(("told", f"{changed} files were changed\n", result.stderr))
    return wrong, changed


def main():
    parser = argparse.ArgumentParser(description=__doc__, formatter_class=argparse.RawDescriptionHelpFormatter)
    parser.add_argument("--mistakes", type=int, default=20000)
    parser.add_argument("--values", type=int, default=2000)
    parser.add_argument("--seed", type=int, default=1)
    parser.add_argument("--unsafe", action="store_true")
    parser.add_argument("--keep", action="store_true")
    parser.add_argument("program", nargs="?")
    options = parser.parse_args()
    program = options.program or subprocess.run(
        ["bash", f"{TOP}/scripts/native.sh", "toml_span_cli"], stdout=subprocess.PIPE, text=True, check=True
    ).stdout.strip()
    maker = Maker(options.seed)
    folder = tempfile.mkdtemp(prefix="fixes-")
    wrong, changed, tried = [], 0, 0
    wanted = [False] * options.mistakes + [True] * options.values
    batch = []
    try:
        for at, is_value in enumerate(wanted):
            case = Case(maker, is_value)
            while not case.is_mistake():
                case = Case(maker, is_value)
            batch.append(case)
            if len(batch) == 500 or at + 1 == len(wanted):
                found, count = run(os.path.abspath(program), batch, options.unsafe, f"{folder}/{at}")
                wrong, changed, tried = wrong + found, changed + count, tried + len(batch)
                if not options.keep:
                    shutil.rmtree(f"{folder}/{at}")
                batch = []
    finally:
        if not options.keep:
            shutil.rmtree(folder, ignore_errors=True)
    for name, old, new in sorted(wrong, key=lambda one: one[0])[:: max(len(wrong) // 20, 1)]:
        print(f"fixes: wrong: {name}")
        lines = difflib.unified_diff(old.splitlines(True), new.splitlines(True), "before", "after", n=1)
        sys.stdout.writelines(line if line.endswith("\n") else line + "\n" for line in lines)
    kinds = {name: sum(one[0] == name for one in wrong) for name in sorted({one[0] for one in wrong})}
    print(f"fixes: {tried} mistakes, {changed} files fixed, {len(wrong)} wrong {kinds or ''}".rstrip())
    if options.keep:
        print(folder)
    sys.exit(1 if wrong else 0)


if __name__ == "__main__":
    main()
