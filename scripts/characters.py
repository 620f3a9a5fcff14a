#!/usr/bin/env python3
"""Checks the rows `each` of toml_span_rows against the grammar of TOML 1.1: characters.py [--print]

A row `each: TEXT` has a letter for each ASCII character that replaces the `@` of TEXT, as the module `characters` of
toml_span_rows says. The letters are derived here from the ABNF of TOML 1.1, written as regular expressions, and from
the calendar; nothing is taken from the program. On the documents of the suite toml-test that are in ASCII this grammar
agrees, except for clashes, dates and deep nesting. --print prints the rows, for crates/toml_span_rows/stdout.
"""
import datetime
import os
import re
import sys

ROWS = os.path.join(os.path.dirname(os.path.dirname(os.path.abspath(__file__))), "crates/toml_span_rows/stdout")
# `@` is the character; the rest is written as in rows, where `\n` is a line feed and `\\` a backslash
CONTEXTS = r"""
@
@a = 1
a = 1@
a = 1\n@b = 2
#@
#@\n
a = 1 # x@
a = 1 @
@ = 1
a@b = 1
a @ = 1
a@
a.@ = 1
"@" = 1
'@' = 1
"\\@" = 1
a =@
a = @
a = @1
a = tru@
a = true@
a = @nf
a = na@
a = -@
a = +@
a = -@1
a = 0@
a = 0@1
a = 1@
a = 1@0
a = 1_@
a = 1.@
a = 1.@5
a = 1.5@
a = 1.5@1
a = 1e@
a = 1e@5
a = 1e+@
a = 1.5e@
a = 0x@
a = 0x1@
a = 0x1@1
a = 0o@
a = 0o1@
a = 0b@
a = 0b1@
a = 202@-01-01
a = 2024@01-01
a = 2024-0@-01
a = 2024-1@-01
a = 2024-01-@1
a = 2024-01-3@
a = 2024-02-2@
a = 2023-02-2@
a = 2024-02-3@
a = 2024-04-3@
a = 2024-01-01@
a = 2024-01-01@00:00
a = 2024-01-01T00:00@
a = 2024-01-01T00:00:00@
a = 2024-01-01T00:00:00@00:00
a = 2024-01-01T00:00:00+0@:00
a = 2024-01-01T00:00:00+2@:00
a = 2024-01-01T00:00:00+00:@0
a = 0@:00
a = 1@:00
a = 2@:00
a = 00@00
a = 00:@0
a = 00:00@
a = 00:00:@5
a = 00:00:0@
a = 00:00:00@
a = 00:00:00.@
a = 00:00:00.5@
a = "@"
a = '@'
a = \"""@\"""
a = '''@'''
a = "\\@"
a = \"""\\@\"""
a = '\\@'
a = "\\x@1"
a = "\\x1@"
a = "\\x123@"
a = "\\u00@1"
a = "\\u@800"
a = "\\ud@00"
a = "\\uD@FF"
a = "\\U00@00041"
a = "\\U000@0041"
a = "\\U0010@000"
a = "\\U0000d@00"
a = "x"@
a = "x@
a = \"""x@
a = [@]
a = [1@]
a = [1@2]
a = [1,@]
a = [1,@2]
a = {@}
a = {b@}
a = {b = 1@}
a = {b = 1@c = 2}
a = {b = 1,@}
a = {b@= 1}
[@]
[a@]
[a@b]
[a.@]
[a]@
[a] @
[a] # x@
[a #@]
[a # x@
[@a]
[[a@]]
[[a]@]
[[a]]@
[[a@
""".strip().replace('\\"', '"').split("\n")

# ---- the ABNF of TOML 1.1

NEWLINE, WS = r"(?:\r?\n)", r"[ \t]*"
COMMENT = r"(?:#[\t -~]*)"
GAP = rf"(?:[ \t]|{COMMENT}?{NEWLINE})*"
HEX, DIGITS = "[0-9A-Fa-f]", "[0-9](?:_?[0-9])*"
SCALAR = [rf"x{HEX}{{2}}", rf"u(?![dD][89A-Fa-f]){HEX}{{4}}"]
SCALAR += [rf"U(?:0000(?![dD][89A-Fa-f])|000[1-9A-Fa-f]|0010){HEX}{{4}}"]
ESCAPED = rf"\\(?:[\"\\befnrt]|{'|'.join(SCALAR)})"
BASIC = rf'"(?:[\t !#-\[\]-~]|{ESCAPED})*"'
LITERAL = r"'[\t -&(-~]*'"
LINES = rf'(?:[\t !#-\[\]-~]|{ESCAPED}|{NEWLINE}|\\[ \t]*{NEWLINE}(?:[ \t]|{NEWLINE})*)'
LONG_BASIC = rf'"""{NEWLINE}?{LINES}*(?:"{{1,2}}{LINES}+)*"{{0,2}}"""'
RAW = rf"(?:[\t -&(-~]|{NEWLINE})"
LONG_LITERAL = rf"'''{NEWLINE}?{RAW}*(?:'{{1,2}}{RAW}+)*'{{0,2}}'''"
NUMBER = rf"[+-]?(?:0|[1-9](?:_?[0-9])*)"
INTEGER = rf"(?:{NUMBER}|0x{HEX}(?:_?{HEX})*|0o[0-7](?:_?[0-7])*|0b[01](?:_?[01])*)"
EXPONENT = rf"[eE][+-]?{DIGITS}"
FLOAT = rf"(?:{NUMBER}(?:\.{DIGITS}(?:{EXPONENT})?|{EXPONENT})|[+-]?(?:inf|nan))"
DATE, TIME = "([0-9]{4}-[0-9]{2}-[0-9]{2})", r"([0-9]{2}:[0-9]{2}(?::[0-9]{2}(?:\.[0-9]+)?)?)"
MOMENT = re.compile(rf"{DATE}(?:[Tt ]{TIME}(?:[Zz]|[+-]([0-9]{{2}}:[0-9]{{2}}))?)?|{TIME}")
KINDS = {"s": rf"(?:{LONG_BASIC}|{LONG_LITERAL}|{BASIC}|{LITERAL})", "i": INTEGER, "f": FLOAT, "b": "(?:true|false)"}
KINDS["d"] = re.sub(r"(?<!\\)\((?!\?)", "(?:", MOMENT.pattern)
SIMPLE = rf"(?:[A-Za-z0-9_-]+|{BASIC}|{LITERAL})"
KEY = rf"{SIMPLE}(?:{WS}\.{WS}{SIMPLE})*"
VALUE = f"(?:{'|'.join(KINDS.values())})"
# (values inside values inside values are enough here; line ends around the `=` of a pair are in docs/LANGUAGE.md alone)
for _ in range(2):
    PAIR = rf"{KEY}{GAP}={GAP}{VALUE}"
    KINDS["a"] = rf"(?:\[{GAP}(?:{VALUE}{GAP}(?:,{GAP}{VALUE}{GAP})*(?:,{GAP})?)?\])"
    KINDS["t"] = rf"(?:\{{{GAP}(?:{PAIR}{GAP}(?:,{GAP}{PAIR}{GAP})*(?:,{GAP})?)?\}})"
    VALUE = f"(?:{'|'.join(KINDS.values())})"
TABLE, TABLES = rf"\[{WS}{KEY}{WS}\]", rf"\[\[{WS}{KEY}{WS}\]\]"
LINE = rf"{WS}(?:{KEY}{WS}={WS}{VALUE}|{TABLE}|{TABLES})?{WS}{COMMENT}?"
DOCUMENT = re.compile(rf"{LINE}(?:{NEWLINE}{LINE})*")
END = rf"(?={WS}{COMMENT}?(?:{NEWLINE}|\Z))"
FIRST = re.compile(rf"{GAP}(?:(?P<key>{KEY}){WS}={WS}(?P<value>{VALUE}){END}|(?P<tables>\[\[)|(?P<table>\[))")


def is_moment(text):
    """Returns whether the date and the times are in the calendar."""
    date, time, offset, alone = MOMENT.fullmatch(text).groups()
    try:
        for words in filter(None, (time, offset, alone)):
            datetime.time(*map(int, words.split(".")[0].split(":")))
        return not date or bool(datetime.date(*map(int, date.split("-"))))
    except ValueError:
        return False


def string_of(text):
    """Returns the content of a string."""
    quotes = text[:3] if text[:3] in ('"""', "'''") else text[:1]
    inner = text[len(quotes) : -len(quotes)]
    inner = re.sub(r"\A\r?\n", "", inner) if len(quotes) == 3 else inner
    if quotes[0] == "'":
        return inner
    named = {"b": "\b", "e": "\x1b", "f": "\f", "n": "\n", "r": "\r", "t": "\t", '"': '"', "\\": "\\"}
    form = rf"\\(?:([\"\\befnrt])|x({HEX}{{2}})|u({HEX}{{4}})|U({HEX}{{8}})|\s+)"
    code = lambda it: it[2] or it[3] or it[4]
    return re.sub(form, lambda it: named[it[1]] if it[1] else chr(int(code(it), 16)) if code(it) else "", inner)


def shown(text, quote):
    """Returns a text or a character as Rust's `{:?}` shows it."""
    named = {"\t": r"\t", "\r": r"\r", "\n": r"\n", "\0": r"\0", "\\": r"\\", quote: f"\\{quote}"}
    plain = lambda c: c if c.isprintable() else f"\\u{{{ord(c):x}}}"
    return quote + "".join(named.get(c) or plain(c) for c in text) + quote


def answer(context):
    """Returns the lines of the answer of a row."""
    text = re.sub(r"\\(.)", lambda it: {"n": "\n", "\\": "\\"}[it[1]], context)
    before, after = text.split("@")
    letters, strings = "", []
    for c in map(chr, range(128)):
        document, letter = before + c + after, "-"
        if DOCUMENT.fullmatch(document):
            first = FIRST.match(document)
            if not first:
                letter = "."
            elif value := first["value"]:
                letter = next(kind for kind, form in KINDS.items() if re.fullmatch(form, value))
                if letter == "d" and not is_moment(value):
                    letter = "-"
                elif letter == "s" and string_of(value) != c:
                    strings.append(f"{shown(c, chr(39))} {shown(string_of(value), chr(34))}")
                if letter != "-" and not re.fullmatch(SIMPLE, first["key"]):
                    letter = "t"
            else:
                letter = "a" if first["tables"] else "t"
        letters += letter
    return [letters[at : at + 32] for at in range(0, 128, 32)] + strings


def main(words):
    rows = {f"each: {it}": answer(it) for it in CONTEXTS}
    lines = "".join("\n".join([row, *(f"    {it}" for it in lines), ""]) for row, lines in rows.items())
    if words == ["--print"]:
        print(lines, end="")
        return 0
    with open(ROWS, encoding="utf-8") as it:
        kept = {row.split("\n")[0]: row for row in re.findall(r"(?m)^each: .*\n(?:    .*\n)*", it.read())}
    made = {row.split("\n")[0]: row for row in re.findall(r"(?m)^each: .*\n(?:    .*\n)*", lines)}
    wrong = [it for it in {**made, **kept} if made.get(it) != kept.get(it)]
    for it in wrong:
        print(f"characters: `{it}` should be\n{made.get(it, '    (no row)')}".rstrip())
    print(f"characters: {len(made)} rows, {len(wrong)} wrong")
    return 1 if wrong else 0


if __name__ == "__main__":
    sys.exit(main(sys.argv[1:]))
