"""Tests of the module: python3 test_toml_span.py FOLDER

FOLDER has the stored runs of `toml-span`, as `scripts/transcripts.py expand toml_span_cli FOLDER` writes them. A run
tagged_NAME has a document in `stdin`, and its values as JSON, each scalar with its type, in `stdout`.
"""

import ast
import contextlib
import copy
import glob
import io
import json
import math
import os
import pathlib
import pickle
import re
import sys
import tempfile
import threading
import unittest
from datetime import date, datetime, time, timedelta, timezone
from decimal import Decimal

import toml_span
from toml_span.__main__ import main

try:
    import tomllib
except ImportError:
    tomllib = None

FOLDER = sys.argv.pop() if len(sys.argv) > 1 else sys.exit(__doc__)
RUNS = sorted(glob.glob(os.path.join(FOLDER, "tagged_*")))
DOCUMENTS = [os.path.join(run, "stdin") for run in RUNS if not os.path.exists(os.path.join(run, "status"))]


def text_of(path):
    with open(path, encoding="utf-8", newline="") as file:
        return file.read()


def tagged(value):
    """A value with the types of its scalars, as in the JSON, except for the texts of floats and dates."""
    if isinstance(value, dict):
        return {name: tagged(held) for name, held in value.items()}
    if isinstance(value, list):
        return [tagged(held) for held in value]
    if isinstance(value, bool):
        return ("bool", "true" if value else "false")
    if isinstance(value, int):
        return ("integer", str(value))
    if isinstance(value, float):
        return ("float", repr(value))
    if isinstance(value, str):
        return ("string", value)
    return ("moment", value)


def moment_of(kind, text):
    """A date or time of the JSON, as Python's own parser reads it."""
    text = text.upper().replace("Z", "+00:00")
    # (older versions of Python want three or six digits)
    text = re.sub(r"\.(\d+)", lambda found: "." + found[1][:6].ljust(6, "0"), text)
    if kind == "time-local":
        return time.fromisoformat(text)
    if kind == "date-local":
        return date.fromisoformat(text)
    return datetime.fromisoformat(text)


def untagged(value):
    if isinstance(value, list):
        return [untagged(held) for held in value]
    if set(value) == {"type", "value"} and isinstance(value["type"], str):
        kind, text = value["type"], value["value"]
        if kind == "float":
            return (kind, repr(float(text)))
        if kind in ("string", "integer", "bool"):
            return (kind, text)
        return ("moment", moment_of(kind, text))
    return {name: untagged(held) for name, held in value.items()}


class Loads(unittest.TestCase):
    def test_documents_are_what_their_json_says(self):
        self.assertGreater(len(DOCUMENTS), 10)
        for path in DOCUMENTS:
            with self.subTest(path):
                with open(os.path.join(os.path.dirname(path), "stdout"), encoding="utf-8") as file:
                    wanted = untagged(json.load(file))
                self.assertEqual(tagged(toml_span.loads(text_of(path))), wanted)
                self.assertEqual(tagged(toml_span.parse(text_of(path)).value), wanted)

    @unittest.skipIf(tomllib is None, "no tomllib to compare with")
    def test_tomllib_has_the_same(self):
        same = 0
        for path in DOCUMENTS:
            text = text_of(path)
            try:
                wanted = tomllib.loads(text)
            except tomllib.TOMLDecodeError:
                continue
            self.assertEqual(tagged(toml_span.loads(text)), tagged(wanted), path)
            for parse_float in (str, Decimal):
                ours = toml_span.loads(text, parse_float=parse_float)
                theirs = tomllib.loads(text, parse_float=parse_float)
                # (a repr has the keys in their order)
                self.assertEqual(repr(ours), repr(theirs), path)
            same += 1
        self.assertGreater(same, 10)

    def test_load_reads_a_binary_file(self):
        self.assertEqual(toml_span.load(io.BytesIO(b"a = 1")), {"a": 1})
        with self.assertRaises(TypeError):
            toml_span.load(io.StringIO("a = 1"))
        with self.assertRaises(TypeError):
            toml_span.loads(b"a = 1")

    def test_kinds(self):
        text = (
            "a = 1_000\nb = 0.5\nc = true\nd = 1979-05-27T07:32:00.123456789-07:00\ne = 1979-05-27\nf = 07:32:00\n"
            "g = [1, [2]]\nh = 'caf\u00e9'\ni = \"\\u00e9\\t\"\nj = -inf\n\u006b.'\u00e9' = 1e5\n"
        )
        zone = timezone(timedelta(hours=-7))
        self.assertEqual(
            toml_span.loads(text),
            {
                "a": 1000,
                "b": 0.5,
                "c": True,
                "d": datetime(1979, 5, 27, 7, 32, 0, 123456, tzinfo=zone),
                "e": date(1979, 5, 27),
                "f": time(7, 32),
                "g": [1, [2]],
                "h": "caf\u00e9",
                "i": "\u00e9\t",
                "j": -math.inf,
                "k": {"\u00e9": 100000.0},
            },
        )

    def test_times_and_dates(self):
        # fractions beyond microseconds are cut off
        for text, value in (
            ("07:32:00.1", time(7, 32, 0, 100000)),
            ("07:32:00.12", time(7, 32, 0, 120000)),
            ("07:32:00.9999999", time(7, 32, 0, 999999)),
            ("07:32", time(7, 32)),
            ("1979-05-27", date(1979, 5, 27)),
            ("1979-05-27 07:32", datetime(1979, 5, 27, 7, 32)),
            ("1979-05-27t07:32:00.12z", datetime(1979, 5, 27, 7, 32, 0, 120000, timezone.utc)),
            ("1979-05-27T00:32:00.5-07:30", datetime(1979, 5, 27, 0, 32, 0, 500000, timezone(-timedelta(hours=7.5)))),
        ):
            self.assertEqual(toml_span.loads(f"t = {text}"), {"t": value}, text)

    def test_keys_are_in_the_order_of_the_text(self):
        for text, shown in (
            ("b = 1\na = 2", "{'b': 1, 'a': 2}"),
            ("[z.y]\n[b]\n[z.a]\n[z]\nx = 1", "{'z': {'y': {}, 'a': {}, 'x': 1}, 'b': {}}"),
            # the key of `b` is that of the header, but its dotted key comes before `a`
            ("b.z = 1\na = 2\n[b.d]\n", "{'b': {'z': 1, 'd': {}}, 'a': 2}"),
            ("[[b]]\nz = 1\ny = 2\n[a]\n[[b]]", "{'b': [{'z': 1, 'y': 2}, {}], 'a': {}}"),
            ("x = [{c = 1, b = 2, a.z = 3, a.y = 4}]", "{'x': [{'c': 1, 'b': 2, 'a': {'z': 3, 'y': 4}}]}"),
            ("".join(f"k{9 * at % 13} = 0\n" for at in range(13)), repr({f"k{9 * at % 13}": 0 for at in range(13)})),
        ):
            self.assertEqual(repr(toml_span.loads(text)), shown)

    def test_integers_and_long_strings(self):
        numbers = [0, 255, 256, -1, 2147483647, 2147483648, -2147483648, -2147483649, 2**63 - 1, -(2**63)]
        self.assertEqual(toml_span.loads(f"a = {numbers}"), {"a": numbers})
        for size in (255, 256, 70000):
            self.assertEqual(toml_span.loads(f"{'k' * size} = '{'v' * size}'"), {"k" * size: "v" * size})

    def test_parse_float(self):
        self.assertEqual(toml_span.loads("a = +1_0.50", parse_float=str), {"a": "+1_0.50"})
        with self.assertRaisesRegex(ValueError, "parse_float must not return dicts or lists"):
            toml_span.loads("a = 1.0", parse_float=lambda literal: [])

    def test_longest(self):
        text = "#" * 16777216
        self.assertEqual(toml_span.loads(text), {})
        with self.assertRaisesRegex(toml_span.TOMLDecodeError, "^the file is larger than 16 MiB"):
            toml_span.loads(text + "#")

    def test_many_short_values(self):
        text = "a = [" + "1," * 100000 + "]"
        self.assertEqual(len(toml_span.loads(text)["a"]), 100000)


    def test_the_deepest_document_in_a_small_thread(self):
        headers = "".join(f"[[{'.'.join('h' * parts)}]]\n" for parts in range(1, 129))
        found = []
        size = threading.stack_size(704 * 1024)
        try:
            thread = threading.Thread(target=lambda: found.append(toml_span.loads(headers + "k." * 127 + "k = 1")))
            thread.start()
            thread.join()
        finally:
            threading.stack_size(size)
        value, depth = found[0], 0
        while value != 1:
            value, depth = next(iter(value.values())) if isinstance(value, dict) else value[0], depth + 1
        self.assertEqual(depth, 3 * 128)


class Errors(unittest.TestCase):
    def fault(self, text):
        with self.assertRaises(toml_span.TOMLDecodeError) as caught:
            toml_span.loads(text)
        return caught.exception

    def test_a_duplicate_key(self):
        error = self.fault("# \u00e9\na = 1\n  a = 2\n")
        self.assertIsInstance(error, ValueError)
        self.assertEqual(error.msg, "duplicate key: `a`")
        self.assertEqual(str(error), "duplicate key: `a` (at line 3, column 3)")
        self.assertEqual((error.pos, error.lineno, error.colno), (12, 3, 3))
        self.assertEqual((error.code, error.span), ("duplicate-key", (13, 14)))
        self.assertEqual(error.doc[error.pos], "a")
        self.assertIn("  a = 2\n", error.report)

    @unittest.skipIf(sys.version_info < (3, 11), "there is no tomllib")
    def test_tomllib_catches_it(self):
        import tomllib

        with self.assertRaises(tomllib.TOMLDecodeError):
            toml_span.loads("a")

    def test_the_end(self):
        error = self.fault("a = ")
        self.assertEqual(error.code, "unexpected-eof")
        self.assertTrue(str(error).endswith("(at end of document)"))

    def test_columns_count_characters(self):
        error = self.fault("'\u00e9' = 1 2")
        self.assertEqual((error.lineno, error.colno), (1, 9))

    def test_a_name_in_the_report(self):
        for name in ("settings.toml", pathlib.Path("settings.toml"), b"settings.toml"):
            with self.assertRaises(toml_span.TOMLDecodeError) as caught:
                toml_span.parse("=", name)
            self.assertIn("--> settings.toml:1:1", caught.exception.report)

    def test_a_byte_order_mark_has_no_column(self):
        for text, place in (("\ufeffa = b", (1, 5)), ("\ufeffa = 1\nb = c", (2, 5)), ("\ufeff=", (1, 1))):
            error = self.fault(text)
            self.assertEqual((error.lineno, error.colno), place)
            self.assertIn(f" --> <string>:{place[0]}:{place[1]}\n", error.report)
            self.assertEqual(error.char_span[0], error.pos)
        root = toml_span.parse("\ufeff'\u00e9' = 1\nb = 2")
        self.assertEqual([(node.line, node.column) for node in root.values()], [(1, 7), (2, 5)])
        self.assertEqual((root.column, root["\u00e9"].char_span), (1, (7, 8)))

    def test_the_message_is_the_headline(self):
        texts = {
            "[a": "this header is not closed",
            "a = True": "booleans are lowercase",
            "a = 1\na = 2": "duplicate key: `a`",
        }
        for text, msg in texts.items():
            self.assertEqual(self.fault(text).msg, msg)

    def test_what_python_has_no_date_for(self):
        self.assertEqual(self.fault("a = 1990-12-31T23:59:60Z").span, (4, 24))
        self.assertEqual(self.fault("a = 0000-01-01").lineno, 1)

    def test_integers_beyond_64_bits(self):
        for text in ("9223372036854775808", "-9_223_372_036_854_775_809", "0xffff_ffff_ffff_ffff", "0b1" + 64 * "0"):
            error = self.fault(f"a = {text}")
            self.assertEqual(error.msg, "integer out of range: it must be from -2**63 to 2**63 - 1")
            self.assertIn(text[2:], "0x" + error.doc[slice(*error.char_span)])
        self.assertEqual(self.fault("a = 01").msg, "octal numbers begin with `0o`")

    def test_a_surrogate(self):
        for read in (toml_span.loads, toml_span.parse):
            with self.assertRaises(toml_span.TOMLDecodeError) as caught:
                read("a = 1\n# \ud800")
            self.assertEqual((caught.exception.lineno, caught.exception.colno), (2, 3))

    def test_messages_have_no_control_characters(self):
        for text in ('a = "\x1b[31m"', "a = 1 \x9b", "a\u202e = 1", "'\u202e' = 1\n'\u202e' = 2"):
            self.assertTrue(str(self.fault(text)).isprintable(), text)

    def test_the_span_has_whole_characters_of_the_text(self):
        for text, span in (("a", (1, 1)), ("a\U0001f600", (1, 5)), ("a = [1 2", (7, 8)), ("a = 1 \u00e9", (6, 8))):
            error = self.fault(text)
            self.assertEqual(error.span, span, text)
            self.assertEqual(error.doc[slice(*error.char_span)], text.encode()[slice(*span)].decode(), text)

    def test_char_span(self):
        error = self.fault("'\u00e9' = 1\n'\u00e9' = 2")
        self.assertEqual((error.span, error.char_span), ((10, 12), (9, 10)))
        self.assertEqual(error.doc[slice(*error.char_span)], "\u00e9")

    def test_pickles(self):
        error = self.fault("a = 1\na = 2\n")
        again = pickle.loads(pickle.dumps(error))
        self.assertEqual((str(again), again.span, again.report), (str(error), error.span, error.report))


class Nodes(unittest.TestCase):
    TEXT = "list = [1, 'x', [true]]\n\n[server]\nport = 8080\n'h\u00f6st' = \"a\\tb\"\n[[item]]\n[[item]]\nn = 2.50\n"

    def setUp(self):
        self.root = toml_span.parse(self.TEXT)
        self.data = self.TEXT.encode()

    def shown(self, span):
        return self.data[span[0] : span[1]].decode()

    def test_places(self):
        port = self.root["server"]["port"]
        self.assertEqual((port.value, port.kind, port.line, port.column), (8080, "integer", 4, 8))
        self.assertEqual(self.shown(port.span), "8080")
        self.assertEqual(self.shown(port.key_span), "port")
        self.assertEqual(port.path, ("server", "port"))
        self.assertEqual(port.parent.path, ("server",))
        self.assertEqual(self.root.span, (0, len(self.data)))
        self.assertIsNone(self.root.key_span)
        self.assertIsNone(self.root.parent)
        host = self.root["server"]["h\u00f6st"]
        self.assertEqual((host.value, self.shown(host.span)), ("a\tb", "a\\tb"))
        self.assertEqual(host.key, "h\u00f6st")

    def test_sequences(self):
        items = self.root["list"]
        self.assertEqual(len(items), 3)
        self.assertEqual([node.kind for node in items], ["integer", "string", "array"])
        self.assertEqual(items[-1][0].value, True)
        self.assertEqual(items[1].path, ("list", 1))
        self.assertIsNone(items[1].key_span)
        self.assertEqual(items[1].key, None)
        self.assertEqual(self.root["item"][1]["n"].value, 2.5)
        self.assertEqual([node.value for node in items[:2]], [1, "x"])
        self.assertEqual(items[::-1][0].path, ("list", 2))
        for wrong, error in ((3, IndexError), (-4, IndexError), (1.5, TypeError)):
            with self.assertRaises(error):
                items[wrong]
        with self.assertRaisesRegex(TypeError, "^indices of the array at line 1 must be integers, not 'x'$"):
            items["x"]

    def test_copies_and_pickles(self):
        pair = self.root["list"][0], self.root["server"]["h\u00f6st"]
        for again in (copy.copy(pair[1]), copy.deepcopy(pair)[1], pickle.loads(pickle.dumps(pair))[1]):
            self.assertEqual((again.path, again.span, again.value), (pair[1].path, pair[1].span, "a\tb"))
        again = pickle.loads(pickle.dumps(pair))
        self.assertEqual(again[0].parent.parent["server"].line, 3)

    def test_mappings(self):
        self.assertEqual(list(self.root), ["list", "server", "item"])
        self.assertEqual(sorted(self.root), ["item", "list", "server"])
        self.assertEqual(self.root.keys(), ["list", "server", "item"])
        self.assertEqual([node.path for node in self.root.values()], [("list",), ("server",), ("item",)])
        self.assertIsNone(self.root.get("none"))
        self.assertEqual(self.root.get("server").kind, "table")
        with self.assertRaises(KeyError):
            self.root["none"]
        with self.assertRaises(KeyError):
            self.root[0]
        for call in (len, list, lambda port: port["x"], lambda port: 1 in port, lambda port: port.keys()):
            with self.assertRaises(TypeError):
                call(self.root["server"]["port"])
        self.assertEqual(self.root.value, toml_span.loads(self.TEXT))

    def test_values_are_compared_and_contained(self):
        items, server = self.root["list"], self.root["server"]
        self.assertTrue(items[1] == "x" and items[1] != "y" and items == [1, "x", [True]] and items[0] == items[0])
        self.assertTrue("x" in items and 1 in items and [True] in items and "y" not in items)
        self.assertTrue("port" in server and "server" not in server and 8080 not in server)
        self.assertEqual([bool(node) for node in toml_span.parse("a = 0\nb = ''\nc = [0]\nd = {}").values()],
                         [False, False, True, False])

    def test_pointers(self):
        root = toml_span.parse("a.'x/y~' = [1, {b = 2}]\n'' = 3\n[a.0]")
        for pointer, path in (
            ("", ()), ("/a/x~1y~0/1/b", ("a", "x/y~", 1, "b")), ("/", ("",)), ("/a/0", ("a", "0")),
        ):
            self.assertEqual(root.pointer(pointer).path, path)
        for pointer in ("/b", "/a/x~1y~0/2", "/a/x~1y~0/01", "/a/x~1y~0/-1", "/a/x~1y~0/0/c", "/a/x~1y~0/"):
            self.assertIsNone(root.pointer(pointer))
        self.assertEqual(root["a"].pointer("/x~1y~0/0").value, 1)
        with self.assertRaises(ValueError):
            root.pointer("a")

    def test_paths(self):
        root = toml_span.parse("a.'x/y~' = [1, {b = 2}]\n'' = 3\n[a.0]\n'\u00e9' = 4\n")
        for path, found in (
            ("", ()), ("a.'x/y~'[1].b", ("a", "x/y~", 1, "b")), ("/a/x~1y~0/1/b", ("a", "x/y~", 1, "b")),
            ("''", ("",)), ("a.0", ("a", "0")), ("a . 0 . '\u00e9'", ("a", "0", "\u00e9")),
            ('a.0."\\u00e9"', ("a", "0", "\u00e9")),
        ):
            self.assertEqual(root.find(path).path, found)
        for path in ("b", "a.x", "a[0]", "a.'x/y~'[2]", "a.'x/y~'[01]", "a.'x/y~'.1", ".a", "a.", "a.'x/y~", "[0]",
                     "a\0", "\u00e9", "\ud800"):
            self.assertIsNone(root.find(path))
        pair = root["a"]["x/y~"]
        self.assertEqual(pair.find("[0]").value, 1)
        for node in (root, pair, pair[1], root["a"]["0"]["\u00e9"]):
            self.assertEqual(root.find(node.path).path, node.path)
        self.assertEqual(pair.find([1, "b"]).path, ("a", "x/y~", 1, "b"))
        self.assertIsNone(pair.find((2,)))
        for path in (1, b"a", (1.5,)):
            with self.assertRaisesRegex(TypeError, "path must be a str or"):
                root.find(path)

    def test_characters(self):
        text = "# \u00e9\U0001f600\r\n'\u00e9' = '\u00e9x' # \n[t]\nb = '\u00e9\u00e9'"
        root = toml_span.parse(text)
        for node in (root["\u00e9"], root["t"]["b"]):
            self.assertEqual(text[slice(*node.char_span)], node.value)
            self.assertEqual(text[slice(*node.key_char_span)], node.key)
            self.assertEqual(text.split("\n")[node.line - 1][node.column - 1 :][: len(node.value)], node.value)
        self.assertEqual(root.char_span, (0, len(text)))
        self.assertIsNone(root.key_char_span)

    def test_bytes(self):
        self.assertEqual(toml_span.parse("a = '\u00e9'".encode()).value, {"a": "\u00e9"})
        with self.assertRaises(toml_span.TOMLDecodeError) as caught:
            toml_span.parse(b"a = 1\n\xc3\xa9\xff")
        self.assertEqual((caught.exception.lineno, caught.exception.colno, caught.exception.span), (2, 2, (8, 9)))
        self.assertEqual(caught.exception.msg, "the file is not valid UTF-8: byte 0xFF at offset 8")
        self.assertTrue(caught.exception.report.startswith("error[not-utf-8]: the file is not valid UTF-8"))
        with self.assertRaises(TypeError):
            toml_span.parse(None)

    def test_lookups_take_no_longer_in_large_documents(self):
        count = 20000
        root = toml_span.parse("".join(f"k{at} = {at}\n" for at in range(count)))
        self.assertEqual(sum(root[f"k{at}"].value for at in range(count)), count * (count - 1) // 2)
        many = toml_span.parse("a = [" + "1," * count + "]")["a"]
        self.assertEqual(sum(many[at].value for at in range(count)), count)
        self.assertEqual(root["k19999"].line, count)


class Dumps(unittest.TestCase):
    def test_documents_are_written_and_read_again(self):
        for path in DOCUMENTS:
            value = toml_span.loads(text_of(path))
            text = toml_span.dumps(value)
            self.assertEqual(repr(toml_span.loads(toml_span.dumps(toml_span.loads(text)))), repr(toml_span.loads(text)))
            self.assertEqual(tagged(toml_span.loads(text)), tagged(value), path)
            if tomllib is not None:
                self.assertEqual(tagged(tomllib.loads(text)), tagged(value), path)

    def test_texts(self):
        for value, text in (
            ({}, ""),
            ({"a": 1, "b c": [1.5, "x\n\x7f\\"]}, 'a = 1\n"b c" = [1.5, "x\\n\\u007f\\\\"]\n'),
            ({"t": {"a": 1, "u": {}}, "n": -0.0}, "n = -0.0\n\n[t]\na = 1\n\n[t.u]\n"),
            ({"i": [{"a": 1}, {"a": 2}]}, "[[i]]\na = 1\n\n[[i]]\na = 2\n"),
            ({"i": [{"a": {"b": True}}, 1, {}]}, "i = [{ a = { b = true } }, 1, {}]\n"),
            ({"d": datetime(1979, 5, 27, 7, 32, 0, 5)}, "d = 1979-05-27T07:32:00.000005\n"),
            ({"f": [math.inf, -math.inf, 1e22]}, "f = [inf, -inf, 1e+22]\n"),
            ({"a": (1, 2)}, "a = [1, 2]\n"),
        ):
            self.assertEqual(toml_span.dumps(value), text)
        self.assertEqual(toml_span.dumps({"a": math.nan}), "a = nan\n")
        root = toml_span.parse("[t]\na=[1]")
        self.assertEqual(toml_span.dumps(root), "[t]\na = [1]\n")
        self.assertEqual(toml_span.dumps({"b": root["t"], "c": [root["t"]["a"][0]]}), "c = [1]\n\n[b]\na = [1]\n")

    def test_what_toml_does_not_have(self):
        loop = {}
        loop["a"] = loop
        for value, error in (
            ({"a": None}, TypeError),
            ({"a": {1: 2}}, TypeError),
            ({"a": b"x"}, TypeError),
            ([1], TypeError),
            ({"a": 2**63}, ValueError),
            ({"a": "\ud800"}, ValueError),
            ({"a": time(7, 32, tzinfo=timezone.utc)}, ValueError),
            ({"a": datetime(1979, 5, 27, tzinfo=timezone(timedelta(seconds=30)))}, ValueError),
            (loop, ValueError),
        ):
            with self.assertRaises(error, msg=repr(value)[:50]) as caught:
                toml_span.dumps(value)
            self.assertTrue(str(caught.exception).encode())


class Edits(unittest.TestCase):
    TEXT = "# head\n[server] # here\nport = 80 # open\nhosts = ['a', 'b']\n\n[[bin]]\nname = 'x'\n"

    def test_each_edit(self):
        for call, old, new in (
            (lambda edits: edits.set("server.port", 8080), "80 #", "8080 #"),
            (lambda edits: edits.set("/server/hosts/1", "c\n"), "'b'", '"c\\n"'),
            (lambda edits: edits.set(("server", "hosts", 0), {"x y": [1.5, date(1979, 5, 27)]}), "'a'",
             '{ "x y" = [1.5, 1979-05-27] }'),
            (lambda edits: edits.replace("server.hosts", {}), "['a', 'b']", "{}"),
            (lambda edits: edits.set_or_add("server.tls.on", True), "\n[[bin]]",
             "\n[server.tls]\non = true\n\n[[bin]]"),
            (lambda edits: edits.rename("server.port", "a port"), "port", '"a port"'),
            (lambda edits: edits.remove("server.hosts[0]"), "'a', ", ""),
            (lambda edits: edits.add("server.debug", False), "'b']\n", "'b']\ndebug = false\n"),
            (lambda edits: edits.add_table(["lints", "rust"]), "'x'\n", "'x'\n\n[lints.rust]\n"),
            (lambda edits: edits.append("server.hosts", -1), "'b']", "'b', -1]"),
            (lambda edits: edits.insert("server.hosts[0]", math.inf), "['a'", "[inf, 'a'"),
            (lambda edits: edits.move("bin[0].name", "/bin/0/title"), "name", "title"),
        ):
            with self.subTest(new):
                self.assertEqual(call(toml_span.edit(self.TEXT)).finish(), self.TEXT.replace(old, new, 1))

    def test_edits_are_chained(self):
        edits = toml_span.edit(self.TEXT).add("a", 1).append("a2", 1)
        self.assertEqual(toml_span.loads(edits.rename("a", "b").finish())["b"], 1)
        self.assertEqual(edits.finish(), edits.finish())
        self.assertEqual(toml_span.edit(self.TEXT).finish(), self.TEXT)

    def test_bytes_stay_bytes_and_line_ends_stay(self):
        data = "'\u00e9' = 1 # \u00e9\r\n".encode()
        self.assertEqual(toml_span.edit(data).set("'\u00e9'", "\u00e9").finish(), data.replace(b"1", b'"\xc3\xa9"'))
        self.assertEqual(toml_span.edit(data.decode()).set("/\u00e9", 22).finish(), data.decode().replace("1", "22"))
        self.assertEqual(toml_span.format(b"a=1\r\n"), b"a = 1\r\n")

    def test_paths_of_nodes(self):
        text = "a.'x/y~' = [1, {'\\' = 2}]\n'' = 3\n\"\\u0000\\n\" = 4\n[[t]]\n[[t]]\n'\u00e9\"' = 5\n"
        root = toml_span.parse(text)
        pair = root["a"]["x/y~"]
        for node in (pair[0], pair[1]["\\"], root[""], root["\0\n"], root["t"][1]['\u00e9"']):
            start, end = node.char_span
            for path in (node, node.path):
                self.assertEqual(toml_span.edit(text).set(path, 77).finish(), f"{text[:start]}77{text[end:]}")

    def test_every_value_of_the_documents_can_be_set(self):
        def scalars(node):
            if node.kind not in ("table", "array"):
                yield node.path
            for held in node.values() if node.kind == "table" else node if node.kind == "array" else ():
                yield from scalars(held)

        count = 0
        for path in DOCUMENTS:
            text = text_of(path)
            for steps in list(scalars(toml_span.parse(text)))[:20]:
                wanted = toml_span.loads(text)
                holder = wanted
                for step in steps[:-1]:
                    holder = holder[step]
                holder[steps[-1]] = "new"
                self.assertEqual(repr(toml_span.loads(toml_span.edit(text).set(steps, "new").finish())), repr(wanted))
                count += 1
        self.assertGreater(count, 50)

    def test_refusals(self):
        with self.assertRaises(toml_span.EditError) as caught:
            toml_span.edit(self.TEXT).set("server.port", 1).set("server.no", 2).finish()
        error = caught.exception
        self.assertIsInstance(error, ValueError)
        self.assertEqual((error.msg, error.index, error.path), ("there is nothing at this path", 1, "server.no"))
        self.assertEqual(str(error), "edit 2, at 'server.no': there is nothing at this path")
        self.assertEqual(str(pickle.loads(pickle.dumps(error))), str(error))
        for call in (
            lambda edits: edits.set("server", 1), lambda edits: edits.set("server..port", 1),
            lambda edits: edits.rename("server.port", "hosts"), lambda edits: edits.remove(()),
            lambda edits: edits.add("server.port", 1), lambda edits: edits.append("server.port", 1),
            lambda edits: edits.move("server.port", "/server/hosts"), lambda edits: edits.move("server", ""),
        ):
            with self.assertRaises(toml_span.EditError):
                call(toml_span.edit(self.TEXT)).finish()

    def test_wrong_texts(self):
        for text, pos in (("a = 1\na = 2", 6), (b"a = 1\na = 2", 6), ("# \ud800", 2), (b"# \xff", 2)):
            for call in (lambda text: toml_span.edit(text).remove("a").finish(), toml_span.format):
                with self.assertRaises(toml_span.TOMLDecodeError) as caught:
                    call(text)
                self.assertEqual(caught.exception.pos, pos)

    def test_wrong_arguments(self):
        edits = toml_span.edit("a = 1")
        with self.assertRaises(toml_span.TOMLDecodeError):
            toml_span.format("#" * 16777217)
        for call, error in (
            (lambda: toml_span.edit(None), TypeError), (lambda: toml_span.format(1), TypeError),
            (lambda: edits.set("a", None), TypeError), (lambda: edits.set("a", 2**63), ValueError),
            (lambda: edits.set(1, 1), TypeError), (lambda: edits.set((1.5,), 1), TypeError),
            (lambda: edits.set(b"a", 1), TypeError),
            (lambda: toml_span.dumps(toml_span.parse("a = 1")["a"]), TypeError),
            (lambda: edits.rename("a", 1), TypeError), (lambda: edits.rename("a", "\0"), ValueError),
            (lambda: edits.set("a\0", 1), ValueError), (lambda: edits.rename("a", "\ud800"), ValueError),
            (lambda: toml_span.format("", indent=65), ValueError), (lambda: toml_span.format("", width=-1), ValueError),
        ):
            with self.assertRaises(error):
                call()
        with self.assertRaisesRegex(ValueError, "^a path or a name must not contain a null character or a surrogate$"):
            edits.rename("'\ud800'", "b")
        self.assertEqual(edits.finish(), "a = 1")
        value = toml_span.parse("b = [1, 2.50]")["b"]
        self.assertEqual(edits.set("a", value).append("c", value[1]).finish(), "a = [1, 2.5]\nc = [2.5]\n")

    def test_formats(self):
        self.assertEqual(toml_span.format("a=[1,2]"), "a = [1, 2]\n")
        self.assertEqual(toml_span.format("a=[1,2]", width=9, indent=2), "a = [\n  1,\n  2,\n]\n")
        self.assertEqual(toml_span.format("a=[1,2]", width=2**70), "a = [1, 2]\n")
        for path in DOCUMENTS:
            text = text_of(path)
            new = toml_span.format(text)
            self.assertEqual(repr(toml_span.loads(new)), repr(toml_span.loads(text)))
            self.assertEqual(toml_span.format(new), new)
        # (much longer than the text)
        deep = f"a = {'[' * 100}#\n{']' * 100}"
        self.assertEqual(toml_span.loads(toml_span.format(deep)), toml_span.loads(deep))
        self.assertGreater(len(toml_span.format(deep)), 50 * len(deep))


class Command(unittest.TestCase):
    def test_help(self):
        for word in ("-h", "--help"):
            out = io.StringIO()
            with contextlib.redirect_stdout(out):
                self.assertEqual(main([word]), 0)
            self.assertTrue(out.getvalue().startswith("Checks TOML files: python3 -m toml_span FILE..\n"))

    def test_statuses(self):
        with tempfile.TemporaryDirectory() as folder:
            names = {}
            for name, data in (("good", b"a = 1"), ("bad", b"a = 1\na = 2"), ("latin", b"a = '\xe9'")):
                names[name] = os.path.join(folder, name)
                with open(names[name], "wb") as file:
                    file.write(data)
            names["none"] = os.path.join(folder, "none")
            for words, status, said in (
                (["good"], 0, ""),
                (["good", "bad"], 1, "error[duplicate-key]: duplicate key: `a`\n --> "),
                (["latin"], 1, ":1:6\n  |\n1 | a = '\n  |      ^\n  |\n  = help: this looks like Latin-1 (ISO-8859-1)\n"),
                (["bad", "none"], 2, "No such file or directory"),
                ([], 2, "usage: python3 -m toml_span FILE..\n"),
            ):
                out = io.StringIO()
                with contextlib.redirect_stderr(out):
                    self.assertEqual(main([names[word] for word in words]), status)
                self.assertIn(said, out.getvalue())
                self.assertEqual(said == "", out.getvalue() == "")


class Package(unittest.TestCase):
    def test_the_oldest_python_can_read_it(self):
        folder = os.path.dirname(toml_span.__file__)
        self.assertTrue(os.path.exists(os.path.join(folder, "py.typed")))
        for path in glob.glob(os.path.join(folder, "*.py")):
            ast.parse(text_of(path), path, feature_version=(3, 8))


if __name__ == "__main__":
    unittest.main()
