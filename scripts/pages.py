#!/usr/bin/env python3
"""Checks that the pages agree with the sources, that each edit applies, that everything that is cited exists, and that
the pictures are as scripts/pictures.py draws them:

pages.py [--items] [PAGE..] (README.md and docs/*.md). With --items it writes docs/public_items.txt: what callers can
name in each library, one item per line.

A mark says what a block, a list or a table quotes:

    ```rust             code: the parts between lines `// ..` follow each other in one file of crates/*/src
    ```text clause FILE paragraphs of crates/FILE, or of any source without FILE, ignoring white space
    ```text in FILE     lines of this file, or of an answer or a text in it (crates/toml_span_rows/stdout, transcripts)
    ```console run NAME `$ PROGRAM ARGUMENT..` of the run NAME of a transcript crates/*/runs/*.run, and its output
    ```sh               names files that exist
    (indented by four)  the same as `sh`, a line of crates.txt, or lines of a stored output
    <!-- rows: CALL --> a table or a list whose lines begin with the text of a row of this call (`parse 128` without
                        CALL); all other code in a line is in the row's answer: words of one of its lines, or the
                        field that the column or the word before it names (FIELDS). An error has its code and its span
    <!-- rules -->      a list of `WORDS. DEFINITIONS; FUNCTIONS; ROWS`: `Module.{A, B}` are in a file Module.antt of
                        specs/, `module::{a, b}` in a file module.rt of src/, and a row is the only one with this text,
                        in which `..` matches anything and `parse 128: ` may be left out; or `none` and a reason
    <!-- runs -->       a table of edits: the arguments of a run of toml_span_cli, lines of its file before it, and the
                        lines that the file or the output has afterwards, in code, with `<br>` between them

In all text, paths in code and links must exist, names in code must occur in the sources or in FOREIGN, and a clause
that is named must belong to its function. docs/LANGUAGE.md has an example of each error that a row of `parse` reports.
"""

import difflib
import glob
import os
import re
import shlex
import subprocess
import sys

import pictures
from transcripts import all_runs

TOP = os.path.dirname(os.path.dirname(os.path.abspath(__file__)))
ROWS = "crates/toml_span_rows"
FIELDS = ("first", "expected", "found", "key", "name")
# names of the toolchain, of the C library and of other crates
FOREIGN = """AsRef BuiltModule Comparable DeTable From Given Goals IsSortedBy IsStableBy Lts MALLOC_MMAP_THRESHOLD_
MALLOC_TRIM_THRESHOLD_ ParsesChar Serialize Tie allowed_blank_lines array_auto_collapse array_auto_expand
array_trailing_comma as_ codespan_reporting column_width deny_unknown_fields from_iter indent_string reorder_keys
table_from_str the_lemmas write_all""".split()
# names that only a reader of other papers could look up, and rules cited by their numbers
THINGS = r"(?:rule|row|rung|table|paper|section|request) (?:\d+|[A-F])"
CITED = [
    re.compile(r"(?i)(?:^|[^0-9a-z])0[1-9]-[a-z]{4,}"),
    re.compile(rf"(?:^|[^\w+])(?:[DTWR](?:1?\d|2[0-5])(?:\.\d)?|{THINGS})(?:[^\w.]|\.?$)"),
]


def text_of(path):
    with open(f"{TOP}/{path}", encoding="utf-8") as file:
        return file.read()


def found(pattern):
    return sorted(glob.glob(pattern, root_dir=TOP, recursive=True))


def codes_in(text):
    return re.findall(r"`([^`]+)`", text)


def squeezed(text):
    """Returns a text with each run of white space replaced by one space, and with one space at each end."""
    return f" {' '.join(text.split())} "


def has_lines(text, lines):
    """Returns whether these lines follow each other in a text."""
    return "\n" + "\n".join(lines) + "\n" in f"\n{text}\n"


def split_outside_code(text, mark):
    """Splits a text at each mark that is not in code."""
    parts = [""]
    for k, part in enumerate(text.split("`")):
        first, *others = [part] if k % 2 else part.split(mark)
        parts[-1] += f"`{first}" if k else first
        parts += others
    return parts


def answers():
    """Returns the lines of the answer of each row of toml_span_rows."""
    told, row = {}, None
    for line in text_of(f"{ROWS}/stdout").split("\n"):
        if line.startswith("    ") and row:
            told[row].append(line[4:])
        else:
            row = line if line and not line.startswith("#") else None
            told |= {row: []} if row else {}
    return told


class Sources:
    """The sources that pages quote, read once."""

    def __init__(self):
        code = {path: text_of(path) for path in found("crates/*/src/**/*.rt")}
        specs = {path: text_of(path) for path in found("crates/*/specs/**/*.antt")}
        proofs = {path: text_of(path) for path in found("crates/*/proofs/**/*.antt")}
        worked = {path: text for path, text in proofs.items() if path.endswith("proofs/Examples.antt")}
        self.modules = {}
        for path, text in [*code.items(), *specs.items()]:
            name = os.path.basename(path).split(".")[0]
            self.modules[name] = self.modules.get(name, "") + text
        self.code = [re.sub(r"(?m)^[ \t]+|[ \t]+$", "", text) for text in code.values()]
        self.quotable = {path: squeezed(text) for path, text in (code | specs | worked).items()}
        self.answers = answers()
        self.runs = [it for crate in found("crates/*/runs") for it in all_runs(crate.split("/")[1]).items()]
        self.outputs = [*map(text_of, found("crates/*/stdout")), re.sub("(?m)^    ", "", text_of(f"{ROWS}/stdout"))]
        self.outputs += [run["stdout"].decode() for _, run in self.runs if run.get("stdout")]
        self.heads, self.names = {}, {*FOREIGN}
        for folder in ("crates/*/[!o]*", "crates/*/[!o]*/**/*", "scripts/*", "crates/*"):
            self.names |= {os.path.basename(path).split(".")[0] for path in found(folder)}
        for path in found("include/*.h*") + found("python/src/*/*.py"):
            self.names |= {*re.findall(r"\w+", text_of(path))}
        for text in code.values():
            self.contracts(re.sub(r"(?m)^\s*//.*\n", "", text))
        for text in [*specs.values(), *proofs.values()]:
            text = re.sub(r"(?m)(^|(?<=\s))--(\s.*|-.*)?$", "", text)
            self.names |= {*re.findall(r"\bpub (?:data |record )?([^\s:(]+)", text)}
            self.names |= {*re.findall(r"(?m)^ *([^\s:(]+)", text)}
            for group in re.findall(r"(?m)^use [\w.]+\.\{(.*)\}$", text):
                self.names |= {*re.findall(r"[^\s,]+", group)}

    def contracts(self, text):
        """Adds the names of a file of src/, and the words of its contracts by functions, types and traits."""
        self.names |= {*re.findall(r"\w+", text)}
        for item in re.split(r"(?m)^(?=pub|fn|impl|trait|#)", text):
            of = re.findall(r"\w+", re.sub(r"<[^{]*?>", "", re.split(r"[{;]", item)[0]))
            is_block = of[:1] in (["impl"], ["trait"])
            ghosts = " ".join(re.findall(r"(?ms)^    ghost (?!use)(.*?);\n", item))
            for head in re.findall(r"(?ms)^ *(?:pub(?:\(crate\))? )?(?:const )?fn .*?(?:^ *\{$|\{\n|;$|\Z)", item):
                name = re.search(r"fn (\w+)", head)[1]
                self.heads.setdefault(name, set()).update(re.findall(r"\w+", f"{head} {ghosts}"))
                ghosts += head if is_block else ""
            for name in of if is_block else []:
                self.heads.setdefault(name, set()).update(re.findall(r"\w+", ghosts))

    def contracts_of(self, names):
        """Returns the words of the contracts of these functions, types and traits."""
        return {word for name in names for part in name.split("::") for word in self.heads.get(part, ())}


class Page:
    """A page, the sources that it quotes, and the faults found in it."""

    def __init__(self, path, sources):
        self.path, self.sources, self.lines = path, sources, text_of(path).split("\n")
        self.faults, self.shown = [], set()
        self.look()

    def fault(self, at, what):
        self.faults.append(f"{self.path}:{at + 1}: {what}")

    def until(self, at, is_end):
        """Returns the first line from here on that satisfies the condition, or the end of the page."""
        return next((k for k in range(at, len(self.lines)) if is_end(self.lines[k])), len(self.lines))

    def look(self):
        at, mark = 0, None
        while at < len(self.lines):
            line, end = self.lines[at], at + 1
            if fence := re.match(r" *```+(.*)", line):
                end = self.until(at + 1, lambda it: re.match(r" *```+ *$", it)) + 1
                self.block(at + 1, fence[1].split(), self.lines[at + 1 : end - 1])
            elif comment := re.match(r"<!-- (.*) -->$", line):
                mark = comment[1]
                if not any(it.startswith(("- ", "|")) for it in self.lines[at + 1 : at + 3]):
                    self.fault(at, "no list or table follows this mark")
            elif line.startswith(("- ", "|")):
                end = self.until(at, lambda it: not it.startswith(line[:1]))
                if mark:
                    self.marked(at, mark, end)
                self.names(at, "\n".join(self.lines[at:end]))
                mark = None
            elif line.startswith("    ") and not self.lines[at - 1].strip():
                end = self.until(at, lambda it: re.match(r"(?!    )\S| {1,3}\S", it))
                self.indented(at, "\n".join(it[4:] for it in self.lines[at:end]).rstrip("\n").split("\n"))
            else:
                self.names(at, line)
            at = end

    def names(self, at, text):
        """Checks the paths, links, clauses and names of some lines."""
        folders = r"crates|docs|scripts|toml_span\w*|src|specs|proofs|mistakes"
        for code in re.findall(rf"`(?:bash |python3 )?((?:{folders})/[^` ]*)", text):
            is_open = re.search(r"\b(NAME|CRATE|FILE|X|m|out)\b", code)
            if not is_open and not any(found(before + code) for before in ("", "crates/", "crates/*/")):
                self.fault(at, f"there is no {code}")
        for link, anchor in re.findall(r"\]\(([^)#: ]*)#?([^): ]*)\)", text):
            path = f"{os.path.dirname(self.path)}/{link}" if link else self.path
            if not os.path.exists(f"{TOP}/{path}"):
                self.fault(at, f"this link leads nowhere: {link}")
            elif anchor:
                heads = [re.sub(r"[^\w -]", "", it).lower() for it in re.findall(r"(?m)^#+ (.*)$", text_of(path))]
                if anchor not in [it.replace(" ", "-") for it in heads]:
                    self.fault(at, f"{path} has no heading {anchor}")
        told = re.findall(r"[Cc]lause `(\w+)` of (?:the law )?`([\w:]+)`", text)
        told += [(clause, of) for of, clause in re.findall(r"`([\w:]+)`, clause `(\w+)`", text)]
        for clause, function in told:
            if clause not in self.sources.contracts_of([function]):
                self.fault(at, f"{function} has no clause {clause}")
        for code in re.findall(r"`([A-Za-z][\w:]*)[!.]*(?:\([^`]*\))?`", text):
            for name in code.split("::"):
                if re.search(r"_|[a-z][A-Z]|^[A-Z][a-z]", name) and name not in self.sources.names:
                    self.fault(at, f"nothing is called {name}")

    # ---- blocks

    def block(self, at, words, lines):
        kind, name = words[:2], words[2] if len(words) == 3 else ""
        if words[:1] == ["rust"]:
            self.rust(at, lines)
        elif kind == ["text", "clause"]:
            self.clauses(at, f"crates/{name}" if name else "", lines)
        elif kind in (["text", "in"], ["toml", "in"]):
            text = text_of(name) if os.path.isfile(f"{TOP}/{name}") else ""
            stored = re.sub("(?m)^    ", "", text) if name.endswith(".run") else ""
            if not has_lines(text, lines) and not has_lines(stored, lines):
                self.fault(at, f"{name} does not have these lines")
        elif kind == ["console", "run"]:
            self.run(at, name, lines)
        elif words[:1] == ["sh"]:
            self.commands(at, lines)
        else:
            self.fault(at - 1, f"`{' '.join(words)}` is not a mark: see scripts/pages.py")

    def rust(self, at, lines):
        """Checks that the parts between lines `// ..` follow each other in one file."""
        parts = re.split(r"(?m)^// \.\..*$", "\n".join(map(str.strip, lines)))
        parts = [re.escape(it.strip("\n")) for it in parts if it.strip("\n")]
        quoted = re.compile(f"(?ms)^{'$.*^'.join(parts)}$")
        if not any(quoted.search(it) for it in self.sources.code):
            self.fault(at, "no file of the sources has these lines")

    def clauses(self, at, path, lines):
        files = self.sources.quotable
        texts = files.values() if not path else [files.get(path, "")]
        for paragraph in re.split(r"\n\s*\n", "\n".join(lines).strip("\n")):
            if not any(squeezed(paragraph) in text for text in texts):
                self.fault(at, f"{path or 'no source'} does not have `{paragraph.strip()[:60]}`..")

    def run(self, at, name, lines):
        command, *said = "\n".join(lines).rstrip("\n").split("\n")
        command = re.sub(r"^\$ \S+ ", "", command)
        for run in (run for of, run in self.sources.runs if of == name):
            told = b"".join(run.get(it, b"") for it in ("stdout", "stderr")).decode().rstrip("\n")
            words = run["args"].decode().splitlines()
            if command in (" ".join(words), shlex.join(words)) and said == (told.split("\n") if told else []):
                return
        self.fault(at, f"no run {name} of crates/*/runs/*.run is like this")

    def indented(self, at, lines):
        if re.match(r"(bash|python3|rt|\(cd) ", lines[0]):
            self.commands(at, lines)
        elif named := re.match(r"\w+: (.*)$", lines[0]):
            for name in named[1].split():
                if not re.search(rf"(?m)(^| ){name}(:| |$)", text_of("crates.txt")):
                    self.fault(at, f"crates.txt has no {name}")
        elif not any(has_lines(it, lines) for it in self.sources.outputs):
            self.fault(at, "no stored output has these lines")

    def commands(self, at, lines):
        for k, line in enumerate(lines):
            for path in re.findall(r"\b(?:scripts|docs|crates)/[\w./*-]+", line.split("#")[0]):
                if not found(path):
                    self.fault(at + k, f"there is no {path}")

    # ---- lists and tables

    def marked(self, at, mark, end):
        kind, _, of = mark.partition(": ")
        if kind not in ("rules", "rows", "runs"):
            self.fault(at - 1, f"`{mark}` is not a mark: see scripts/pages.py")
        for k in range(at, end):
            line = self.lines[k]
            first, *told = split_outside_code(line.removeprefix("- "), ": ")
            if kind == "rules":
                self.rule(k, line)
            elif kind == "runs" and k > at + 1:
                self.change(k, *line.strip().strip("|").split("|"))
            elif kind == "rows" and line.startswith("- "):
                said = re.findall(rf"(?:\b({'|'.join(FIELDS)}) )?`([^`]+)`", told[0] if told else "")
                self.example(k, of or "parse 128", first, said)
            elif kind == "rows" and k > at + 1:
                (_, *heads), (row, *cells) = (self.lines[j].strip().strip("|").split("|") for j in (at, k))
                said = [(head.strip(" `"), code) for head, cell in zip(heads, cells) for code in codes_in(cell)]
                said = [(head if head in FIELDS else "", code) for head, code in said if head]
                self.example(k, of or "parse 128", row.strip(), said)

    def example(self, at, call, text, told):
        """Checks a row and what the page says about its answer: words of one of its lines, or a field."""
        code = re.match(r"`([^`]*)`", text)
        row = f"{call}: {code[1]}" if code else f"{call}:"
        answer = self.sources.answers.get(row)
        if answer is None:
            return self.fault(at, f"there is no row `{row}`")
        said = f"the answer to `{row}` is `{answer[0]}`" + (f" and {len(answer) - 1} more" if len(answer) > 1 else "")
        for field, words in told:
            span = re.fullmatch(r"(\d+)\.\.(\d+)", words)
            value = f"Span {{ start: {span[1]}, end: {span[2]} }}" if span and field else f'"{words}"'
            if not any(f"{field}: {value}" in line if field else f" {words} " in f" {line} " for line in answer):
                self.fault(at, f"`{words}` is not there: {said}")
        words = answer[0].split()
        if not told or words[0] == "error" and ("", " ".join(words[1:3])) not in told:
            self.fault(at, f"what this returns is not said in code: {said}")
        self.shown |= {words[1]} if words[0] == "error" else set()

    def change(self, at, command, before, after):
        """Checks that a run with these arguments turns the lines `before` into the lines `after`."""
        words = shlex.split(codes_in(command)[0])
        said = [[line.strip().strip("`") for line in cell.split("<br>") if cell.strip()] for cell in (before, after)]
        for run in (run for _, run in self.sources.runs if run.get("args", b"").decode().splitlines() == words):
            path = f"crates/toml_span_cli/runs/data/{words[1]}"
            old = run.get(f"data/{words[1]}") or (text_of(path).encode() if found(path) else b"")
            new = run.get(f"after/{words[1]}") or run.get("stdout", b"")
            texts = old.decode(), new.decode()
            if all(has_lines(text, lines) for text, lines in zip(texts, said)) and not has_lines(texts[0], said[1]):
                return
        self.fault(at, f"no run of toml_span_cli is like this: {words}")

    def rule(self, at, line):
        """Checks that the definitions, functions and rows of a line of a list exist."""
        *words, code, rows = split_outside_code(f"; ; {line}", "; ")
        words = split_outside_code("; ".join(words), ". ")
        for told in (words[-1] if len(words) > 1 else "", code, rows):
            if "`" not in told and not told.startswith("none"):
                self.fault(at, "this is not `- WORDS. DEFINITIONS; FUNCTIONS; ROWS`, nor is it said why it has none")
        for told in codes_in(f"{words[-1]} {code}"):
            *_, module, names = re.split(r"::|\.(?!\.)", f"x.{told}")
            for name in re.findall(r"[^\s,{}]+", names):
                if not re.search(rf"(?<!\w){re.escape(name)}(?!\w)", self.sources.modules.get(module, "")):
                    self.fault(at, f"no file {module} of src/ or specs/ has {name}")
        for told in codes_in(rows):
            row = re.compile(f"(?:parse 128: )?{re.escape(told)}".replace(r"\.\.", ".*"), re.DOTALL)
            count = sum(bool(row.fullmatch(it)) for it in self.sources.answers)
            if count != 1 and not re.match(r"(?:toml_span\w*|crates|scripts)/", told):
                self.fault(at, f"{count} rows are `{told}`")


def edits(sources):
    """Returns the faults of the edits: text that is not in its file exactly once, or a clause that does not exist."""
    for path in found("crates/*/mistakes/*.edit"):
        first, words, *lines = text_of(path).split("\n")
        if not first.startswith("clause: ") or not words.endswith("."):
            yield f"{path}: it does not begin with `clause: FUNCTION CLAUSE, ..` and a sentence that says what is wrong"
        for function, _, clause in (it.rpartition(" ") for it in first.removeprefix("clause: ").split(", ")):
            if clause not in sources.contracts_of(re.findall(r"\w+", function)):
                yield f"{path}: {function} has no clause {clause}"
        file = old = text = ""
        for kind, _, said in (line.partition(": ") for line in lines):
            if kind == "file":
                file, text = said, text_of(f"{os.path.dirname(os.path.dirname(path))}/{said}")
            elif kind == "old" and text.count(said) != 1:
                yield f"{path}: {file} has `{said.strip()}` {text.count(said)} times"
            elif kind == "new":
                text = text.replace(old, said)
            old = said


def citations():
    """Returns the lines that cite something that the repository does not have."""
    kinds = ["*.rt", "*.antt", "*.md", "*.edit", "*.sh", ".ci/run"]
    listed = subprocess.run(["git", "ls-files", "--", *kinds], cwd=TOP, stdout=subprocess.PIPE, text=True, check=True)
    for path in filter(lambda it: os.path.isfile(f"{TOP}/{it}"), listed.stdout.split("\n")):
        for at, line in enumerate(text_of(path).split("\n")):
            if any(it.search(line) for it in CITED):
                yield f"{path}:{at + 1}: this cites something that is not in the repository: {line.strip()[:80]}"


# ---- public items

HEAD = re.compile(r"(?s)(.*?)(?=\s*(?:[{;]|\Z|\n\s*(?:requires|ensures|follows|where)\b))")
HEADED = re.compile(r'(pub )?(?:pub\(\w+\) )?(?:const (?=fn))?(?:extern "C" (?=fn))?(\w+)!?\W*(\w+)?')
TYPES = ("struct", "enum", "trait")


def code_of(path):
    """Returns a file of src/ without its comments."""
    return re.sub(r"(?m)^\s*//.*\n", "", text_of(path))


def line_of(text):
    text = re.sub(r"\s+", " ", text).strip().rstrip(",").replace(", }", " }")
    return re.sub(r",? ([)\]]|>(?=[,( ]))", r"\1", re.sub(r"([(<\[]) ", r"\1", text))


def head_of(item):
    return line_of(HEAD.match(item)[1])


def body_of(item):
    inner = re.search(r"(?ms)\{\n(.*)^\}", item)
    return re.sub(r"(?m)^    ", "", inner[1]) if inner else ""


def items_of(text):
    """Returns each item of a text, with its attributes before it."""
    return re.findall(r"(?ms)^((?:#!?\[(?:[^\n]|\n[ )])*\]\n)*)(\w.*?)(?=^[#\w]|\Z)", text)


def calls_of(name, item, kinds):
    """Returns the lines of the functions in an impl or a trait."""
    calls = [it for _, it in items_of(body_of(item)) if re.match(kinds, it)]
    return [f"{name}::{head_of(re.sub(r'^(pub )?(const )?(fn |type )?', '', it))}" for it in calls]


def lines_of(kind, name, item, held):
    """Yields the lines for a public item, whose attributes are `held`."""
    own = re.sub(r"(?m)^ *#\[.*\n", "", item)[len("pub ") :]
    derived = ", ".join(re.findall(r"derive(?:_where)?\(([^);]*)", held))
    if kind in (*TYPES, "fn", "type"):
        yield head_of(own) + (f" derives {line_of(derived)}" if derived else "")
    elif kind in ("const", "static"):
        yield line_of(own.split("=")[0])
    elif kind == "macro_rules":
        yield f"macro {name}!"
    elif kind == "use":
        base, _, group = own[len("use ") :].rstrip("};\n").partition("{")
        yield from (f"use {base.strip()}{one.strip()}" for one in group.strip(" ,\n").split(","))
    if kind == "struct":
        yield from (f"{name}.{field}" for field in re.findall(r"(?m)^pub (\w+: .*),$", body_of(own)))
    elif kind == "enum":
        yield from (f"{name}::{line_of(variant)}" for variant in re.split(r",\n(?=\w)", body_of(own)))
    elif kind == "trait":
        yield from calls_of(name, own, r"(?:const )?fn|type")


def module(path, text, folder, is_open):
    """Yields each item of a module and of those in it: its path, whether callers reach it, its attributes and text."""
    for held, item in items_of(text):
        is_public, kind, name = HEADED.match(item).groups()
        if kind == "mod" and name != "laws":
            inner = body_of(item) if "{" in item else code_of(f"{folder}/{name}.rt")
            yield from module(f"{path}::{name}", inner, f"{folder}/{name}", is_open and is_public)
        elif kind != "mod":
            yield path, is_open, held, item


def public_lines(crate):
    """Yields the public items of a library, each as a line with the module that it is in."""
    texts = "".join(code_of(it) for it in found(f"crates/{crate}/src/**/*.rt"))
    handed_on = {*re.findall(r"\w+", " ".join(re.findall(r"(?ms)^ *pub use ([^;]*);", texts)))}
    private, impls = {"Model"}, []
    for path, is_open, held, item in module(crate, code_of(f"crates/{crate}/src/lib.rt"), f"crates/{crate}/src", True):
        is_public, kind, name = HEADED.match(item).groups()
        if kind == "impl":
            impls.append((path, item))
        elif is_public and (kind == "use" or is_open or name in handed_on) or "#[macro_export]" in held:
            yield from (f"{path}: {line}" for line in lines_of(kind, name, item, held))
        elif kind in TYPES:
            private.add(name)
    for path, item in impls:
        head = head_of(item)
        if not private & {*re.findall(r"\w+", head)}:
            name = re.sub(r"<.*>", "", re.sub(r"^impl(<[^>]*>)? ", "", head))
            calls = calls_of(name, item, r"pub (?:const )?(?:fn|const)")
            yield from (f"{path}: {line}" for line in ([head] if " for " in head else calls))


def public_items(words):
    """Compares docs/public_items.txt with the libraries, except those that only have laws, or writes it."""
    libraries = re.findall(r"(?m)^(\w+)(?: \w+)*:", text_of("crates.txt"))
    libraries = [it for it in libraries if found(f"crates/{it}/src/lib.rt") and not it.endswith("_laws")]
    items = sorted(line for library in libraries for line in public_lines(library))
    if "--items" in words:
        with open(f"{TOP}/docs/public_items.txt", "w", encoding="utf-8") as file:
            print(*items, sep="\n", file=file)
    kept = text_of("docs/public_items.txt").split("\n")[:-1]
    for line in difflib.ndiff(kept, items):
        if line[0] in "+-":
            yield f"docs/public_items.txt: {line}"


def main(words):
    sources, named = Sources(), [word for word in words if not word.startswith("-")]
    pages = [Page(path, sources) for path in named or ["README.md", *found("docs/*.md")]]
    faults = [fault for page in pages for fault in page.faults]
    if not named:
        faults += [*edits(sources), *citations(), *public_items(words)]
        faults += [f"{it} is not as scripts/pictures.py draws it" for it in pictures.stale()]
        shown = {code for page in pages if page.path == "docs/LANGUAGE.md" for code in page.shown}
        told = [lines[0].split() for row, lines in sources.answers.items() if row.startswith("parse ")]
        codes = {it[1] for it in told if it[0] == "error"}
        faults += [f"docs/LANGUAGE.md has no example of {code}" for code in sorted(codes - shown)]
    print(*faults, f"{len(pages)} pages, {len(faults)} faults", sep="\n")
    return 1 if faults else 0


sys.exit(main(sys.argv[1:]))
