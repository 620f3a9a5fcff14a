#!/usr/bin/env python3
"""Checks that the prover refuses mistakes: mistakes.py [--all] [--minutes N] [--libraries FOLDER] [CRATE[/NAME]..]

An edit crates/CRATE/mistakes/NAME.edit makes a mistake in the code. Its first line names the clauses that refuse it,
the second says what the wrong code does. Then come a line `file: ` and pairs of lines `old: ` and `new: `. Each `old:`
text occurs exactly once in the file.

The file crates/CRATE/mistakes/tried has a line for each edit that was refused: its name, a checksum of the edit, of the
files that it changes and of the definitions of the crate that these reach, and the function and the goal that failed.
An edit is tried if it has no such line, or if the checksum differs; with --all each is tried. What was tried is written
into these files: commit them with the change.

Edits of different functions are tried in one copy of the crate, by a check of these functions alone. An edit is refused
if a goal fails in a function that it changes, or in one that its first line names. If the check says no more than that
such a function calls one that is not proved, the edit is tried again in the next copy. The crate itself must be proved.
The checks start from what `rt check` kept of it, and take the libraries below it from out/ (they are built if they are
not up to date) or from FOLDER, a copy of this repository in which `rt ci` has run. RT_JOBS crates (1) run at a time.

The status is 1 if an edit is not refused, or can't be tried.
"""
import glob
import hashlib
import os
import re
import shutil
import signal
import subprocess
import sys
import tempfile
import time
from concurrent.futures import ThreadPoolExecutor

from check_types import toolchain

TOP = os.path.dirname(os.path.dirname(os.path.abspath(__file__)))
HEAD = re.compile(r"( *)(?:pub(?:\([^)]*\))? )?(?:const )?(?:unsafe )?(?:extern \"C\" )?fn (\w+)")
BLOCK = re.compile(r"(?:pub(?:\([^)]*\))? )?(?:impl|trait)\b")
TYPE = re.compile(r"(?m)^(?:pub(?:\([^)]*\))? )?(?:struct|enum|union) (\w+)")
# what a proof file says if it names something that the edit took away, which is no goal
NAMES = re.compile(r"has no field|is not in scope|has no `|was not admitted|were not checked")


def text_of(path):
    with open(path, encoding="utf-8") as file:
        return file.read()


# ---- functions


class Function:
    """A function of a file: the prover's name for it, the name as in a clause line, and its first and last line."""

    def __init__(self, file, owner, name, cycle, first, last):
        module = owner[2] if owner[2] is not None else module_of(file)
        self.file, self.first, self.last = file, first, last
        self.name = "::".join(filter(None, [module, owner[0], name]))
        self.said = "::".join(filter(None, [owner[1], name]))
        self.unit = f"+{cycle}" if cycle else self.name
        self.proofs = re.compile(rf"(\./)?proofs/(.*/)?{re.escape(self.unit.replace('::', '/'))}/")

    def has_name(self, words):
        return self.said == words or self.said.endswith(f"::{words}")

    def has_goal(self, goal):
        """Returns whether a goal of the function's proof is its own: in a cycle of calls, goals begin with a name."""
        return self.unit == self.name or f"::{self.name}".endswith(f"::{goal.partition('-')[0]}")


def module_of(file):
    return re.sub(r"(^|/)(lib|main)$", "", file[len("src/") : -len(".rt")]).replace("/", "::")


def joined(words, generic):
    """Returns the prover's name for a type or a trait: `Range<usize>` is `RangeUsize`."""
    parts = [it for it in re.findall(r"(?<!')\b[A-Za-z_]\w*", re.sub(r"\w+::", "", words)) if it not in generic]
    tuples = f"Tuple{1 + words.count(',')}" if words.startswith("(") else ""
    return tuples + "".join(it[:1].upper() + it[1:] for it in parts)


def owner_of(head):
    """Returns what a function of an impl or a trait belongs to, for the prover and in a clause line, and the type."""
    if found := re.match(r"(?:pub(?:\([^)]*\))? )?trait (\w+)", head):
        return found[1], found[1], ""
    depth, at = 0, len("impl")
    while head[at : at + 1] == "<" or depth:
        depth += (head[at] == "<") - (head[at] == ">" and head[at - 1] != "-")
        at += 1
    generic = {*re.findall(r"(?:^|[<,] *)(?:const )?(\w+)", head[len("impl") : at])}
    trait, _, of = re.split(r" where\b|\{", head[at:])[0].strip().rpartition(" for ")
    own = re.sub(r"\W.*", "", re.sub(r"^\W*(?:\w+::)*", "", of))
    return joined(of, generic) + joined(trait, generic), own, "" if trait else own


def functions(file, text, types):
    """Returns the functions of a file, which is in the layout of `rt fmt`. `types` has the module of each type."""
    lines, found, owner = text.split("\n"), [], ("", "", None)
    for at, line in enumerate(lines):
        if BLOCK.match(line):
            *owner, of = owner_of(" ".join(it.strip() for it in lines[at : at + 9]))
            owner.append(types.get(of))
        elif line == "}":
            owner = ("", "", None)
        elif head := HEAD.match(line):
            first, last = at, at + 1
            while first and re.match(r" *(#\[|///)", lines[first - 1]):
                first -= 1
            is_end = re.compile(rf"{head[1]}\}}|{head[1][:-4]}\}}|{HEAD.pattern.replace('( *)', head[1])}")
            while last < len(lines) - 1 and not is_end.match(lines[last]):
                last += 1
            cycle = re.search(r"#\[cycle\((\w+)\)\]", "\n".join(lines[first:at]))
            where = owner if head[1] else ("", "", None)
            found.append(Function(file, where, head[2], cycle and cycle[1], first + 1, last + 1))
    return found


def sources_of(folder):
    """Returns the functions of a crate, and the module of each type."""
    files = {os.path.relpath(it, folder): text_of(it) for it in glob.glob(f"{folder}/src/**/*.rt", recursive=True)}
    types = types_of(files)
    return [it for file in sorted(files) for it in functions(file, files[file], types)], types


def types_of(files):
    """Returns the module in which each type is, of those whose name only one type has."""
    found = [(it, module_of(file)) for file, text in files.items() for it in TYPE.findall(text)]
    return {it: module for it, module in found if [name for name, _ in found].count(it) == 1}


# ---- edits


class Edit:
    """An edit, and the functions whose goals refuse it: `own`, by the prover's names; `units` are their proofs."""

    def __init__(self, crate, path, known, types):
        self.types = types
        self.crate, self.name = crate, os.path.basename(path).removesuffix(".edit")
        self.lines, self.own, self.why = text_of(path).split("\n"), [], ""
        texts = self.applied(crate.folder, self.own)
        self.is_loose = not self.own
        for words in self.lines[0].removeprefix("clause: ").split(", "):
            words = re.sub(r"<(\w+).* as .*?>(?=::|$)|<.*>", r"\1", words.rpartition(" ")[0])
            if not any(it.has_name(words) for it in self.own):
                self.own += [it for it in known if it.has_name(words)]
        self.units = {it.unit for it in self.own}
        self.own = {it.name for it in self.own}
        self.sum = self.checksum(texts or {})

    def applied(self, folder, changed=None):
        """Returns the changed files of a copy of the crate, or None and the reason in `why`; notes what is changed."""
        texts, file, old, self.why = {}, "", "", ""
        for kind, _, words in (line.partition(": ") for line in self.lines[2:]):
            if kind == "file":
                file = words
                texts.setdefault(file, text_of(f"{folder}/{file}"))
            elif kind == "old":
                old, count = words, texts[file].count(words)
                if count != 1:
                    self.why = f"{file} has `{old.strip()}` {count} times"
                    return None
                at = 1 + texts[file][: texts[file].index(old)].count("\n")
                if changed is not None:
                    here = functions(file, texts[file], self.types)
                    changed += [it for it in here if it.first <= at <= it.last]
            elif old:
                texts[file] = texts[file].replace(old, words if kind == "new" else "")
                old = ""
        return texts

    def checksum(self, texts):
        """Returns a checksum of the edit, of the files that it changes, and of the crate's definitions they reach."""
        word = re.compile(rf"\bRattle\.{self.crate.name}\.specs\.(\w+(?:\.\w+)*)")
        were = [text_of(f"{self.crate.folder}/{it}") for it in texts]
        reached, more = {}, {*word.findall("\n".join(were))}
        while more:
            path = f"{self.crate.folder}/specs/{more.pop().replace('.', '/')}.antt"
            if path not in reached and os.path.isfile(path):
                reached[path] = text_of(path)
                more |= {*word.findall(reached[path])}
        whole = repr((self.lines, were, [reached[it] for it in sorted(reached)]))
        return hashlib.sha256(whole.encode()).hexdigest()[:16]


def shared(edits):
    """Returns the edits in groups in which no two change or name one function."""
    groups = []
    for edit in edits:
        for group in groups:
            if not edit.is_loose and not group[0].is_loose and not any(edit.units & it.units for it in group):
                group.append(edit)
                break
        else:
            groups.append([edit])
    return groups


# ---- checks


class Killed(Exception):
    """A check was killed, most likely for memory."""


def check(rtlib, crate, room, kept, only):
    """Checks functions in a copy of a crate, and returns what the prover says."""
    while True:
        words = [rtlib.RATTLE, "check", *crate.words(["--jobs", "1"], keeps=False), "--incremental", kept]
        words += [word for name in only for word in ("--only", name)]
        how = {"cwd": room, "stdin": subprocess.DEVNULL, "stdout": subprocess.PIPE, "stderr": subprocess.STDOUT}
        ran = subprocess.run([*rtlib.guarded(), *words], **how, errors="replace", check=False)
        if ran.returncode < 0:
            raise Killed
        said = ran.stdout
        unknown = re.search(r"has no function `([\w:]+)`", said)
        if not unknown or unknown[1] not in only:
            return said
        # (a name that is made otherwise: all of its module)
        only = sorted({it if it != unknown[1] else it.rpartition("::")[0] for it in only})


def goals_of(edit, room, said):
    """Returns the goals that failed in the edit's own functions, as `FUNCTION GOAL`, those of its clauses first."""
    found, own = [], [it for it in sources_of(room)[0] if it.name in edit.own]
    for line in said.split("\n"):
        for of in own:
            goals = []
            if at := re.match(r"(?:note: )?(?:\./)?(\S+?):(\d+):\d+: (.*)", line):
                if at[1] == of.file and of.first <= int(at[2]) <= of.last:
                    goals = re.findall(r"^it is not proved.*\(`(\S+?)`\)", at[3])
                elif of.proofs.match(at[1]) and not NAMES.search(at[3]):
                    goals = re.findall(r"^error: `(\S+?)`", at[3])
            elif line.startswith(f"fn {edit.crate.name}::{of.name}: no"):
                words = re.search(r"`search` did not prove ((?:`\S+?`(?:, )?)+)", line)
                goals = re.findall(r"`([^` ]+)`", words[1]) if words else []
            found += [f"{of.name} {it}" for it in goals if of.has_goal(it)]
    clauses = [f"clause-{it.rpartition(' ')[2]}" for it in edit.lines[0].split(", ")]
    return sorted(dict.fromkeys(found), key=lambda it: not it.endswith(tuple(clauses)))


def tried(rtlib, crate, group, kept):
    """Tries edits in one copy. Returns for each the goals that failed, and what is wrong if the check had no answer."""
    with tempfile.TemporaryDirectory(prefix="mistakes-") as room:
        for part in filter(lambda it: os.path.isdir(f"{crate.folder}/{it}"), rtlib.PARTS):
            shutil.copytree(f"{crate.folder}/{part}", f"{room}/{part}")
        for edit in group:
            for file, text in (edit.applied(room) or {}).items():
                with open(f"{room}/{file}", "w", encoding="utf-8") as it:
                    it.write(text)
        made = [edit for edit in group if not edit.why]
        said = check(rtlib, crate, room, kept, sorted({name for edit in made for name in edit.own}))
        if folder := os.environ.get("MISTAKES_LOG"):
            with open(f"{folder}/{crate.name}.log", "a", encoding="utf-8") as it:
                print("##", *(edit.name for edit in made), f"\n{said}", file=it)
        if not re.search(r"^only=\d+ ", said, re.M):
            first = next((it for it in said.split("\n") if "error" in it), said[-300:])
            return {}, f"the check did not reach the prover: {first}"
        return {edit: goals_of(edit, room, said) for edit in made}, ""


def refused(rtlib, crate, edits, until):
    """Tries the edits of a crate. Yields each with the goal that refuses it, or with None and what is wrong. Begins no
    check after the time `until`."""
    with tempfile.TemporaryDirectory(prefix="mistakes-kept-") as kept:
        if os.path.isdir(f"{crate.folder}/out/incremental"):
            shutil.copytree(f"{crate.folder}/out/incremental", kept, dirs_exist_ok=True)
        groups = shared(edits)
        while groups and time.monotonic() < until:
            group, again = groups.pop(0), []
            try:
                answers, why = tried(rtlib, crate, group, kept)
            except Killed:
                for it in (it for more in [group, *groups] for it in more):
                    yield it, None, "NOT TRIED: the check was killed, most likely for memory"
                return
            for edit in group:
                if goals := answers.get(edit):
                    yield edit, goals[0], ""
                elif len(group) > 1:
                    again.append(edit)
                else:
                    yield edit, None, edit.why or why or "NOT REFUSED: no goal of a function that it changes fails"
            # (one edit that can't be compiled, or that is called by all others, spoils a copy)
            groups += shared(again) if 2 * len(again) <= len(group) else [[it] for it in again]


# ---- the crates


class Mistakes:
    """The edits of a crate, and the file of those that were refused."""

    def __init__(self, crate):
        self.crate, self.path = crate, f"{crate.folder}/mistakes/tried"
        known, types = sources_of(crate.folder)
        self.edits = [Edit(crate, it, known, types) for it in sorted(glob.glob(f"{crate.folder}/mistakes/*.edit"))]
        lines = text_of(self.path).split("\n")[:-1] if os.path.isfile(self.path) else []
        self.lines = {line.split(" ")[0]: line for line in lines}

    def is_known(self, edit):
        return self.lines.get(edit.name, "").split(" ")[1:2] == [edit.sum]

    def write(self):
        names = [it.name for it in self.edits]
        lines = [self.lines[it] for it in names if it in self.lines]
        if lines or os.path.isfile(self.path):
            with open(self.path, "w", encoding="utf-8") as it:
                it.write("".join(f"{line}\n" for line in lines))

    def attempt(self, rtlib, edits, until):
        """Tries these edits, and returns how many were refused. Removes those that were tried from the list."""
        count, began = 0, time.monotonic()
        for dep in self.crate.below() if time.monotonic() < until else []:
            is_ours = dep.rlib.startswith(f"{TOP}/")
            if is_ours and dep.build_rlib(["--jobs", "1"], anew=False) or not os.path.isdir(dep.rlib):
                print(f"mistakes: {self.crate.name}: its library {dep.name} is not proved", flush=True)
                return 0
        for edit, goal, why in refused(rtlib, self.crate, list(edits), until):
            edits.remove(edit)
            if not why.startswith("NOT TRIED"):
                self.lines.pop(edit.name, None)
            if goal:
                self.lines[edit.name] = f"{edit.name} {edit.sum} {goal}"
                count += 1
            self.write()
            said = f"refused, {goal}" if goal else why
            print(f"mistakes: {self.crate.name}/{edit.name}: {said} ({time.monotonic() - began:.0f} s)", flush=True)
        return count


def edit_of(name):
    """Returns the path of the edit CRATE/NAME."""
    crate, _, edit = name.partition("/")
    return f"{TOP}/crates/{crate}/mistakes/{edit}.edit"


def main(words):
    rtlib, folder, until = toolchain(), TOP, float("inf")
    rtlib.guarded()
    if "--minutes" in words:
        at = words.index("--minutes")
        until = time.monotonic() + 60 * float(words[at + 1])
        del words[at : at + 2]
    if "--libraries" in words:
        at = words.index("--libraries")
        folder = os.path.realpath(words[at + 1])
        del words[at : at + 2]
    named = [it for it in words if it != "--all"]
    for name in named:
        if not glob.glob(f"{TOP}/crates/{name}/mistakes/*.edit" if "/" not in name else edit_of(name)):
            sys.exit(f"mistakes.py: there is no edit of {name}")
    os.chdir(TOP)
    tasks, count, right = [], 0, 0
    for crate in rtlib.crates_below(TOP):
        crate.rlib, crate.out = crate.rlib.replace(TOP, folder, 1), sys.stderr
        mistakes, name = Mistakes(crate), crate.name
        edits = [it for it in mistakes.edits if not named or {name, f"{name}/{it.name}"} & {*named}]
        count += len(edits)
        for edit in edits:
            if edit.why:
                print(f"mistakes: {name}/{edit.name}: {edit.why}")
        edits = [it for it in edits if not it.why]
        new = [it for it in edits if "--all" in words or not mistakes.is_known(it)]
        right += len(edits) - len(new)
        mistakes.write()
        if new:
            tasks.append((mistakes, new))
    new = sum(len(edits) for _, edits in tasks)
    with tempfile.TemporaryDirectory(prefix="mistakes-") as tempfile.tempdir:
        # (a run that is stopped leaves no folder, and its checks end with it)
        for number in (signal.SIGTERM, signal.SIGHUP, signal.SIGINT):
            signal.signal(number, lambda it, _: (shutil.rmtree(tempfile.tempdir, True), os._exit(128 + it)))
        with ThreadPoolExecutor(int(os.environ.get("RT_JOBS") or 1)) as pool:
            right += sum(pool.map(lambda task: task[0].attempt(rtlib, task[1], until), tasks))
    left = [f"{it.crate.name}/{edit.name}" for it, edits in tasks for edit in edits] if until < float("inf") else []
    new -= len(left)
    print(f"mistakes: {right} of {count} refused" + (f", {new} tried: commit crates/*/mistakes/tried" if new else ""))
    if left:
        print(f"SKIPPED: {len(left)} must-fail edits were not tried, since the time was over: {' '.join(left)}")
    return 0 if count and right == count - len(left) else 1


if __name__ == "__main__":
    sys.exit(main(sys.argv[1:]))
