#!/usr/bin/env python3
"""Tests a program with its stored runs, or runs rows: runs.py CRATE [PROGRAM]
                                                    runs.py --rows [ROW..]

The runs are in the transcripts crates/CRATE/runs/*.run, whose form scripts/transcripts.py describes and reads; one more
run is the folder crates/CRATE, with files as `expand` writes them. The program runs in a folder with the files of
runs/data and of the run's own. Afterwards these must be as before, with their permissions, except for the files
`after`, and there may be no other file. A line `refused` has three numbers: the run takes place again with each request
for memory refused in turn, and they are the status, the least number of requests, and how many of them change nothing.
The script crates/CRATE/checks.py or checks.sh has further checks. PROGRAM is the proved build by default.

--rows prints each ROW with its answer (docs/ARCHITECTURE.md, "Tests are rows of data"). Without ROW it takes the lines
of crates/toml_span_rows/stdout that are not answers as `stdin`, runs the program, and shows each answer that differs
(- as stored, + now), with status 1. The program is a native build (scripts/native.sh --debug).
"""
import collections
import concurrent.futures
import difflib
import multiprocessing
import os
import re
import select
import shlex
import shutil
import stat
import subprocess
import sys
import tempfile

import transcripts

TOP = transcripts.TOP
OWN = ("args", "stdin", "stdout", "stderr", "status", "requests")
FORK = multiprocessing.get_context("fork")
Result = collections.namedtuple("Result", "status out err files")


def bytes_of(path):
    with open(path, "rb") as it:
        return it.read()


def tree_of(folder, inside="."):
    """Returns what is in a folder: for each path its mode, and the bytes of a file or the target of a link."""
    found = {inside: (os.lstat(folder).st_mode, None)}
    for it in os.scandir(folder):
        mode, path = it.stat(follow_symlinks=False).st_mode, f"{inside}/{it.name}"
        if stat.S_ISDIR(mode):
            found |= tree_of(it.path, path)
        else:
            content = bytes_of(it.path) if stat.S_ISREG(mode) else os.readlink(it.path) if stat.S_ISLNK(mode) else None
            found[path] = mode, content
    return found


def put(folder, files, mode):
    """Writes files into a folder. Those that are there already keep their permissions; new ones get `mode`."""
    for path, data in files.items():
        is_new = not os.path.exists(f"{folder}/{path}")
        os.makedirs(os.path.dirname(f"{folder}/{path}"), exist_ok=True)
        with open(f"{folder}/{path}", "wb") as it:
            it.write(data)
        if is_new and mode:
            os.chmod(f"{folder}/{path}", mode)


def part(files, prefix):
    """Returns the files whose paths begin with `prefix`, by the rest of their paths."""
    return {path[len(prefix) :]: data for path, data in files.items() if path.startswith(prefix)}


def differences(wanted, made, most=100):
    lines = [it.decode(errors="backslashreplace").splitlines() for it in (wanted, made)]
    return "\n".join([*difflib.unified_diff(*lines, "as stored", "now", lineterm="", n=1)][:most])


class Tester:
    """Runs a program in a folder, and counts the checks that hold."""

    def __init__(self, crate, program, faults):
        self.crate, self.program, self.faults = crate, program, faults
        self.count, self.wrong, self.name, self.words = 0, 0, ".", []
        self.room = tempfile.mkdtemp(prefix="runs-")
        self.folder, self.now = f"{self.room}/folder", None
        self.input = f"{self.room}/in"
        self.shared = transcripts.files_below(f"{crate}/runs/data")
        self.files = self.shared
        self.out, self.err, self.made = (open(f"{self.room}/{it}", "w+b", buffering=0) for it in ("out", "err", "made"))

    def holds(self, is_right, *why):
        """Counts a check, and prints what is wrong if it does not hold."""
        self.count += 1
        if not is_right:
            self.wrong += 1
            command = shlex.join([os.path.basename(self.program), *self.words])
            print(f"runs: {os.path.basename(self.crate)}/{self.name}: wrong: {command}", *why, sep="\n", flush=True)

    def fresh(self):
        """Has the folder hold the files of the run, and nothing else."""
        if self.now and tree_of(self.folder) == self.now:
            return
        shutil.rmtree(self.folder, ignore_errors=True)
        os.mkdir(self.folder)
        put(self.folder, self.files, 0o640)
        self.now = tree_of(self.folder)

    def set_input(self, data):
        put(self.room, {"in": data}, None)

    def requests(self):
        """Returns how many requests for memory the last run made, if `faults` was loaded."""
        return int(bytes_of(f"{self.room}/made") or 0)

    def go(self, out=None, **environment):
        """Runs the program there with the run's arguments and input, for at most 120 seconds."""
        for it in (self.out, self.err, self.made):
            it.truncate(0)
            it.seek(0)
        source, environment = os.open(self.input, os.O_RDONLY), {**os.environ, "TOLD": str(self.made.fileno()), **environment}
        ran = subprocess.Popen([self.program, *self.words], stdin=source, stdout=out or self.out, stderr=self.err,
                               cwd=self.folder, env=environment, pass_fds=[self.made.fileno()])
        os.close(source)
        watch = os.pidfd_open(ran.pid)
        if not select.select([watch], [], [], 120)[0]:
            ran.kill()
        os.close(watch)
        status = ran.wait()
        said = [os.pread(it.fileno(), 1 << 30, 0) for it in (self.out, self.err)]
        return Result(status if status >= 0 else 128 - status, *said, tree_of(self.folder))

    def stored(self, name, run):
        """Checks a stored run."""
        self.name, self.now, self.files = name, None, {**self.shared, **part(run, "data/")}
        self.words = run.get("args", b"").decode(errors="surrogateescape").splitlines()
        self.set_input(run.get("stdin", b""))
        self.fresh()
        result, wanted = self.go(), int(run.get("status", b"0"))
        self.holds(result.status == wanted, f"status {result.status}, not {wanted}", result.err.decode(errors="replace"))
        for part_of, made in ("stdout", result.out), ("stderr", result.err):
            if part_of == "stdout" or part_of in run:
                stored = run.get(part_of, b"")
                self.holds(made == stored, f"{part_of}, status {result.status}:", differences(stored, made))
        self.check_files(run, result)
        if "requests" in run:
            self.refused(*map(int, run["requests"].split()))

    def check_files(self, run, result):
        """Checks that the folder is as before, but for the files `after`."""
        wanted, after = self.now, part(run, "after/")
        if after:
            shutil.rmtree(self.folder)
            self.now = None
            self.fresh()
            put(self.folder, after, None)
            wanted, self.now = tree_of(self.folder), None
        made = result.files
        for path in wanted.keys() | made.keys():
            if wanted.get(path) != made.get(path):
                (mode, one), (other_mode, other) = (it.get(path, (0, b"")) for it in (wanted, made))
                why = differences(one, other) if isinstance(one, bytes) and isinstance(other, bytes) else ""
                self.holds(False, f"{path}: mode {mode:o} -> {other_mode:o}", why)
        self.count += wanted == made

    def is_silent(self, result, status):
        """Returns whether the program ended with this status, wrote nothing to standard output and changed no file. With
        status 1, standard error must report that memory ran out; otherwise it must be empty."""
        is_told = b"OutOfMemory" in result.err if status == 1 else not result.err
        return result.status == status and not result.out and result.files == self.now and is_told

    def refused(self, status, requests, guesses):
        """Repeats the run with each request for memory refused in turn. There must be at least `requests` of them. Each
        must end the program with the status (see is_silent), except for `guesses` requests, without which the run must
        end as usual."""
        self.fresh()
        usual = self.go(LD_PRELOAD=self.faults)
        made, spared = self.requests(), 0
        for request in range(1, made + 1):
            self.fresh()
            result = self.go(LD_PRELOAD=self.faults, REFUSED=str(request))
            if self.is_silent(result, status):
                self.count += 1
            else:
                spared += 1
                self.holds(result.status == usual.status, f"request {request} refused: status {result.status}")
                self.holds(result.out == usual.out, f"request {request} refused:", differences(usual.out, result.out))
                self.holds(result.files == usual.files, f"request {request} refused: files differ")
        self.holds(made >= requests and spared == guesses, f"{made} requests refused, {spared} change nothing")


def own_run(crate):
    """Returns the run that is the folder of the crate itself."""
    files = {it: bytes_of(f"{crate}/{it}") for it in OWN if os.path.isfile(f"{crate}/{it}")}
    data = transcripts.files_below(f"{crate}/data")
    return files | {f"data/{path}": it for path, it in data.items()}


def begin(*words):
    """Makes the tester of a worker."""
    global tester
    tester = Tester(*words)


def share(name, run):
    """Checks a run in a worker. Returns how many checks it took, and how many were wrong."""
    before = tester.count, tester.wrong
    tester.stored(name, run)
    return tester.count - before[0], tester.wrong - before[1]


def further(crate, program, faults, room):
    """Runs the further checks of a crate. Returns their number, and how many were wrong."""
    if os.path.isfile(f"{crate}/checks.sh"):
        words = ["bash", f"{crate}/checks.sh", program, faults, room]
        said = subprocess.run(words, cwd=crate, stdout=subprocess.PIPE, text=True, errors="replace").stdout
        lines, _, last = said.rstrip("\n").rpartition("\n")
        print(lines, end="\n" if lines else "")
        right = re.fullmatch(r"checks: (\d+) of (\d+) right", last)
        if not right:
            print(last)
        return (int(right[2]), int(right[2]) - int(right[1])) if right else (1, 1)
    if os.path.isfile(f"{crate}/checks.py"):
        with open(f"{crate}/checks.py", encoding="utf-8") as it:
            code, checks, names = it.read(), Tester(crate, program, faults), {}
        checks.files = {**checks.shared, **part(own_run(crate), "data/")}
        os.chdir(crate)
        exec(compile(code, f"{crate}/checks.py", "exec"), names)
        names["check"](checks)
        shutil.rmtree(checks.room)
        return checks.count, checks.wrong
    return 0, 0


def make_faults(room):
    """Makes a library, with the toolchain's clang, that counts and refuses requests for memory, and lets writes fail."""
    kit = os.path.dirname(subprocess.run(["rt", "doc"], stdout=subprocess.PIPE, text=True, check=True).stdout)
    words = ["--target=x86_64-unknown-linux-gnu", "-O1", "-fPIC", "-c", f"{TOP}/scripts/c_tests/faults.c"]
    subprocess.run([f"{kit}/toolchain/bin/clang", *words, "-o", f"{room}/faults.o"], check=True)
    subprocess.run([f"{kit}/toolchain/bin/ld.lld", "-shared", f"{room}/faults.o", "-o", f"{room}/faults.so"], check=True)
    return f"{room}/faults.so"


def rows(words):
    """Prints rows with their answers, or compares all with the stored ones."""
    made = ["bash", f"{TOP}/scripts/native.sh", "--debug", "toml_span_rows"]
    program = subprocess.run(made, stdin=subprocess.DEVNULL, stdout=subprocess.PIPE, text=True, check=True).stdout.strip()
    os.chdir(f"{TOP}/crates/toml_span_rows")
    stored, lines = bytes_of("stdout"), bytes_of("stdout").splitlines(True)
    sent = "".join(f"{it}\n" for it in words).encode() or b"".join(it for it in lines if not it.startswith(b"    "))
    answers = subprocess.run([program], cwd="data", input=sent, stdout=subprocess.PIPE).stdout
    if words:
        sys.stdout.buffer.write(answers)
        return 0
    put(".", {"stdin": sent}, None)
    print(differences(stored, answers, None))
    return int(answers != stored)


def main(words):
    if words[:1] == ["--rows"]:
        return rows(words[1:])
    if not words:
        sys.exit("usage: python3 scripts/runs.py CRATE [PROGRAM]")
    for it in ("NO_COLOR", "CLICOLOR_FORCE"):
        os.environ.pop(it, None)
    crate = f"{TOP}/crates/{words[0]}"
    program = os.path.abspath(words[1] if len(words) > 1 else f"{crate}/out/{words[0]}")
    if not os.access(program, os.X_OK):
        sys.exit(f"runs.py: there is no program {program}")
    runs = {".": own_run(crate), **(transcripts.all_runs(words[0]) if os.path.isdir(f"{crate}/runs") else {})}
    with tempfile.TemporaryDirectory(prefix="runs-") as tempfile.tempdir:
        faults, jobs = make_faults(tempfile.tempdir), len(os.sched_getaffinity(0))
        with concurrent.futures.ProcessPoolExecutor(jobs, FORK, begin, (crate, program, faults)) as pool:
            counts = [*pool.map(share, *zip(*runs.items()))]
        counts.append(further(crate, program, faults, tempfile.tempdir))
    count, wrong = map(sum, zip(*counts))
    print(f"runs: {count - wrong} of {count} right")
    return int(wrong > 0)


if __name__ == "__main__":
    sys.exit(main(sys.argv[1:]))
