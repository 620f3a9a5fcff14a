#!/usr/bin/env python3
"""Runs a command, and then prints how long its proofs and tests took: timed.py COMMAND ARGUMENT..

Every five seconds it looks at the prover's processes below the command: which crate each works on, whether it has
--test, and its processor time. So up to five seconds of each process are missing, except in the total, which the system
counts. The status is that of the command.

Processors differ in speed, and a shared one varies from hour to hour: the proof of toml_span_lex took from 129 to 283
processor seconds. So each figure is also given as a multiple of that proof in the same run, if it was part of it.
"""
import contextlib
import os
import resource
import signal
import subprocess
import sys
import time

TICKS = os.sysconf("SC_CLK_TCK")
PARTS = ["proofs", "tests"]
UNIT = "proofs", "toml_span_lex"


def processes():
    """Returns for each process its parent, its start time and its processor seconds, with those of ended children."""
    found = {}
    for name in filter(str.isdigit, os.listdir("/proc")):
        try:
            with open(f"/proc/{name}/stat", encoding="utf-8", errors="replace") as it:
                words = it.read().rpartition(")")[2].split()
        except OSError:
            continue
        found[int(name)] = int(words[1]), int(words[19]), sum(map(int, words[11:15])) / TICKS
    return found


def task(process):
    """Returns the task of a process, as the part and the crate that it proves, or None if it proves nothing."""
    try:
        with open(f"/proc/{process}/cmdline", "rb") as it:
            words = it.read().decode(errors="replace").split("\0")
    except OSError:
        return None
    if os.path.basename(words[0]) != "rattle" or "--crate-name" not in words:
        return None
    part = "tests" if "--test" in words else "proofs"
    return part, words[words.index("--crate-name") + 1]


def look(top, seen):
    """Adds the current processor seconds of each process to its task."""
    found, below, more = processes(), set(), {top}
    while more:
        below |= more
        more = {it for it, (parent, _, _) in found.items() if parent in below} - below
    known = {it: task(it) for it in below if it in found}
    for process, at in known.items():
        parent, started, spent = found[process]
        if at:
            # a copy that the prover forks counts until it ends; from then on its time is part of its parent's
            seen[at, process, started] = spent, known.get(parent) == at and parent
    live = {process for _, process, _ in seen if process in known}
    for key in [it for it, (_, parent) in seen.items() if parent in live and it[1] not in live]:
        del seen[key]


def report(seen, total):
    """Prints a line for each part, for each crate of it, and for all."""
    rows = {}
    for (at, _, _), (spent, _) in seen.items():
        for name in [(at[0], ""), at]:
            rows[name] = rows.get(name, 0) + spent
    order = sorted(rows, key=lambda it: (PARTS.index(it[0]), it[1] != "", -rows[it]))
    for name, spent in [*((f"  {it[1]}" if it[1] else it[0], rows[it]) for it in order), total]:
        times = f", {spent / rows[UNIT]:.2f} times the proof of {UNIT[1]}" if UNIT in rows else ""
        print(f"time: {name:<24}{spent:8.0f} s of processors{times}", flush=True)


def main(words):
    seen, began = {}, time.monotonic()
    with subprocess.Popen(words) as ran:
        signal.signal(signal.SIGTERM, lambda *_: ran.terminate())
        while ran.poll() is None:
            look(ran.pid, seen)
            with contextlib.suppress(subprocess.TimeoutExpired):
                ran.wait(5)
    used = resource.getrusage(resource.RUSAGE_CHILDREN)
    name = f"{' '.join(words)}, {time.monotonic() - began:.0f} s"
    report(seen, (name, used.ru_utime + used.ru_stime))
    return ran.returncode if ran.returncode >= 0 else 128 - ran.returncode


sys.exit(main(sys.argv[1:]))
