#!/usr/bin/env python3
"""Reports the type errors of a crate, in seconds and without proofs: check_types.py CRATE

The crate and those of this repository that it uses are read as sources. CRATE is a library or a program of the file
crates.txt beside the folder `scripts` in which, or below which, this script is.

No command of the toolchain stops after the types, so a check runs on a copy whose root has one error more, a constant
that overflows: the toolchain evaluates constants with the types, and goes no further if one is wrong. What it reports
beside this error is printed. Patterns that don't cover all values, borrowing, contracts and proofs come later, by
`rt try` and `rt check`.

Status: 0 if there is no type error, 1 if there is one, 5 if the toolchain is missing or works differently.
"""
import importlib.machinery
import importlib.util
import os
import shutil
import subprocess
import sys
import tempfile

sys.dont_write_bytecode = True
TOP = os.path.realpath(__file__).rpartition("/scripts/")[0]
SENTINEL = "const LAST_OF_THE_TYPES: u8 = 255 + 1;"


def toolchain():
    """Returns the module of the toolchain's command rt, which knows how a crate is checked."""
    command = shutil.which("rt")
    if not command:
        print("the command rt of Rattle's toolchain is not on PATH: add it", file=sys.stderr)
        sys.exit(5)
    loader = importlib.machinery.SourceFileLoader("rtlib", f"{os.path.dirname(os.path.realpath(command))}/rtlib.py")
    made = importlib.util.module_from_spec(importlib.util.spec_from_loader("rtlib", loader))
    loader.exec_module(made)
    return made


def main(words):
    rtlib = toolchain()
    crates = {it.name: it for it in rtlib.crates_below(TOP)}
    if len(words) != 1 or words[0] not in crates:
        sys.exit("usage: check_types.py CRATE, with a line for it in crates.txt")
    crate = crates[words[0]]
    root = f"src/{'main' if crate.is_program else 'lib'}.rt"
    with tempfile.TemporaryDirectory() as room:
        for part in filter(lambda it: os.path.isdir(f"{crate.folder}/{it}"), ("src", "specs")):
            shutil.copytree(f"{crate.folder}/{part}", f"{room}/{part}")
        with open(f"{room}/{root}", "a+", encoding="utf-8") as it:
            it.seek(0)
            last = it.read().count("\n") + 2
            it.write(f"\n{SENTINEL}\n")
        check = [rtlib.RATTLE, "check", *crate.words(["--jobs", "1", "--start", "no function"], as_source=True)]
        ran = subprocess.run(check, cwd=room, stdout=subprocess.PIPE, stderr=subprocess.STDOUT, text=True)
    lines = ran.stdout.splitlines()
    errors = [it for it in lines if not it.startswith(f"{root}:{last}:")]
    if not lines:
        print(f"check_types.py: rattle ended with status {ran.returncode} and reported nothing", file=sys.stderr)
        return 5
    print(*errors, sep="\n", end="\n" if errors else "")
    return int(bool(errors))


if __name__ == "__main__":
    sys.exit(main(sys.argv[1:]))
