"""How much faster `loads` is than that of tomllib, in processor time: times.py FOLDER; at least four times."""

import glob
import os
import sys
import time

import tomllib
import toml_span


def least(text, rounds, calls):
    """The least times of both, in turn, since a machine that others share changes its speed; of so many calls each."""
    ours, theirs = [], []
    for _ in range(rounds):
        start = time.process_time()
        for _ in range(calls):
            toml_span.loads(text)
        between = time.process_time()
        for _ in range(calls):
            tomllib.loads(text)
        ours.append((between - start) / calls)
        theirs.append((time.process_time() - between) / calls)
    return min(ours), min(theirs)


def main():
    slow = 0
    for path in sorted(glob.glob(os.path.join(sys.argv[1], "*[km].toml"))):
        with open(path, encoding="utf-8", newline="") as file:
            text = file.read()
        if toml_span.loads(text) != tomllib.loads(text):
            sys.exit(f"times: {path} is read otherwise")
        ours, theirs = least(text, 8 if len(text) > 100_000 else 40, max(1, 20_000 // len(text)))
        name = os.path.basename(path)
        print(f"times: {name}: {1000 * ours:.2f} ms, tomllib {1000 * theirs:.2f} ms: {theirs / ours:.1f} times")
        slow += theirs < 4 * ours
    return slow


sys.exit(main())
