#!/usr/bin/env python3
"""Measures how fast documents are parsed, or how much stack and memory that takes:
speed.py [--bytes N,..] [--instructions] [--peers] [KIND|FILE..]
speed.py --limits [PROGRAM..]

A document of each kind, of about N bytes (1,000,000), or a file, is parsed by toml_span_rows: the proved build if it
is no older than the sources, else a native build (scripts/native.sh). With --peers others are measured beside it, by
small programs that cargo and c++ build: the Rust crate toml-span, `DeTable` and `Table` of the Rust crate toml, and
toml++, from packages of Debian's sid, which apt fetches into a temporary folder, and the crate toml of the toolchain.
Without documents they are measured on manifests in those packages, too.

A line has, for each byte of the text, the nanoseconds of processor time of a parse and the drop of its tree, without
the system's part. It is the difference between a run of one parse and a run of ten more (or of a megabyte each, for a
shorter text), the best of three rounds. `peak` is the most memory of one parse in MB (some 20 MB are this script's
own). For a peer it says how many times as long it took, and its peak, or `-` if it refuses the document. With
--instructions a line has the instructions of a parse for each byte (valgrind): other load of the machine does not
change them.

--limits runs programs that read standard input (native builds of toml-span and toml_span_show unless they are given) on
the worst documents at the limit of 128 nested levels, for some minutes. Stack: the least `ulimit -s`, in KB and to
4 KB, with which the program ends by itself, without an environment. Memory: the greatest resident size as a multiple of
the text.
"""

import argparse
import os
import random
import re
import resource
import subprocess
import sys
import tempfile
from pathlib import Path

import toml_test

TOP = os.path.dirname(os.path.dirname(os.path.abspath(__file__)))

# programs that do what toml_span_rows does: over Rust's crates, and over toml++
CARGO = """package = { name = "peers", version = "0.0.0", edition = "2021" }
dependencies = { toml = "1", toml-span = "0.7" }
"""
CONFIG = """source.crates-io.replace-with = "debian"
source.debian.directory = "%s"
"""
RUST = {"toml-span": "toml_span::parse", "detable": "toml::de::DeTable::parse", "toml": "toml::from_str::<toml::Table>"}
MAIN = """fn main() {
    let words: Vec<String> = std::env::args().collect();
    let text = std::fs::read_to_string(&words[1]).expect("a file");
    let mut is_read = true;
    for _ in 0..words[2].parse().expect("a number") {
        is_read = std::hint::black_box(%s(&text)).is_ok();
    }
    println!("{}", if is_read { "ok" } else { "error" });
}
"""
CPP = """#define TOML_EXCEPTIONS 0
#include <fstream>
#include <iostream>
#include <sstream>
#include <toml++/toml.hpp>
int main(int, char **words) {
    std::stringstream text;
    text << std::ifstream(words[1]).rdbuf();
    const std::string all = text.str();
    bool is_read = true;
    for (long left = std::stol(words[2]); left > 0; left--) is_read = static_cast<bool>(toml::parse(all));
    std::cout << (is_read ? "ok" : "error") << "\\n";
}
"""
PASSES, ROUNDS = 10, 3
KIT = """#![tactic(auto)]

use std::{env, fs, io};
use toml::table_from_str;

fn main(rt: HostRuntime) -> io::Result<()> {
    let words: Vec<String> = env::args(&rt)?.skip(1).collect(rt.alloc())?;
    let [file, count] = words.as_slice() else {
        return Ok(());
    };
    let text = fs::read_to_string(&rt, file.as_str())?;
    let mut outcome = "ok";
    for _ in 0..count.as_str().parse::<u64>().unwrap_or(0) {
        if table_from_str(rt.alloc(), text.as_str()).is_err() {
            outcome = "error";
        }
    }
    println!(rt; "{outcome}")
}
"""
MANIFESTS = ["hashbrown", "indexmap", "serde", "toml", "winnow"]
WORDS = "amber basil cedar delta ember flint grove heron iris juniper karst lumen maple north onyx pearl".split()


# ---- documents: each generator gives one piece after the other, by a running number


def words(rng, count=1, between=" "):
    return between.join(rng.choice(WORDS) for _ in range(count))


def scalar(rng):
    kind = rng.randrange(5)  # (no dates, which the Rust crate refuses)
    if kind == 0:
        return str(rng.randrange(-10**6, 10**6))
    if kind == 1:
        return f"{rng.randrange(1000)}.{rng.randrange(10, 100)}"
    return rng.choice(["true", "false"]) if kind == 2 else f'"{words(rng)} {words(rng)}"'


def pair(rng):
    return rng.randrange(100), rng.randrange(100)


def lockfile(rng, n):
    lines = [
        "[[package]]",
        f'name = "{words(rng)}-{n}"',
        f'version = "{rng.randrange(9)}.{rng.randrange(30)}.{rng.randrange(9)}"',
        'source = "registry+https://example.org/an-index"',
        f'checksum = "{rng.getrandbits(256):064x}"',
    ]
    if rng.randrange(2):
        lines += ["dependencies = [", *(f' "{words(rng)}-{k}",' for k in range(1, 2 + rng.randrange(6))), "]"]
    return "\n".join(lines) + "\n\n"


def packages(rng, n):
    lines = [
        "[[package]]",
        f'name = "{words(rng)}-{n}"',
        f'version = "{rng.randrange(9)}.{rng.randrange(30)}.{rng.randrange(9)}"',
        f'files = [{{file = "{words(rng)}-{n}.whl", hash = "sha256:{rng.getrandbits(256):064x}"}}]',
    ]
    if rng.randrange(2):
        lines += ["[package.dependencies]", *(f'{words(rng)}-{k} = ">={k}.0"' for k in range(1, 2 + rng.randrange(4)))]
    return "\n".join(lines) + "\n\n"


def strings(rng, n):
    text = words(rng, 60)
    return f"text_{n} = '{text}'\n" if n % 4 else f'text_{n} = """\n{text}\n{text}"""\n'


KINDS = {
    "flat": lambda rng, n: f"{words(rng)}_{n} = {scalar(rng)}\n",
    "lockfile": lockfile,
    "packages": packages,
    "headers": lambda rng, n: f"[{words(rng, 2, '.')}.t{n}]\nvalue = {rng.randrange(1000)}\n",
    "arrays": lambda rng, n: f"points_{n} = [{', '.join('[%d, %d]' % pair(rng) for _ in range(6))}]\n"
    "at_%d = {x = %d, y = %d}\n" % (n, *pair(rng)),
    "strings": strings,
    "dotted": lambda rng, n: f"{words(rng, 3, '.')}.key_{n} = {rng.randrange(1000)}\n",
    "dotted_sections": lambda rng, n: f"[[{words(rng)}_{n}]]\n"
    + "".join(f"{words(rng, 2, '.')}.k{k} = {rng.randrange(1000)}\n" for k in range(8)),
    "comments": lambda rng, n: "".join(f"# {words(rng, 10)}\n" for _ in range(5)) + f"\nkey_{n} = {n}\n",
}


def document(kind, size):
    rng, parts, length = random.Random(kind), [], 0
    while length < size:
        parts.append(KINDS[kind](rng, len(parts)))
        length += len(parts[-1])
    return "".join(parts)


def documents(given, work):
    """Yields the documents to measure, each with its name and its file."""
    for kind in given.documents or KINDS:
        if kind not in KINDS:
            yield os.path.basename(kind), kind
            continue
        for size in given.bytes.split(","):
            path = Path(f"{work}/{kind}.toml")
            path.write_text(document(kind, int(size)))
            yield kind, path
    if given.peers and not given.documents:
        for name in MANIFESTS:
            yield name, next(Path(work).glob(f"usr/share/cargo/registry/{name}-[0-9]*/Cargo.toml"))


# ---- runs


def ended(command, **how):
    """Returns what a command writes, its status, and its use of resources."""
    with subprocess.Popen(command, **how) as ran:
        said = ran.stdout.read() if ran.stdout else None
        _, status, used = os.wait4(ran.pid, 0)
        ran.returncode = os.waitstatus_to_exitcode(status)
    return said, ran.returncode, used


def run(program, path, passes):
    """Returns the processor seconds of a run of a program and its peak memory in MB, or None for an error."""
    said, status, used = ended([program, path, str(passes)], stdout=subprocess.PIPE, text=True)
    if status != 0:
        sys.exit(f"speed: {program} ended with status {status} on {path} and said: {said.strip()}")
    return (used.ru_utime, used.ru_maxrss / 1000) if "ok" in said.split() else None


def timed(programs, path):
    """Returns for each program the nanoseconds per byte and the peak, or None. The programs run in turn."""
    best = [(float("inf"), 0.0) for _ in programs]
    size = os.path.getsize(path)
    passes = max(PASSES, PASSES * 1_000_000 // size)
    for at, program in [*enumerate(programs)] * ROUNDS:
        few, many = run(program, path, 1), best[at] and run(program, path, 1 + passes)
        if few and many:
            spent = (many[0] - few[0]) / passes / size * 1e9
            best[at] = min(best[at][0], spent), max(best[at][1], few[1])
        else:
            best[at] = None
    return best


def counted(program, path, passes):
    """Returns the number of instructions of a run, or None if the program refuses the document."""
    command = ["valgrind", "--tool=callgrind", "--callgrind-out-file=/dev/null", program, path, str(passes)]
    ran = subprocess.run(command, capture_output=True, text=True, check=False)
    found = re.search(r"Collected : (\d+)", ran.stderr)
    if ran.returncode or not found:
        sys.exit(f"speed: valgrind could not count {program} on {path}: {ran.stderr.strip()[-300:]}")
    return int(found[1]) if "ok" in ran.stdout.split() else None


def instructions(programs, path):
    """Returns for each program the number of instructions per byte of one more parse."""
    size = os.path.getsize(path)
    more = max(1, 100_000 // size)
    pairs = [(counted(it, path, 1), counted(it, path, 1 + more)) for it in programs]
    return [[(many - few) / more / size] if few else None for few, many in pairs]


def cells_of(own, theirs):
    """Returns the cells of a row for a peer: its figure as a multiple of this library's, and its peak."""
    return [f"{theirs[0] / own[0]:.2f}", *(f"{it:.0f}" for it in theirs[1:])] if theirs else ["-"] * len(own)


def peers(work):
    """Builds programs that use other parsers, from the packages of Debian's sid. Returns them by their names."""
    try:
        apt = toml_test.apt_of(work, "deb")
    except toml_test.Unreachable as why:
        sys.exit(f"speed: the peers cannot be fetched: {why}")
    names = ["librust-toml-dev", "librust-toml-span-dev", "libtomlplusplus-dev"]
    toml_test.called(*apt, "-y", "--download-only", "--no-install-recommends", "install", *names)
    for package in work.glob("cache/archives/*.deb"):
        if re.match("librust|libtoml", package.name):
            subprocess.run(["dpkg-deb", "-x", package, work], check=True)
    (work / "src/bin").mkdir(parents=True)
    (work / ".cargo").mkdir()
    (work / "Cargo.toml").write_text(CARGO)
    (work / ".cargo/config.toml").write_text(CONFIG % (work / "usr/share/cargo/registry"))
    for name, call in RUST.items():
        (work / f"src/bin/{name}.rs").write_text(MAIN % call)
    (work / "peer.cpp").write_text(CPP)
    (work / "crates/kit/src").mkdir(parents=True)
    (work / "crates.txt").write_text("kit: toml\n")
    (work / "HANDLES").write_text("Handles allowed: none.\n")
    (work / "crates/kit/src/main.rt").write_text(KIT)
    build = ["cargo", "build", "--release", "--quiet", "--offline"]
    compiled = ["c++", "-std=c++17", "-O3", "-DNDEBUG", "-I", "usr/include", "-o", "toml++", "peer.cpp"]
    for command, folder in ((build, work), (compiled, work), (["rt", "run"], work / "crates/kit")):
        if subprocess.run(command, cwd=folder, capture_output=True, check=False).returncode:
            sys.exit(f"speed: the peers cannot be built: {command[0]} failed")
    made = {name: work / f"target/release/{name}" for name in RUST}
    return made | {"the toolchain's toml": work / "crates/kit/out/kit", "toml++": work / "toml++"}


# ---- stack and memory


def keys(count, name="k"):
    return ".".join([name] * count)


def filled(line, size=1_000_000):
    """Returns as many lines as fit, each with a different number."""
    return "".join(f"{line % at}\n" for at in range(size // (len(line % 10**5) + 1)))


def deepest():
    """Returns documents that take much stack."""
    yield "one assignment", "a = 1\n"
    yield "127 brackets", f"a = {'[' * 127}{']' * 127}\n"
    yield "127 inline tables", f"a = {'{a = ' * 127}1{'}' * 127}\n"
    yield "a key of 128 parts", f"{keys(128)} = 1\n"
    yield "a header of 128 parts, and below it a key of 128", f"[{keys(128, 'h')}]\n{keys(128)} = 1\n"
    headers = "".join(f"[[{keys(count, 'h')}]]\n" for count in range(1, 129))
    yield "128 arrays of tables in one another, and below them a key of 128", f"{headers}{keys(128)} = 1\n"


def largest():
    """Returns documents that take much memory."""
    yield "headers of 128 parts", filled(f"[k%d.{keys(127, 'a')}]")
    yield "dotted keys of 128 parts", filled(f"k%d.{keys(127, 'a')} = 1")
    yield "headers of 2 parts", filled("[k%d.a]")
    yield "assignments", filled("k%d = 1")
    yield "an array of integers", f"a = [{'1,' * 499_997}]\n"
    yield "an array of integers, its key of 1,000 bytes", f"{'k' * 1000} = [{'1,' * 499_497}]\n"


def ends(program, text, size):
    """Returns whether a program ends by itself in four runs with this stack in KB, placed at random each time."""

    def limit():
        resource.setrlimit(resource.RLIMIT_CORE, (0, 0))
        resource.setrlimit(resource.RLIMIT_STACK, (size << 10, resource.getrlimit(resource.RLIMIT_STACK)[1]))

    how = {"input": text, "stdout": subprocess.DEVNULL, "stderr": subprocess.DEVNULL, "env": {}, "preexec_fn": limit}
    try:
        return all(0 <= subprocess.run(program, check=False, **how).returncode <= 4 for _ in range(4))
    except OSError:
        return False


def least(program, text):
    """Returns the least stack in KB with which a program ends by itself."""
    low, high = 0, 8192
    while high - low > 4:
        middle = (low + high) // 8 * 4
        low, high = (low, middle) if ends(program, text, middle) else (middle, high)
    return high


def peak(program, text):
    """Returns the peak resident size of a program, as a multiple of the length of the text."""
    with tempfile.TemporaryFile() as file:
        file.write(text)
        file.seek(0)
        _, status, used = ended(program, stdin=file, stdout=subprocess.DEVNULL, env={})
    return f"(status {status})" if status else f"{used.ru_maxrss * 1024 / len(text):.0f}"


def limits(named):
    """Prints the stack and the memory of each program."""
    programs = [[os.path.abspath(it)] for it in named]
    if not programs:
        cli, show = toml_test.native("toml_span_cli"), toml_test.native("toml_span_show")
        programs = [[cli, "check", "-"], [cli, "fmt", "-"], [cli, "get", "--items", "-", ""]]
        programs += [[cli, "get", "--tagged", "-", ""], [show]]
    for program in programs:
        print(f"{' '.join([os.path.relpath(program[0], TOP), *program[1:]])}:")
        for name, text in deepest():
            print(f"{least(program, text.encode()):8} KB of stack: {name}", flush=True)
        for name, text in largest():
            print(f"{peak(program, text.encode()):>8} times the text in memory: {name}", flush=True)


def asked():
    """Returns the parsed arguments."""
    parser = argparse.ArgumentParser(description=__doc__, formatter_class=argparse.RawTextHelpFormatter)
    parser.add_argument("--bytes", default="1000000")
    parser.add_argument("--instructions", action="store_true")
    parser.add_argument("--peers", action="store_true")
    parser.add_argument("--limits", action="store_true")
    parser.add_argument("documents", nargs="*", metavar="KIND|FILE", help=", ".join(KINDS))
    given = parser.parse_args()
    unknown = [it for it in given.documents if it not in KINDS and not os.path.isfile(it)]
    if unknown:
        parser.error(f"there is no kind or file {unknown[0]}; the kinds are {', '.join(KINDS)}")
    return given


def main():
    given = asked()
    if given.limits:
        return limits(given.documents)
    programs = {"": toml_test.native("toml_span_rows")}
    if "/unproved-" in programs[""]:
        print("speed: this is a build without the proofs, not the one that the gate makes", file=sys.stderr)
    measured, units = timed, ["ns/byte", "peak MB"]
    if given.instructions:
        measured, units = instructions, ["instructions/byte"]
    with tempfile.TemporaryDirectory() as work:
        programs |= peers(Path(work)) if given.peers else {}
        heads = ["document", "KB", *(f"{name} {unit}".strip() for name in programs for unit in units)]
        print("| " + " | ".join(heads) + " |\n|" + "---|" * len(heads), flush=True)
        for name, path in documents(given, work):
            own, *others = measured([*programs.values()], path)
            if own is None:
                sys.exit(f"speed: {path} is no document")
            row = [name, f"{os.path.getsize(path) / 1e3:.1f}", *(f"{it:.1f}" for it in own)]
            row += [cell for theirs in others for cell in cells_of(own, theirs)]
            print("| " + " | ".join(row) + " |", flush=True)


main()
