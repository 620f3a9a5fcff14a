#!/usr/bin/env bash
# Runs all programs on their stored inputs without any proof, for a first check after a change:
# bash scripts/quick.sh [--unchecked] [CRATE..]
#
# Each program is built without proofs and optimization (scripts/native.sh --debug, which keeps the build while the
# sources stay the same), or is the proved build if that is up to date. scripts/runs.py tests it. What passed is not run
# again until the program or its runs change.
#
# The builds stop at an index out of range, an overflow or a failed unwrap (status 132; `rt try` says where), so this
# finds those faults for the stored inputs, and wrong output; what holds for all inputs is proved by scripts/test.sh.
# With --unchecked, it runs the builds that people get of a commit, optimized and without these checks: both kinds must
# print the same.
# QUICK_JOBS programs are built at a time, by default one for each processor. A line says when a step begins and how
# long it has taken. The last line has the counts. Status 5: the toolchain's command rt is missing.
source "$(dirname -- "$(readlink -f -- "$0")")/common.sh"
set +e
cd -- "$top" || exit
kind=--debug
if [ "${1-}" = --unchecked ]; then kind= && shift; fi
command -v rt >/dev/null || fail 5 "the toolchain's command rt is not here: put it on PATH"

# sum_of_runs CRATE PROGRAM: the checksum of a program, of its runs and of the scripts that compare them
sum_of_runs() {
    {
        sha256sum <"$2"
        find "crates/$1" scripts -type f ! -path "crates/$1/src/*" ! -path '*/specs/*' ! -path '*/proofs/*' \
            ! -path '*/out/*' -print0 | LC_ALL=C sort -z | xargs -0 sha256sum crates/toml_span_rows/stdout
    } | sha256sum
}

# try CRATE: builds a program, tests its runs, and prints the result
try() {
    local program said sum passed=crates/$1/out/passed
    SECONDS=0
    program=$(bash scripts/native.sh ${kind:+"$kind"} "$1" </dev/null) || { echo "$1: NOT BUILT" && return 1; }
    sum=$(sum_of_runs "$1" "$program")
    if [ -f "$passed" ] && [ "$(<"$passed")" = "$sum" ]; then
        echo "$1: right (unchanged since it passed)"
        return
    fi
    echo "$1: built, $SECONDS s; running it"
    if ! said=$(python3 scripts/runs.py "$1" "$program" 2>&1); then
        printf '%s\n%s: FAILED\n' "$said" "$1"
        return 1
    fi
    mkdir -p "crates/$1/out" && echo "$sum" >"$passed"
    echo "$1: right, $SECONDS s"
}

# the programs of these crates, or all; first those that use most crates, since they take longest
crates=("$@")
if [ $# -eq 0 ]; then mapfile -t crates < <(sed -n 's/^\([a-z][a-z0-9_]*\).*:.*/\1/p' crates.txt); fi
mapfile -t programs < <(for crate in "${crates[@]}"; do
    if [ -f "crates/$crate/src/main.rt" ]; then
        echo "$(bash scripts/vendor.sh --list "$crate" | wc -l) $crate"
    fi
done | sort -rn | cut -d ' ' -f 2)
count=${#programs[@]}
jobs=${QUICK_JOBS:-$(nproc)}
passed=0
for ((at = 0; at < count + jobs; at++)); do
    if [ "$at" -ge "$jobs" ] && wait -n; then passed=$((passed + 1)); fi
    if [ "$at" -lt "$count" ]; then try "${programs[at]}" & fi
done
echo "quick: $SECONDS s"
echo "$passed passed, $((count > 0 ? count - passed : 1)) failed"
[ "$count" -gt 0 ] && [ "$passed" -eq "$count" ]
