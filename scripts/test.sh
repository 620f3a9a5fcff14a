#!/usr/bin/env bash
# Tests everything: `rt ci`, which proves the crates from nothing; the must-fail edits that have changed since they were
# tried (scripts/mistakes.py); the stored runs of the programs that it built, and of those that only test, built without
# proofs (`# unproved` in crates.txt); each request for memory refused in turn; the official suites of TOML and of JSON
# Schema; and rules that no prover checks. Lines `time:` say how long each part took. The last line has the counts, and
# lines `SKIPPED` before it say what could not be run.
#
# `rt ci` runs in a copy of the repository, without the unproved programs. What it built is then moved to crates/*/out.
set -uo pipefail
cd "$(dirname "$0")/.." || exit
work=$(mktemp -d)
trap 'rm -rf "$work"' EXIT
passed=0
failed=0
: >"$work/skipped"

# start NAME COMMAND..: starts a check, which runs alongside those that have started already
names=()
begun=()
start() {
    (
        TIMEFORMAT="time: $1: %R s, %U + %S s of processors"
        time "${@:2}"
    ) >"$work/${#names[@]}" 2>&1 &
    begun+=("$!")
    names+=("$1")
}

# alone COMMAND..: runs a command once no other one runs that was started by this function
alone() {
    {
        flock 8
        "$@"
    } 8>"$work/alone"
}

# ended: waits for the checks that have started, counts each, and prints what it wrote
ended() {
    local index
    for index in "${!names[@]}"; do
        if wait "${begun[index]}"; then passed=$((passed + 1)); else
            failed=$((failed + 1))
            names[index]+=": failed"
        fi
        echo "== ${names[index]}"
        cat "$work/$index"
        grep '^SKIPPED' "$work/$index" >>"$work/skipped"
    done
    names=()
    begun=()
}

# run_unproved CRATE: builds a program without proofs and optimization, with run-time checks, and tests its stored runs
run_unproved() {
    local program
    program=$(bash scripts/native.sh --debug "$1" </dev/null) && python3 scripts/runs.py "$1" "$program"
}

# run_suite: runs the suite toml-test, if it can be fetched
run_suite() {
    local status=0
    python3 scripts/toml_test.py || status=$?
    if [ "$status" -ne 2 ]; then return "$status"; fi
    echo "SKIPPED: toml-test was not run, since it can't be fetched"
}

# download PACKAGE: fetches a Debian package and unpacks it into the folder $work/PACKAGE
download() {
    (
        mkdir -p "$work/$1" && cd "$work/$1" || exit
        { apt-get -qq download "$1" || { apt-get -qq update && apt-get -qq download "$1"; }; } && dpkg-deb -x ./*.deb .
    ) >/dev/null 2>&1
}

# run_schemas: compares answers on schemas with the official suite, and with those of Python's jsonschema
run_schemas() {
    local package=libtest-json-schema-acceptance-perl status=0
    if ! download "$package"; then
        echo "SKIPPED: the official suite of JSON Schema was not run, since $package can't be fetched"
    else
        python3 crates/toml_span_cli/schema_suite.py \
            "$work/$package/usr/share/perl5/auto/share/dist/Test-JSON-Schema-Acceptance" || status=1
    fi
    if ! python3 -c 'import jsonschema' 2>/dev/null; then
        echo "SKIPPED: schemas were not compared with Python's jsonschema, which is not installed"
    else
        python3 crates/toml_span_cli/schema_pairs.py 2000 || status=1
    fi
    return "$status"
}

mapfile -t unproved < <(sed -n 's/:.*# unproved$//p' crates.txt)
# (these need no proof, so they run while crates wait for those that they use)
for program in "${unproved[@]}"; do start "stored runs of $program" alone run_unproved "$program"; done
start "the library for C, and the module for Python" alone bash scripts/c_test.sh

echo "== rt ci"
gate=$work/gate
mkdir "$gate"
# shellcheck disable=SC2016 # (the variable in the words of `sh -c` is for that shell)
git ls-files -z --cached --others --exclude-standard -- . "${unproved[@]/#/:!crates/}" |
    xargs -0 sh -c 'for file; do [ ! -f "$file" ] || printf "%s\0" "$file"; done' sh |
    xargs -0 cp -P --parents -t "$gate" --
sed -i '/# unproved$/d' "$gate/crates.txt"
scripts=$PWD/scripts
# The toolchain plans with more memory than these proofs take, and then leaves processors idle. Here, as many crates are
# proved at a time as there are processors, as long as each has 5 GB.
crates_at_once=$(awk -v all="$(nproc)" '/^MemAvailable/ {
    fit = int($2 / 5e6)
    print fit < 1 ? 1 : fit < all ? fit : all
}' /proc/meminfo)
# (all crates wait for toml_span_tree and what it uses, so these get all processors: without RT_JOBS, these are shared)
# shellcheck disable=SC2016 # (the variable is for that shell)
proofs='rt ci toml_span_tree; RT_JOBS=$0 rt ci'
(cd "$gate" && python3 "$scripts/timed.py" sh -c "$proofs" "${RT_JOBS:-$crates_at_once}") 2>&1 | tee "$work/log"
status=${PIPESTATUS[0]}
if [[ $(grep -E '^[0-9]+ passed, [0-9]+ failed' "$work/log" | tail -n 1) =~ ^([0-9]+)\ passed,\ ([0-9]+) ]]; then
    passed=${BASH_REMATCH[1]}
    failed=${BASH_REMATCH[2]}
fi
if [ "$status" -ne 0 ] || [ "$passed" -eq 0 ]; then failed=$((failed > 0 ? failed : 1)); fi
# (programs of an earlier run must not be tested in place of those that were not built)
find crates -mindepth 3 -maxdepth 3 -type f -path '*/out/*' -delete
for folder in "$gate"/crates/*/out; do
    made=crates/$(basename "${folder%/out}")/out
    mkdir -p "$made" && find "$folder" -maxdepth 1 -type f -exec mv -t "$made" -- {} +
done

start "no handles" grep -qx 'Handles allowed: none.' HANDLES
# (as long as the whole run takes less than 150 minutes; known edits take no time)
minutes=$((SECONDS < 8940 ? 150 - SECONDS / 60 : 1))
start "must-fail edits" env RT_JOBS="${RT_JOBS:-2}" python3 scripts/mistakes.py --minutes "$minutes" --libraries "$gate"
for program in cli show example; do
    start "stored runs of toml_span_$program" python3 scripts/runs.py "toml_span_$program"
done
start "fixes of random mistakes" python3 scripts/fixes.py --mistakes 1000 --values 200
start "rows of characters" python3 scripts/characters.py
start "random documents beside tomllib" python3 scripts/tomllib_test.py 1000
start "toml-test" run_suite
start "suites of JSON Schema" run_schemas
start "scripts that people start" bash scripts/scripts_test.sh
start "pages, edits and public items" python3 scripts/pages.py
ended

times >"$work/log.times"
awk -v wall="$SECONDS" '
    FNR == NR && /^time: [a-z]/ { part = $2 }
    FNR == NR { if (part == "proofs" && $2 == "toml_span_lex") unit = $3; next }
    { split($1, user, /[ms]/); split($2, system_, /[ms]/) }
    END {
        spent = 60 * (user[1] + system_[1]) + user[2] + system_[2]
        printf "time: in all %d s, %d s of processors", wall, spent
        if (unit) printf ", %.1f times the proof of toml_span_lex", spent / unit
        print ""
    }' "$work/log" "$work/log.times"
cat "$work/skipped"
echo "$passed passed, $failed failed"
[ "$failed" -eq 0 ]
