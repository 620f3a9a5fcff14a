#!/usr/bin/env bash
# Further checks of toml-span: bash checks.sh PROGRAM FAULTS FOLDER (scripts/runs.py starts it)
#
# Files of every kind, colors, and output that can't be written. FAULTS is scripts/c_tests/faults.c as a library, and
# FOLDER an empty folder. The last line has the counts.
source "$(dirname -- "$(readlink -f -- "$0")")/../../scripts/common.sh"
set +e
cd -- "$(dirname -- "$script")" || exit
program=$1 faults=$2 work=$3
top=$(realpath ../..)
count=0
wrong=0
with=()
input=/dev/null
out=$work/stdout
err=$work/stderr

# holds COMMAND..: runs a command as a check, and counts it
holds() {
    count=$((count + 1))
    if ! "$@" >"$work/differs"; then
        wrong=$((wrong + 1))
        echo "checks: wrong: $(printf '%q ' "$@") (status $status)"
        cat "$work/differs" "$work/stderr" | head -n 100
    fi
}

# fresh: makes the folder in which the program runs, with the files of the stored runs
fresh() {
    rm -rf "$work/folder"
    cp -r runs/data "$work/folder"
    find "$work/folder" -type f -exec chmod 640 {} +
}

# go ARGUMENT..: runs the program there, with the file $input as its input, and with the words $with before its name
go() {
    status=0
    (cd "$work/folder" && timeout 120 env "${with[@]}" "$program" "$@" <"$input" >"$out" 2>"$err") || status=$?
}

# ends STATUS ARGUMENT..: checks the status with which the program ends
ends() {
    go "${@:2}"
    holds test "$status" -eq "$1"
}

# writes STATUS TEXT ARGUMENT..: checks the status and the output: standard output followed by standard error
writes() {
    ends "$1" "${@:3}"
    holds diff - <(cat "$work/stdout" "$work/stderr") <<<"$2"
}

# cuts: no prefix of a document exhausts any format
cuts() {
    local document at format
    mkdir "$work/folder/cuts"
    for document in runs/data/*.toml "$work"/runs/tagged_*/stdin; do
        for ((at = $(stat -c %s "$document"); at > 0; at -= 7)); do
            head -c "$at" "$document" >"$work/folder/cuts/${document//\//_}-$at.toml"
        done
    done
    for format in text short json github sarif; do ends 1 check --format "$format" cuts; done
}

# colored YES WORD..: checks whether a report has colors, with these words before the program's name
colored() {
    local with=("${@:2}")
    ends 1 check settings.toml
    holds test "$(grep -q $'\e' "$work/stdout" && echo yes)" = "$1"
}

# names: files, directories and arguments of every kind
names() {
    # shellcheck disable=SC2016 # (backticks of messages)
    local long error=':2:1: duplicate-key: duplicate key: `a`'
    long=$(printf '%0300d' 0)
    cd "$work/folder" || return
    mkdir -p tree/a/folder.toml empty/below
    echo 'a = 1' | tee once.toml $'caf\xe9.toml' tree/a.toml >tree/$'caf\xe9.toml'
    printf 'a = 1\na = 2\n' | tee tree/a-b.toml tree/a/x.toml tree/a/folder.toml/y.toml tree/a/notes.txt >tree/a/toml
    ln -s a/x.toml tree/linked.toml
    ln -s nowhere tree/lost.toml
    ln -s .. tree/a/up.toml
    ln -s tree way
    ln -s loop loop
    mkfifo tree/pipe.toml
    python3 -c 'import socket; socket.socket(socket.AF_UNIX).bind("socket")'
    writes 2 "tree/a-b.toml$error
tree/a/folder.toml/y.toml$error
tree/a/x.toml$error
tree/linked.toml$error
way/a/folder.toml/y.toml$error
way/a/x.toml$error
error: cannot read \`caf\\xe9.toml\`: its name is not valid UTF-8
error: cannot read \`\\xc3\\xa9\\u000a\\xff\`: its name is not valid UTF-8
error: cannot read \`tree/caf\\xe9.toml\`: its name is not valid UTF-8
error: cannot read \`tree/lost.toml\`: no such file
error: cannot read \`empty\`: no \`*.toml\` file in this directory, or only ignored ones
error: cannot read \`loop\`: Too many levels of symbolic links (os error 40)
error: cannot read \`socket\`: No such device or address (os error 6)
error: cannot read \`once.toml/x\`: Not a directory (os error 20)
error: cannot read \`$long\`: File name too long (os error 36)
error: cannot read \`no\\u000a::error file=x\`: no such file" --format short \
        once.toml $'caf\xe9.toml' $'\xc3\xa9\n\xff' tree way/a empty loop socket once.toml/x "$long" \
        $'no\n::error file=x'
    writes 2 "error: the path \`/\\xff\` is not valid UTF-8" get once.toml $'/\xff'
    cd - >/dev/null || return
}

# prefixes: output is written while it is made, so a write that fails leaves a prefix of it
prefixes() {
    local at least=-1 with
    python3 -c 'print("\n".join(f"k{n} = {n}" for n in range(50000)))' >"$work/folder/many.toml"
    ends 0 get --items many.toml ''
    cp "$work/stdout" "$work/whole"
    for at in 1 2; do
        with=("LD_PRELOAD=$faults" "FAILED=$at")
        ends 3 get --items many.toml ''
        holds test "$(stat -c %s "$work/stdout")" -gt "$least"
        least=$(stat -c %s "$work/stdout")
        holds cmp -n "$least" "$work/stdout" "$work/whole"
    done
}

# edits: files of every kind that are edited
edits() {
    # shellcheck disable=SC2016 # (backticks of messages)
    local number long
    long=$(printf '%0240d' 0)
    cd "$work/folder" || return
    printf 'a = 1\n' | tee read.toml one.toml long.toml left.toml named.toml many.toml >"$long"
    chmod 444 read.toml
    ln one.toml other.toml
    mkfifo pipe
    ln -s named.toml linked.toml
    writes 3 'error: cannot write `read.toml`: it is read-only
help: `--force` edits it all the same' set read.toml /a 2
    ends 0 set --force read.toml /a 2
    holds test "$(stat -c %a read.toml)" = 444
    writes 3 'error: cannot write `one.toml`: it has more than one name (hard links)
help: `--in-place` writes into the file itself, which keeps its names' set one.toml /a 2
    ends 0 set --in-place one.toml /a 22
    ends 0 set --in-place one.toml /a 2
    holds cmp one.toml read.toml
    holds cmp other.toml read.toml
    writes 3 'error: cannot write `pipe`: it is not a regular file' set pipe /a 2
    writes 3 'error: cannot write `/dev/null`: it is not a regular file' set --in-place /dev/null /a 2
    ends 0 set "$long" /a 2
    holds cmp "$long" read.toml
    for number in {1..8}; do "$program" add many.toml '' "k$number" "$number" & done
    wait
    holds test "$(grep -c '^k' many.toml)" = 8
    holds test "$(echo *.toml-span)" = '*.toml-span'
    cd - >/dev/null || return
}

# configurations: the JSON Schema of configurations accepts those that can be read, and no others
configurations() {
    local at=$PWD/configurations file schema=$top/editors/toml-span.schema.json
    for file in "$at"/right/*.toml; do
        ends 0 config --config "$file"
        ends 0 check --no-config --schema "$schema" "$file"
    done
    for file in "$at"/wrong/*.toml; do
        ends 2 config --config "$file"
        ends 1 check --no-config --schema "$schema" "$file"
    done
}

# fixes: a file that can't be written does not keep others from being fixed
fixes() {
    # shellcheck disable=SC2016 # (backticks of messages)
    local broken='broken/a.toml:1:5: unquoted-string: booleans are lowercase'
    cd "$work/folder" || return
    mkdir broken
    printf 'a = True\n' | tee broken/a.toml >broken/b.toml
    chmod 444 broken/a.toml
    writes 3 "$broken
error: cannot write \`broken/a.toml\`: it is read-only
help: \`--force\` edits it all the same
fixed 1 error in 1 file" check --fix --format short broken
    holds test "$(<broken/b.toml)" = 'a = true'
    ends 3 check --fix --quiet broken
    ends 0 check --fix --force --quiet broken
    holds test "$(<broken/a.toml)" = 'a = true'
    printf 'a = True\n' >broken/b.toml
    ln broken/b.toml broken/c.toml
    ends 3 check --fix --quiet broken/b.toml
    ends 0 check --fix --in-place --quiet broken/b.toml
    holds test "$(<broken/c.toml)" = 'a = true'
    cd - >/dev/null || return
}

# locks: files that have the name of the lock of another file. Only one that a run of toml-span has left is removed.
locks() {
    # shellcheck disable=SC2016 # (backticks of messages)
    local mode command taken='`k.toml.toml-span` already exists, and was not left by toml-span
help: the result is first written to a file of that name; rename or remove yours'
    cd "$work/folder" || return
    echo 'a = 2' >two
    ln -s k.toml linked
    for mode in 600 644; do
        echo 'a=1' >k.toml
        echo mine >k.toml.toml-span
        chmod "$mode" k.toml.toml-span
        writes 3 "error: cannot write \`k.toml\`: $taken" set k.toml /a 2
        writes 3 "error: cannot write \`k.toml\`: $taken" set --in-place k.toml /a 2
        writes 3 "error: cannot write \`k.toml\`: $taken" fmt k.toml
        writes 3 "error: cannot write \`linked\`: $taken" set --wait 0 linked /a 2
        holds test "$(cat k.toml k.toml.toml-span)" = $'a=1\nmine'
        holds test "$(stat -c %a k.toml.toml-span)" = "$mode"
    done
    for command in mkfifo mkdir 'ln -s nowhere' 'ln two'; do
        rm -rf k.toml.toml-span
        $command k.toml.toml-span
        writes 3 "error: cannot write \`k.toml\`: $taken" set k.toml /a 2
        holds test -e k.toml.toml-span -o -L k.toml.toml-span
    done
    rm k.toml.toml-span
    for mode in 1600 644; do
        echo 'a = 1' >k.toml
        : >k.toml.toml-span
        chmod "$mode" k.toml.toml-span
        exec 8<k.toml.toml-span
        flock 8
        writes 3 'error: cannot write `k.toml`: another run is editing it and holds `k.toml.toml-span`
help: `--wait SECONDS` waits longer' set --wait 0 k.toml /a 2
        exec 8<&-
        rm k.toml.toml-span
    done
    echo part >k.toml.toml-span
    chmod 1600 k.toml.toml-span
    ends 0 set k.toml /a 2
    holds cmp k.toml two
    holds test ! -e k.toml.toml-span
    cd - >/dev/null || return
}

# signals: a run that is interrupted, ended or killed leaves the file as it was or as it should be, and what it leaves
# beside the file is removed by the next run
signals() {
    local number
    cd "$work/folder" || return
    python3 -c 'print("\n".join(f"k{n} = {n}" for n in range(20000)))' >old
    sed '1s/.*/k0 = 1/' old >new
    for number in 2 15 9 2 15 9; do
        cp old big.toml
        python3 -c "$interrupted" "$number" "$program" set big.toml k0 1
        holds test "$(cmp -s big.toml old && echo same)$(cmp -s big.toml new && echo same)" = same
        ends 0 set big.toml k0 1
        holds cmp big.toml new
        holds test ! -e big.toml.toml-span
    done
    cd - >/dev/null || return
}

# pipes: a pipe, which would never end, is not opened
pipes() {
    # shellcheck disable=SC2016 # (backticks of messages)
    local command
    cd "$work/folder" || return
    mkdir piped
    mkfifo pipe piped/.gitignore piped/schema.json
    ln -s pipe to_pipe
    echo 'a = 1' | tee piped/a.toml >one.toml
    for command in 'fmt' 'fmt --check' 'fmt --diff'; do
        # shellcheck disable=SC2086 # (words)
        writes 2 'error: cannot read `pipe`: it is not a regular file' $command pipe
    done
    writes 2 'error: cannot read `pipe`: it is not a regular file' set --diff pipe /a 2
    writes 2 'error: cannot read `pipe`: it is not a regular file' edit --dry-run pipe -e 'remove a'
    writes 2 'error: cannot read `to_pipe`: it is not a regular file' fmt to_pipe
    ends 2 check --fix pipe
    holds grep -qx 'error: cannot read `pipe`: it is not a regular file' "$work/stderr"
    writes 3 'error: cannot write `pipe`: it is not a regular file' set pipe /a 2
    writes 2 $'error: cannot read `piped/.gitignore`: it is not a regular file\n1 file unchanged' fmt piped
    ends 2 check piped
    holds grep -qx 'error: cannot read `piped/.gitignore`: it is not a regular file' "$work/stderr"
    ends 2 check --schema piped/schema.json one.toml
    holds grep -qx 'error: cannot read the schema `piped/schema.json`: it is not a regular file' "$work/stderr"
    ends 2 check --catalog pipe one.toml
    printf '#:schema https://example.org/s.json\na = 1\n' >mapped.toml
    ends 2 check --schema-map https://example.org/s.json=pipe mapped.toml
    printf '#:schema ./pipe\na = 1\n' >names.toml
    ends 2 check names.toml
    cd - >/dev/null || return
}

# written: the options that say how files are written, in all commands that write files
written() {
    # shellcheck disable=SC2016 # (backticks of messages)
    local command
    cd "$work/folder" || return
    for command in fmt 'fmt --in-place'; do
        rm -f read.toml one.toml other.toml
        echo 'a=1' | tee one.toml >read.toml
        chmod 444 read.toml
        ln one.toml other.toml
        # shellcheck disable=SC2086 # (words)
        writes 3 'error: cannot write `read.toml`: it is read-only
help: `--force` edits it all the same' $command read.toml
        ends 0 fmt --force read.toml
        holds test "$(stat -c %a read.toml) $(cat read.toml)" = '444 a = 1'
    done
    writes 3 'error: cannot write `one.toml`: it has more than one name (hard links)
help: `--in-place` writes into the file itself, which keeps its names' fmt one.toml
    writes 0 '1 file formatted' fmt --in-place one.toml
    holds cmp other.toml read.toml
    cd - >/dev/null || return
}

interrupted='import os, subprocess, sys, time
child = subprocess.Popen(sys.argv[2:])
while child.poll() is None and not os.path.exists("big.toml.toml-span"): time.sleep(0.0005)
time.sleep(0.01)
if child.poll() is None: child.send_signal(int(sys.argv[1]))
child.wait()'

terminal='import os, pty, sys; sys.exit(os.waitstatus_to_exitcode(pty.spawn(sys.argv[1:])))'
python3 "$top/scripts/transcripts.py" expand toml_span_cli "$work/runs"
fresh
for part in cuts names prefixes configurations edits fixes; do "$part"; done
for part in locks signals pipes written; do
    fresh
    "$part"
done
fresh
out=/dev/full ends 3 check settings.toml
out=/dev/full ends 3 check --help
out=/dev/full ends 3 show tree.toml
err=/dev/full ends 3 check --format
err=/dev/full ends 3 remove tree.toml /nothing
out=/dev/full ends 3 set --diff tree.toml /name 1
colored '' TERM=xterm
colored yes CLICOLOR_FORCE=1 TERM=dumb
colored '' CLICOLOR_FORCE=0
colored '' CLICOLOR_FORCE=1 NO_COLOR=$'\xff'
colored yes CLICOLOR_FORCE=1 NO_COLOR=
colored yes TERM=xterm python3 -c "$terminal"
colored '' TERM=dumb python3 -c "$terminal"
colored '' TERM=xterm NO_COLOR=1 python3 -c "$terminal"
holds python3 formats.py "$program"
holds python3 sessions.py "$program" sessions/*
holds python3 sessions.py "$program" --refused "$faults" sessions/*
input=$PWD/runs/data/tree.toml
go check --format sarif - settings.toml
cp "$work/stdout" "$work/usual"
with=("LD_PRELOAD=$faults" INTERRUPTED=1)
go check --format sarif - settings.toml
holds cmp "$work/usual" "$work/stdout"
with=()
writes 0 $'name = "x"\nlist = [1, [true], {d = 1.5}]\n\n[server]\nhost = 8' set - /server/host 8
ends 1 set cargo.toml /package/name $'1\nother = 2'
holds cmp "$work/folder/cargo.toml" runs/data/cargo.toml
ln -s child.toml "$work/folder/link.toml"
ends 0 rename link.toml /dependencies/a dependencies
holds test -L "$work/folder/link.toml"
holds grep '^\[dependencies.dependencies\]$' "$work/folder/child.toml"
echo "checks: $((count - wrong)) of $count right"
