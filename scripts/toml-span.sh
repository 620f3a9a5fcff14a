#!/usr/bin/env bash
# Runs the program toml-span from this repository: bash scripts/toml-span.sh ARGS..
#
# ARGS are those of the program: `check FILE` checks a file, `help` lists the commands, and `help COMMAND` describes
# one. The first run builds the program, in four to seven minutes, and shows the progress on standard error
# (scripts/native.sh says what is built, and where it is kept). The status is the program's, or 5 if it can't be built,
# with a message that says what to do.
set -uo pipefail
shopt -s execfail
# (if standard error is closed, bash has opened this file as descriptor 2)
if [ /dev/fd/2 -ef "${BASH_SOURCE[0]}" ]; then exec 2>/dev/null; fi
script=$(readlink -f -- "${BASH_SOURCE[0]}")
program=$(bash "${script%/*}/native.sh" --static toml_span_cli </dev/null)
status=$?
case $status in
0) exec -a toml-span "$program" "$@" ;;
5 | 130) exit "$status" ;;
esac
echo "toml-span.sh: the program can't be started: see above, and that ${script%/*} is complete" >&2
exit 5
