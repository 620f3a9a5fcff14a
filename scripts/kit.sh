#!/usr/bin/env bash
# Compares the toolchain on PATH with the one by which this repository was proved: bash scripts/kit.sh
#
# `rt version` prints the name of the toolchain and, after the word `logic`, a checksum of the logic in which it proves.
# Toolchains with different names but one checksum prove in the same logic. If the checksum differs, the crates have not
# been proved by this toolchain: `bash scripts/test.sh` says whether it accepts them, and until then no proof is known
# to hold for what it builds. Programs can be built and run all the same.
#
# Status: 0 the same logic, 1 another one, 5 there is no toolchain.
source "$(dirname -- "$(readlink -f -- "$0")")/common.sh"
logic=dac8208d650f15bf # of rattle-kit-13b and rattle-kit-13f
said=$(rt version 2>/dev/null) || fail 5 "the command rt of Rattle's toolchain is not on PATH: add it"
if [[ $said != *" logic $logic" ]]; then
    echo "$said: another logic than $logic, by which the crates were proved; bash scripts/test.sh tries this one"
    exit 1
fi
echo "$said: the logic by which the crates were proved"
