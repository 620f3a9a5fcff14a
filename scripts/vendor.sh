#!/usr/bin/env bash
# Copies the crates that a caller of the library needs: bash scripts/vendor.sh [--replace] DEST [NAME]..
#
# NAME is a library of this repository, in full or without `toml_span_` (report, serde, load, places); the default is
# toml_span. Each is copied, together with the libraries of this repository that it uses, as sources, definitions,
# proofs and licenses, to DEST/crates, or to DEST if the crates there are not in a folder `crates`. Their lines are
# added to DEST/crates.txt. The script prints what it copied, and then what to write in the caller's own line of
# crates.txt.
#
# The scripts for programs without proofs go to DEST/scripts/toml_span: in DEST, `bash scripts/toml_span/native.sh
# --debug APP` builds the program APP and prints its path, and `python3 scripts/toml_span/check_types.py APP` only
# reports its type errors.
#
# If another version of a crate is there already, that is an error, and nothing is copied. With --replace it is replaced
# (its out/ stays). `vendor.sh --list CRATE..` copies nothing: it prints the lines of crates.txt for these crates and
# those that they use, and `vendor.sh --folders CRATE..` prints their folders src and specs.
#
# Status: 0 copied, 1 DEST has another version of a crate, 2 wrong arguments, 3 DEST can't be written.
source "$(dirname -- "$(readlink -f -- "$0")")/common.sh"

# lines_of CRATE..: prints the lines of crates.txt for these crates and those that they use
lines_of() {
    awk -v names="$*" '
        /^[a-z]/ { name = $1; sub(":", "", name); line[name] = $0 }
        END {
            for (count = split(names, left, " "); ++at <= count;) {
                if (!(left[at] in line) || seen[left[at]]++) continue
                print line[left[at]]
                parts = split(line[left[at]], words, " ")
                for (part = 2; part <= parts; part++) left[++count] = words[part]
            }
        }' "$top/crates.txt"
}

replace=
case ${1-} in
--list) lines_of "${@:2}" && exit ;;
--folders)
    cd -- "$top"
    below=crates/
    if [ ! -d crates ]; then below=; fi
    lines_of "${@:2}" | sed -E "s,^(\w+).*,$below\1/src\n$below\1/specs," | xargs -rd '\n' ls -d 2>/dev/null || true
    exit
    ;;
--replace) replace=1 && shift ;;
esac
if [[ ${1--} == -* ]]; then fail 2 "usage: bash scripts/vendor.sh [--replace] DEST [NAME].."; fi
destination=$1
libraries=()
for name in $(sed -n 's/^\([a-z_]*\):.*/\1/p' "$top/crates.txt"); do
    if [ -f "$top/crates/$name/src/lib.rt" ]; then libraries+=("$name"); fi
done
names=()
for name in "${@:2}"; do
    case " ${libraries[*]} " in
    *" toml_span_$name "*) names+=("toml_span_$name") ;;
    *" $name "*) names+=("$name") ;;
    *) fail 2 "no library is named $(printf %q "$name"); these are:" "${libraries[*]}" ;;
    esac
done
if [ ${#names[@]} -eq 0 ]; then names=(toml_span); fi

# cannot FILE: ends because a file or folder of DEST can't be written
cannot() { fail 3 "${1@Q} can't be written"; }
mkdir -p -- "$destination" || cannot "$destination"
destination=$(cd -- "$destination" && pwd -P)
if [ "$destination" = "$top" ]; then fail 2 "DEST is this repository: name the one that calls the library"; fi
crates=$destination/crates
if [ ! -d "$crates" ] && compgen -G "$destination/*/src/*.rt" >/dev/null; then crates=$destination; fi
mkdir -p -- "$crates" || cannot "$crates"
work=$(mktemp -d -- "$crates/.vendor-XXXXXX") || cannot "$crates"
trap 'rm -rf -- "$work"' EXIT

# everything is prepared in $work, and moved only then
touch -- "$destination/crates.txt" || cannot "$destination/crates.txt"
cp -- "$destination/crates.txt" "$work/crates.txt" || cannot "$work"
copied=()
while IFS= read -r line; do
    name=${line%%[ :]*}
    copied+=("$name")
    mkdir -- "$work/$name" && cp -- "$top"/LICENSE-* "$work/$name" || cannot "$work"
    for part in src specs proofs; do
        [ ! -d "$top/crates/$name/$part" ] || cp -RL -- "$top/crates/$name/$part" "$work/$name" 2>&1 | head -n 1 >&2 ||
            cannot "$crates"
    done
    if [ -z "$replace" ] && [ -e "$crates/$name" ] && ! diff -rqx out -- "$work/$name" "$crates/$name" >/dev/null; then
        fail 1 "${crates@Q} has $name in another version, so nothing was copied: --replace replaces it"
    fi
    if ! grep -qxF -- "$line" "$work/crates.txt"; then
        sed -i "/^${name}[ :]/d" "$work/crates.txt" && echo "$line" >>"$work/crates.txt" || cannot "$work"
    fi
done < <(lines_of "${names[@]}")
for name in "${copied[@]}"; do
    if [ -d "$crates/$name/out" ]; then mv -- "$crates/$name/out" "$work/$name" || cannot "$crates/$name"; fi
    if [ -e "$crates/$name" ]; then mv -T -- "$crates/$name" "$work/old-$name" || cannot "$crates/$name"; fi
    mv -T -- "$work/$name" "$crates/$name" || cannot "$crates/$name"
    echo "$crates/$name"
done
mkdir -p -- "$destination/scripts/toml_span" &&
    cp -- "${script%/*}"/{{common,native,vendor}.sh,check_types.py} "$destination/scripts/toml_span" ||
    cannot "$destination/scripts"
cp -- "$work/crates.txt" "$destination/crates.txt" || cannot "$destination/crates.txt"
for name in "${names[@]}"; do
    # (derives name it)
    if [ "$name" = toml_span_serde ]; then names+=(serde); fi
done
echo "To use them, name them in the line of your crate in $destination/crates.txt, as in \`app: ${names[*]}\`."
