#!/usr/bin/env bash
# Tests the scripts for users (toml-span.sh, native.sh, install.sh, package.sh, vsix.py, vendor.sh, check_types.py) and
# the extension of VS Code: bash scripts/scripts_test.sh
#
# A row of the table is a case: its name, the expected status, what its output must match (an expression of grep; with
# !, must not match), and a command, which may go on in lines that begin with four spaces. The commands run in order in
# one folder. `fresh` makes a new repository in a folder with a blank in its name. The toolchain is a fake whose
# `rt try` compiles C, and FAULT names a step of it that fails; so a case takes milliseconds. The last cases try
# docs/CI.md with the program and the toolchain that are installed here.
source "$(dirname -- "$(readlink -f -- "$0")")/common.sh"
set +e
unset TMPDIR XDG_CACHE_HOME SOURCE_DATE_EPOCH
scratch
real_home=$HOME real_path=$PATH
export HOME=$work/home TRIES=$work/tries PATH=$work/kit/bin:$PATH
repository="$work/a folder"
crate=$repository/crates/toml_span_cli
count=0 wrong=0

# the fake toolchain, and all commands except rt
mkdir -p "$work"/kit/{bin,c,toolchain/bin} "$work/bare"
find /bin/ /usr/bin/ -mindepth 1 -maxdepth 1 ! -name rt -exec ln -sf -t "$work/bare" {} +
echo "kit 1" >"$work/kit/KIT-ID"
ar rcs "$work/kit/c/libos_c.a" && ar rcs "$work/kit/c/liblibc_c.a"
cat >"$work/kit/bin/rt" <<'SCRIPT'
#!/usr/bin/env bash
echo try >>"$TRIES"
case ${FAULT-} in
refused) echo "error: a type is wrong" && exit 1 ;;
nothing) exit 0 ;;
slow) sleep 2 ;;
esac
cp src/main.rt "$TMPDIR/module.bc"
"$(dirname "$(dirname "$0")")/toolchain/bin/clang" -c -x ir "$TMPDIR/module.bc" -o "$TMPDIR/module.o" -O0 \
    -fsanitize=address
SCRIPT
cat >"$work/kit/bin/rattle-link" <<'SCRIPT'
#!/usr/bin/env bash
if [ "${FAULT-}" = "${0##*/}" ]; then echo "${0##*/}: out of luck" >&2 && exit 1; fi
if [ "$1" = --target ]; then shift 4; fi
for word; do
    case $word in
    *.bc | *.ll) module=${module:-$word} && words+=("$word") ;;
    -O[0-3]) words+=("$word") && if [ -n "${LEVELS-}" ]; then echo "$word" >>"$LEVELS"; fi ;;
    ir) words+=(c) ;;
    -[Xmf]*) ;;
    *) words+=("$word") ;;
    esac
done
# (C stays C)
case " $* " in
*" -S -emit-llvm "*) exec cat "$module" ;;
*" -emit-llvm "*) exec cp "$module" "${@: -1}" ;;
esac
exec cc "${words[@]}"
SCRIPT
cp "$work/kit/bin/rattle-link" "$work/kit/toolchain/bin/clang"
chmod +x "$work"/kit/bin/* "$work/kit/toolchain/bin/clang"

# fresh: a new repository with a program that prints its arguments
fresh() {
    rm -rf "$repository" "$HOME" "$work/prefix" "$TRIES"
    mkdir -p "$crate/src" "$repository/crates/toml_span/src" "$HOME"
    cp -r "$top/scripts" "$top/editors" "$top"/LICENSE-* "$top/.gitignore" "$repository"
    printf 'toml_span_cli:\ntoml_span:\n' >"$repository/crates.txt"
    echo '//! A library.' >"$repository/crates/toml_span/src/lib.rt"
    cat >"$crate/src/main.rt" <<'SOURCE'
#include <stdio.h>
#include <string.h>
int main(int count, char **words) {
    const char *help[] = {"Checks.\n\nUsage: toml-span COMMAND\n\nCommands:\n  check  report errors\n  help  help",
                          "Does it.\n\nUsage: toml-span check FILE\n\nOptions:\n  --format FORMAT  a, b or c"};
    if (count > 1 && !strcmp(words[1], "--version")) return puts("toml-span 1.2.3") < 0;
    if (count > 1 && !strcmp(words[1], "help")) return puts(help[count > 2]) < 0;
    for (int at = 1; at < count; at++) printf("[%s]", words[at]);
    return count - 1;
}
SOURCE
}
for name in native install package vendor; do eval "$name() { bash \"\$repository/scripts/$name.sh\" \"\$@\"; }"; done
commit() { git -C "$repository" init -q && git -C "$repository" add . &&
    git -C "$repository" -c user.name=n -c user.email=e commit -qm one; }
cli() { bash "$repository/scripts/toml-span.sh" "$@"; }
tries() { [ "$(wc -l <"$TRIES")" -eq "$1" ]; }
is_clean() { [ -z "$(find "$TMPDIR" -maxdepth 1 -name 'toml_span-build-*')" ]; }
object() { mkdir -p "$crate/out" && cc -x c -c -o "$crate/out/toml_span_cli.o" "${1--}"; } # [FILE]: a proved build
stays() { cp -r prefix before && ! "$@" && diff -r before prefix && rm -r before; } # COMMAND..: fails, changes nothing
offers() { # WORD..: what bash completes the last one to
    source prefix/share/bash-completion/completions/toml-span
    COMP_WORDS=(toml-span "$@") COMP_CWORD=$# && _toml_span && echo "${COMPREPLY[*]}"
}
vsix() { # FILE: unpacks the extension of VS Code into the folder vsix, and tries it with a test of editors/vscode
    rm -rf vsix && python3 -m zipfile -e packages/*.vsix vsix || return
    if command -v node; then node "$top/editors/vscode/tests/$1.js" vsix/extension; else echo "$1: no node"; fi
}
assets() { # whether the files that the manifests name are in the folder vsix
    python3 -c 'import os, sys, xml.etree.ElementTree as tree
types = [it.get("Extension") for it in tree.parse("vsix/[Content_Types].xml").getroot()]
assets = tree.parse("vsix/extension.vsixmanifest").getroot().findall(".//{*}Asset")
found = [os.path.join(folder, name) for folder, _, names in os.walk("vsix") for name in names]
untyped = [it for it in found if os.path.splitext(it)[1] not in types and not it.endswith(".xml")]
missing = [it.get("Path") for it in assets if not os.path.isfile("vsix/" + it.get("Path"))]
print(*(it.get("Type") for it in assets))
sys.exit(f"untyped {untyped}, missing {missing}" if untyped or missing else 0)'
}
debian() { # COMMAND..: installs the package in the folder root, runs the command, and removes the package
    local dpkg=(dpkg --root="$work/root" --force-not-root --force-script-chrootless --log=/dev/null)
    if [ "$(id -u)" -ne 0 ]; then dpkg=(unshare -r "${dpkg[@]}"); fi
    mkdir -p root/var/lib/dpkg/{info,updates,triggers} && touch root/var/lib/dpkg/{status,available}
    "${dpkg[@]}" -i packages/*.deb && "$@" && "${dpkg[@]}" -P toml-span && [ ! -e root/usr/bin/toml-span ]
}
page() { # WORDS: the block of docs/CI.md that has these words
    awk -v words="$1" 'BEGIN { RS = "```" } index($0, "sh\n") == 1 && index($0, words) { print substr($0, 4) }' \
        "$top/docs/CI.md"
}
committed() { # TEXT: commits a file with the hook of the page
    PATH=$work/real:$real_path && rm -rf committed && mkdir -p 'committed/a b' && cd committed && git init -q .
    page '#!/bin/sh' >.git/hooks/pre-commit && chmod +x .git/hooks/pre-commit && echo "$1" >'a b/c.toml' && git add .
    git -c user.name=n -c user.email=e commit -qm one
}
if ! command -v node >/dev/null; then
    echo "SKIPPED: the extension of VS Code was not tested, since there is no node (Debian: nodejs)"
fi
export TMPDIR=$work/tmp
mkdir "$work/real" "$TMPDIR"
ln -s "$(HOME=$real_home PATH=$real_path bash "$top/scripts/native.sh" toml_span_cli)" "$work/real/toml-span"

cd "$work" || exit
while IFS='|' read -r name expected line command; do
    count=$((count + 1))
    (eval "$command") >"$work/said" 2>&1 </dev/null
    status=$?
    if [ "$status" -eq "$expected" ]; then
        case $line in
        '!'*) if ! grep -q -- "${line#!}" "$work/said"; then continue; fi ;;
        *) if grep -q -- "$line" "$work/said" || [ -z "$line" ]; then continue; fi ;;
        esac
    fi
    wrong=$((wrong + 1))
    echo "scripts: wrong: $name (status $status, expected $expected and ${line:-any output})"
    sed 's/^/    /' "$work/said"
done < <(sed -z 's/\n    / /g' <<'CASES'
the first run builds, and says so|2|^building toml_span_cli without proofs, with run-time checks, once|fresh; cli a 'b c'
a link, from another folder, with CDPATH|2|^\[x\]\[y z\]$|
    mkdir b; cd b; ln -s "$repository/scripts/toml-span.sh" l; CDPATH=/:.. bash l x 'y z'
the next run does not|0|!building|cli && tries 1
standard error is closed|1|^\[x\]$|fresh; cli x 2>&-
the program is statically linked|0|statically|file "$(native --static toml_span_cli)"
or dynamically, without another build|0|dynamically|file "$(native toml_span_cli)" && tries 1
other sources make another build|0||echo 'int main(void) { return 0; }' >"$crate/src/main.rt"; cli && tries 2
without the toolchain a build that is kept serves|0||PATH=$work/bare cli
another version of the toolchain makes another build|0||echo kit 2 >kit/KIT-ID; cli && tries 3
no toolchain|5|command rt of Rattle's toolchain is not on PATH: add it|fresh; PATH=$work/bare cli
sources that are refused|5|correct what `rt try` reports above|FAULT=refused cli
a compiler that fails|5|^clang: out of luck$|FAULT=clang cli
a toolchain that works differently|5|make the proved build with `rt run`|FAULT=nothing cli
a linker that fails|5|^rattle-link: out of luck$|FAULT=rattle-link native toml_span_cli
nothing is left of these|0||is_clean
a commit is built without run-time checks|0|^building toml_span_cli of commit [0-9a-f]* without proofs and run-time|
    fresh; commit && cli && tries 1
and the next run takes that build|0|!building|cli && tries 1
a change is built with them|0|^building toml_span_cli without proofs, with run-time checks, once|
    echo >>"$crate/src/main.rt"; cli && tries 2
and once more without them when it is committed|0|^building toml_span_cli of commit|commit && cli && tries 3
the optimizer gets what was merged|0|^-O0 -O3$|
    fresh; LEVELS=$work/levels native toml_span_cli && xargs <levels
--debug does not optimize|0|^-O0$|rm levels; LEVELS=$work/levels native --debug toml_span_cli && xargs <levels
and is a build of its own|0|!building|native --debug toml_span_cli && native toml_span_cli
with run-time checks, of a commit too|0|^building toml_span_cli without proofs and optimization, with run-time checks|
    fresh; commit && native --debug toml_span_cli
a checkout that can't be written|0|/home/.cache/toml_span/toml_span_cli/|fresh; : >"$crate/out"; native toml_span_cli
nor the cache|5|name another one in XDG_CACHE_HOME|fresh; : >"$crate/out"; : >"$HOME/.cache"; cli
two runs at once make one build|0|^waiting for another build|fresh; FAULT=slow cli & sleep 0.5; cli && wait && tries 1
a build that is stopped leaves nothing|0||
    fresh; FAULT=slow timeout 1 bash "$repository/scripts/native.sh" toml_span_cli; [ $? -eq 124 ] && is_clean
the proved build serves|8||fresh; echo 'int main(void) { return 8; }' | object && cli
but not if the sources are newer|0||touch -d '+1 hour' "$crate/src/main.rt"; cli
no such program|5|no program of this repository is named \$'x\\E'|native $'x\e'
install.sh in a relative folder with a blank|1|built without proofs, statically linked|
    fresh; install 'a b' && 'a b/bin/toml-span' x
--uninstall leaves no file|0|removed .*/a b/share/man/man1/toml-span-check.1|
    install --uninstall 'a b' && [ -z "$(find 'a b' -type f)" ]
by default in HOME/.local, which is not on PATH|0|/.local/bin is not on PATH|install
the program's help makes a man page|0|^ *toml-span check FILE|
    install prefix && man -l prefix/share/man/man1/toml-span-check.1
and completions: of a command|0|^help$|offers he
of its value|0|^a b c$|offers check --format ''
a build that fails leaves what was there|0|so nothing is installed|
    echo >>"$crate/src/main.rt"; FAULT=clang stays install prefix
as does a help without commands|0|no man pages can be made|
    sed -i 's/Commands:/Words/' "$crate/src/main.rt"; stays install prefix
the proved build is installed|0|the proved build, statically linked|fresh; object "$crate/src/main.rt" && install prefix
a folder in the way|3|bin/toml-span in '.*/prefix' is a folder|
    rm prefix/bin/*; mkdir prefix/bin/toml-span; install prefix
PREFIX is in a file|3|/file/.E\[31m' can't be written|: >file; install $'file/\e[31m'
no HOME|2|HOME is not set: name a folder|HOME='' install
packages are made|0|packages/toml-span_1.2.3_amd64.deb$|SOURCE_DATE_EPOCH=1700000000 package packages
and are the same the next time|0||
    cp -r packages first; sleep 1; SOURCE_DATE_EPOCH=1700000000 package packages && diff -r first packages
the extension of VS Code is one of them|0|packages/toml-span-[0-9.]*.vsix$|ls "$PWD"/packages/*.vsix
with the fields that are documented|0|^manifest: |vsix manifest
and the files that the marketplace reads|0|^Microsoft.VisualStudio.Code.Manifest .*Content.Details|assets
without tests|0||[ ! -e vsix/extension/tests ] && [ ! -e vsix/extension/.vscodeignore ]
its client|0|^extension: |vsix extension
its grammar|0|^grammar: |vsix grammar
the repository is linked|0|](https://example.com/a/b/raw/HEAD/editors/vscode/images/.*png)$|
    REPOSITORY=https://example.com/a/b.git python3 "$repository/scripts/vsix.py" linked &&
    python3 -m zipfile -e linked/*.vsix linked && cat linked/extension/README.md &&
    grep -F '"url": "https://example.com/a/b"' linked/extension/package.json
a folder that can't be written|3|/file' can't be written: |: >file; python3 "$repository/scripts/vsix.py" "$PWD/file"
the tarball runs|1|^\[x\]$|tar -xzf packages/*.tar.gz && toml-span-1.2.3-x86_64-linux/bin/toml-span x
the Debian package installs, runs and goes|0|^toml-span 1.2.3$|debian root/usr/bin/toml-span --version
lintian finds neither errors nor warnings|0|!^[EW]:|
    ! command -v lintian || { DEBFULLNAME=n DEBEMAIL=n@debian.org SOURCE_DATE_EPOCH=1700000000 package linted &&
    lintian --allow-root linted/*.deb; }
no package of a dynamic program|5|can't be packaged, since it is dynamically linked|
    fresh; CC=false SOURCE_DATE_EPOCH=1 package packages
vendor.sh copies what toml_span needs|0|as in `app: toml_span`|
    vendor 'the app' && grep -qx toml_span: 'the app/crates.txt' && ls 'the app/crates/toml_span/LICENSE-MIT'
beside other lines and crates, in no folder crates|0|/flat/toml_span$|
    mkdir -p flat/app/src && : >flat/app/src/main.rt && echo 'app: io' >flat/crates.txt && vendor flat &&
    grep 'app: io' flat/crates.txt
the scripts that it copies build a program|3|^building app without proofs and optimization|
    cd 'the app' && mkdir -p crates/app/src && echo 'int main(void) { return 3; }' >crates/app/src/main.rt &&
    echo 'app: toml_span' >>crates.txt && "$(bash scripts/toml_span/native.sh --debug app)"
with run-time checks, even if it is a commit|0|^building app without proofs, with run-time checks|
    repository='the app' commit && bash 'the app/scripts/toml_span/native.sh' app
in no folder crates too|4|/flat/app/out/native/debug-|
    echo 'int main(void) { return 4; }' >flat/app/src/main.rt; program=$(bash flat/scripts/toml_span/native.sh --debug app);
    echo "$program" && "$program"
another version stays|1|has toml_span in another version, so nothing was copied|
    echo >>flat/toml_span/src/lib.rt; vendor flat toml_span
or is replaced, and what was proved stays|0||
    mkdir flat/toml_span/out; vendor --replace flat && cmp {"$repository/crates",flat}/toml_span/src/lib.rt &&
    ls flat/toml_span/out
no such library|2|no library is named cli|vendor flat cli
all that load, serde and places need|0|as in `app: toml_span_load toml_span_serde toml_span_places serde`|
    bash "$top/scripts/vendor.sh" all load serde places && for one in $(tr -d : <all/crates.txt | tr ' ' '\n' |
    grep toml_span); do ls -d "all/crates/$one" || exit; done
the hook of docs/CI.md passes files without errors|0||committed 'a = 1'
and refuses others|1|^./a b/c.toml:2:1: duplicate-key|committed $'a = 1\na = 2'
the command for CI|123|^a b/c.toml:2:1: duplicate-key|committed $'a = 1\na = 2'; page xargs | sh
the main of docs/CALLING.md has no type error|0||
    PATH=$real_path; bash "$top/scripts/vendor.sh" calls toml_span toml_span_load && cd calls &&
    echo 'app: toml_span toml_span_load' >>crates.txt && mkdir -p crates/app/src &&
    cp "$top/examples/app/main.txt" crates/app/src/main.rt && cp "$top/crates/toml_span_example/stdin" settings.toml &&
    cp "$top/crates/toml_span_example/src/settings.rt" crates/app/src && python3 scripts/toml_span/check_types.py app
and builds and runs|1|^duplicate name: `a`|
    PATH=$real_path; cd calls && "$(bash scripts/toml_span/native.sh --debug app)" |
    sed -n 's/^error.duplicate-name.: //p'
the main of docs/EDITING.md has no type error|0||
    PATH=$real_path; bash "$top/scripts/vendor.sh" calls edit && cd calls && mkdir -p crates/bump/src &&
    echo 'bump: toml_span_edit anyhow' >>crates.txt && cp "$top/examples/bump/main.txt" crates/bump/src/main.rt &&
    python3 scripts/toml_span/check_types.py bump
a type error is reported|1|^src/main.rt:[0-9:]* error.unsatisfied-bound|
    PATH=$real_path; cd calls && sed -i 's/u8::from(!is_right)/is_right/' crates/app/src/main.rt &&
    python3 scripts/toml_span/check_types.py app
the bounds of a range of floats are floats|1|help: write a float literal|
    PATH=$real_path; cd calls && sed -i 's/Option<u8>/Option<f64>/' crates/app/src/settings.rt &&
    python3 scripts/toml_span/check_types.py app
the toolchain that is here builds|7||
    fresh; PATH=$real_path; printf '#![tactic(auto)]\nuse std::process::ExitCode;\n\nfn main(rt: HostRuntime) ->
    ExitCode {\n    let _host = rt;\n    ExitCode::from(7)\n}\n' >"$crate/src/main.rt"; cli
CASES
)
echo "scripts: $((count - wrong)) of $count right"
[ "$wrong" -eq 0 ]
