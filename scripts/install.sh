#!/usr/bin/env bash
# Installs toml-span: bash scripts/install.sh [--uninstall] [PREFIX]
#
# PREFIX, by default ~/.local, gets bin/toml-span, man pages (toml-span.1, and one for each command), and completions
# for bash, zsh and fish. The program is statically linked. It is the proved build unless the sources are newer,
# otherwise one without proofs (scripts/native.sh). The man pages and completions are made from the help that it prints.
# The installed files are listed.
#
# All files are made first, in a folder below PREFIX, and the program is tested there. Then each is moved to its place:
# if something fails, each file is either the old or the new one. --uninstall removes these files.
#
# Status: 0 done, 2 wrong arguments, 3 PREFIX can't be written or has nothing to uninstall, 5 the program can't be
# built, 130 interrupted.
source "$(dirname -- "$(readlink -f -- "$0")")/common.sh"
shopt -s nullglob
stage=
trap 'if [ -n "$stage" ]; then rm -rf -- "$stage"; fi' EXIT

uninstall=
if [ "${1-}" = --uninstall ]; then uninstall=1 && shift; fi
if [ $# -gt 1 ] || [[ ${1-} == -* ]]; then fail 2 "usage: bash scripts/install.sh [--uninstall] [PREFIX]"; fi
prefix=${1-${HOME:+$HOME/.local}}
if [ -z "$prefix" ]; then fail 2 "HOME is not set: name a folder, bash scripts/install.sh PREFIX"; fi
prefix=$(absolute "$prefix")

if [ -n "$uninstall" ]; then
    cd -- "$prefix" 2>/dev/null || fail 3 "there is no folder ${prefix@Q}"
    installed=(bin/toml-spa[n] share/man/man1/toml-span{,-*}.[1] share/bash-completion/completions/toml-spa[n]
        share/zsh/site-functions/_toml-spa[n] share/fish/vendor_completions.d/toml-span.fis[h])
    if [ ${#installed[@]} -eq 0 ]; then fail 3 "toml-span is not installed in ${prefix@Q}"; fi
    for file in "${installed[@]}"; do
        rm -f -- "$file" || fail 3 "$file in ${prefix@Q} can't be removed"
        echo "removed $prefix/$file"
    done
    exit
fi

mkdir -p -- "$prefix" && stage=$(mktemp -d -- "$prefix/.toml-span-XXXXXX") || fail 3 "${prefix@Q} can't be written"
program=$(bash "$top/scripts/native.sh" --static toml_span_cli </dev/null) || {
    if [ $? -eq 130 ]; then exit 130; fi
    fail 5 "the program can't be built, so nothing is installed: see above"
}
mkdir -- "$stage/bin" && cp -- "$program" "$stage/bin/toml-span" || fail 3 "${prefix@Q} can't be written"
"$stage/bin/toml-span" --version >/dev/null 2>&1 || fail 3 "programs can't run in ${prefix@Q}: name another folder"

# man pages and completions, made from the help that the program prints
python3 - "$stage/bin/toml-span" "$stage" <<'PYTHON' ||
import os
import re
import subprocess
import sys

PROGRAM, FOLDER = sys.argv[1:]


def ask(*words):
    return subprocess.run([PROGRAM, *words], stdout=subprocess.PIPE, check=True).stdout.decode()


def write(place, *lines):
    os.makedirs(os.path.dirname(f"{FOLDER}/{place}"), exist_ok=True)
    with open(f"{FOLDER}/{place}", "w", encoding="utf-8") as file:
        file.write("\n".join(lines) + "\n")


def rows(lines):
    """The rows of a list: a term, its text, which begins in a column of its own, and the rows further right."""
    found, column = [], 0
    for line in lines:
        indent = len(line) - len(line.lstrip())
        term, *text = re.split("  +", line.strip(), maxsplit=1)
        if indent == 2:
            found.append([term, "".join(text), []])
            column = len(line) - len(found[-1][1])
        elif indent > column and text:
            found[-1][2].append([term, text[0], []])
        else:
            found[-1][1] += " " + line.strip()
    return found


class Help:
    """A help text: its usage, its arguments, its options, and its blocks: `text`, `example` or the title of a list."""

    def __init__(self, *words):
        self.blocks, self.options = [], []
        for block in ask("help", *words).strip("\n").split("\n\n"):
            first, *rest = block.split("\n")
            if first.startswith("Usage: "):
                self.usage = [line.strip() for line in [first[7:], *rest]]
            elif re.fullmatch("[A-Z][a-z ]+:", first) and rest:
                self.blocks.append((first[:-1], rows(rest)))
            else:
                self.blocks.append(("example" if first.startswith("  ") else "text", [first, *rest]))
        self.summary = self.blocks.pop(0)[1][0]
        self.arguments = [it for it in self.usage[0].split()[2:] if "OPTION" not in it]
        # an option: its names, the name of its value if it has one, what is known about its values, and what it does
        for term, text, below in dict(self.blocks).get("Options", []):
            names, value = re.findall("--?[A-Za-z][a-z-]*", term), re.search("[A-Z]+$", term)
            listed = re.search(r"((?:\w+, )+)(\w+) or (\w+)", text)
            values = [it[0] for it in below] or re.findall(r"\w+", " ".join(listed.groups()) if listed else "")
            if names:
                self.options.append((names, value and value[0].lower(), " ".join(values), re.split(r" *\[|;", text)[0]))


version = re.match("toml-span [0-9.]+", ask("--version"))[0]
main = Help()
commands = {term: text for term, text, _ in dict(main.blocks)["Commands"]}
helps = {name: Help(name) for name in commands}
helps["help"].arguments = ["[COMMAND]"]


def roff(text):
    text = text.replace("\\", "\\e").replace("-", "\\-").replace("'", "\\(aq")
    return re.sub("`(.*?)`", r"\\fB\1\\fR", "\\&" + text if text.startswith(".") else text)


def listed(items):
    for term, text, below in items:
        yield from (".TP", f"\\fB{roff(term)}\\fR", roff(text))
        if below:
            yield from (".RS", *listed(below), ".RE")


pages = {"toml-span": main, **{f"toml-span-{name}": it for name, it in helps.items() if name != "help"}}
for name, it in pages.items():
    lines = [f'.TH {name.upper()} 1 "" "{version}" "User Commands"', ".SH NAME"]
    lines += [roff(f"{name} - {it.summary[0].lower()}{it.summary[1:].rstrip('.')}"), ".SH SYNOPSIS", ".nf"]
    lines += [*map(roff, it.usage), ".fi", ".SH DESCRIPTION", roff(it.summary)]
    for kind, block in it.blocks:
        if kind in ("text", "example"):
            lines += [".PP", *[".nf"] * (kind == "example"), *map(roff, block), ".fi"]
        else:
            lines += [f".SH {kind.upper()}", *listed(block)]
    others = ", ".join(f"\\fB{roff(other)}\\fR(1)" for other in pages if other != name)
    write(f"share/man/man1/{name}.1", *lines, ".SH SEE ALSO", others)


# Completions. PATH is one that `toml-span show FILE` prints, without special characters, if FILE comes right before it.
def quoted(text):
    return "'" + text.replace("'", "'\\''") + "'"


paths = r'2>/dev/null | sed -n "s,^\(/[A-Za-z0-9_/-]*\) .*,\1,p"'
bash, zsh, fish = [], [], []
for name, it in helps.items():
    words = []
    for names, value, values, says in it.options:
        if value:
            bash.append(f"    *' {name} {names[-1]} '*) words='{values}' ;;")
        together = f"{quoted('(' + ' '.join(names) + ')')}{{{','.join(names)}}}" if names[1:] else names[0]
        kinds = "_files" if value == "file" else f"({values})"
        words.append(together + quoted(f"[{says}]" + (f":{value}:{kinds}" if value else "")))
        names = " ".join(f"-l {it[2:]}" if it.startswith("--") else f"-s {it[1:]}" for it in names)
        kinds = " -r -F" if value == "file" else f" -x -a '{values}'"
        fish.append(f"{name}' {names} -d {quoted(says)}" + (kinds if value else ""))
    bash.append(f"    *' {name} '*' -'*) words='{' '.join(' '.join(names) for names, *_ in it.options)}' ;;")
    for at, argument in enumerate(it.arguments):
        action = " "
        if "FILE" in argument:
            action = "_files"
            fish.append(f"{name}' -F")
        elif "PATH" in argument:
            action = f'{{compadd -- ${{(f)"$(toml-span show ${{(Q)words[2]}} {paths})"}}}}'
            bash.append(f"    '{at + 2} {name} '*) words=$(toml-span show \"${{COMP_WORDS[2]}}\" {paths}) ;;")
            here = f"and test (count (commandline -opc)) -eq {at + 2}"
            fish.append(f"{name}; {here}' -a '(toml-span show (commandline -opc)[3] {paths})'")
        elif "COMMAND" in argument or "CODE" in argument:
            names = list(commands) if "COMMAND" in argument else re.findall("(?m)^[a-z0-9-]+", ask("explain"))
            action = f"({' '.join(names)})"
            bash.append(f"    '{at + 2} {name} '*) words='{' '.join(names)}' ;;")
            fish.append(f"{name}' -a '{' '.join(names)}'")
        words.append(quoted(f"{'*' if argument.endswith('..') else at + 1}:{argument.strip('[].').lower()}:{action}"))
    zsh.append(f"{name}) _arguments {' '.join(words)} ;;")
write(
    "share/bash-completion/completions/toml-span",
    "_toml_span() {",
    "    local current=${COMP_WORDS[COMP_CWORD]} words=",
    '    case "$COMP_CWORD ${COMP_WORDS[1]} ${COMP_WORDS[COMP_CWORD - 1]} $current" in',
    f"    '1 '*) words='{' '.join(commands)}' ;;",
    *bash,
    "    esac",
    '    mapfile -t COMPREPLY < <(compgen -W "$words" -- "$current")',
    "}",
    "complete -o default -F _toml_span toml-span",
)
write(
    "share/zsh/site-functions/_toml-span",
    "#compdef toml-span",
    f"local -a commands=({' '.join(quoted(f'{name}:{text}') for name, text in commands.items())})",
    "if (( CURRENT == 2 )); then",
    "    _describe -t commands command commands || _files; return",
    "fi",
    "shift words; (( CURRENT-- ))",
    "case $words[1] in",
    *zsh,
    "esac",
)
write(
    "share/fish/vendor_completions.d/toml-span.fish",
    "complete -c toml-span -f",
    *(f"complete -c toml-span -n __fish_use_subcommand -a {it} -d {quoted(text)}" for it, text in commands.items()),
    *(f"complete -c toml-span -n '__fish_seen_subcommand_from {line}" for line in fish),
)
PYTHON
    fail 5 "no man pages can be made from the program's help: see above"
chmod -R u=rwX,go=rX -- "$stage"

mapfile -t files < <(cd -- "$stage" && find . -type f -printf '%P\n' | LC_ALL=C sort)
for file in "${files[@]}"; do
    folder=${file%/*}
    mkdir -p -- "$prefix/$folder" && [ -w "$prefix/$folder" ] || fail 3 "$folder in ${prefix@Q} can't be written"
    if [ -d "$prefix/$file" ]; then fail 3 "$file in ${prefix@Q} is a folder: remove it, or name another PREFIX"; fi
done
for file in "${files[@]}"; do
    mv -fT -- "$stage/$file" "$prefix/$file" || fail 3 "$file in ${prefix@Q} can't be written"
    echo "$prefix/$file"
done
kind="built without proofs"
case $program in */out/toml_span_cli | */proved-*) kind="the proved build" ;; esac
case $program in */static/*) kind+=", statically linked" ;; *) kind+=", dynamically linked" ;; esac
echo "$("$prefix/bin/toml-span" --version) ($kind)"
if [[ :${PATH-}: != *":$prefix/bin:"* ]]; then
    echo "install.sh: $prefix/bin is not on PATH: add it to run toml-span by its name" >&2
fi
