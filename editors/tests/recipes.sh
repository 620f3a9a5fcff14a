#!/usr/bin/env bash
# Tries setups of editors as a user does, with keys: bash editors/tests/recipes.sh [PROGRAM]
#
# That is Vim with ALE and ../ale.vim, Emacs with lsp-mode and ../emacs-lsp-mode.el, and the calls of ../neovim.lua for
# Neovim before version 0.11; crates/toml_span_lsp/editors.sh tries more of Neovim and Emacs. Where an editor can't be
# had, the script says so, and goes on with the others. PROGRAM is the proved build by default, and otherwise one
# without proofs.
source "$(dirname -- "$(readlink -f -- "$0")")/../../scripts/common.sh"
top=$(realpath -- "${script%/*}/../..")

# begin COMMAND..: starts an editor in a terminal, with a new copy of the file
begin() {
    cp -- a.toml work.toml
    "${tmux[@]}" kill-server 2>/dev/null || true
    "${tmux[@]}" new-session -d -x 100 -y 30 env HOME="$work" PATH="$work/bin:$PATH" LC_ALL=C.UTF-8 "$@" work.toml
}

# keys KEY..: types keys, as tmux names them
keys() { "${tmux[@]}" send-keys "$@"; }

# shows WHAT LINE: waits until the terminal shows a line that this expression matches
shows() {
    local tries now=
    for ((tries = 0; tries < 100; tries++)); do
        now=$("${tmux[@]}" capture-pane -p)
        if grep -q -- "$2" <<<"$now"; then return; fi
        sleep 0.2
    done
    fail 1 "$editor: $1: no line matches $2 in" "$now"
}

# has WORDS COMMAND..: whether a command succeeds; otherwise says what is missing
has() {
    if "${@:2}" >/dev/null 2>&1; then return; fi
    echo "recipes.sh: there is no $1"
    return 1
}

in_neovim() {
    editor=$(nvim --version | head -n 1)
    sed -n '/^-- From version 0.7/,$p' "$top/editors/neovim.lua" >init.lua
    begin nvim --clean -n -u init.lua
    shows "an error" '^E name = True .*booleans are lowercase'
    keys '1G$gra'
    shows "the actions" '1: write `true`'
    keys 1 Enter
    shows "a fix" '^ *name = true$'
    keys 5G0K
    shows "a hover" '`server\[0\].weight`: integer'
    keys '6G$hhgrn'
    shows "the old name" 'New Name: tls'
    keys C-u secure Enter
    shows "a rename" '^ *\[server.secure\]$'
    keys 11GSw C-x C-o
    shows "omnifunc" '^E* *weight ='
    keys Escape 'ccport=2' Escape ':Format' Enter
    shows "the format" '^ *"größe 😀" = \[1, 2\]$'
    keys Escape ':qa!' Enter
}

in_ale() {
    editor="$(vim --version | head -n 1) with ALE"
    mkdir -p .vim/ale_linters/toml
    cp -- "$top/editors/ale.vim" .vim/ale_linters/toml/toml_span.vim
    printf '%s\n' 'set nocompatible rtp+=/usr/share/vim-ale' 'filetype plugin on' \
        "let g:ale_linters = {'toml': ['toml-span']}" 'set omnifunc=ale#completion#OmniFunc' >vimrc
    begin vim -n -u vimrc
    shows "an error" '^>>name = True .*booleans are lowercase'
    keys '1G$:ALECodeAction' Enter
    shows "the actions" '^1) write `true`'
    keys 1 Enter Enter
    shows "a fix" '^ *name = true$'
    keys '5G0:ALEHover' Enter
    shows "a hover" '`server\[0\].weight`: integer'
    keys Enter
    keys '6G$hh:ALERename' Enter
    shows "the old name" 'New name: tls'
    keys C-u secure Enter
    shows "a rename" '^ *\[server.secure\]$'
    keys 11GSw C-x C-o
    shows "omnifunc" '^>* *weight ='
    keys Escape Escape ':qa!' Enter
}

in_lsp_mode() {
    editor="$(emacs --version | head -n 1) with lsp-mode"
    mkdir project
    cp -- a.toml project
    HOME=$work PATH=$work/bin:$PATH LC_ALL=C.UTF-8 SETUP=$top/editors/emacs-lsp-mode.el timeout 100 \
        emacs --batch -l "${script%/*}/lsp-mode.el" </dev/null >said 2>&1 || fail 1 "$editor:" "$(cat said)"
    diff - answers <<'ANSWERS' || fail 1 "$editor: these answers differ"
clients: (toml-span)
actions: ("write `true`" "Apply all safe fixes")
line: "name = true"
completion: ("weight")
line: "[server.secure]"
line: "\"größe 😀\" = [1, 2]"
ANSWERS
}

program=${1-$top/crates/toml_span_cli/out/toml_span_cli}
if [ ! -x "$program" ]; then program=$(bash "$top/scripts/native.sh" toml_span_cli); fi
program=$(realpath -- "$program")
scratch
cd -- "$work"
tmux=(tmux -S "$work/tmux" -f /dev/null)
trap '"${tmux[@]}" kill-server 2>/dev/null; rm -rf -- "$work"' EXIT
mkdir bin
ln -s -- "$program" bin/toml-span
cat >a.toml <<'END_OF_FILE'
name = True

[[server]]
host = "a"
weight   = 0xFF # 😀
[server.tls]
on = true
[[server]]
host = "b"

port=2
[paths]
"größe 😀" = [ 1,2 ]
END_OF_FILE
packages='(progn (package-initialize) (require (quote lsp-mode)))'
if has "tmux (apt-get install tmux)" command -v tmux; then
    if has "Neovim (apt-get install neovim)" command -v nvim; then in_neovim && echo "$editor: right"; fi
    if has "Vim (apt-get install vim)" command -v vim && has "ALE (apt-get install vim-ale)" [ -e /usr/share/vim-ale ]
    then in_ale && echo "$editor: right"; fi
fi
if has "Emacs with lsp-mode (apt-get install emacs-nox elpa-lsp-mode)" emacs --batch --eval "$packages"; then
    in_lsp_mode && echo "$editor: right"
fi
