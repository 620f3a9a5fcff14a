#!/usr/bin/env bash
# Tries the language server in editors: bash crates/toml_span_lsp/editors.sh [--picture] [PROGRAM]
#
# Each editor opens a file without a screen, through its own client. Its diagnostics, actions, symbols, hover,
# completion, rename and formatting must be as stored: those of Debian's neovim in editors.txt, and those of Debian's
# Emacs with Eglot and editors/emacs.el (apt-get install emacs-nox elpa-eglot) in editors_emacs.txt. VS Code's extension
# in editors/vscode runs in node, with a stub of the API of VS Code; its answers are in editors_code.txt. What Debian's
# neovim shows in a terminal, with editors/neovim.lua, must be the picture docs/editor.svg; with --picture, the script
# only makes it. Where one of these can't be had, the script says so, and goes on with the others. PROGRAM is the proved
# build by default, and otherwise one without proofs.
source "$(dirname -- "$(readlink -f -- "$0")")/../../scripts/common.sh"
top=$(realpath -- "${script%/*}/../..")
here=$top/crates/toml_span_lsp

# compare FILE VERSION: whether the file out is as stored
compare() {
    if ! diff -- "$top/$1" out; then fail 1 "the answers differ from $1"; fi
    echo "$2: all answers are as stored"
    rm -- out
}

# in_neovim: a session of neovim
in_neovim() {
    if ! command -v nvim >/dev/null; then
        echo "editors.sh: there is no neovim here (apt-get install neovim)"
        return
    fi
    timeout 60 nvim --headless -u NONE -c "luafile $here/editors.lua" 2>&1 </dev/null
    compare crates/toml_span_lsp/editors.txt "$(nvim --version | head -n 1)"
}

# in_emacs: a session of Emacs
in_emacs() {
    if ! emacs --batch --eval "(progn (require 'package) (package-initialize) (require 'eglot))" >/dev/null 2>&1; then
        echo "editors.sh: there is no Emacs with Eglot here (apt-get install emacs-nox elpa-eglot)"
        return
    fi
    PATH=$work/bin:$PATH LC_ALL=C.UTF-8 SETUP=$top/editors/emacs.el timeout 60 emacs --batch -l "$here/editors.el" \
        </dev/null >said 2>&1 || cat said
    compare crates/toml_span_lsp/editors_emacs.txt "$(emacs --version | head -n 1)"
}

# in_node: a session of VS Code's extension
in_node() {
    if ! command -v node >/dev/null; then
        echo "editors.sh: there is no node here (apt-get install nodejs)"
        return
    fi
    EXTENSION=$top/editors/vscode timeout 60 node "$here/editors.js" </dev/null
    compare crates/toml_span_lsp/editors_code.txt "node $(node --version), extension of VS Code"
}

# can_draw: whether there are neovim and tmux
can_draw() {
    if command -v nvim >/dev/null && command -v tmux >/dev/null; then return; fi
    echo "editors.sh: there is no neovim with tmux here (apt-get install neovim tmux)"
    return 1
}

# draw: makes the file out, a picture of neovim in a terminal of tmux, which shows two files
draw() {
    local tmux=(tmux -S "$work/tmux" -f /dev/null) before='' now='' tries
    env -i HOME="$work" PATH="$work/bin:$PATH" LC_ALL=C.UTF-8 SETUP="$top/editors/neovim.lua" "${tmux[@]}" \
        start-server ';' set -g status off ';' set -g default-terminal tmux-256color ';' \
        new-session -d -x 86 -y 18 timeout --foreground 60 nvim --clean -n -u "$here/picture.lua"
    for ((tries = 0; tries < 40; tries++)); do
        sleep 0.5
        now=$("${tmux[@]}" capture-pane -epN)
        if [[ $now == *timeout* && $now == "$before" ]]; then break; fi
        before=$now
    done
    "${tmux[@]}" kill-server
    if ((tries == 40)); then fail 1 "neovim has shown no completions for 20 seconds"; fi
    python3 "$here/picture.py" "Neovim with toml-span lsp" <<<"$now" >out
}

picture=
if [ "${1-}" = --picture ]; then picture=yes && shift; fi
program=${1-$top/crates/toml_span_cli/out/toml_span_cli}
if [ ! -x "$program" ]; then program=$(bash "$top/scripts/native.sh" toml_span_cli); fi
program=$(realpath -- "$program")
scratch
cd -- "$work"
mkdir bin
ln -s -- "$program" bin/toml-span
cat >a.toml <<'END'
name = True

[[server]]
host = "a"
weight   = 0xFF # 😀
[server.tls]
on = true
[[server]]
host = "b"

port=2
[paths]
"größe 😀" = [ 1,2 ]
END
cat >client.toml <<'END'
from = 2025-02-30
debug = True
port = 80
port = 8080
END
cat >web.toml <<'END'
#:schema service.schema.json
name = "web"
log = "wran"

[server]
prot = 80
END
cat >service.schema.json <<'END'
{
  "properties": {
    "name": {"type": "string"},
    "log": {"enum": ["debug", "info", "warn", "error"]},
    "server": {
      "required": ["host"],
      "additionalProperties": false,
      "properties": {
        "host": {"type": "string"},
        "port": {"type": "integer"},
        "timeout": {"type": "number"}
      }
    }
  }
}
END
if [ -n "$picture" ]; then
    if ! can_draw; then exit 1; fi
    draw
    cp -- out "$top/docs/editor.svg"
    exit
fi
export HOME=$work OUT=$work/out PROGRAM=$program
in_neovim
if can_draw; then
    draw
    compare docs/editor.svg "neovim with tmux"
fi
in_emacs
in_node
