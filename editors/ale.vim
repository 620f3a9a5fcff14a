" Copy this file to ale_linters/toml/toml_span.vim in ~/.vim, or in ~/.config/nvim
call ale#linter#Define('toml', {
\   'name': 'toml-span',
\   'lsp': 'stdio',
\   'executable': 'toml-span',
\   'command': '%e lsp',
\   'project_root': {buffer -> fnamemodify(bufname(buffer), ':p:h')},
\})
