-- A session of neovim with the language server: see editors.sh beside it. $PROGRAM is the server, and $OUT gets a line
-- for each answer.
local out = assert(io.open(os.getenv("OUT"), "w"))

local function say(name, value)
  out:write(name, ": ", vim.inspect(value):gsub("%s+", " "), "\n")
end

local function text()
  return table.concat(vim.api.nvim_buf_get_lines(0, 0, -1, false), "\n")
end

vim.cmd("edit a.toml")
local client = vim.lsp.start_client({
  name = "toml-span",
  cmd = { os.getenv("PROGRAM"), "lsp" },
  root_dir = vim.fn.getcwd(),
})
vim.lsp.buf_attach_client(0, client)
vim.wait(5000, function()
  return #vim.diagnostic.get(0) > 0
end)

-- diagnostics, with their repair
for _, diagnostic in ipairs(vim.diagnostic.get(0)) do
  say("diagnostic", { diagnostic.lnum, diagnostic.col, diagnostic.end_col, diagnostic.code })
end

local function ask(method, line, character, more)
  local params = {
    textDocument = vim.lsp.util.make_text_document_params(0),
    position = { line = line, character = character },
  }
  for key, value in pairs(more or {}) do
    params[key] = value
  end
  local answers = vim.lsp.buf_request_sync(0, method, params, 5000)
  return answers and answers[client] and (answers[client].result or answers[client].error)
end

local here = { start = { line = 0, character = 0 }, ["end"] = { line = 0, character = 12 } }
local actions = ask("textDocument/codeAction", 0, 0, { range = here, context = { diagnostics = {} } })
say("action", actions[1].title)
vim.lsp.util.apply_workspace_edit(actions[1].edit, "utf-16")
vim.wait(5000, function()
  return #vim.diagnostic.get(0) == 0
end)
say("repaired", { text():match("^[^\n]*"), #vim.diagnostic.get(0) })

local names = {}
local function collect(symbols, front)
  for _, symbol in ipairs(symbols) do
    table.insert(names, front .. symbol.name)
    collect(symbol.children, front .. symbol.name .. "/")
  end
end
collect(ask("textDocument/documentSymbol", 0, 0), "")
say("symbols", names)
say("hover", ask("textDocument/hover", 4, 1).contents.value)

-- a line that is being written
vim.api.nvim_buf_set_lines(0, 10, 11, false, { "p" })
local labels = {}
for _, item in ipairs(ask("textDocument/completion", 10, 1).items) do
  table.insert(labels, item.label)
end
say("completion", labels)
vim.api.nvim_buf_set_lines(0, 10, 11, false, { "port=2" })

vim.lsp.util.apply_workspace_edit(ask("textDocument/rename", 5, 9, { newName = "secure" }), "utf-16")
local options = { tabSize = 4, insertSpaces = true }
vim.lsp.util.apply_text_edits(ask("textDocument/formatting", 0, 0, { options = options }), 0, "utf-16")
out:write(text(), "\n")
vim.lsp.stop_client(client)
vim.wait(2000, function()
  return vim.lsp.client_is_stopped(client)
end)
out:close()
vim.cmd("qall!")
