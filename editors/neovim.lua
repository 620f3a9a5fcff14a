-- In init.lua, from version 0.11 on
vim.lsp.config("toml-span", {
  cmd = { "toml-span", "lsp" },
  filetypes = { "toml" },
  root_markers = { "Cargo.toml", "pyproject.toml", ".git" },
})
vim.lsp.enable("toml-span")

-- From version 0.7 to 0.10
local client
vim.api.nvim_create_autocmd("FileType", {
  pattern = "toml",
  callback = function(event)
    if not client or vim.lsp.client_is_stopped(client) then
      local command = { "toml-span", "lsp" }
      client = vim.lsp.start_client({ name = "toml-span", cmd = command, root_dir = vim.fn.getcwd() })
    end
    vim.lsp.buf_attach_client(event.buf, client)
    -- CTRL-X CTRL-O completes, :Format formats, and the other calls have the keys of version 0.11
    vim.bo[event.buf].omnifunc = "v:lua.vim.lsp.omnifunc"
    vim.api.nvim_buf_create_user_command(event.buf, "Format", function()
      local format = vim.lsp.buf.format or vim.lsp.buf.formatting
      format()
    end, {})
    local calls = { K = "hover", gra = "code_action", grn = "rename", grr = "references", gO = "document_symbol" }
    for keys, name in pairs(calls) do
      vim.keymap.set("n", keys, vim.lsp.buf[name], { buffer = event.buf })
    end
  end,
})
