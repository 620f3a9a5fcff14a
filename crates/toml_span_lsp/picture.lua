-- What docs/editor.svg shows of neovim: a file with errors above one with violations of its schema, in which a key is
-- completed. See editors.sh beside it. $SETUP is editors/neovim.lua.
local setups = vim.split(io.open(os.getenv("SETUP")):read("*a"), "-- From version 0.7 to 0.10\n", { plain = true })
assert(load(setups[vim.fn.has("nvim-0.11") == 1 and 1 or 2]))()
vim.cmd("highlight clear SignColumn")
vim.cmd("set completeopt=menuone,noselect noruler")
vim.diagnostic.config({ update_in_insert = true })

-- Runs a command that shows a file, and waits until it has three diagnostics.
local function show(command)
  vim.cmd(command)
  vim.wait(5000, function()
    return #vim.diagnostic.get(0) == 3
  end)
end

vim.api.nvim_create_autocmd("VimEnter", {
  nested = true,
  callback = function()
    show("edit web.toml")
    show("above 4split client.toml")
    vim.cmd("wincmd j | normal G")
    vim.fn.feedkeys(vim.api.nvim_replace_termcodes("o<C-X><C-O>", true, false, true))
  end,
})
