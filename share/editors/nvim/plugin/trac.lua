-- TRAC in Neovim, from 0.7 on: its files, the language server `trac lsp`, and the debugger `trac dap` where nvim-dap
-- is. `trac` has to stand on PATH.
vim.api.nvim_create_autocmd({ "BufNewFile", "BufRead" }, { pattern = "*.trac", command = "setfiletype trac" })

-- (`require` alone would also run a dap.lua of the folder that Neovim stands in)
local function has(file)
  return #vim.api.nvim_get_runtime_file(file, false) > 0
end
local found, dap = false, nil
if has("lua/dap.lua") or has("lua/dap/init.lua") then
  found, dap = pcall(require, "dap")
end
if found then
  dap.adapters.trac = { type = "executable", command = "trac", args = { "dap" } }
  dap.configurations.trac = {
    { type = "trac", request = "launch", name = "TRAC", program = "${file}", stopOnEntry = true },
  }
end

local command = { "trac", "lsp" }
if vim.lsp.enable then
  vim.lsp.config("trac", { cmd = command, filetypes = { "trac" } })
  vim.lsp.enable("trac")
  return
end

-- Before 0.11 each buffer is given to one client.
local client
vim.api.nvim_create_autocmd("FileType", {
  pattern = "trac",
  callback = function(event)
    client = client or vim.lsp.start_client({ name = "trac", cmd = command })
    if client then
      vim.lsp.buf_attach_client(event.buf, client)
    end
  end,
})
