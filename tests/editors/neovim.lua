-- Opens the file that TRAC_FILE names in Neovim, and prints what the language server tells of it, a line each.
local function tell(name, value)
  io.stdout:write(name .. ": " .. vim.inspect(value, { newline = " ", indent = "" }) .. "\n")
end

local function asked(method, line, character, more)
  local params = { textDocument = vim.lsp.util.make_text_document_params(),
                   position = { line = line, character = character } }
  for key, value in pairs(more or {}) do
    params[key] = value
  end
  for _, reply in pairs(vim.lsp.buf_request_sync(0, "textDocument/" .. method, params, 60000) or {}) do
    return reply.result
  end
end

vim.cmd("edit " .. vim.fn.fnameescape(vim.env.TRAC_FILE))
local ready = vim.wait(60000, function() return next(vim.lsp.buf_get_clients(0)) ~= nil and
  vim.lsp.buf_get_clients(0)[next(vim.lsp.buf_get_clients(0))].initialized end)
tell("ready", ready)
-- A name that no primitive has is typed, and taken back.
vim.api.nvim_buf_set_text(0, 2, 2, 2, 4, { "xl" })
vim.wait(60000, function() return #vim.diagnostic.get(0) > 0 end)
local function shown(it) return { it.lnum, it.col, it.message, it.code } end
tell("diagnostics", vim.tbl_map(shown, vim.diagnostic.get(0)))
vim.api.nvim_buf_set_text(0, 2, 2, 2, 4, { "cl" })
vim.wait(60000, function() return #vim.diagnostic.get(0) == 0 end)
tell("diagnostics", #vim.diagnostic.get(0))
tell("hover", asked("hover", 2, 3).contents.value)
tell("hover", asked("hover", 2, 8).contents.value)
tell("definition", asked("definition", 2, 8)[1].range.start)
tell("references", #asked("references", 2, 8, { context = { includeDeclaration = true } }))
tell("completion", vim.tbl_map(function(it) return it.label end, asked("completion", 2, 5)))
vim.lsp.stop_client(vim.lsp.get_active_clients())
vim.cmd("quitall!")
