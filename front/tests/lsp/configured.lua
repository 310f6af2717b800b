-- Opens a file as a person would, with a configuration that starts the language server, and goes to a definition by a key.

local function wait(what, holds)
  if not vim.wait(600000, holds, 10) then
    io.stdout:write("failed: " .. what .. "\n")
    vim.cmd("cquit 1")
  end
end

vim.cmd("edit " .. vim.env.FOLDER .. "/shop/src/report.rs")
local buffer = vim.api.nvim_get_current_buf()
local client
wait("a client", function()
  _, client = next(vim.lsp.buf_get_clients(buffer))
  return client ~= nil
end)
io.stdout:write("client: " .. client.name .. "\n")
wait("a diagnostic", function()
  return #vim.diagnostic.get(buffer) > 0
end)
io.stdout:write("diagnostics: " .. #vim.diagnostic.get(buffer) .. "\n")
vim.api.nvim_win_set_cursor(0, { 15, vim.api.nvim_buf_get_lines(0, 14, 15, true)[1]:find("Price", 1, true) - 1 })
vim.api.nvim_feedkeys("gd", "x", false)
wait("a definition", function()
  return vim.api.nvim_get_current_buf() ~= buffer
end)
local name = vim.fn.fnamemodify(vim.api.nvim_buf_get_name(0), ":t")
io.stdout:write("gd: " .. name .. ":" .. vim.api.nvim_win_get_cursor(0)[1] .. "\n")
vim.lsp.stop_client(vim.lsp.get_active_clients())
wait("the server ends", function()
  return #vim.lsp.get_active_clients() == 0
end)
vim.cmd("qall!")
