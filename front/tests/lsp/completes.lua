-- Completes a path as a person would, by Neovim's keys for it, and imports a name by a code action.

local function fail(what)
  io.stdout:write("failed: " .. what .. "\n")
  vim.cmd("cquit 1")
end

local function wait(what, holds)
  if not vim.wait(600000, holds, 10) then
    fail(what)
  end
end

local function keys(text, mode)
  vim.api.nvim_feedkeys(vim.api.nvim_replace_termcodes(text, true, false, true), mode, false)
end

-- Types a line below the last one, asks what may stand next, and takes the first of it.
local function complete(text)
  local timer = vim.loop.new_timer()
  local shown = {}
  local left = 30000
  timer:start(20, 20, vim.schedule_wrap(function()
    if timer:is_closing() then
      return
    end
    local items = vim.fn.complete_info({ "items" }).items
    left = left - 1
    if #items > 0 or left == 0 then
      timer:close()
      for _, it in ipairs(items) do
        table.insert(shown, it.word)
      end
      keys("<C-n><C-y><Esc>", "n")
    end
  end))
  vim.cmd("normal! G")
  keys("o" .. text .. "<C-x><C-o>", "x!")
  io.stdout:write(text .. ": " .. table.concat(shown, " ") .. "; " .. vim.api.nvim_get_current_line() .. "\n")
end

vim.cmd("edit " .. vim.env.FOLDER .. "/shop/src/report.rs")
local buffer = vim.api.nvim_get_current_buf()
wait("a client", function()
  return next(vim.lsp.buf_get_clients(buffer)) ~= nil
end)
wait("a diagnostic", function()
  return #vim.diagnostic.get(buffer) > 0
end)
vim.o.completeopt = "menuone,noselect"
complete("fn f(price: u8) { Price::")
vim.cmd("normal! A; }")
complete("fn g(cents: u8) { cen")
vim.cmd("normal! A; }")
complete("use crate::price::")
complete("use crate::model::Ord")
complete("fn f() { table::row(crate::model::Item::")
vim.lsp.stop_client(vim.lsp.get_active_clients())
wait("the server ends", function()
  return #vim.lsp.get_active_clients() == 0
end)
vim.cmd("qall!")
