-- Drives the language server from Neovim without a screen: opens, goes to definitions, edits, undoes. Each step is
-- printed. `SERVER` is the server's executable, `FOLDER` the example's.

local folder = vim.env.FOLDER

local function say(...)
  io.stdout:write(table.concat({ ... }, " "):gsub(vim.pesc(folder), "DIR") .. "\n")
end

local function fail(what)
  say("failed:", what)
  vim.cmd("cquit 1")
end

local function wait(what, holds)
  if not vim.wait(600000, holds, 10) then
    fail(what)
  end
end

local client

local function open(name)
  vim.cmd("edit " .. folder .. "/" .. name)
  local buffer = vim.api.nvim_get_current_buf()
  if client == nil then
    client = vim.lsp.start_client({
      name = "nogsimat",
      cmd = { vim.env.SERVER, "nogsimat", "lsp", "--no-std" },
      root_dir = folder,
      workspace_folders = { { name = "market", uri = vim.uri_from_fname(folder) } },
    })
  end
  vim.lsp.buf_attach_client(buffer, client)
  wait("the server begins", function()
    return vim.lsp.buf_get_clients(buffer)[client] ~= nil
  end)
  return buffer
end

local function diagnostics(buffer)
  for _, it in ipairs(vim.diagnostic.get(buffer)) do
    say("  diagnostic at", (it.lnum + 1) .. ":" .. (it.col + 1) .. ":", (it.message:gsub("\n", "; ")))
  end
  say("  diagnostics:", tostring(#vim.diagnostic.get(buffer)))
end

local function put_cursor(line, word)
  local text = vim.api.nvim_buf_get_lines(0, line - 1, line, true)[1]
  vim.api.nvim_win_set_cursor(0, { line, text:find(word, 1, true) - 1 })
end

-- Goes to the definition of the word under the cursor, as a key would.
local function go()
  local before = vim.api.nvim_buf_get_name(0) .. vim.inspect(vim.api.nvim_win_get_cursor(0))
  vim.lsp.buf.definition()
  wait("a definition", function()
    return vim.api.nvim_buf_get_name(0) .. vim.inspect(vim.api.nvim_win_get_cursor(0)) ~= before
  end)
  local cursor = vim.api.nvim_win_get_cursor(0)
  say("  now at", vim.api.nvim_buf_get_name(0) .. ":" .. cursor[1] .. ":" .. (cursor[2] + 1))
end

local function ask(method, more)
  local params = vim.tbl_extend("force", vim.lsp.util.make_position_params(0, "utf-16"), more or {})
  local replies = vim.lsp.buf_request_sync(0, method, params, 600000) or {}
  return (replies[client] or {}).result
end

local function count(it)
  return tostring(#(it or {}))
end

local ran, problem = pcall(function()
  say("open a file with an import that isn't resolved")
  local report = open("shop/src/report.rs")
  wait("a diagnostic", function()
    return #vim.diagnostic.get(report) == 1
  end)
  diagnostics(report)

  say("go to the definition of `Price` in a body")
  put_cursor(15, "Price")
  go()
  local price = open("shop/src/price.rs")

  say("type the struct that is missing there, behind a comment outside ASCII")
  local lines = vim.api.nvim_buf_line_count(price)
  vim.api.nvim_buf_set_lines(price, lines, lines, true, { "/* 🦀 é */ pub struct Rebat;" })
  local column = #"/* 🦀 é */ pub struct Rebat"
  vim.api.nvim_buf_set_text(price, lines, column, lines, column, { "e" })
  wait("no diagnostic", function()
    return #vim.diagnostic.get(report) == 0
  end)
  diagnostics(report)

  say("go to its definition from the import")
  vim.cmd("buffer " .. report)
  put_cursor(6, "Rebate")
  go()

  say("hover, references, symbols")
  vim.cmd("buffer " .. report)
  put_cursor(15, "Price")
  say("  " .. ask("textDocument/hover").contents.value:gsub("\n\n", "; "):gsub("\n", " "))
  say("  references:", count(ask("textDocument/references", { context = { includeDeclaration = true } })))
  say("  symbols:", count(ask("textDocument/documentSymbol")))

  say("a local variable has no definition")
  put_cursor(15, "price")
  say("  definitions:", count(ask("textDocument/definition")))

  say("a bracket without its partner, then undo")
  vim.cmd("buffer " .. price)
  vim.cmd("normal! Go}")
  wait("a diagnostic", function()
    return #vim.diagnostic.get(price) == 1
  end)
  diagnostics(price)
  vim.cmd("silent undo")
  wait("no diagnostic", function()
    return #vim.diagnostic.get(price) == 0
  end)
  diagnostics(price)

  say("close without a save")
  vim.cmd("bwipeout! " .. price)
  wait("a diagnostic", function()
    return #vim.diagnostic.get(report) == 1
  end)
  diagnostics(report)

  say("end")
  vim.lsp.stop_client(client)
  wait("the server ends", function()
    return vim.lsp.client_is_stopped(client)
  end)
end)
if not ran then
  fail(tostring(problem))
end
vim.cmd("qall!")
