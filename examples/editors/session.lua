-- A session of Neovim with the language server, as scripts/editor_cases.py runs it: FOLDER is a copy of photos/, and the
-- `init.lua` is the one of docs/EDITORS.md.
local dir = os.getenv("FOLDER")
local function say(...) io.stdout:write(string.format(...), "\n") end
-- How long an answer may take, in milliseconds: a busy machine takes its time, and a wait ends as soon as the answer is there.
local MOST = 60000
local function wait_until(holds) vim.wait(MOST, holds, 10) end
-- The server of a buffer, once it has started.
local function server_of(buf)
  for _, client in pairs(vim.lsp.buf_get_clients(buf)) do
    if client.initialized then return client end
  end
end
-- Opens a file, and answers its buffer once it has a server.
local function open(name)
  vim.cmd("edit " .. dir .. "/" .. name)
  local buf = vim.api.nvim_get_current_buf()
  assert(vim.wait(MOST, function() return server_of(buf) ~= nil end, 10), "no server for " .. name)
  return buf
end
local buf = open("edit.cedar")
local client = server_of(buf)
say("server %s", vim.inspect(client.server_capabilities.hoverProvider))
local function diagnostics(title)
  say("-- %s", title)
  for _, d in ipairs(vim.diagnostic.get(buf)) do
    local line = vim.api.nvim_buf_get_lines(buf, d.lnum, d.lnum + 1, false)[1] or ""
    local part = d.end_lnum == d.lnum and line:sub(d.col + 1, d.end_col) or "..."
    say("%d:%d-%d:%d %s [%s] `%s` %s", d.lnum + 1, d.col + 1, d.end_lnum + 1, d.end_col + 1,
      vim.diagnostic.severity[d.severity], tostring(d.user_data and d.user_data.lsp and d.user_data.lsp.code or d.code), part, d.message:gsub("\n", " / "))
  end
end
wait_until(function() return #vim.diagnostic.get(buf) > 0 end)
diagnostics("opened")
local function params(line, text, offset)
  local l = vim.api.nvim_buf_get_lines(buf, line - 1, line, false)[1]
  local s = l:find(text, 1, true)
  vim.api.nvim_win_set_cursor(0, { line, s - 1 + (offset or 0) })
  return vim.lsp.util.make_position_params(0, client.offset_encoding)
end
local function ask(method, p)
  local r = client.request_sync(method, p, MOST, buf)
  if not r then return "no answer" end
  if r.err then return vim.inspect(r.err) end
  return r.result
end
local function hover(line, text, offset)
  local r = ask("textDocument/hover", params(line, text, offset))
  say("-- hover %d `%s`", line, text)
  say("%s", type(r) == "table" and r.contents and r.contents.value or vim.inspect(r))
end
local function complete(line, text, offset)
  local r = ask("textDocument/completion", params(line, text, offset))
  say("-- completion %d behind `%s`", line, text)
  for _, i in ipairs(r.items or {}) do say("%s: %s", i.label, i.detail) end
end
local function define(line, text, offset)
  local r = ask("textDocument/definition", params(line, text, offset))
  say("-- declaration of `%s` in line %d", text, line)
  for _, l in ipairs(type(r) == "table" and r or {}) do say("%s:%d:%d", l.uri:match("[^/]*$"), l.range.start.line + 1, l.range.start.character + 1) end
end
hover(4, "resource", 2)
hover(12, "team", 1)
hover(12, "context.device", 9)
hover(11, 'Action::"view"', 3)
define(12, "lead", 1)
define(12, "context.device", 9)
define(11, 'Action::"view"', 3)
local function set(line, text) vim.api.nvim_buf_set_lines(buf, line - 1, line, false, { text }) end
-- code actions
local function fix(line, text, offset)
  local p = params(line, text, offset)
  p.range = { start = p.position, ["end"] = p.position }
  p.context = { diagnostics = {} }
  local r = ask("textDocument/codeAction", p)
  say("-- fixes %d `%s`", line, text)
  for _, a in ipairs(type(r) == "table" and r or {}) do
    say("%s", a.title)
    vim.lsp.util.apply_workspace_edit(a.edit, client.offset_encoding)
  end
  say("   now: %s", vim.api.nvim_buf_get_lines(buf, line - 1, line, false)[1])
end
fix(4, "isPubic", 2)
fix(8, "principal.vip", 11)
fix(15, "Usr", 1)
fix(15, "viw", 1)
wait_until(function() return #vim.diagnostic.get(buf) == 0 end)
diagnostics("mended")
-- what is being written
set(8, "when { principal. };")
wait_until(function() return #vim.diagnostic.get(buf) > 0 end)
diagnostics("a point")
complete(8, "principal.", 10)
set(8, "when { principal has vip && principal.v };")
complete(8, "principal.v", 11)
set(8, "when { resource.owner has  };")
complete(8, "has ", 4)
set(7, "permit(principal is , action == , resource)")
complete(7, "is ", 3)
complete(7, "action == ", 10)
set(7, "permit(principal, action, resource)")
set(8, "when { true };")
wait_until(function() return #vim.diagnostic.get(buf) == 0 end)
diagnostics("mended again")
-- symbols
local r = ask("textDocument/documentSymbol", { textDocument = vim.lsp.util.make_text_document_params(buf) })
say("-- symbols")
for _, s in ipairs(r) do say("%s %d", s.name, s.range.start.line + 1) end
-- the schema in another buffer
local sbuf = open("photos.cedarschema")
say("-- servers for the policies and the schema: %d", #vim.tbl_values(vim.lsp.get_active_clients()))
local lines = vim.api.nvim_buf_get_lines(sbuf, 0, -1, false)
for n, l in ipairs(lines) do if l:find("isPublic") then vim.api.nvim_buf_set_lines(sbuf, n - 1, n, false, { (l:gsub("isPublic", "isOpen")) }) end end
wait_until(function() return #vim.diagnostic.get(buf) > 0 end)
diagnostics("after the schema was edited, unsaved")
vim.api.nvim_buf_set_lines(sbuf, 0, 1, false, { "entity User = { name: Strng };" })
wait_until(function() return #vim.diagnostic.get(sbuf) > 0 end)
say("-- the schema with a fault")
for _, d in ipairs(vim.diagnostic.get(sbuf)) do say("%d:%d %s", d.lnum + 1, d.col + 1, d.message) end
vim.lsp.stop_client(client.id)
wait_until(function() return client.is_stopped() end)
say("stopped: %s", tostring(client.is_stopped()))
vim.cmd("qa!")
