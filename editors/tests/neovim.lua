-- What Neovim does with cycc's server: run by editors/test with the file as its argument, and $CYCC as the command.
vim.g.cycc = os.getenv('CYCC')
dofile(os.getenv('EDITORS') .. '/neovim.lua')

local function fail(words) io.stderr:write('neovim: ' .. words .. '\n'); vim.cmd('cquit 1') end
local function wait(words, test) if not vim.wait(20000, test, 50) then fail(words) end end
local function faults() return vim.diagnostic.get(0) end
local function text() return table.concat(vim.api.nvim_buf_get_lines(0, 0, -1, true), '\n') end

local function put(line, column) vim.api.nvim_win_set_cursor(0, { line, column }) end

-- the answer to a request about the cursor
local function asked(method, more)
  local params = vim.tbl_extend('force', vim.lsp.util.make_position_params(0, 'utf-16'), more or {})
  local answers = vim.lsp.buf_request_sync(0, 'textDocument/' .. method, params, 20000) or {}
  for _, answer in pairs(answers) do return answer.result end
end

vim.cmd('edit ' .. vim.fn.fnameescape(os.getenv('FILE')))
wait('no server was started', function() return #vim.lsp.get_active_clients() > 0 and vim.lsp.get_active_clients()[1].initialized end)
wait('no fault appeared', function() return #faults() == 1 and faults()[1].code == 'Name' and faults()[1].lnum == 5 end)

put(6, 12)
local offered = asked('codeAction', { range = vim.lsp.util.make_range_params(0, 'utf-16').range, context = { diagnostics = {} } })
if not (#offered == 1 and offered[1].title == 'Write `total`') then fail('cure: none was offered') end
vim.lsp.util.apply_workspace_edit(offered[1].edit, 'utf-16')
wait('the fault did not go', function() return #faults() == 0 end)

put(6, 12)
vim.lsp.buf.definition()
wait('definition: the cursor did not move', function() return vim.api.nvim_win_get_cursor(0)[1] == 5 end)
if not asked('hover').contents.value:find('int total', 1, true) then fail('hover: no type') end

put(6, 12)
vim.lsp.buf.rename('sum')
wait('rename: the text did not change', function() return text():find('return sum + p', 1, true) and text():find('int sum = n', 1, true) end)

put(6, 20)
local members = asked('completion')
if not (#members == 2 and members[1].label == 'x' and members[2].label == 'next') then fail('completion: not the members') end
local function labels(method)
  local found = {}
  for _, it in ipairs(asked(method) or {}) do found[#found + 1] = it.label end
  return ' ' .. table.concat(found, ' ') .. ' '
end

-- a further line, and what may stand behind some of its words
local function completed(line, words)
  vim.api.nvim_buf_set_lines(0, -1, -1, true, { line })
  local _, column = line:find(words, 1, true)
  put(vim.api.nvim_buf_line_count(0), column)
  local found = labels('completion')
  vim.api.nvim_buf_set_lines(0, -2, -1, true, {})
  return found
end
local tags = completed('@tagged union Value { int n; char c; }; int f() { struct  }', '{ struct ')
if not (tags:find(' Node ') and tags:find(' Value ') and not tags:find(' step ')) then fail('completion: not the tags:' .. tags) end
local regions = completed('int *`rest g(region_t<`rest> h, int *`other p) { region<`own> k; int *` }', 'k; int *`')
for _, it in ipairs({ ' `rest ', ' `other ', ' `own ' }) do
  if not regions:find(it, 1, true) or regions:find(' h ') then fail('completion: not the regions:' .. regions) end
end

-- a name that is declared twice: the fault has the place of the first one
vim.api.nvim_buf_set_lines(0, -1, -1, true, { 'int step() { return 2; }' })
wait('no fault appeared of a name declared twice', function() return #faults() == 1 and faults()[1].code == 'Name' and faults()[1].lnum == 7 end)
local place = ((faults()[1].user_data or {}).lsp or {}).relatedInformation
if not (place and place[1].message == 'declared here: step' and place[1].location.range.start.line == 1 and place[1].location.uri == vim.uri_from_bufnr(0)) then
  fail('related: ' .. vim.inspect(faults()[1]))
end
vim.api.nvim_buf_set_lines(0, -2, -1, true, {})
wait('the fault of a name declared twice did not go', function() return #faults() == 0 end)
if #asked('documentSymbol') ~= 3 then fail('symbols: not three') end
local layout = vim.lsp.buf.format or vim.lsp.buf.formatting_sync
layout()
wait('layout: the text did not change', function() return text():find('\n}', 1, true) end)
print('neovim: faults, cure, definition, hover, rename, completion of members, tags and regions, a related place, symbols and layout were seen')
vim.cmd('qall!')
