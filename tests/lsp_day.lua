-- An author's day in Neovim, for tests/lsp_editors.py: with the lines of docs/editors.md a web is
-- opened, typed in and renamed in, the branch under it is switched, the server and retangle are
-- killed, and the web is saved under another name. Each step prints a line: whether it holds, its
-- name and what was found. Names of files are those that the test has made.

local published, steps = {}, io.open('steps', 'w')
local handler = vim.lsp.handlers['textDocument/publishDiagnostics']
vim.lsp.handlers['textDocument/publishDiagnostics'] = function(fault, result, ...)
  published[result.uri] = result.diagnostics
  return handler(fault, result, ...)
end

local function step(name, holds, found)
  local text = vim.inspect(found):gsub('%s+', ' '):sub(1, 300)
  steps:write((holds and 'ok ' or 'FAIL ') .. name .. ': ' .. text .. '\n')
  steps:flush()
end

local function keys(text)
  vim.api.nvim_feedkeys(vim.api.nvim_replace_termcodes(text, true, false, true), 'xt', false)
end

local function client() return vim.lsp.buf_get_clients(0)[next(vim.lsp.buf_get_clients(0)) or 0] end

-- The answer of the server, before which it has published the faults of all that was sent.
local function ask(method, params)
  vim.wait(300, function() return false end)    -- changes are sent together after 150 ms
  local answers = vim.lsp.buf_request_sync(0, method, params, 20000) or {}
  local _, answer = next(answers)
  return answer and answer.result
end

local function here() return vim.lsp.util.make_position_params(0, 'utf-16') end

-- After all is saved, the faults that are shown are those of ctangle.
local function check(name, web)
  vim.cmd('silent! wall')
  ask('workspace/symbol', {query = 'nothing'})
  local shown = {}
  for _, these in pairs(published) do
    for _, one in ipairs(these) do vim.list_extend(shown, one.data.faults) end
  end
  local said = vim.fn.systemlist({'ctangle', web or 'a'})
  table.sort(shown)
  table.sort(said)
  local function without(these, those)
    return vim.tbl_filter(function(one) return not vim.tbl_contains(those, one) end, these)
  end
  step(name, vim.deep_equal(shown, said),
    {#shown, #said, without(shown, said), without(said, shown)})
end

local function children(pid)
  local lines = vim.fn.readfile('/proc/' .. pid .. '/task/' .. pid .. '/children')
  return vim.split(lines[1] or '', ' ', {trimempty = true})
end

vim.cmd('edit a.w')
vim.wait(5000, function() return next(published) ~= nil end)
check('opened')

-- ------------------------------------------------------------ typing

math.randomseed(1)
local typed = {'oint é = 1;<Esc>', 'A /* c */<Esc>', 'o@<Part 3 of the program@><Esc>',
  'o@<Part 3<Esc>', 'dd', 'x', 'yyp', 'o"open<Esc>', 'J', 'o@ A section.<CR>@c<CR>int q;<Esc>',
  'o@<Part 5...@><Esc>', 'o@<Prt 7 of the program@><Esc>'}
for number = 1, 300 do
  vim.api.nvim_win_set_cursor(0, {math.random(vim.fn.line('$')), 0})
  keys(typed[math.random(#typed)])
  vim.wait(5, function() return false end)
  if number % 100 == 0 then check('typed ' .. number) end
end
for _ = 1, 150 do keys('u') end
check('undone')
for _ = 1, 40 do keys('<C-r>') end
check('done again')

-- ------------------------------------------------------------ names

vim.cmd('undo 0')
check('all undone')
vim.fn.search('^@ A file of the program')
vim.cmd('normal! jo@<Part 17 of')
vim.api.nvim_win_set_cursor(0, {vim.fn.line('.'), 12})
local params = here()
params.position.character = 12
local found = ask('textDocument/completion', params)
local item = found and found.items[1] or {}
step('completed', item.label == 'Part 17 of the program', item)
vim.lsp.util.apply_text_edits({item.textEdit}, 0, 'utf-16')
step('written', vim.fn.getline('.') == '@<Part 17 of the program@>', vim.fn.getline('.'))
check('completed')

vim.api.nvim_win_set_cursor(0, {vim.fn.line('.'), 4})
local before = vim.fn.line('.')
found = ask('textDocument/hover', here())
step('hover', found and found.contents.value:find('used in') ~= nil, found)
vim.lsp.buf.definition()
vim.wait(5000, function() return vim.fn.line('.') ~= before end)
step('definition', vim.fn.getline('.') == '@<Part 17 of the program@>=', vim.fn.getline('.'))
vim.lsp.buf.references()
vim.wait(5000, function() return #vim.fn.getqflist() > 0 end)
step('references', #vim.fn.getqflist() >= 2, #vim.fn.getqflist())
vim.cmd('cclose')
vim.lsp.buf.rename('The renamed piece')
vim.wait(5000, function() return vim.fn.getline('.') == '@<The renamed piece@>=' end)
check('renamed')
step('renamed here', vim.fn.getline('.') == '@<The renamed piece@>=', vim.fn.getline('.'))
found = vim.fn.readfile('b.w')
step('renamed elsewhere', vim.tbl_contains(found, '@ See @<The renamed piece@>.'), found)
vim.cmd('ShowC')
vim.wait(5000, function() return vim.fn.expand('%:e') == 'c' end)
step('the C', vim.bo.readonly and vim.fn.expand('%:t') == 'a.c',
  {vim.fn.expand('%'), vim.fn.getline('.')})
vim.cmd('buffer a.w')

-- ------------------------------------------------------------ other programs

vim.fn.system('git commit -qam typed && git checkout -q other')
vim.cmd('doautocmd FocusGained')
step('the other branch', vim.fn.search('another branch') > 0, vim.fn.getline(1))
check('the other branch')
vim.fn.writefile({'@ @<Unused@>=', '"'}, 'b.w')
vim.cmd('doautocmd FocusGained')
vim.wait(3000, function() return vim.inspect(published):find('never used: <Unused>') ~= nil end)
check('a file that another program wrote')

local server = client().rpc.pid
for _, one in ipairs(children(server)) do vim.loop.kill(tonumber(one), 9) end
vim.wait(2500, function() return false end)
keys('Go@<Undefined@><Esc>')
check('retangle was killed')
vim.loop.kill(server, 9)
vim.wait(10000, function() return client() and client().rpc.pid ~= server end)
keys('Go@<Undefined again@><Esc>')
check('the server was killed')
server = client().rpc.pid
for _, one in ipairs(children(server)) do vim.loop.kill(tonumber(one), 9) end
vim.loop.kill(server, 9)
vim.wait(10000, function() return client() and client().rpc.pid ~= server end)
keys('Go"<Esc>')
check('both were killed')
vim.fn.delete('a.w')
vim.wait(1500, function() return false end)
keys('Go@<Undefined still@><Esc>')
vim.cmd('write!')
check('a web that was gone')
local gone = vim.uri_from_bufnr(0)
vim.cmd('saveas c.w')
published[gone] = nil           -- the buffer is that of another file now
keys('Go@<Undefined elsewhere@><Esc>')
check('a web that was saved under another name', 'c')
vim.cmd('qall!')
