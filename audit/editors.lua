-- The steps of audit/editors in neovim, from 0.7 on: `nvim --headless --clean -S` this file, in a folder with early.rc,
-- keeps.rc and fixed.rc. It prints a line for each step, and how many there were.
local passed, failed = 0, 0

-- How long something may take to come, in milliseconds.
local PATIENCE = 5000

local function say(line)
  io.stdout:write(line .. '\n')
end

--- Makes a step, which fails where it raises an error.
local function step(name, call)
  local ok, why = pcall(call)
  if ok then
    passed = passed + 1
    say('neovim: ' .. name)
  else
    failed = failed + 1
    say('neovim: ' .. name .. ': FAILED: ' .. tostring(why))
  end
end

--- Waits until a call answers something, and answers that.
local function await(what, call)
  local found
  vim.wait(PATIENCE, function()
    found = call()
    return found
  end, 5)
  assert(found, what .. " doesn't come; there is " .. vim.inspect(vim.diagnostic.get(0)))
  return found
end

local function same(found, wanted)
  assert(vim.deep_equal(found, wanted), 'found ' .. vim.inspect(found) .. ', wanted ' .. vim.inspect(wanted))
end

local function has(text, part)
  assert(text:find(part, 1, true), vim.inspect(text) .. ' has no ' .. vim.inspect(part))
end

--- Puts the cursor at a column (from 0) of a line (from 1).
local function go(line, column)
  vim.api.nvim_win_set_cursor(0, { line, column })
end

local function line(number)
  return vim.fn.getline(number)
end

local function errors()
  return vim.diagnostic.get(0, { severity = vim.diagnostic.severity.ERROR })
end

--- The error that is shown at a line.
local function error_at(number)
  return await('an error at line ' .. number, function()
    local found = errors()
    return #found == 1 and found[1].lnum == number - 1 and found[1]
  end)
end

--- The lines of the list that a call fills.
local function listed(get, call)
  vim.fn.setqflist({})
  call()
  local lines = await('a list', function()
    local found = get()
    return #found > 0 and vim.tbl_map(function(one) return one.lnum end, found)
  end)
  vim.cmd('cclose')
  return lines
end

--- The text of the window that floats after a call.
local function floated(call)
  call()
  local window = await('a window', function()
    for _, window in ipairs(vim.api.nvim_list_wins()) do
      if vim.api.nvim_win_get_config(window).relative ~= '' then return window end
    end
  end)
  local lines = vim.api.nvim_buf_get_lines(vim.api.nvim_win_get_buf(window), 0, -1, false)
  vim.api.nvim_win_close(window, true)
  return table.concat(lines, '\n')
end

--- The server's answer to a request at the cursor.
local function answer(method, params)
  local answers = vim.lsp.buf_request_sync(0, method, params, PATIENCE)
  local _, told = next(answers or {})
  assert(told and not told.error, method .. ': ' .. vim.inspect(told))
  return told.result
end

--- Takes the first of the code actions whose title has a word.
local function act(word)
  vim.ui.select = function(items, _, chosen)
    for number, item in ipairs(items) do
      if item[2].title:lower():find(word, 1, true) then return chosen(item, number) end
    end
    error('no action has the word ' .. word .. ': ' .. vim.inspect(items))
  end
  vim.lsp.buf.code_action()
end

-- ---- a model that is refused

step('a file of the notation has its type, and the server is started', function()
  vim.cmd('edit early.rc')
  same(vim.bo.filetype, 'ringcheck')
  await('a client', function() return #vim.lsp.buf_get_clients(0) == 1 end)
end)

step('a diagnostic comes, at its line and with its cause', function()
  local found = error_at(18)
  same(found.source, 'ringcheck')
  same(tostring(found.code or found.user_data.lsp.code), 'V8')
  has(found.message, 'NoShare')
  has(found.message, 'asks for 1 share of a; held: 0')
  has(found.message, 'Reap request 7 first')
end)

step('the diagnostic has the line where the share was last held', function()
  local told = error_at(18).user_data.lsp.relatedInformation
  same(told[1].location.range.start.line, 8)
end)

step('without that line the diagnostic goes, and with it it comes again', function()
  local text = line(18)
  vim.api.nvim_buf_set_lines(0, 17, 18, false, {})
  await('no error', function() return #errors() == 0 end)
  vim.api.nvim_buf_set_lines(0, 17, 17, false, { text })
  error_at(18)
end)

step('a line that can\'t be read has its own diagnostic', function()
  local text = line(8)
  vim.api.nvim_buf_set_lines(0, 7, 8, false, { 'get_sqes' })
  has(error_at(8).message, "the nearest word is 'get_sqe'")
  vim.api.nvim_buf_set_lines(0, 7, 8, false, { text })
  error_at(18)
end)

step('hover says what is known before the line, and the manual page of the call', function()
  go(9, 2)
  local told = floated(vim.lsp.buf.hover)
  has(told, 'a:1 t:7')
  has(told, 'entry vacant')
  has(told, 'io_uring_prep_read(3)')
end)

step('hover says what a token is', function()
  go(6, 22)
  has(floated(vim.lsp.buf.hover), 'token 7')
end)

step('the definition of a buffer is its declaration', function()
  go(9, 12)
  vim.lsp.buf.definition()
  await('the line', function() return vim.fn.line('.') == 4 and vim.fn.col('.') == 8 end)
end)

step('the definition of a token is its declaration', function()
  go(24, 5)
  vim.lsp.buf.definition()
  await('the line', function() return vim.fn.line('.') == 5 and vim.fn.col('.') == 7 end)
end)

step('the references of a buffer are all lines that name it', function()
  go(4, 7)
  same(listed(vim.fn.getqflist, vim.lsp.buf.references), { 4, 5, 6, 9, 18, 35 })
end)

step('the same are highlighted', function()
  go(4, 7)
  same(#answer('textDocument/documentHighlight', vim.lsp.util.make_position_params()), 6)
end)

step('the threads are symbols of the text', function()
  local told = answer('textDocument/documentSymbol', { textDocument = vim.lsp.util.make_text_document_params() })
  local names = vim.tbl_map(function(one) return one.name end, told)
  assert(vim.tbl_contains(names, 'thread t0') and vim.tbl_contains(names, 'thread t1'), vim.inspect(names))
end)

step('blocks fold', function()
  local told = answer('textDocument/foldingRange', { textDocument = vim.lsp.util.make_text_document_params() })
  local first = vim.tbl_map(function(one) return one.startLine end, told)
  assert(vim.tbl_contains(first, 5) and vim.tbl_contains(first, 6), vim.inspect(first))
end)

step('completion has the calls that may stand on the line', function()
  vim.api.nvim_buf_set_lines(0, 7, 7, false, { 'get' })
  go(8, 2)
  vim.cmd('startinsert!')
  local told = answer('textDocument/completion', {
    textDocument = vim.lsp.util.make_text_document_params(),
    position = { line = 7, character = 3 },
  })
  local items = vim.lsp.util.text_document_completion_list_to_complete_items(told, 'get')
  same(items[1].word, 'get_sqe')
  vim.cmd('stopinsert')
  vim.api.nvim_buf_set_lines(0, 7, 8, false, {})
  error_at(18)
end)

step('completion has the buffers that are declared, where one may stand', function()
  vim.api.nvim_buf_set_lines(0, 17, 18, false, { 'v = load ' })
  local told = answer('textDocument/completion', {
    textDocument = vim.lsp.util.make_text_document_params(),
    position = { line = 17, character = 9 },
  })
  local items = vim.lsp.util.text_document_completion_list_to_complete_items(told, '')
  same(items[1].word, 'a')
  vim.api.nvim_buf_set_lines(0, 17, 18, false, { 'v = load a 0' })
  error_at(18)
end)

step('rename changes each place of the name', function()
  go(9, 12)
  vim.lsp.buf.rename('page')
  await('the new name', function() return line(9) == 'prep_read 3 page 16 0' end)
  same({ line(4), line(5), line(6) }, { 'buffer page 16 1', 'token 7 read page', 'thread t0 holds page:1 t:7 c:1 {' })
  same({ line(18), line(35) }, { 'v = load page 0', 'v = load page 0' })
  await('the new name in the diagnostic', function()
    return error_at(18).message:find('asks for 1 share of page; held: 0', 1, true)
  end)
end)

step('formatting indents by blocks', function()
  require('ringcheck').format()
  await('the indents', function() return line(8) == '        get_sqe' end)
  same({ line(6), line(7), line(17), line(19) }, { 'thread t0 holds page:1 t:7 c:1 {', '    lock {', '    }', '}' })
  same(line(25), string.rep(' ', 20) .. 'cqe_seen')
  error_at(18)
end)

step('the run that shows the harm is found', function()
  vim.cmd('RingcheckFind')
  local told = await('a window', function()
    return vim.bo.buftype == 'nofile' and table.concat(vim.api.nvim_buf_get_lines(0, 0, -1, false), '\n')
  end)
  has(told, '--moves t0*9')
  has(told, 'fault F2 ReadOfFilling t0 line 18')
  vim.cmd('close')
end)

-- ---- models with something to insert

step('a code action fills in the list of a loop', function()
  vim.cmd('edit! keeps.rc')
  await('no error', function() return #errors() == 0 and #vim.lsp.buf_get_clients(0) == 1 end)
  go(5, 0)
  act('this loop')
  await('the list', function() return line(5) == 'loop keeps a:1 {' end)
end)

step('a code action fixes the line that is at fault', function()
  vim.cmd('edit! fixed.rc')
  error_at(6)
  go(6, 0)
  act('fill in the lists')
  await('the fix', function() return line(5) == 'loop keeps a:1 {' end)
  await('no error', function() return #errors() == 0 end)
end)

-- ---- the end

step('the server ends with status 0', function()
  local ended
  local _, client = next(vim.lsp.buf_get_clients(0))
  local before = client.config.on_exit
  client.config.on_exit = function(...)
    ended = { ... }
    if before then before(...) end
  end
  client.stop()
  await('its end', function() return ended end)
  same({ ended[1], ended[2] }, { 0, 0 })
end)

say(string.format('neovim: %d passed, %d failed', passed, failed))
vim.cmd('qall!')
