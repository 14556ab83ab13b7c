-- Ringcheck in neovim, from 0.7 on: starts `ringcheck lsp`, once for all buffers.
local M = {}

--- The program and its word. Change it before the first file is opened, where the program isn't on the PATH.
M.command = { 'ringcheck', 'lsp' }

-- The documents of Ringcheck, which diagnostics link to where this file stands in its repository.
local docs = vim.fn.fnamemodify(debug.getinfo(1, 'S').source:sub(2), ':p:h:h:h:h') .. '/docs'

-- The client of neovim 0.7, which has no vim.lsp.start.
local id

-- Shows the run that a command finds in a window of its own: its moves, its trace, and what its threads wait for.
local function search(name, none)
  local params = { command = name, arguments = { vim.uri_from_bufnr(0) } }
  vim.lsp.buf_request(0, 'workspace/executeCommand', params, function(why, told)
    if why or not told then
      vim.notify(why and why.message or 'nothing was answered', vim.log.levels.ERROR)
      return
    end
    local lines = { told.verdict }
    if type(told.moves) == 'string' then
      vim.list_extend(lines, { '--moves ' .. told.moves })
      vim.list_extend(lines, vim.split(vim.trim(told.trace), '\n', { plain = true }))
    else
      table.insert(lines, none)
    end
    for _, thread in ipairs(told.threads or {}) do
      table.insert(lines, thread.name .. ' ' .. thread.says)
    end
    vim.cmd('botright new')
    vim.bo.buftype, vim.bo.bufhidden, vim.bo.swapfile = 'nofile', 'wipe', false
    vim.api.nvim_buf_set_lines(0, 0, -1, false, lines)
  end)
end

--- Shows the run into the fault.
function M.find()
  search('ringcheck.find', 'no run into a fault was found')
end

--- Shows a run after which nothing can go on.
function M.find_stuck()
  search('ringcheck.findStuck', 'not stuck in 2000 walks')
end

--- Indents the model by its blocks.
function M.format()
  if vim.lsp.buf.format then
    vim.lsp.buf.format()
  else
    vim.lsp.buf.formatting_sync()
  end
end

-- Neovim's own keys of 0.11, and those for which it has none.
local function keys(_, buffer)
  local function map(key, call)
    vim.keymap.set('n', key, call, { buffer = buffer })
  end
  map('K', vim.lsp.buf.hover)
  map('gd', vim.lsp.buf.definition)
  map('grr', vim.lsp.buf.references)
  map('grn', vim.lsp.buf.rename)
  map('gra', vim.lsp.buf.code_action)
  vim.api.nvim_buf_set_option(buffer, 'omnifunc', 'v:lua.vim.lsp.omnifunc')
  vim.api.nvim_buf_create_user_command(buffer, 'RingcheckFind', M.find, {})
  vim.api.nvim_buf_create_user_command(buffer, 'RingcheckFindStuck', M.find_stuck, {})
  vim.api.nvim_buf_create_user_command(buffer, 'RingcheckFormat', M.format, {})
end

--- Starts the server where it isn't there, and attaches the buffer to it.
function M.attach()
  local config = { name = 'ringcheck', cmd = M.command, root_dir = vim.fn.expand('%:p:h'), on_attach = keys }
  if vim.fn.filereadable(docs .. '/causes.md') == 1 then
    config.init_options = { docs = vim.uri_from_fname(docs) }
  end
  if vim.lsp.start then
    -- The same server for each folder: a model stands alone.
    vim.lsp.start(config, { reuse_client = function(client) return client.name == config.name end })
    return
  end
  if not (id and vim.lsp.get_client_by_id(id)) then
    id = vim.lsp.start_client(config)
  end
  vim.lsp.buf_attach_client(0, id)
end

return M
