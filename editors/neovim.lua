-- cycc in Neovim, from 0.7 on: in init.lua  dofile('PATH OF THIS REPOSITORY/editors/neovim.lua')
vim.api.nvim_create_autocmd({ 'BufRead', 'BufNewFile' }, { pattern = '*.cyc', command = 'setfiletype cyc' })

-- one server for all files; `cycc` is found where it is installed, or by vim.g.cycc
local server
local function attach(buffer)
  server = server or vim.lsp.start_client({
    name = 'cycc',
    cmd = { vim.g.cycc or 'cycc', 'lsp' },
    root_dir = vim.fn.getcwd(),
    on_exit = function() server = nil end,
  })
  vim.lsp.buf_attach_client(buffer, server)
  local function key(keys, call) vim.keymap.set('n', keys, call, { buffer = buffer }) end
  key('K', vim.lsp.buf.hover)
  key('gd', vim.lsp.buf.definition)
  key('gr', vim.lsp.buf.references)
  key('<F2>', vim.lsp.buf.rename)
  key('<F4>', vim.lsp.buf.code_action)
  key('gq', vim.lsp.buf.format or vim.lsp.buf.formatting)
  vim.bo[buffer].omnifunc = 'v:lua.vim.lsp.omnifunc'
end

vim.api.nvim_create_autocmd('FileType', {
  pattern = 'cyc',
  callback = function(event)
    vim.bo[event.buf].commentstring = '// %s'
    vim.bo[event.buf].syntax = 'c'
    attach(event.buf)
  end,
})
