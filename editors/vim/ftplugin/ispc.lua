-- In Neovim: starts `ispx lsp` for the sources that are open. Vim does not read this file.
-- `vim.g.isp_command` is the command, where it is set: { '/usr/local/bin/ispx', 'lsp', '--gang', '8' }.
local command = vim.g.isp_command or { 'ispx', 'lsp' }
if vim.fn.executable(command[1]) == 0 then
  return
end

local config = { name = 'isp', cmd = command, root_dir = vim.fn.getcwd() }
if vim.lsp.start then
  vim.lsp.start(config)
else
  -- before 0.8: one client for all buffers
  isp_client = isp_client or vim.lsp.start_client(config)
  vim.lsp.buf_attach_client(0, isp_client)
end
