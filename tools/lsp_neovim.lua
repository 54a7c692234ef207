-- What Neovim does for tools/lsp-test: it opens sources with editors/vim alone, and writes `ok` or what is wrong to $ROOM/found.
local root, room = vim.env.ROOT, vim.env.ROOM
local wrong = {}

local function expect(what, found, wanted)
  if not vim.deep_equal(found, wanted) then
    table.insert(wrong, what .. ': ' .. vim.inspect(found) .. ', and not ' .. vim.inspect(wanted))
  end
end

-- the diagnostics that came for each document, by its URI, and how often
local came, published = {}, {}
local shown = vim.lsp.handlers['textDocument/publishDiagnostics']
vim.lsp.handlers['textDocument/publishDiagnostics'] = function(fault, result, ...)
  came[result.uri] = (came[result.uri] or 0) + 1
  published[result.uri] = result.diagnostics
  return shown(fault, result, ...)
end

local function waits(uri, count)
  return vim.wait(20000, function() return (came[uri] or 0) >= count end, 10)
end

local function text_of(diagnostics)
  return vim.tbl_map(function(it) return { it.lnum, it.col, it.end_lnum, it.end_col, it.code, it.severity } end, diagnostics)
end

-- a source with a fault, which is mended
local function mended()
  vim.cmd('edit ' .. room .. '/faulty.ispc')
  local uri = vim.uri_from_bufnr(0)
  expect('the type of the file', vim.bo.filetype, 'ispc')
  expect('an answer for the source', waits(uri, 1), true)
  expect('its fault', text_of(vim.diagnostic.get(0)), { { 1, 22, 1, 27, '20 UnknownName', vim.diagnostic.severity.ERROR } })
  vim.api.nvim_buf_set_text(0, 1, 22, 1, 27, { '7' })
  expect('an answer for the change', waits(uri, 2), true)
  expect('no fault', text_of(vim.diagnostic.get(0)), {})
end

-- what is shown of a place of the mended source, where its name is declared, and where it is named
local function places()
  local document = vim.lsp.util.make_text_document_params()
  local function asked(method, line, character, more)
    local params = vim.tbl_extend('keep', { textDocument = document, position = { line = line, character = character } }, more or {})
    local answers = vim.lsp.buf_request_sync(0, method, params, 20000) or {}
    local _, answer = next(answers)
    return answer and answer.result
  end
  local function place(line, from, to)
    return { start = { line = line, character = from }, ['end'] = { line = line, character = to } }
  end
  local hover = asked('textDocument/hover', 1, 6)
  expect('programIndex', hover, { contents = { kind = 'plaintext', value = 'varying int32' }, range = place(1, 6, 18) })
  local declared = { uri = document.uri, range = place(0, 26, 27) }
  expect('the declaration of a', asked('textDocument/definition', 1, 4), declared)
  local named = asked('textDocument/references', 1, 4, { context = { includeDeclaration = true } })
  expect('where a is named', named, { declared, { uri = document.uri, range = place(1, 4, 5) } })
end

-- what may be written behind `[` in line 1 of the mended source, and behind its last line
local function completions()
  local function asked(line, character)
    local params = { textDocument = vim.lsp.util.make_text_document_params(), position = { line = line, character = character } }
    local answers = vim.lsp.buf_request_sync(0, 'textDocument/completion', params, 20000) or {}
    local _, answer = next(answers)
    local names = {}
    for _, item in ipairs(answer and answer.result or {}) do
      names[item.label] = item.detail or item.kind
    end
    return names
  end
  local inside, behind = asked(1, 6), asked(vim.api.nvim_buf_line_count(0), 0)
  expect('the parameter a in its function', inside.a, 6)
  expect('the parameter a behind it', behind.a, nil)
  expect('a function', behind.f, 3)
  expect('one of the library', behind.reduce_min, 'uniform T reduce_min(varying T x)')
end

-- a has another name, in each place, and the source has no fault
local function renamed()
  local uri = vim.uri_from_bufnr(0)
  local before = came[uri] or 0
  local wanted = { 'export void f(uniform int pixels[]) {', '    pixels[programIndex] = 7;', '}' }
  vim.api.nvim_win_set_cursor(0, { 2, 4 })
  vim.lsp.buf.rename('pixels')
  vim.wait(20000, function() return vim.deep_equal(vim.api.nvim_buf_get_lines(0, 0, -1, false), wanted) end, 10)
  expect('the source with another name', vim.api.nvim_buf_get_lines(0, 0, -1, false), wanted)
  expect('an answer for it', waits(uri, before + 1), true)
  expect('no fault of it', text_of(vim.diagnostic.get(0)), {})
end

-- each kernel has an answer, and no fault
local function kernels()
  local files = vim.fn.glob(root .. '/examples/*.ispc', false, true)
  expect('some kernels', #files > 10, true)
  for _, file in ipairs(files) do
    vim.cmd('edit ' .. file)
    local uri = vim.uri_from_bufnr(0)
    expect('an answer for ' .. file, waits(uri, 1), true)
    expect('the faults of ' .. file, published[uri], {})
  end
end

-- the server ends with status 0
local function ended()
  local client = vim.lsp.get_active_clients()[1]
  expect('one server', #vim.lsp.get_active_clients(), 1)
  client.stop()
  expect('its end', vim.wait(20000, function() return client.is_stopped() end, 10), true)
  local status = room .. '/status'
  vim.wait(20000, function() return vim.fn.getfsize(status) > 0 end, 10)
  expect('its status', vim.fn.readfile(status), { '0' })
end

vim.opt.runtimepath:prepend(root .. '/editors/vim')
vim.g.isp_command = { 'sh', '-c', '"$ISPX" lsp; echo $? >"$ROOM/status"' }
vim.cmd('filetype plugin on')
local fine, fault = pcall(function()
  mended()
  places()
  completions()
  renamed()
  kernels()
  ended()
end)
if not fine then
  table.insert(wrong, tostring(fault))
end
vim.fn.writefile(#wrong == 0 and { 'ok' } or wrong, room .. '/found')
vim.cmd('qall!')
