-- Neovim 0.7, which Debian 12 has. Put this into init.lua; rvls has to be on the PATH, or RVLS has to name it. RVLS_BASE is where the first
-- section begins, as 0x80000000, or 0 without it.
vim.g.do_filetype_lua = 1
vim.filetype.add({ extension = { s = 'riscv', S = 'riscv' } })

-- This Neovim knows no hints: they are shown as virtual text.
local space = vim.api.nvim_create_namespace('rvls')
local group = vim.api.nvim_create_augroup('rvls', { clear = true })

-- The first and the last line of a buffer that windows show, from 0 on.
local function lines_shown(buffer)
  local first, last = math.huge, -1
  for _, window in ipairs(vim.fn.win_findbuf(buffer)) do
    first = math.min(first, vim.fn.line('w0', window) - 1)
    last = math.max(last, vim.fn.line('w$', window) - 1)
  end
  return first, last
end

local function show_hints(client, buffer)
  local first, last = lines_shown(buffer)
  if last < 0 or not client.server_capabilities.inlayHintProvider then
    return
  end
  local range = { start = { line = first, character = 0 }, ['end'] = { line = last + 1, character = 0 } }
  local document = { uri = vim.uri_from_bufnr(buffer) }
  client.request('textDocument/inlayHint', { textDocument = document, range = range }, function(fault, hints)
    if fault or not vim.api.nvim_buf_is_valid(buffer) then
      return
    end
    vim.api.nvim_buf_clear_namespace(buffer, space, 0, -1)
    for _, hint in ipairs(hints or {}) do
      if hint.position.line < vim.api.nvim_buf_line_count(buffer) then
        -- They begin in one column, and diagnostics stand behind them.
        local line = vim.api.nvim_buf_get_lines(buffer, hint.position.line, hint.position.line + 1, false)[1]
        local text = string.rep(' ', 36 - vim.fn.strdisplaywidth(line)) .. hint.label
        vim.api.nvim_buf_set_extmark(buffer, space, hint.position.line, 0, { virt_text = { { text, 'Comment' } }, priority = 1 })
      end
    end
  end, buffer)
end

local function attached(client, buffer)
  -- gl lists all faults of a line.
  local actions = {
    K = vim.lsp.buf.hover,
    gd = vim.lsp.buf.definition,
    gr = vim.lsp.buf.references,
    grn = vim.lsp.buf.rename,
    gra = vim.lsp.buf.code_action,
    gl = vim.diagnostic.open_float,
  }
  for keys, action in pairs(actions) do
    vim.keymap.set('n', keys, action, { buffer = buffer })
  end
  -- Completion by CTRL-X CTRL-O.
  vim.bo[buffer].omnifunc = 'v:lua.vim.lsp.omnifunc'
  show_hints(client, buffer)
  vim.api.nvim_clear_autocmds({ group = group, buffer = buffer })
  vim.api.nvim_create_autocmd({ 'TextChanged', 'TextChangedI', 'WinScrolled', 'BufWinEnter' }, {
    group = group,
    buffer = buffer,
    callback = function()
      show_hints(client, buffer)
    end,
  })
end

-- One server for all buffers: each FileType event, as that of :e, asks for it again.
local running

local function server()
  local client = running and vim.lsp.get_client_by_id(running)
  if client and not client.is_stopped() then
    return running
  end
  local capabilities = vim.lsp.protocol.make_client_capabilities()
  capabilities.general = { positionEncodings = { 'utf-8', 'utf-16' } }
  running = vim.lsp.start_client({
    name = 'rvls',
    cmd = { vim.env.RVLS or 'rvls' },
    capabilities = capabilities,
    init_options = { base = vim.env.RVLS_BASE or '0' },
    root_dir = vim.fn.getcwd(),
    flags = { debounce_text_changes = 0 },
    -- Faults are shown while one types, and not only after Escape.
    handlers = {
      ['textDocument/publishDiagnostics'] = vim.lsp.with(vim.lsp.diagnostic.on_publish_diagnostics, { update_in_insert = true }),
    },
    -- This Neovim does not read the encoding that was agreed on by itself.
    on_init = function(client, result)
      client.offset_encoding = result.capabilities.positionEncoding or 'utf-16'
    end,
    on_attach = attached,
  })
  return running
end

vim.api.nvim_create_autocmd('FileType', {
  group = group,
  pattern = 'riscv',
  callback = function(args)
    vim.bo[args.buf].commentstring = '# %s'
    local client = server()
    if client then
      vim.lsp.buf_attach_client(args.buf, client)
    end
  end,
})
