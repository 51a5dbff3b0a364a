-- Neovim 0.8 and later. Put this into init.lua; rvls has to be on the PATH, or RVLS has to name it. RVLS_BASE is where the first section
-- begins, as 0x80000000, or 0 without it.
vim.filetype.add({ extension = { s = 'riscv', S = 'riscv' } })

vim.api.nvim_create_autocmd('FileType', {
  pattern = 'riscv',
  callback = function(args)
    vim.bo[args.buf].commentstring = '# %s'
    vim.lsp.start({
      name = 'rvls',
      cmd = { vim.env.RVLS or 'rvls' },
      init_options = { base = vim.env.RVLS_BASE or '0' },
      root_dir = vim.fs.dirname(args.file),
    })
  end,
})

vim.api.nvim_create_autocmd('LspAttach', {
  callback = function(args)
    local client = vim.lsp.get_client_by_id(args.data.client_id)
    if not client or client.name ~= 'rvls' then
      return
    end
    -- Faults are shown while one types, and not only after Escape.
    vim.diagnostic.config({ update_in_insert = true }, vim.lsp.diagnostic.get_namespace(client.id))
    -- Neovim 0.11 has K for hover by itself, grr for references, grn for another name, and gra for quick fixes. gl lists all faults of a line.
    local actions = {
      K = vim.lsp.buf.hover,
      gd = vim.lsp.buf.definition,
      gr = vim.lsp.buf.references,
      grn = vim.lsp.buf.rename,
      gra = vim.lsp.buf.code_action,
      gl = vim.diagnostic.open_float,
    }
    for keys, action in pairs(actions) do
      vim.keymap.set('n', keys, action, { buffer = args.buf })
    end
    -- Completion by CTRL-X CTRL-O.
    vim.bo[args.buf].omnifunc = 'v:lua.vim.lsp.omnifunc'
    -- Hints at the ends of lines, from Neovim 0.10 on.
    if vim.lsp.inlay_hint and client.server_capabilities.inlayHintProvider then
      vim.lsp.inlay_hint.enable(true, { bufnr = args.buf })
    end
  end,
})
