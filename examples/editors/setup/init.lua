vim.g.do_filetype_lua = 1 -- for Neovim 0.7
vim.filetype.add({ extension = { cedar = "cedar", cedarschema = "cedarschema" } })
local id
vim.api.nvim_create_autocmd("FileType", {
  pattern = { "cedar", "cedarschema" },
  callback = function(event)
    vim.bo[event.buf].commentstring = "// %s"
    local server = { name = "cedar", cmd = { "cedar-language-server" }, root_dir = vim.fn.getcwd() }
    if vim.lsp.start then -- from Neovim 0.8 on: it finds the server that runs
      vim.lsp.start(server)
    else
      id = id and vim.lsp.get_client_by_id(id) and id or vim.lsp.start_client(server)
      vim.lsp.buf_attach_client(event.buf, id)
    end
  end,
})
