-- `ra_serve` for Rust files in Neovim; in init.lua, with your own PATH.
-- Tried: Neovim 0.7.2 (hover by `K`, before and after an edit; diagnostics that come and go).
-- Not tried: newer ones, which take the way by `vim.lsp.start`.
local cmd = { "PATH/bin/ra_serve", "lsp" }

-- The server starts with the first Rust file. Its root is the folder that Neovim was started in.
vim.api.nvim_create_autocmd("FileType", { pattern = "rust", callback = function(opened)
  if vim.lsp.start then
    vim.lsp.start({ name = "ra_serve", cmd = cmd, root_dir = vim.fn.getcwd() })
  else
    ra_serve = ra_serve or vim.lsp.start_client({ cmd = cmd, root_dir = vim.fn.getcwd() })
    vim.lsp.buf_attach_client(opened.buf, ra_serve)
  end
  vim.keymap.set("n", "K", vim.lsp.buf.hover, { buffer = opened.buf })
end })
