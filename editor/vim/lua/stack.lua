-- Starts the language server of the verified short stack in Neovim, once, and hands it each buffer.
local stack, client = {}, nil

function stack.serve()
    local buffer = vim.api.nvim_get_current_buf()
    if client == nil or vim.lsp.get_client_by_id(client) == nil then
        client = vim.lsp.start_client({ name = "stack", cmd = { vim.g.stack_path, "editor", "server" }, root_dir = vim.fn.getcwd() })
    end
    vim.lsp.buf_attach_client(buffer, client)
    vim.bo[buffer].omnifunc = "v:lua.vim.lsp.omnifunc"
    local function key(name, act)
        vim.keymap.set("n", name, act, { buffer = buffer })
    end
    key("K", vim.lsp.buf.hover)
    key("gd", vim.lsp.buf.definition)
    key("gr", vim.lsp.buf.references)
    key("gO", vim.lsp.buf.document_symbol)
end

return stack
