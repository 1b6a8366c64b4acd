-- Opens a program in Neovim, types another text into it, and writes what is marked then, and the text after :KahnFix. EDITORS is the folder of the editors.
vim.opt.runtimepath:prepend("EDITORS/vim")
vim.cmd("filetype plugin on")
vim.cmd("edit a\\ program.kahn")
vim.api.nvim_buf_set_lines(0, 0, -1, true, vim.fn.readfile("typed"))
vim.cmd("doautocmd TextChanged")
local begin = vim.loop.now()
vim.wait(5000, function() return #vim.diagnostic.get(0) > 0 end)
local milliseconds = vim.loop.now() - begin
local function part(it) return vim.api.nvim_buf_get_text(0, it.lnum, it.col, it.end_lnum, it.end_col, {})[1] end
local marked = vim.tbl_map(part, vim.diagnostic.get(0))
vim.cmd("KahnFix")
local fixed = vim.api.nvim_buf_get_lines(0, 0, -1, true)
vim.fn.writefile({ vim.json.encode({ marked = marked, fixed = table.concat(fixed, "\n") .. "\n", milliseconds = milliseconds }) }, "shown")
vim.cmd("qall!")
