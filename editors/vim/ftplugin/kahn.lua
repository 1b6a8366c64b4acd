-- For Neovim: marks mistakes and warnings as one types, and `:KahnFix` makes the change that a note in the line of the cursor offers.
-- `vim.g.kahn_explain` names another kahn_explain; an empty name turns this off.
local PAUSE = 200
local marks = vim.api.nvim_create_namespace("kahn")
local severities = { error = vim.diagnostic.severity.ERROR, warning = vim.diagnostic.severity.WARN, note = vim.diagnostic.severity.INFO }
local buffer, timer = vim.api.nvim_get_current_buf(), vim.loop.new_timer()
local name = vim.api.nvim_buf_get_name(buffer)

local function diagnostic(note)
  return {
    lnum = note.line - 1, col = note.column - 1, end_lnum = note.end_line - 1, end_col = note.end_column - 1, severity = severities[note.sort],
    message = table.concat(vim.list_extend({ note.words }, note.below), "\n"), source = "kahn", user_data = note.fix ~= vim.NIL and note.fix or nil,
  }
end

-- The notes on a program from standard input, among these lines.
local function diagnostics(lines)
  local notes = vim.tbl_map(vim.json.decode, vim.tbl_filter(function(line) return line ~= "" end, lines))
  return vim.tbl_map(diagnostic, vim.tbl_filter(function(note) return note.path == "<stdin>" end, notes))
end

local function ask()
  local command, input = { vim.g.kahn_explain or "kahn_explain", "--json" }, vim.fn.fnamemodify(name, ":r") .. ".input"
  if not vim.api.nvim_buf_is_valid(buffer) or command[1] == "" or vim.fn.executable(command[1]) == 0 then return end
  if vim.fn.filereadable(input) == 1 then vim.list_extend(command, { "--input", input }) end
  local tick = vim.api.nvim_buf_get_changedtick(buffer)
  local function answered(_, lines)
    local is_old = not vim.api.nvim_buf_is_valid(buffer) or vim.api.nvim_buf_get_changedtick(buffer) ~= tick
    if not is_old then vim.diagnostic.set(marks, buffer, diagnostics(lines)) end
  end
  local job = vim.fn.jobstart(command, { stdout_buffered = true, on_stdout = answered })
  vim.fn.chansend(job, vim.list_extend(vim.api.nvim_buf_get_lines(buffer, 0, -1, true), { "" }))
  vim.fn.chanclose(job, "stdin")
end

local function fix()
  for _, it in ipairs(vim.diagnostic.get(buffer, { namespace = marks, lnum = vim.fn.line(".") - 1 })) do
    local change = it.user_data
    if change then
      local put = vim.split(change.put, "\n", { plain = true })
      return vim.api.nvim_buf_set_text(buffer, change.line - 1, change.column - 1, change.end_line - 1, change.end_column - 1, put)
    end
  end
end

vim.api.nvim_create_autocmd({ "TextChanged", "TextChangedI", "BufWritePost" }, {
  buffer = buffer, callback = function() timer:start(PAUSE, 0, vim.schedule_wrap(ask)) end,
})
vim.api.nvim_buf_create_user_command(buffer, "KahnFix", fix, { desc = "make the change that kahn_explain offers in this line" })
ask()
