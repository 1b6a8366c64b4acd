-- The workloads of bench/ in Lua, a coroutine for each process and a queue without a limit for each channel, for comparison:
--
--   lua beside.lua WORKLOAD SIZE      pipeline, sample, pipelines or arithmetic
local function channel() return { first = 1, last = 0 } end

local function send(c, value)
  c.last = c.last + 1
  c[c.last] = value
end

local function wait(c)
  while c.first > c.last do coroutine.yield() end
  local value = c[c.first]
  c[c.first] = nil
  c.first = c.first + 1
  return value
end

local function count(w, n)
  for i = 0, n - 1 do
    send(w, i)
    if i % 1000 == 999 then coroutine.yield() end
  end
end

local function copy(u, w) while true do send(w, wait(u)) end end

local function f(u, v, w, n)
  local b, printed = true, {}
  for _ = 1, n do
    local i
    if b then i = wait(u) else i = wait(v) end
    printed[#printed + 1] = i
    send(w, i)
    b = not b
  end
  io.write("print 1 f: ", table.concat(printed, " "), "\n")
end

local function g(u, v, w)
  local b = true
  while true do
    local i = wait(u)
    if b then send(v, i) else send(w, i) end
    b = not b
  end
end

local function h(u, v, initial)
  send(v, initial)
  while true do send(v, wait(u)) end
end

local function sum(w, n)
  local s = 0
  for i = 0, n - 1 do s = (s * 31 + i) % 1000003 end
  send(w, s)
end

-- runs the processes in turn until the first one has ended, and then those behind it once more: each takes all that it was sent
local function run(processes)
  for at, process in ipairs(processes) do processes[at] = coroutine.create(process) end
  while coroutine.status(processes[1]) ~= "dead" do
    for _, process in ipairs(processes) do
      if coroutine.status(process) ~= "dead" then assert(coroutine.resume(process)) end
    end
  end
end

local function report(w, name)
  io.write(name or "W", ":")
  for at = w.first, w.last do io.write(" ", w[at]) end
  io.write("\n")
end

local n, w = tonumber(arg[2]), channel()
if arg[1] == "pipeline" then
  local x0, x1, x2 = channel(), channel(), channel()
  run {
    function() count(x0, n) end, function() copy(x0, x1) end, function() copy(x1, x2) end, function() copy(x2, w) end,
  }
  report(w)
elseif arg[1] == "sample" then
  local x, y, z, t1, t2 = channel(), channel(), channel(), channel(), channel()
  run { function() f(y, z, x, n) end, function() g(x, t1, t2) end, function() h(t1, y, 0) end, function() h(t2, z, 1) end }
elseif arg[1] == "pipelines" then
  local processes, outputs = {}, {}
  for k = 0, 63 do
    local x, to = channel(), channel()
    outputs[k] = to
    table.insert(processes, function() count(x, n) end)
    table.insert(processes, function() copy(x, to) end)
  end
  run(processes)
  for k = 0, 63 do report(outputs[k], "W" .. k) end
elseif arg[1] == "arithmetic" then
  run { function() sum(w, n) end }
  report(w)
end
