-- Tables, closures, coroutines and compiled texts, of which some are kept.
local kept = {}
local meta = { __index = function(_, key) return key end }
for i = 1, 3000 do
  local object = setmetatable({ id = i, name = "name" .. i, list = { 1, 2, i } }, meta)
  local call = function(x) return x + i + object.id end
  local routine = coroutine.create(function() coroutine.yield(i) return call(i) end)
  coroutine.resume(routine)
  if i % 3 == 0 then kept[#kept + 1] = { object, call, routine } end
  if i % 10 == 0 then local file = io.open("/etc/hostname"); local text = file:read("a"); file:close(); kept["k" .. i] = text .. i end
  local made = load("local a = ... ; return function() return a .. 'x" .. i .. "' end")
  if i % 5 == 0 then kept[#kept + 1] = made(i) end
end
collectgarbage() collectgarbage()
for i = 1, #kept, 2 do kept[i] = false end
collectgarbage() collectgarbage()
io.read()
