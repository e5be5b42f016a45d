local function doubles()
  local m = coroutine.yield()
  return (m * 2 + 1) % 10007
end

local function following(n)
  local worker = coroutine.create(doubles)
  coroutine.resume(worker)
  local _, r = coroutine.resume(worker, n)
  return r
end

local turns = io.read("n")
local n = 1
for i = 1, turns do
  n = following(n)
end
print(n)
