local count = io.read("n")
local times = {}
local keys = {}
for i = 0, count - 1 do
  local key = "key" .. i * 7919 % 1000
  if not times[key] then
    keys[#keys + 1] = key
  end
  times[key] = (times[key] or 0) + 1
end
local most = 0
for _, key in ipairs(keys) do
  if times[key] > most then
    most = times[key]
  end
end
print(#keys .. " " .. most)
