local count = io.read("n")
local all = {}
local seed = 1
for i = 0, count - 1 do
  seed = (seed * 1103 + 12345) % 65537
  all[#all + 1] = seed
end
for i = 0, count // 2 - 1 do
  local first = all[i + 1]
  all[i + 1] = all[count - i]
  all[count - i] = first
end
local sum = 0
for i = 0, count - 1 do
  sum = sum + all[i + 1] * (i % 10)
end
print(#all .. " " .. sum)
