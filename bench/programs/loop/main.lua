local turns = io.read("n")
local sum = 0
local i = 0
while i < turns do
  sum = (sum + i * 7 % 13) % 1000003
  i = i + 1
end
print(sum)
