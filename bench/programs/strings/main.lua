local count = io.read("n")
local text = ""
for i = 0, count - 1 do
  text = text .. (i % 3 == 0 and "ab" or "cd")
end
local found = 0
for i = 1, #text do
  if text:sub(i, i) == "a" then
    found = found + 1
  end
end
print(#text .. " " .. found .. " " .. text:sub(1, 8):upper())
