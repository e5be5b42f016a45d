local function move(ball)
  ball.at = ball.at + ball.speed
  if ball.at < 0 or ball.at > 1000 then
    ball.speed = -ball.speed
    ball.at = ball.at + 2 * ball.speed
    ball.hits = ball.hits + 1
  end
end

local turns = io.read("n")
local balls = {}
for i = 0, 99 do
  balls[i + 1] = { at = i * 10, speed = i % 7 + 1, hits = 0 }
end
for turn = 1, turns do
  for _, ball in ipairs(balls) do
    move(ball)
  end
end
local hits = 0
for _, ball in ipairs(balls) do
  hits = hits + ball.hits
end
print(hits .. " " .. balls[100].at)
