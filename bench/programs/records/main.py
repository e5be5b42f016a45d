class Ball:
    __slots__ = ("at", "speed", "hits")

    def __init__(self, at, speed):
        self.at = at
        self.speed = speed
        self.hits = 0


def move(ball):
    ball.at += ball.speed
    if ball.at < 0 or ball.at > 1000:
        ball.speed = -ball.speed
        ball.at += 2 * ball.speed
        ball.hits += 1


def main():
    turns = int(input())
    balls = [Ball(i * 10, i % 7 + 1) for i in range(100)]
    for _ in range(turns):
        for ball in balls:
            move(ball)
    print(sum(ball.hits for ball in balls), balls[99].at)


main()
