import ballerina/io;

// A hundred balls between two walls, which are moved so many times.

type Ball record {| int at; int speed; int hits; |};

function move(Ball ball) {
    ball.at += ball.speed;
    if ball.at < 0 || ball.at > 1000 {
        ball.speed = -ball.speed;
        ball.at += 2 * ball.speed;
        ball.hits += 1;
    }
}

public function main() returns error? {
    int turns = check int:fromString(io:readln());
    Ball[] balls = [];
    foreach int i in 0 ..< 100 {
        balls.push({at: i * 10, speed: i % 7 + 1, hits: 0});
    }
    foreach int turn in 0 ..< turns {
        foreach Ball ball in balls {
            move(ball);
        }
    }
    int hits = 0;
    foreach Ball ball in balls {
        hits += ball.hits;
    }
    io:println(hits, " ", balls[99].at);
}
