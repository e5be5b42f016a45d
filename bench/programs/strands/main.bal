import ballerina/io;

// Functions with a worker each, which is sent a number, and the strand of which ends with another one.

function next(int n) returns int {
    worker doubles returns int {
        int m = <- function;
        return (m * 2 + 1) % 10007;
    }
    n -> doubles;
    int r = wait doubles;
    return r;
}

public function main() returns error? {
    int turns = check int:fromString(io:readln());
    int n = 1;
    foreach int i in 0 ..< turns {
        n = next(n);
    }
    io:println(n);
}
