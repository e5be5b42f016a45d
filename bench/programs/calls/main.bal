import ballerina/io;

// A function that calls itself twice.

function fibonacci(int n) returns int => n < 2 ? n : fibonacci(n - 1) + fibonacci(n - 2);

public function main() returns error? {
    int n = check int:fromString(io:readln());
    io:println(fibonacci(n));
}
