import ballerina/io;

public function main() {
    io:println(1 + 2 * 3);
}

function twice(int n) returns int {
    return 2 * ;
}
