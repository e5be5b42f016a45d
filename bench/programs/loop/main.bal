import ballerina/io;

// A loop of so many turns as the first line of the input says, and arithmetic alone.

public function main() returns error? {
    int turns = check int:fromString(io:readln());
    int sum = 0;
    int i = 0;
    while i < turns {
        sum = (sum + i * 7 % 13) % 1000003;
        i += 1;
    }
    io:println(sum);
}
