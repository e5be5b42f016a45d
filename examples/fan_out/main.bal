import ballerina/io;

// One question to several strands: all the answers, the first good one, and two at once.

// how many steps lead to 1, where an even number is halved and three times an odd one is made even
function steps(int n) returns int|error {
    if n < 1 {
        return error("not positive", n = n);
    }
    int count = 0;
    int here = n;
    while here != 1 {
        here = here % 2 == 0 ? here / 2 : 3 * here + 1;
        count += 1;
    }
    return count;
}

function twice(int n) returns int => 2 * n;

function named(int n) returns string => "n" + n.toString();

public function main() returns error? {
    int[] numbers = [6, 27, 0, 97];
    future<int|error>[] running = [];
    foreach int n in numbers {
        future<int|error> asked = start steps(n);
        running.push(asked);
    }
    foreach int i in 0 ..< numbers.length() {
        future<int|error> asked = running[i];
        int|error count = wait asked;
        if count is int {
            io:println(numbers[i], ": ", count, " steps");
        } else {
            io:println(numbers[i], ": ", count.message());
        }
    }

    future<int|error> bad = start steps(-1);
    future<int|error> good = start steps(9);
    int first = check wait bad | good;
    io:println("the first good one: ", first);

    future<int> left = start twice(4);
    future<string> right = start named(4);
    record {| int|error l; string|error r; |} both = wait {l: left, r: right};
    io:println(both);
}
