import ballerina/io;

// A list that grows by one item at a time, is reversed in place, and is added up with a factor for each place.

public function main() returns error? {
    int count = check int:fromString(io:readln());
    int[] all = [];
    int seed = 1;
    foreach int i in 0 ..< count {
        seed = (seed * 1103 + 12345) % 65537;
        all.push(seed);
    }
    foreach int i in 0 ..< count / 2 {
        int first = all[i];
        all[i] = all[count - 1 - i];
        all[count - 1 - i] = first;
    }
    int sum = 0;
    foreach int i in 0 ..< count {
        sum += all[i] * (i % 10);
    }
    io:println(all.length(), " ", sum);
}
