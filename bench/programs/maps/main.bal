import ballerina/io;

// How often each of a thousand keys comes, by a map.

public function main() returns error? {
    int count = check int:fromString(io:readln());
    map<int> times = {};
    foreach int i in 0 ..< count {
        string key = "key" + (i * 7919 % 1000).toString();
        times[key] = (times[key] ?: 0) + 1;
    }
    int most = 0;
    foreach string key in times.keys() {
        int here = times.get(key);
        if here > most {
            most = here;
        }
    }
    io:println(times.length(), " ", most);
}
