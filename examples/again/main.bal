import ballerina/io;

// A call that may fail is tried again; what failed last is the cause of giving up.

type Busy error<record {| int attempt; |}>;

function busy(int attempt) returns Busy => error("busy", attempt = attempt);

// answers at the third attempt
function fetch(string name, int attempt) returns string|error {
    if name == "" {
        panic error("no name");
    }
    if name == "gone" {
        return error("not found", name = name);
    }
    if attempt < 3 {
        return busy(attempt);
    }
    return name.toUpperAscii();
}

function tried(string name, int most) returns string|error {
    error? last = ();
    int attempt = 0;
    while attempt < most {
        attempt += 1;
        string|error got = fetch(name, attempt);
        if got is string {
            return got;
        }
        if !(got is Busy) {
            return error("no use in trying again", got);
        }
        last = got;
    }
    return error("gave up", last, attempts = attempt);
}

// an error and its causes, the first cause last
function told(error e) returns string {
    string text = e.message();
    error? cause = e.cause();
    while cause is error {
        text += " < " + cause.message();
        cause = cause.cause();
    }
    return text;
}

public function main() {
    foreach string name in ["rose", "gone", ""] {
        string|error got = trap tried(name, 3);
        if got is error {
            io:println(name, ": ", told(got));
        } else {
            io:println(name, ": ", got);
        }
    }
    string|error got = tried("lily", 2);
    io:println(got);
}
