import ballerina/io;

// Greets everybody who is named on the command line, and fails where nobody is.

public function main(string... names) returns error? {
    if names.length() == 0 {
        return error("nobody to greet");
    }
    foreach string name in names {
        io:println("hello, ", name);
    }
    io:println(names.length(), " greeted");
}
