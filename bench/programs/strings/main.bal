import ballerina/io;

// A text that grows by two letters at a time, in which one letter is counted.

public function main() returns error? {
    int count = check int:fromString(io:readln());
    string text = "";
    foreach int i in 0 ..< count {
        text += i % 3 == 0 ? "ab" : "cd";
    }
    int found = 0;
    foreach int i in 0 ..< text.length() {
        if text[i] == "a" {
            found += 1;
        }
    }
    io:println(text.length(), " ", found, " ", text.substring(0, 8).toUpperAscii());
}
