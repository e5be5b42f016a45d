import ballerina/io;

// Counts the words of what stands on the standard input, up to an empty line.

const SPACE = " ";

type Count record {| string word; int times; |};

// the words of a line, in lower case
function words(string line) returns string[] {
    string[] found = [];
    string word = "";
    foreach int i in 0 ..< line.length() {
        string letter = line[i];
        if letter == SPACE {
            add(found, word);
            word = "";
        } else {
            word += letter;
        }
    }
    add(found, word);
    return found;
}

function add(string[] found, string word) {
    if word != "" {
        found.push(word.toLowerAscii());
    }
}

function count(map<int> times, string[] found) {
    foreach string word in found {
        times[word] = (times[word] ?: 0) + 1;
    }
}

function comesBefore(Count a, Count b) returns boolean {
    if a.times != b.times {
        return a.times > b.times;
    }
    return a.word < b.word;
}

// the most frequent word first, and those that are as frequent by the alphabet
function ranked(map<int> times) returns Count[] {
    Count[] all = [];
    foreach string word in times.keys() {
        Count one = {word: word, times: times.get(word)};
        int i = all.length();
        all.push(one);
        while i > 0 && comesBefore(one, all[i - 1]) {
            all[i] = all[i - 1];
            i -= 1;
        }
        all[i] = one;
    }
    return all;
}

public function main() {
    map<int> times = {};
    string line = io:readln();
    while line != "" {
        count(times, words(line));
        line = io:readln();
    }
    foreach Count one in ranked(times) {
        io:println(one.times, " ", one.word);
    }
    io:println(times.length(), " words");
}
