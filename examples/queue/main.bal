import ballerina/io;

// A queue with room for two tasks: who wants to put in a third one waits until one was taken out.

type Task record {| int number; string text; |};

function task(int number, string text) returns Task & readonly => {number: number, text: text};

function done(Task t) returns string => t.number.toString() + " " + t.text.toUpperAscii();

public function main() {
    worker producer {
        task(1, "cut") -> consumer;
        task(2, "sew") -> consumer;
        string one = <- consumer;
        task(3, "press") -> consumer;
        string two = <- consumer;
        task(4, "pack") -> consumer;
        flush consumer;
        io:println("all are taken, ", one, ", ", two);
    }
    worker consumer returns string[] {
        string[] all = [];
        Task t1 = <- producer;
        all.push(done(t1));
        "room behind " + t1.text -> producer;
        Task t2 = <- producer;
        all.push(done(t2));
        "room behind " + t2.text -> producer;
        Task t3 = <- producer;
        Task t4 = <- producer;
        all.push(done(t3), done(t4));
        return all;
    }
    wait producer;
    string[] all = wait consumer;
    foreach string line in all {
        io:println(line);
    }
}
