import ballerina/io;

// A bill: one worker adds up what the items cost, and another one prints it.

type Item record {| string name; int price; int count; |};

function cost(Item item) returns int|error {
    if item.count < 1 {
        return error("nothing of " + item.name);
    }
    return item.price * item.count;
}

function total(Item[] items) returns int|error {
    int sum = 0;
    foreach Item item in items {
        sum += check cost(item);
    }
    return sum;
}

public function main() returns error? {
    Item[] items = [{name: "pen", price: 120, count: 10}, {name: "ink", price: 450, count: 2}];
    worker adds returns error? {
        int sum = check total(items);
        sum -> prints;
    }
    worker prints returns error? {
        int sum = check <- adds;
        io:println("to pay: ", sum, " cents");
    }
    check wait prints;
    io:println(check total([{name: "nib", price: 5, count: 0}]));
}
