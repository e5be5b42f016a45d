import ballerina/io;

// Orders against a stock: each is told with its price, or with what it fails by.

const TAX = 19;

type Line record {| string item; int count; |};
type Order record {| int number; Line[] lines; string note?; |};
type Article record {| int price; int stock; |};
type Shortage error<record {| string item; int missing; |}>;

final map<Article> shelf = {
    "pen": {price: 120, stock: 10},
    "ink": {price: 450, stock: 2}
};

function article(string item) returns Article|error {
    Article? found = shelf[item];
    if found is () {
        return error("no such article", item = item);
    }
    return found;
}

function shortage(Line line, Article found) returns Shortage {
    return error("not enough", item = line.item, missing = line.count - found.stock);
}

// takes the articles of a line from the shelf, and gives their price
function pick(Line line) returns int|error {
    Article found = check article(line.item);
    if found.stock < line.count {
        return shortage(line, found);
    }
    found.stock -= line.count;
    return found.price * line.count;
}

function total(Order placed) returns int|error {
    int sum = 0;
    foreach Line line in placed.lines {
        sum += check pick(line);
    }
    return sum + sum * TAX / 100;
}

function cents(int n) returns string {
    string rest = (n % 100).toString();
    if rest.length() < 2 {
        rest = "0" + rest;
    }
    return (n / 100).toString() + "." + rest;
}

function noteOf(Order placed) returns string {
    string? note = placed?.note;
    if note is string {
        return " (" + note + ")";
    }
    return "";
}

function receipt(Order placed) returns string {
    int|error sum = total(placed);
    string head = "order " + placed.number.toString() + ": ";
    if sum is int {
        return head + cents(sum) + noteOf(placed);
    }
    if sum is Shortage {
        return head + "we lack " + sum.detail()["missing"].toString() + " of " + sum.detail()["item"].toString();
    }
    return head + sum.message();
}

public function main() {
    Order[] orders = [
        {number: 1, lines: [{item: "pen", count: 3}, {item: "ink", count: 1}]},
        {number: 2, lines: [{item: "ink", count: 2}], note: "in a hurry"},
        {number: 3, lines: [{item: "rubber", count: 1}]},
        {number: 4, lines: [{item: "pen", count: 7}], note: "as a gift"}
    ];
    foreach Order placed in orders {
        io:println(receipt(placed));
    }
    io:println(shelf);
}
