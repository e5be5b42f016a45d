import ballerina/io;

// Functions as values: put together, handed on, and with a memory of their own.

type Change function (int) returns int;

function compose(Change first, Change second) returns Change => function (int n) returns int => second(first(n));

function repeated(Change change, int count) returns Change {
    Change all = function (int n) returns int => n;
    foreach int i in 0 ..< count {
        all = compose(all, change);
    }
    return all;
}

function mapped(int[] all, Change change) returns int[] {
    int[] made = [];
    foreach int n in all {
        made.push(change(n));
    }
    return made;
}

function kept(int[] all, function (int) returns boolean wanted) returns int[] {
    int[] made = [];
    foreach int n in all {
        if wanted(n) {
            made.push(n);
        }
    }
    return made;
}

function folded(int[] all, int zero, function (int, int) returns int join) returns int {
    int so_far = zero;
    foreach int n in all {
        so_far = join(so_far, n);
    }
    return so_far;
}

function increase(int[] cell) returns int {
    cell[0] += 1;
    return cell[0];
}

// a function that counts how often it was called
function counter() returns (function () returns int) {
    int[] cell = [0];
    return function () returns int => increase(cell);
}

public function main() {
    Change double = function (int n) returns int => 2 * n;
    Change next = function (int n) returns int => n + 1;
    io:println(compose(double, next)(5), " ", repeated(next, 10)(5));
    int[] all = [1, 2, 3, 4, 5, 6];
    int limit = 3;
    io:println(mapped(all, double));
    io:println(kept(all, function (int n) returns boolean => n > limit));
    io:println(folded(all, 1, function (int a, int b) returns int => a * b));
    function () returns int mine = counter();
    function () returns int yours = counter();
    io:println(mine() + mine() + mine(), " ", yours());
    map<Change> changes = {"double": double, "next": next};
    foreach string name in changes.keys() {
        Change change = changes.get(name);
        io:println(name, " ", change(20));
    }
}
