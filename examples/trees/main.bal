import ballerina/io;

// JSON as far as it has no fractions: what is in it, and where.

type Json ()|boolean|int|string|Json[]|map<Json>;

// the parts of a list or of a mapping
function parts(Json tree) returns Json[] {
    if tree is Json[] {
        return tree;
    }
    Json[] found = [];
    if tree is map<Json> {
        foreach string key in tree.keys() {
            found.push(tree.get(key));
        }
    }
    return found;
}

function depth(Json tree) returns int {
    int deepest = 0;
    foreach Json part in parts(tree) {
        int below = depth(part);
        if below > deepest {
            deepest = below;
        }
    }
    return deepest + 1;
}

function total(Json tree) returns int {
    if tree is int {
        return tree;
    }
    int sum = 0;
    foreach Json part in parts(tree) {
        sum += total(part);
    }
    return sum;
}

// a line for each leaf, with the way that leads to it
function tell(Json tree, string way) {
    if tree is map<Json> {
        foreach string key in tree.keys() {
            tell(tree.get(key), way + "." + key);
        }
    } else if tree is Json[] {
        foreach int i in 0 ..< tree.length() {
            tell(tree[i], way + "[" + i.toString() + "]");
        }
    } else if tree is () {
        io:println(way, " = null");
    } else {
        io:println(way, " = ", tree);
    }
}

function step(Json tree, string key) returns Json|error {
    if !(tree is map<Json>) {
        return error("no mapping", key = key);
    }
    if !tree.hasKey(key) {
        return error("no such key", key = key);
    }
    return tree.get(key);
}

// what stands behind these keys
function find(Json tree, string... keys) returns Json|error {
    Json here = tree;
    foreach string key in keys {
        here = check step(here, key);
    }
    return here;
}

public function main() returns error? {
    Json tree = {
        "name": "oak",
        "age": 3,
        "tags": ["a", (), true],
        "crown": {"age": 4, "leaves": [[5], {}]}
    };
    tell(tree, "tree");
    io:println("depth ", depth(tree), ", total ", total(tree));
    io:println(check find(tree, "crown", "leaves"));
    io:println(find(tree, "name", "length"));
    Json frozen = tree.cloneReadOnly();
    io:println(frozen is readonly, " ", frozen == tree);
}
