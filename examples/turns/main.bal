import ballerina/io;

// Three runners start, and each tells when it is its turn. A seed gives another order: --seed 1, --seed 2.

function runs(string name) {
    io:println(name);
}

public function main() returns error? {
    future<()> ann = start runs("ann");
    future<()> bob = start runs("bob");
    future<()> cleo = start runs("cleo");
    check wait ann;
    check wait bob;
    check wait cleo;
    io:println("all are there");
}
