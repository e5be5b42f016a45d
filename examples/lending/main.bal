import ballerina/io;
import lending.books;
import lending.loans;
import lending.text;

// Two readers ask for three books each; then it is told who has what, and what is left.

function tell(string reader, string title, error? failed) {
    if failed is error {
        io:println(reader, ", ", title, ": ", failed.message());
    }
}

public function main() {
    loans:Loan[] all = [];
    foreach string reader in ["ann", "ben"] {
        foreach string title in ["Emma", "Dubliners", "Ulysses"] {
            tell(reader, title, loans:lend(all, reader, title));
        }
    }
    worker teller {
        text:lines(text:loan, all) -> function;
    }
    string[] told = <- teller;
    foreach string line in told {
        io:println(line);
    }
    foreach books:Book b in books:all() {
        io:println(text:book(b));
    }
}
