import lending.books as stock;
import reading/lending.loans;

// How books and loans are told.

public function book(stock:Book b) returns string => b.title + ": " + b.copies.toString();

public function loan(loans:Loan l) returns string => l.reader + " has " + l.title;

public function lines(function (loans:Loan) returns string line, loans:Loan[] all) returns string[] {
    string[] told = [];
    foreach loans:Loan l in all {
        told.push(line(l));
    }
    return told;
}
