import lending.books;

// Who has which book.

public type Loan record {| string reader; string title; |};

// as many books as a reader may have
public const int MOST = 2;

public isolated function count(Loan[] all, string reader) returns int {
    int n = 0;
    foreach Loan l in all {
        if l.reader == reader {
            n += 1;
        }
    }
    return n;
}

// lends a copy, where the reader may have one and one is there
public function lend(Loan[] all, string reader, string title) returns error? {
    if count(all, reader) == MOST {
        return error("no more than " + MOST.toString(), reader = reader);
    }
    books:Book found = check books:find(title);
    if found.copies == 0 {
        return error("lent out", title = title);
    }
    found.copies -= 1;
    all.push({reader: reader, title: title});
}
