// The books of a library, and how many copies of each are there.

public type Book record {| string title; int copies; |};

public type Missing error<record {| string title; |}>;

final Book[] shelf = [
    {title: "Dubliners", copies: 3},
    {title: "Emma", copies: 1}
];

public function all() returns Book[] => shelf;

public function find(string title) returns Book|Missing {
    foreach Book b in shelf {
        if b.title == title {
            return b;
        }
    }
    return error("no such book", title = title);
}
