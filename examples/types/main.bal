// Types to ask about: `bal_run examples/types S T --mode subtype` tells whether every shape of S is one of T.

// JSON, as far as it has no fractions
type Json ()|boolean|int|string|Json[]|map<Json>;

// a tree, and one whose leaves may be strings too
type Tree record {| int value; Tree[] below; |};
type Mixed record {| int|string value; Mixed[] below; |};

// lists that end, by a record and by a tuple
type List record {| int head; List? tail; |};
type Pairs [int, Pairs]|();

// a record that has itself as a required part has no value
type Endless record {| Endless next; |};

// records: with a field that may be missing, and with further ones
type Point record {| int x; int y; |};
type Labelled record {| int x; int y; string label?; |};
type Open record { int x; };

// records that a field tells apart
type Circle record {| "circle" kind; int radius; |};
type Square record {| "square" kind; int side; |};
type Form Circle|Square;

// functions: the second takes more and gives less
type Parse function (string) returns int|error;
type Length function (string|int[]) returns int;

// a function that answers each kind in its own way
type Both (function (int) returns int) & (function (string) returns string);

// values that can't change
type Frozen Json & readonly;
