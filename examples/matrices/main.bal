import ballerina/io;

// Matrices of ints as lists of rows.

type Matrix int[][];

function columns(Matrix m) returns int => m.length() == 0 ? 0 : m[0].length();

function zero(int height, int width) returns Matrix {
    Matrix made = [];
    foreach int i in 0 ..< height {
        int[] row = [];
        foreach int j in 0 ..< width {
            row.push(0);
        }
        made.push(row);
    }
    return made;
}

function identity(int size) returns Matrix {
    Matrix made = zero(size, size);
    foreach int i in 0 ..< size {
        made[i][i] = 1;
    }
    return made;
}

function product(Matrix a, Matrix b) returns Matrix|error {
    if columns(a) != b.length() {
        return error("the sizes differ", left = columns(a), right = b.length());
    }
    Matrix made = zero(a.length(), columns(b));
    foreach int i in 0 ..< a.length() {
        foreach int j in 0 ..< columns(b) {
            foreach int k in 0 ..< b.length() {
                made[i][j] += a[i][k] * b[k][j];
            }
        }
    }
    return made;
}

function power(Matrix m, int n) returns Matrix|error {
    Matrix result = identity(m.length());
    Matrix square = m;
    int left = n;
    while left > 0 {
        if left % 2 == 1 {
            result = check product(result, square);
        }
        square = check product(square, square);
        left /= 2;
    }
    return result;
}

function transposed(Matrix m) returns Matrix {
    Matrix made = zero(columns(m), m.length());
    foreach int i in 0 ..< m.length() {
        foreach int j in 0 ..< columns(m) {
            made[j][i] = m[i][j];
        }
    }
    return made;
}

function show(Matrix m) {
    foreach int[] row in m {
        string line = "";
        foreach int n in row {
            line += n.toString() + " ";
        }
        io:println(line.trim());
    }
}

public function main() returns error? {
    Matrix pairs = [[1, 1], [1, 0]];
    show(check power(pairs, 10));
    Matrix wide = [[1, 2, 3], [4, 5, 6]];
    show(transposed(wide));
    show(check product(wide, transposed(wide)));
    Matrix|error bad = product(wide, wide);
    if bad is error {
        io:println(bad.message(), ": ", bad.detail());
    }
}
