import ballerina/io;

// Two ways to sort, and a search in what is sorted.

type Less function (int, int) returns boolean;

// by insertion, in place
function insertionSort(int[] all, Less less) {
    foreach int i in 1 ..< all.length() {
        int moved = all[i];
        int hole = i;
        while hole > 0 && less(moved, all[hole - 1]) {
            all[hole] = all[hole - 1];
            hole -= 1;
        }
        all[hole] = moved;
    }
}

// by halves, into a new list
function mergeSort(int[] all) returns int[] {
    int count = all.length();
    if count < 2 {
        return all.clone();
    }
    return merged(mergeSort(all.slice(0, count / 2)), mergeSort(all.slice(count / 2)));
}

function merged(int[] left, int[] right) returns int[] {
    int[] all = [];
    int i = 0;
    int j = 0;
    while i < left.length() || j < right.length() {
        if j == right.length() || (i < left.length() && left[i] <= right[j]) {
            all.push(left[i]);
            i += 1;
        } else {
            all.push(right[j]);
            j += 1;
        }
    }
    return all;
}

// where it stands in a list that rises
function find(int[] rising, int wanted) returns int? {
    int low = 0;
    int high = rising.length();
    while low < high {
        int middle = (low + high) / 2;
        if rising[middle] == wanted {
            return middle;
        }
        if rising[middle] < wanted {
            low = middle + 1;
        } else {
            high = middle;
        }
    }
    return ();
}

public function main() {
    int[] numbers = [5, 3, 9, 1, 5, 8, -2];
    int[] rising = mergeSort(numbers);
    io:println(numbers, " ", rising);
    insertionSort(numbers, function (int a, int b) returns boolean => a > b);
    io:println(numbers, " ", numbers.reverse() == rising);
    foreach int wanted in [8, 4, -2] {
        io:println(wanted, ": ", find(rising, wanted) ?: "none");
    }
}
