import ballerina/io;

// Three workers behind one another: one makes numbers, one keeps the primes, one adds them up.

function upTo(int most) returns int[] {
    int[] all = [];
    foreach int n in 2 ... most {
        all.push(n);
    }
    return all;
}

function isPrime(int n) returns boolean {
    int d = 2;
    while d * d <= n {
        if n % d == 0 {
            return false;
        }
        d += 1;
    }
    return n > 1;
}

function primes(int[] all) returns int[] {
    int[] kept = [];
    foreach int n in all {
        if isPrime(n) {
            kept.push(n);
        }
    }
    return kept;
}

function sum(int[] all) returns int {
    int so_far = 0;
    foreach int n in all {
        so_far += n;
    }
    return so_far;
}

public function main() {
    int most = 30;
    worker numbers {
        upTo(most) -> sieve;
        "numbers are done" -> function;
    }
    worker sieve {
        int[] all = <- numbers;
        int[] kept = primes(all);
        kept -> adder;
        kept.length() -> function;
    }
    worker adder returns int {
        int[] kept = <- sieve;
        return sum(kept);
    }
    string note = <- numbers;
    int count = <- sieve;
    int total = wait adder;
    io:println(note);
    io:println(count, " primes up to ", most, ", their sum is ", total);
}
