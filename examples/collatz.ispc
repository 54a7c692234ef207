// Each instance follows its own number down to 1: both branches of the varying `if` run, each for those that need it.
// The `while` goes on while one instance is left; the others are off in it, and their counts stay.
// The function is called with a whole run of numbers at once, and what it gives back is varying.
int steps(int64 n) {
    int count = 0;
    while (n != 1) {
        if (n % 2 == 0) n /= 2; else n = 3 * n + 1;
        count++;
    }
    return count;
}

export void collatz(uniform int counts[], uniform int first, uniform int count) {
    foreach (i = 0 ... count) {
        counts[i] = steps(first + i);
    }
}
