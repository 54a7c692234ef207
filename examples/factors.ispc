// Each instance has a pair of its own and goes on until its remainder is 0; a `break` turns it off for the rest of the loop.
// After the loop all are on again, so the store is made by the whole run at once.
// The `for` has no test of its own: it ends when the last instance has left.
export void factors(uniform int numbers[], const uniform int others[], uniform int count) {
    foreach (i = 0 ... count) {
        int larger = numbers[i], smaller = others[i];
        for (;;) {
            if (smaller == 0) break;
            int rest = larger % smaller;
            larger = smaller;
            smaller = rest;
        }
        numbers[i] = abs(larger);
    }
}
