// A running total needs what came before: inside a run exclusive_scan_add gives each instance the sum of the lower ones,
// and from run to run `carry`, which is uniform, has the sum of all runs before.
// Runs go in order, so the carry is right whatever the size of the gang.
export void totals(uniform int values[], uniform int count) {
    uniform int carry = 0;
    foreach (i = 0 ... count) {
        int own = values[i];
        values[i] = carry + exclusive_scan_add(own) + own;
        carry += reduce_add(own);
    }
}
