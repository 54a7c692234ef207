// Newton's steps go down from above the root until one does not: each instance makes as many as its own value takes.
// Who is done keeps its `root`, since an instance that is off neither assigns nor divides; the others go on.
// A value of 0 makes no step at all, so nothing is ever divided by 0.
export void roots(uniform uint values[], uniform int count) {
    foreach (i = 0 ... count) {
        uint value = values[i];
        uint root = value, lower = (value >> 1) + (value & 1);
        while (lower < root) {
            root = lower;
            lower = (root + value / root) >> 1;
        }
        values[i] = root;
    }
}
