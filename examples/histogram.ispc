// Two instances that count in one bin at once would lose a count, since the store of the highest wins.
// So `bins` is a varying local array: each instance has bins of its own, which begin at 0 and which it alone counts in.
// After the foreach all instances are on again, and reduce_add makes one number for the gang of each bin.
export void histogram(const uniform uint8 values[], uniform int count, uniform int counts[]) {
    int bins[8];
    foreach (i = 0 ... count) {
        bins[values[i] >> 5]++;
    }
    for (uniform int b = 0; b < 8; b++) {
        counts[b] = reduce_add(bins[b]);
    }
}
