// A table look-up is an index that differs from instance to instance: each reads the entry that its own value names.
// An index outside the table would stop the run and name the instance; here the high four bits always name one of sixteen entries.
// The result is stored where the value came from, in the same run, so no second pass is needed.
export void lookup(uniform uint8 values[], uniform int count, const uniform uint8 table[]) {
    foreach (i = 0 ... count) {
        values[i] = table[values[i] >> 4];
    }
}
