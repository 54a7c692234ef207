// packed_store_active stores the values of the instances that are on, from the lowest up, to consecutive elements, and gives back
// how many there were. Inside the `if` those are the instances whose test is true, so what is kept comes out in order.
// `many` is uniform: one count for the gang, which is also where the next run goes on storing.
export uniform int compact(const uniform int values[], uniform int count, uniform int kept[]) {
    uniform int many = 0;
    foreach (i = 0 ... count) {
        int value = values[i];
        if (value > 0) many += packed_store_active(&kept[many], value);
    }
    return many;
}
