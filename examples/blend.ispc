// Four pixels at a time: where its weight is above 0 the new one is mixed into the old one, and each lane counts what came of it.
export uniform int blend(uniform uint8 old[], uniform uint8 fresh[], uniform int16 weight[], uniform int8 kind[]) {
    int seen[4];
    uint8 was = old[programIndex], new_one = fresh[programIndex];
    int16 w = weight[programIndex];
    int mixed = was;
    if (w > 0 && new_one != was) {
        mixed = (was * (256 - w) + new_one * w) / 256;
        seen[mixed & 3]++;
    } else {
        seen[0] += w < 0 ? -1 : 1;
    }
    old[programIndex] = mixed < 0 ? 0 : mixed > 255 ? 255 : mixed;
    kind[programIndex] = seen[0] - seen[mixed & 3];
    uniform int strange = 0;
    if (mixed > 1000 || seen[0] > 1) strange = 1;
    return strange;
}
