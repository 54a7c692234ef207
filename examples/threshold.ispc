// foreach_active takes the instances that are on one by one, the lowest first, so that one list can be written in order.
// unmasked runs for the whole gang, whoever is on: it marks all as dark before the test, those past the end of the pixels too,
// and so the sum over the gang after the test may be taken by all.
export uniform int threshold(const uniform uint8 pixels[], uniform uint8 marks[], uniform int count, uniform int level, uniform int found[]) {
    uniform int listed = 0, bright = 0;
    foreach (i = 0 ... count) {
        int mark;
        unmasked { mark = 0; }
        marks[i] = 0;
        if (pixels[i] > level) {
            mark = 1;
            marks[i] = 255;
            foreach_active (lane) {
                found[listed] = extract(i, lane);
                listed++;
            }
        }
        unmasked { bright += reduce_add(mark); }
    }
    return bright;
}
