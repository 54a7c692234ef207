// A foreach deals its numbers out to the gang: the first run takes the first pixels, one an instance, the next run the next ones.
// `level` is uniform, one value for the gang; `lit` is varying, one in each instance. If the end comes in the middle of a run, the rest of the gang is off.
// No instance branches: clamp works on the whole gang at once, and what goes into a pixel is in its range.
export void brighten(uniform uint8 pixels[], uniform int count, uniform int level) {
    foreach (i = 0 ... count) {
        int lit = pixels[i] + level;
        pixels[i] = clamp(lit, 0, 255);
    }
}
