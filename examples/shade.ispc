// foreach_unique takes a value apart that differs from instance to instance: its body runs once for each material that a run has.
// In the body m is uniform: each entry of a table is read once for all pixels of a material, and only these take part.
// A material that stands for itself (gain 0) is left out by continue: its pixels keep what they had.
export void shade(const uniform uint8 materials[], uniform uint8 pixels[], uniform int count, const uniform int gains[], const uniform int levels[]) {
    foreach (i = 0 ... count) {
        int lit = pixels[i];
        foreach_unique (m in materials[i]) {
            uniform int gain = gains[m];
            if (gain == 0) continue;
            lit = lit * gain / 16 + levels[m];
        }
        pixels[i] = clamp(lit, 0, 255);
    }
}
