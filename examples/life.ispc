// The gang takes the cells of a generation side by side, and the generations one after another: the outer loop is uniform.
// Each cell reads its neighbours from `cells` and stores in `next`, so that none reads what another stores in the same loop.
// A bool that is stored in a number is 1 or 0.
export void life(uniform uint8 cells[], uniform uint8 next[], uniform int width, uniform int height, uniform int generations) {
    for (uniform int g = 0; g < generations; g++) {
        foreach (y = 0 ... height, x = 0 ... width) {
            int around = 0;
            for (uniform int down = -1; down <= 1; down++) {
                for (uniform int right = -1; right <= 1; right++) {
                    int row = (y + down + height) % height, column = (x + right + width) % width;
                    if (down != 0 || right != 0) around += cells[row * width + column];
                }
            }
            next[y * width + x] = around == 3 || (around == 2 && cells[y * width + x] == 1);
        }
        foreach (i = 0 ... width * height) cells[i] = next[i];
    }
}
