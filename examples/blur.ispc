// A foreach of two dimensions: the rows one after the other, and along a row the columns in runs of a gang.
// The loops over the nine neighbours are uniform, so the gang makes the same iterations together, and no instance waits for another.
// `row` and `column` are varying: each instance reads its own element of the image, and at the border one inside.
export void blur(const uniform uint8 image[], uniform uint8 blurred[], uniform int width, uniform int height) {
    foreach (y = 0 ... height, x = 0 ... width) {
        int sum = 0;
        for (uniform int down = -1; down <= 1; down++) {
            for (uniform int right = -1; right <= 1; right++) {
                int row = clamp(y + down, 0, height - 1);
                int column = clamp(x + right, 0, width - 1);
                sum += image[row * width + column];
            }
        }
        blurred[y * width + x] = (sum + 4) / 9;
    }
}
