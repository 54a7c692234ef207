// One element of the product an instance: the gang takes neighbours in a row, since the last dimension of a foreach goes in runs.
// `left[row * inner + k]` is one element for the whole gang in all but its type, as `row` is an index, and so varying; `right[..]` are neighbours.
// The loop over `k` is uniform, and the sum stays in the instance until it is stored once.
export void matrix(const uniform int left[], const uniform int right[], uniform int product[], uniform int rows, uniform int inner, uniform int columns) {
    foreach (row = 0 ... rows, column = 0 ... columns) {
        int sum = 0;
        for (uniform int k = 0; k < inner; k++) {
            sum += left[row * inner + k] * right[k * columns + column];
        }
        product[row * columns + column] = sum;
    }
}
