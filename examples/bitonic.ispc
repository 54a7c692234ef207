// shuffle gives each instance the value of the instance that it names: here the partner, whose number differs in one bit.
// Partners that are `far` apart stand in one run if `far` is less than the gang, and exchange without the array in between.
// Else they stand in two runs, and the lower one of each pair stores both: no two instances store to one element.
export void bitonic(uniform int values[], uniform int count) {
    for (uniform int size = 2; size <= count; size *= 2) {
        for (uniform int far = size / 2; far > 0; far /= 2) {
            foreach (i = 0 ... count) {
                int own = values[i];
                bool is_lower = (i & far) == 0, is_rising = (i & size) == 0;
                if (far < programCount) {
                    int other = shuffle(own, programIndex ^ far);
                    values[i] = is_lower == is_rising ? min(own, other) : max(own, other);
                } else if (is_lower) {
                    int other = values[i ^ far];
                    values[i] = is_rising ? min(own, other) : max(own, other);
                    values[i ^ far] = is_rising ? max(own, other) : min(own, other);
                }
            }
        }
    }
}
