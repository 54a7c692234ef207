// Each instance makes one sample of the filtered signal, and the gang walks over the taps together: `k` and `taps[k]` are uniform.
// The varying `if` turns off those for which there is no sample so early, and `signal[at]` is read for the others alone.
// Of two int16 the product is an int16, so one of them is cast; a tap of 256 is 1, and the sum is rounded before its 8 low bits go.
export void fir(const uniform int16 signal[], const uniform int16 taps[], uniform int16 filtered[], uniform int count, uniform int order) {
    foreach (i = 0 ... count) {
        int sum = 128;
        for (uniform int k = 0; k < order; k++) {
            int at = i - k;
            if (at >= 0) sum += (int) signal[at] * taps[k];
        }
        filtered[i] = clamp(sum >> 8, -32768, 32767);
    }
}
