// Each instance has a point of its own, and they leave the loop after different numbers of iterations: the test is varying, and those that fail it wait, off.
// The loop ends when its last instance does, so the gang takes as long as its slowest point.
// Numbers have twelve fraction bits: 4096 is 1, and a product of two is shifted back by twelve.
export void mandelbrot(uniform int left, uniform int top, uniform int step, uniform int width, uniform int height, uniform int limit, uniform int turns[]) {
    foreach (y = 0 ... height, x = 0 ... width) {
        int real = left + x * step, imaginary = top + y * step;
        int a = 0, b = 0, count = 0;
        while (count < limit && a * a + b * b < 67108864) {
            int next = ((a * a - b * b) >> 12) + real;
            b = ((2 * a * b) >> 12) + imaginary;
            a = next;
            count++;
        }
        turns[y * width + x] = count;
    }
}
