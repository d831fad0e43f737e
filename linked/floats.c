/* Floating-point numbers of both widths, conversions, and a switch. */
static double series(int terms, double x) {
    double sum = 0, term = 1;
    for (int n = 1; n <= terms; n++) {
        sum += term;
        term *= x / n;
    }
    return sum;
}

static float folded(float x, int step) {
    switch (step & 3) {
    case 0:
        return x * 1.5f;
    case 1:
        return x - 0.25f;
    case 2:
        return __builtin_sqrtf(x < 0 ? -x : x);
    default:
        return -x;
    }
}

__attribute__((export_name("run"))) int run(int seed) {
    float x = (float)seed;
    for (int step = 0; step < 100; step++)
        x = folded(x, step + seed);
    double e = series(20, 1 + (double)(seed & 7) / 8);
    union {
        double number;
        unsigned long long bits;
    } sum = {.number = e + x};
    return (int)(sum.bits ^ (sum.bits >> 32));
}
