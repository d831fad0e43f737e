/* Sorting by a function that is called through a table. */
typedef int (*Order)(int, int);

static int numbers[512];

static int upwards(int a, int b) { return a < b; }
static int downwards(int a, int b) { return a > b; }
static int by_low_bits(int a, int b) { return (a & 255) < (b & 255) || ((a & 255) == (b & 255) && a < b); }

static Order orders[] = {upwards, downwards, by_low_bits};

static void sort(int *from, int count, Order before) {
    if (count < 2)
        return;
    int pivot = from[count / 2], low = 0, high = count - 1;
    while (low <= high) {
        while (before(from[low], pivot))
            low++;
        while (before(pivot, from[high]))
            high--;
        if (low <= high) {
            int held = from[low];
            from[low++] = from[high];
            from[high--] = held;
        }
    }
    sort(from, high + 1, before);
    sort(from + low, count - low, before);
}

__attribute__((export_name("run"))) int run(int seed) {
    unsigned sum = 0;
    for (int which = 0; which < 3; which++) {
        for (int at = 0; at < 512; at++) {
            seed = seed * 1664525 + 1013904223;
            numbers[at] = seed;
        }
        sort(numbers, 512, orders[which]);
        for (int at = 0; at < 512; at++)
            sum = sum * 31 + (unsigned)numbers[at];
    }
    return (int)sum;
}
