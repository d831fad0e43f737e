/* A hash over bytes in memory, with loops, shifts and 64-bit arithmetic. */
static unsigned char bytes[4096];

static unsigned long long mixed(unsigned long long state, unsigned char byte) {
    state ^= byte;
    state *= 1099511628211ull;
    return (state << 13) | (state >> 51);
}

__attribute__((export_name("run"))) int run(int seed) {
    unsigned long long state = 14695981039346656037ull;
    for (int at = 0; at < 4096; at++) {
        seed = seed * 1103515245 + 12345;
        bytes[at] = (unsigned char)(seed >> 16);
    }
    for (int round = 0; round < 4; round++)
        for (int at = 0; at < 4096; at++)
            state = mixed(state, bytes[at]);
    return (int)(state ^ (state >> 32));
}
