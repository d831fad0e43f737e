/* Strings in data segments, globals, and a small machine that runs bytes. */
static const char program[] = "+++[>++++<-]>.[-]++++++[>++++++++<-]>.+.+.";
static unsigned char tape[64];
static unsigned output;

static int matching(int at, int step) {
    int depth = 0;
    for (;; at += step) {
        if (program[at] == '[')
            depth++;
        if (program[at] == ']')
            depth--;
        if (depth == 0)
            return at;
    }
}

__attribute__((export_name("run"))) int run(int seed) {
    int cell = 0;
    output = (unsigned)seed;
    for (int at = 0; at < 64; at++)
        tape[at] = 0;
    for (int at = 0; program[at]; at++) {
        switch (program[at]) {
        case '>': cell++; break;
        case '<': cell--; break;
        case '+': tape[cell]++; break;
        case '-': tape[cell]--; break;
        case '.': output = output * 257 + tape[cell]; break;
        case '[':
            if (!tape[cell])
                at = matching(at, 1);
            break;
        case ']':
            if (tape[cell])
                at = matching(at, -1);
            break;
        }
    }
    return (int)output;
}
