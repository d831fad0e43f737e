/* The loader puts this library before a program. It refuses requests for memory: the request with the number
 * REFUSED, or one in EVERY, by chance that begins with SEED. It refuses none while a file is open, so that a program
 * reads its files. It writes a line to standard error for each refusal. The names with __ are those by which glibc
 * has its own calls too. */
void *__libc_malloc(unsigned long size);
void *__libc_realloc(void *block, unsigned long size);
int __open(const char *path, int flags, ...);
int __close(int file);
char *getenv(const char *name);
long strtol(const char *word, char **end, int base);
long write(int file, const void *bytes, unsigned long size);

static int is_file_open;

static long number_of(const char *name) {
    char *word = getenv(name);
    return word ? strtol(word, 0, 10) : 0;
}

/* Whether chance refuses one of so many requests. */
static int is_struck(unsigned long every) {
    static unsigned long state;
    if (state == 0)
        state = number_of("SEED") * 0x9E3779B97F4A7C15 + 1;
    state ^= state << 13;
    state ^= state >> 7;
    state ^= state << 17;
    return state % every == 0;
}

static int is_refused(void) {
    static long counted;
    long every = number_of("EVERY");
    if (is_file_open || !(every > 0 ? is_struck(every) : ++counted == number_of("REFUSED")))
        return 0;
    write(2, "a request was refused\n", 22);
    return 1;
}

void *malloc(unsigned long size) { return is_refused() ? 0 : __libc_malloc(size); }

void *realloc(void *block, unsigned long size) { return is_refused() ? 0 : __libc_realloc(block, size); }

int open(const char *path, int flags, unsigned mode) {
    int file = __open(path, flags, mode);
    is_file_open = file >= 0;
    return file;
}

int close(int file) {
    is_file_open = 0;
    return __close(file);
}
