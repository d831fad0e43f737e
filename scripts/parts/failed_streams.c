/* The loader puts this library before a program. Its reads and writes then move at most STEP bytes, and those of
 * standard input and output fail: reads after READS of them with the error READ_ERROR, writes after WRITES of them
 * with WRITE_ERROR, or with no byte written if that is 0. Without a number nothing fails. The names with __ are
 * those by which glibc has its own calls too. */
#include <errno.h>

long __read(int file, void *bytes, unsigned long size);
long __write(int file, const void *bytes, unsigned long size);
char *getenv(const char *name);
long strtol(const char *word, char **end, int base);

static long number_or(const char *name, long other) {
    char *word = getenv(name);
    return word ? strtol(word, 0, 10) : other;
}

static unsigned long at_most_a_step(unsigned long size) {
    unsigned long step = number_or("STEP", size);
    return size < step ? size : step;
}

/* What a call answers that has failed. */
static long failed(long error) {
    errno = error;
    return error ? -1 : 0;
}

long read(int file, void *bytes, unsigned long size) {
    static long counted;
    long most = number_or("READS", -1);
    if (file == 0 && most >= 0 && ++counted > most)
        return failed(number_or("READ_ERROR", EIO));
    return __read(file, bytes, at_most_a_step(size));
}

long write(int file, const void *bytes, unsigned long size) {
    static long counted;
    long most = number_or("WRITES", -1);
    if (file == 1 && most >= 0 && ++counted > most)
        return failed(number_or("WRITE_ERROR", EIO));
    return __write(file, bytes, at_most_a_step(size));
}
