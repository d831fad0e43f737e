/* The arguments and errno of programs for aarch64 Linux. The kit has these functions for x86-64 alone, in c/libos_c.a.
 *
 * Nothing proves this file. The kit's rattle/os/src/c.rt says what the functions must do, and this file must do what
 * the kit's x86-64 code does. Proofs assume that rattle_arg writes only to its buffer and returns no more than its
 * size. scripts/gate aarch64 compares the functions with the kit's. */
#include <errno.h>
#include <stddef.h>
#include <sys/types.h>

static int count;
static char **arguments;

/* Keeps what glibc passes to constructors: Rattle's `main` has no parameters in C. */
__attribute__((constructor)) static void keep(int argc, char **argv) {
    count = argc;
    arguments = argv;
}

size_t rattle_arg_count(void) {
    return (size_t)count;
}

/* Copies an argument to the buffer, and returns its length: -1 if there is no such argument, -2 if it doesn't fit. Then
 * the buffer is full. */
ssize_t rattle_arg(size_t index, char *buffer, size_t size) {
    size_t length = 0;
    if (index >= (size_t)count || arguments[index] == NULL) return -1;
    for (const char *at = arguments[index]; *at != '\0'; at++) {
        if (length == size) return -2;
        buffer[length++] = *at;
    }
    return (ssize_t)length;
}

int rattle_errno(void) {
    return errno;
}

void rattle_set_errno(int error) {
    errno = error;
}
