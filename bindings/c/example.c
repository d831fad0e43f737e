/* Reads a module from standard input, and writes its canonical form to standard output, without the custom sections
 * whose names match an argument, such as name or ".debug_*". As the key of a cache, it is the same for all encodings of
 * a module. If the module is malformed, prints why and where. This is C and C++.
 *
 * The exit status is 0 if the module was written, 1 if it is malformed, 2 if an argument isn't UTF-8, 3 if memory ran
 * out, and 4 if a read or a write failed. */
#include "nosgrivel.h"
#include <stdio.h>
#include <stdlib.h>
#include <string.h>

/* Reads all of a file, and sets *len to its length. Returns NULL if memory ran out. */
static uint8_t *read_all(FILE *file, size_t *len) {
    size_t room = 1 << 16;
    uint8_t *bytes = (uint8_t *)malloc(room);
    *len = 0;
    while (bytes != NULL) {
        *len += fread(bytes + *len, 1, room - *len, file);
        if (*len < room) break;
        uint8_t *more = (uint8_t *)realloc(bytes, room *= 2);
        if (more == NULL) free(bytes);
        bytes = more;
    }
    return bytes;
}

/* Joins the arguments to a list with a NUL between two, and sets *len to its length. Returns NULL if memory ran out. */
static char *join(int count, char **arguments, size_t *len) {
    size_t room = 1;
    for (int i = 1; i < count; i++) room += strlen(arguments[i]) + 1;
    char *list = (char *)malloc(room), *end = list;
    if (list == NULL) return NULL;
    for (int i = 1; i < count; i++) {
        if (i > 1) *end++ = '\0';
        memcpy(end, arguments[i], strlen(arguments[i]));
        end += strlen(arguments[i]);
    }
    *len = (size_t)(end - list);
    return list;
}

/* Prints why and where a module is malformed. */
static void print_refusal(const uint8_t *module, size_t len) {
    struct nosgrivel_refusal refusal;
    char message[NOSGRIVEL_MESSAGE_SIZE];
    nosgrivel_explain_module(module, len, false, &refusal);
    nosgrivel_message(&refusal, message, sizeof message);
    fprintf(stderr, "%s\n", message);
}

int main(int argc, char **argv) {
    size_t len = 0, dropped_len = 0, count = 0;
    uint8_t *module = read_all(stdin, &len), *output = (uint8_t *)malloc(len + 1);
    char *dropped = join(argc, argv, &dropped_len);
    int status = 3;
    if (module != NULL && output != NULL && dropped != NULL) {
        switch (ferror(stdin) ? 4 : nosgrivel_strip(module, len, dropped, dropped_len, "", 0, output, len, &count)) {
        case NOSGRIVEL_NORMAL: status = fwrite(output, 1, count, stdout) == count && fflush(stdout) == 0 ? 0 : 4; break;
        case NOSGRIVEL_REFUSED: status = 1; print_refusal(module, len); break;
        case NOSGRIVEL_BAD_PATTERN: status = 2; fputs("an argument isn't UTF-8\n", stderr); break;
        case NOSGRIVEL_NO_MEMORY: break;
        default: status = 4;
        }
    }
    if (status == 3) fputs("no memory\n", stderr);
    free(module);
    free(output);
    free(dropped);
    return status;
}
