/* Prints what the functions of bindings/runtime do, or those of the kit: each must do the same. */
#include <stdbool.h>
#include <stdint.h>
#include <stdio.h>
#include <string.h>
#include <sys/types.h>

struct tried {
    bool ok;
    void *block;
};

struct tried rattle_alloc(size_t size, size_t alignment);
struct tried rattle_realloc(void *block, size_t kept, size_t size, size_t alignment);
void rattle_dealloc(void *block);
size_t rattle_arg_count(void);
ssize_t rattle_arg(size_t index, char *buffer, size_t size);
int rattle_errno(void);
void rattle_set_errno(int error);

#define TOO_LARGE ((size_t)PTRDIFF_MAX - 64)

static void print(const char *call, size_t size, struct tried tried) {
    bool is_aligned = tried.ok && (uintptr_t)tried.block % 16 == 0;
    printf("%s %zu: %d %d %d\n", call, size, tried.ok, tried.block != NULL, is_aligned);
}

static void print_heap(size_t size, size_t alignment) {
    struct tried block = rattle_alloc(size, alignment), larger, smaller;
    print("alloc", size, block);
    if (!block.ok) return;
    memset(block.block, 7, size);
    print("realloc", TOO_LARGE, rattle_realloc(block.block, size, TOO_LARGE, alignment));
    larger = rattle_realloc(block.block, size, 3 * size, alignment);
    print("realloc", 3 * size, larger);
    for (size_t at = 0; at < size; at++) printf("%d", ((char *)larger.block)[at]);
    puts("");
    smaller = rattle_realloc(larger.block, 0, 0, alignment);
    print("realloc", 0, smaller);
    rattle_dealloc(smaller.block);
}

static void print_argument(size_t index, size_t size) {
    char buffer[16] = "###############";
    ssize_t length = rattle_arg(index, buffer, size);
    printf("%zu to %zu: %zd %s\n", index, size, length, buffer);
}

int main(void) {
    const size_t sizes[] = {0, 1, 16, 100, 5000, TOO_LARGE};
    for (size_t at = 0; at < sizeof sizes / sizeof *sizes; at++) {
        for (size_t alignment = 1; alignment <= 16; alignment *= 2) print_heap(sizes[at], alignment);
    }
    printf("%zu arguments\n", rattle_arg_count());
    for (size_t index = 1; index < 6; index++) {
        for (size_t size = 0; size < 8; size++) print_argument(index, size);
    }
    print_argument(SIZE_MAX, 8);
    for (int error = 0; error < 140; error++) {
        rattle_set_errno(error);
        printf("%d ", rattle_errno());
    }
    return 0;
}
