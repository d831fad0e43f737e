/* The heap of libraries and programs for aarch64 Linux. The kit has these functions for x86-64 alone, in
 * c/liblibc_c.a.
 *
 * Nothing proves this file. Proofs assume that each function does what its contract says, in the kit's
 * rattle/libc/src/heap.rt, and this file must do what the kit's x86-64 code does. Contracts let the size be 0, which C
 * doesn't promise memory for, and the alignment be any that divides 16, which malloc of glibc gives.
 *
 * scripts/gate aarch64 compares these functions with the kit's, and makes every allocation of the library fail once. */
#include <stdbool.h>
#include <stddef.h>
#include <stdlib.h>

/* Whether memory was allocated, and the block, which is never null. This is the kit's libc::types::Tried. */
struct tried {
    bool ok;
    void *block;
};

/* What `block` points to if no memory was allocated. Nothing reads or writes it. */
static char nothing;

static struct tried tried(void *block) {
    return (struct tried){block != NULL, block != NULL ? block : &nothing};
}

/* Allocates `size` bytes. */
struct tried rattle_alloc(size_t size, size_t alignment) {
    return tried(malloc(size != 0 ? size : alignment));
}

/* Makes a block one of `size` bytes, which may move. The first `kept` bytes stay, as realloc keeps more than those. A
 * failure leaves the block as it was. */
struct tried rattle_realloc(void *block, size_t kept, size_t size, size_t alignment) {
    (void)kept;
    return tried(realloc(block, size != 0 ? size : alignment));
}

/* Frees what either of the others allocated. */
void rattle_dealloc(void *block) {
    free(block);
}
