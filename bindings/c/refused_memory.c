/* Makes every allocation of every call fail once. The call must return NOSGRIVEL_NO_MEMORY, leave the output and the
 * count unchanged, and free all memory. Once no allocation fails, the call must succeed. Also tests outputs that are
 * too short, patterns, and the version.
 *
 * This program is linked with --wrap for malloc, realloc and free, so that the archive allocates here. */
#include "nosgrivel.h"
#include <stdio.h>
#include <stdlib.h>
#include <string.h>

void *__real_malloc(size_t size);
void *__real_realloc(void *block, size_t size);
void __real_free(void *block);

static long left = -1; /* number of allocations that succeed before one fails; negative: all succeed */
static long held;      /* number of blocks that are allocated */

void *__wrap_malloc(size_t size) {
    void *block = left >= 0 && left-- == 0 ? NULL : __real_malloc(size);
    held += block != NULL;
    return block;
}

void *__wrap_realloc(void *block, size_t size) {
    return left >= 0 && left-- == 0 ? NULL : __real_realloc(block, size);
}

void __wrap_free(void *block) {
    held -= block != NULL;
    __real_free(block);
}

typedef uint32_t normalise(const uint8_t *, size_t, uint8_t *, size_t, size_t *);
typedef uint32_t in_place(uint8_t *, size_t, size_t *);
typedef uint32_t question(const uint8_t *, size_t, size_t *);

/* An input, its minimal encoding, the length of its minimally encoded prefix, and the calls for it. */
struct row {
    const char *name;
    const uint8_t *input, *normal;
    size_t input_len, normal_len, checked;
    normalise *normalise;
    in_place *in_place, *rewrite;
    question *judge, *check;
};

#define ROOM 64

static int swept, faults;

static void expect(int holds, const char *name, const char *what, long at) {
    if (!holds) {
        faults++;
        printf("%s: %s at %ld isn't as it must be\n", name, what, at);
    }
}

/* Makes one of the five calls. */
static uint32_t answer(const struct row *row, int call, uint8_t *output, size_t *count) {
    switch (call) {
    case 0: return row->normalise(row->input, row->input_len, output, row->input_len, count);
    case 1: return row->in_place(output, row->input_len, count);
    case 2: return row->judge(row->input, row->input_len, count);
    case 3: return row->rewrite(output, row->input_len, count);
    default: return row->check(row->input, row->input_len, count);
    }
}

static void granted(const struct row *row, int call, uint32_t status, size_t count, const uint8_t *output,
                    const uint8_t *before) {
    static const uint32_t wanted[] = {NOSGRIVEL_NORMAL, NOSGRIVEL_NORMAL, NOSGRIVEL_NOT_NORMAL, NOSGRIVEL_NORMAL,
                                      NOSGRIVEL_REFUSED};
    size_t written = call < 2 || call == 3 ? row->normal_len : 0;
    size_t kept = call == 3 ? row->input_len : written; /* what follows the minimal encoding may be rewritten too */
    expect(status == wanted[call], row->name, "status", call);
    expect(count == (call < 4 ? row->normal_len : row->checked), row->name, "count", call);
    expect(memcmp(output, row->normal, written) == 0, row->name, "normal form", call);
    expect(memcmp(output + kept, before + kept, ROOM - kept) == 0, row->name, "what follows", call);
}

/* Rewriting and the check of a module's section sizes need no memory; the other calls do. */
static int needs_memory(const struct row *row, int call) {
    return call < 3 || (call == 4 && row->check != nosgrivel_check_module);
}

/* Makes the first allocation fail, then the second, and so on, until none fails. */
static void sweep(const struct row *row, int call) {
    uint8_t output[ROOM], before[ROOM];
    memset(before, 0xAA, sizeof before);
    if (call == 1 || call == 3) memcpy(before, row->input, row->input_len);
    for (long refused = 0; refused < 100; refused++) {
        size_t count = 77;
        memcpy(output, before, sizeof output);
        left = refused;
        uint32_t status = answer(row, call, output, &count);
        int all_granted = left >= 0;
        left = -1;
        expect(held == 0, row->name, "memory that is held", refused);
        if (all_granted) {
            granted(row, call, status, count, output, before);
            expect((refused > 0) == needs_memory(row, call), row->name, "the number of requests", call);
            swept++;
            return;
        }
        expect(status == NOSGRIVEL_NO_MEMORY, row->name, "status", refused);
        expect(count == 77, row->name, "count", refused);
        expect(memcmp(output, before, sizeof output) == 0, row->name, "output", refused);
    }
    expect(0, row->name, "the end of the requests", call);
}

static void short_outputs(const struct row *row) {
    uint8_t output[ROOM], before[ROOM];
    memset(before, 0xAA, sizeof before);
    for (size_t len = 0; len < row->normal_len; len++) {
        size_t count = 77;
        memcpy(output, before, sizeof output);
        uint32_t status = row->normalise(row->input, row->input_len, output, len, &count);
        expect(status == NOSGRIVEL_TOO_LONG, row->name, "status of a short output", (long)len);
        expect(count == row->normal_len, row->name, "count of a short output", (long)len);
        expect(memcmp(output, before, sizeof output) == 0, row->name, "short output", (long)len);
    }
}

/* A module: a minimally encoded custom section, and a type section, a code section and a custom section with padded
 * numbers. */
static const uint8_t module_input[] = {
    0x00, 0x61, 0x73, 0x6D, 0x01, 0x00, 0x00, 0x00, /* the header */
    0x00, 0x01, 0x00,                               /* minimally encoded */
    0x01, 0x86, 0x00, 0x01, 0x4F, 0x00, 0x60, 0x00, 0x00,
    0x0A, 0x88, 0x00, 0x01, 0x85, 0x00, 0x00, 0x20, 0x81, 0x00, 0x0B,
    0x00, 0x81, 0x00, 0x00};
static const uint8_t module_normal[] = {
    0x00, 0x61, 0x73, 0x6D, 0x01, 0x00, 0x00, 0x00,
    0x00, 0x01, 0x00,
    0x01, 0x04, 0x01, 0x60, 0x00, 0x00,
    0x0A, 0x06, 0x01, 0x04, 0x00, 0x20, 0x01, 0x0B,
    0x00, 0x01, 0x00};

/* A memory section with padded numbers, and its canonical form. */
static const uint8_t canonical_input[] = {
    0x00, 0x61, 0x73, 0x6D, 0x01, 0x00, 0x00, 0x00,
    0x05, 0x85, 0x00, 0x81, 0x00, 0x00, 0x81, 0x00};
static const uint8_t canonical_normal[] = {
    0x00, 0x61, 0x73, 0x6D, 0x01, 0x00, 0x00, 0x00,
    0x05, 0x03, 0x01, 0x00, 0x01};

/* nop, local.get 66, end */
static const uint8_t instructions_input[] = {0x01, 0x20, 0xC2, 0x80, 0x00, 0x0B};
static const uint8_t instructions_normal[] = {0x01, 0x20, 0x42, 0x0B};

/* two function types without parameters and results, the second written as a final subtype */
static const uint8_t type_section_input[] = {0x02, 0x60, 0x00, 0x00, 0x4F, 0x00, 0x60, 0x00, 0x00};
static const uint8_t type_section_normal[] = {0x02, 0x60, 0x00, 0x00, 0x60, 0x00, 0x00};

/* two functions without locals: end, and local.get 1, end */
static const uint8_t code_section_input[] = {0x02, 0x02, 0x00, 0x0B, 0x85, 0x00, 0x00, 0x20, 0x81, 0x00, 0x0B};
static const uint8_t code_section_normal[] = {0x02, 0x02, 0x00, 0x0B, 0x04, 0x00, 0x20, 0x01, 0x0B};

#define ROW(kind, checked)                                                                                             \
    {#kind, kind##_input, kind##_normal, sizeof kind##_input, sizeof kind##_normal, checked,                           \
     nosgrivel_normalise_##kind, nosgrivel_normalise_##kind##_in_place, nosgrivel_rewrite_##kind,                      \
     nosgrivel_judge_##kind, nosgrivel_check_##kind}

/* A call, which uses the output and the count or the refusal. */
typedef uint32_t call(uint8_t *output, size_t *count, struct nosgrivel_refusal *refusal);

/* Sections of the names "name" and "other", and a start section with padded numbers, with what is left of them. */
static const uint8_t named[] = {
    0x00, 0x61, 0x73, 0x6D, 0x01, 0x00, 0x00, 0x00,
    0x00, 0x06, 0x04, 'n', 'a', 'm', 'e', 0x01,
    0x00, 0x07, 0x05, 'o', 't', 'h', 'e', 'r', 0x02,
    0x08, 0x82, 0x00, 0x83, 0x00};
static const uint8_t with_none[] = {0x00, 0x61, 0x73, 0x6D, 0x01, 0x00, 0x00, 0x00, 0x08, 0x01, 0x03};
static const uint8_t with_name[] = {
    0x00, 0x61, 0x73, 0x6D, 0x01, 0x00, 0x00, 0x00,
    0x00, 0x06, 0x04, 'n', 'a', 'm', 'e', 0x01,
    0x08, 0x01, 0x03};

static uint32_t strip(const char *dropped, size_t dropped_len, const char *kept, size_t kept_len, uint8_t *output,
                      size_t *count) {
    return nosgrivel_strip(named, sizeof named, dropped, dropped_len, kept, kept_len, output, ROOM, count);
}

static uint32_t strip_but_one(uint8_t *output, size_t *count, struct nosgrivel_refusal *refusal) {
    (void)refusal;
    return strip("*", 1, "n*e\0producers", 13, output, count);
}

static uint32_t explain(uint8_t *output, size_t *count, struct nosgrivel_refusal *refusal) {
    (void)output, (void)count;
    return nosgrivel_explain_module(canonical_input, sizeof canonical_input, false, refusal);
}

static uint32_t explain_strict(uint8_t *output, size_t *count, struct nosgrivel_refusal *refusal) {
    (void)output, (void)count;
    return nosgrivel_explain_module(canonical_normal, sizeof canonical_normal, true, refusal);
}

/* Makes the first allocation of a call fail, then the second, and so on, until none fails. */
static void sweep_call(const char *name, call *make) {
    for (long refused = 0; refused < 100; refused++) {
        uint8_t output[ROOM], before[ROOM];
        struct nosgrivel_refusal refusal, unchanged;
        size_t count = 77;
        memset(output, 0xAA, sizeof output);
        memset(before, 0xAA, sizeof before);
        memset(&refusal, 0xAA, sizeof refusal);
        memset(&unchanged, 0xAA, sizeof unchanged);
        left = refused;
        uint32_t status = make(output, &count, &refusal);
        int all_granted = left >= 0;
        left = -1;
        expect(held == 0, name, "memory that is held", refused);
        if (all_granted) {
            expect(status == NOSGRIVEL_NORMAL, name, "status", refused);
            expect(refused > 0, name, "the number of requests", refused);
            swept++;
            return;
        }
        expect(status == NOSGRIVEL_NO_MEMORY, name, "status", refused);
        expect(count == 77, name, "count", refused);
        expect(memcmp(output, before, sizeof output) == 0, name, "output", refused);
        if (make != strip_but_one) unchanged.status = NOSGRIVEL_NO_MEMORY;
        expect(memcmp(&refusal, &unchanged, sizeof refusal) == 0, name, "refusal", refused);
    }
    expect(0, name, "the end of the requests", 0);
}

/* Expects these bytes of a call that drops sections. `wanted_len` is the length of what stays. */
static void expect_strip(const char *name, uint32_t status, const uint8_t *output, size_t count, const uint8_t *wanted,
                         size_t wanted_len) {
    expect(status == NOSGRIVEL_NORMAL, name, "status", 0);
    expect(count == wanted_len, name, "count", (long)count);
    expect(memcmp(output, wanted, wanted_len) == 0, name, "output", 0);
}

static void patterns(void) {
    uint8_t output[ROOM];
    size_t count = 77;
    uint32_t status = strip("*", 1, "", 0, output, &count);
    expect_strip("*", status, output, count, with_none, sizeof with_none);
    status = strip("name\0other", 10, "", 0, output, &count);
    expect_strip("two names", status, output, count, with_none, sizeof with_none);
    status = strip("name\0other", 11, "nam*", 4, output, &count);
    expect_strip("two names and NUL", status, output, count, with_name, sizeof with_name);
    status = strip("oth*\0nam", 8, "", 0, output, &count);
    expect_strip("a beginning", status, output, count, with_name, sizeof with_name);
    status = strip("", 0, "*", 1, output, &count);
    expect(status == NOSGRIVEL_NORMAL && count == sizeof named - 2, "no pattern", "count", (long)count);
    status = strip("o*h*r\0n**e", 10, "", 0, output, &count);
    expect_strip("several stars", status, output, count, with_none, sizeof with_none);
    status = strip("**", 2, "*a*e*", 5, output, &count);
    expect_strip("several stars that keep", status, output, count, with_name, sizeof with_name);
    static const char *const wrong[] = {"\xFF", "*\xC3*", "name\xC3"};
    for (size_t i = 0; i < sizeof wrong / sizeof *wrong; i++) {
        count = 77;
        status = strip(wrong[i], strlen(wrong[i]), "", 0, output, &count);
        expect(status == NOSGRIVEL_BAD_PATTERN && count == 77, "a malformed pattern", "status", (long)i);
        status = strip("*", 1, wrong[i], strlen(wrong[i]), output, &count);
        expect(status == NOSGRIVEL_BAD_PATTERN && count == 77, "a malformed pattern that keeps", "status", (long)i);
    }
    status = nosgrivel_strip(named, sizeof named, "*", 1, "", 0, output, sizeof with_none - 1, &count);
    expect(status == NOSGRIVEL_TOO_LONG && count == sizeof with_none, "a short output", "status", (long)status);
    status = nosgrivel_strip(named, sizeof named - 1, "*", 1, "", 0, output, ROOM, &count);
    expect(status == NOSGRIVEL_REFUSED && count == 25, "a cut section", "count", (long)count);
}

int main(void) {
    static const struct row rows[] = {
        ROW(module, 11), ROW(instructions, 1), ROW(type_section, 4), ROW(code_section, 4),
        {"canonical forms", canonical_input, canonical_normal, sizeof canonical_input, sizeof canonical_normal, 8,
         nosgrivel_canonicalise, nosgrivel_canonicalise_in_place, nosgrivel_rewrite_canonical,
         nosgrivel_judge_canonical, nosgrivel_check_canonical}};
    expect(nosgrivel_version() == NOSGRIVEL_VERSION_NUMBER, "nosgrivel_version", "version", (long)nosgrivel_version());
    for (size_t i = 0; i < sizeof rows / sizeof *rows; i++) {
        for (int call = 0; call < 5; call++) sweep(&rows[i], call);
        short_outputs(&rows[i]);
    }
    sweep_call("nosgrivel_strip", strip_but_one);
    sweep_call("nosgrivel_explain_module", explain);
    sweep_call("nosgrivel_explain_module, strict", explain_strict);
    patterns();
    printf("%d calls swept, %d faults\n", swept, faults);
    return faults != 0;
}
