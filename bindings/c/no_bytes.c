/* Tests that a pointer may be null if its length is 0: each call returns the same as for a pointer to no bytes. */
#include "nosgrivel.h"

#include <stdio.h>
#include <string.h>

typedef uint32_t writer(const uint8_t *input, size_t input_len, uint8_t *output, size_t output_len, size_t *count);
typedef uint32_t rewriter(uint8_t *bytes, size_t len, size_t *count);
typedef uint32_t checker(const uint8_t *input, size_t input_len, size_t *count);

#define CALL(name) {#name, nosgrivel_##name}

static const struct {
    const char *name;
    writer *call;
} writers[] = {
    CALL(normalise_module), CALL(normalise_instructions), CALL(normalise_type_section), CALL(normalise_code_section),
    CALL(canonicalise),
};

static const struct {
    const char *name;
    rewriter *call;
} rewriters[] = {
    CALL(normalise_module_in_place), CALL(normalise_instructions_in_place), CALL(normalise_type_section_in_place),
    CALL(normalise_code_section_in_place), CALL(canonicalise_in_place), CALL(rewrite_module),
    CALL(rewrite_instructions), CALL(rewrite_type_section), CALL(rewrite_code_section), CALL(rewrite_canonical),
};

static const struct {
    const char *name;
    checker *call;
} checkers[] = {
    CALL(judge_module), CALL(judge_instructions), CALL(judge_type_section), CALL(judge_code_section),
    CALL(judge_canonical), CALL(check_module), CALL(check_instructions), CALL(check_type_section),
    CALL(check_code_section), CALL(check_canonical),
};

#define LENGTH(list) (sizeof(list) / sizeof(list)[0])

static int failures;

/* Counts a failure unless the two results of a call are equal. */
static void expect(const char *name, uint32_t with_null, size_t null_count, uint32_t status, size_t count) {
    if (with_null == status && null_count == count) return;
    failures += 1;
    fprintf(stderr, "%s: status %u, count %zu for a null pointer, and %u, %zu for no bytes\n", name,
            (unsigned)with_null, null_count, (unsigned)status, count);
}

/* A module with a custom section whose size is padded, and its canonical form. */
static const uint8_t padded[] = {0, 'a', 's', 'm', 1, 0, 0, 0, 0, 0x82, 0, 1, 'x'};
static const uint8_t canonical[] = {0, 'a', 's', 'm', 1, 0, 0, 0, 0, 2, 1, 'x'};

static void try_strip(void) {
    uint8_t output[sizeof padded] = {0};
    size_t count = 0;
    uint32_t status = nosgrivel_strip(padded, sizeof padded, NULL, 0, NULL, 0, output, sizeof output, &count);
    expect("strip without patterns", status, count, NOSGRIVEL_NORMAL, sizeof canonical);
    if (memcmp(output, canonical, sizeof canonical) != 0) {
        failures += 1;
        fprintf(stderr, "strip without patterns: other bytes\n");
    }
    status = nosgrivel_strip(padded, sizeof padded, NULL, 0, NULL, 0, NULL, 0, &count);
    expect("strip without output", status, count, NOSGRIVEL_TOO_LONG, sizeof canonical);
}

static void try_explain(void) {
    for (int strict = 0; strict < 2; strict++) {
        uint8_t none = 0;
        struct nosgrivel_refusal with_null, refusal;
        memset(&with_null, 0, sizeof with_null);
        memset(&refusal, 0, sizeof refusal);
        uint32_t status = nosgrivel_explain_module(NULL, 0, strict, &with_null);
        expect("explain_module", status, 0, nosgrivel_explain_module(&none, 0, strict, &refusal), 0);
        if (memcmp(&with_null, &refusal, sizeof refusal) != 0) {
            failures += 1;
            fprintf(stderr, "explain_module: other numbers for a null pointer\n");
        }
        char text[NOSGRIVEL_MESSAGE_SIZE];
        size_t length = nosgrivel_message(&refusal, text, sizeof text);
        expect("message", 0, nosgrivel_message(&refusal, NULL, 0), 0, length);
    }
}

int main(void) {
    uint8_t none[1] = {0};
    for (size_t i = 0; i < LENGTH(writers); i++) {
        size_t null_count = 7, count = 7;
        uint32_t with_null = writers[i].call(NULL, 0, NULL, 0, &null_count);
        uint32_t status = writers[i].call(none, 0, none, 0, &count);
        expect(writers[i].name, with_null, null_count, status, count);
    }
    for (size_t i = 0; i < LENGTH(rewriters); i++) {
        size_t null_count = 7, count = 7;
        uint32_t with_null = rewriters[i].call(NULL, 0, &null_count);
        uint32_t status = rewriters[i].call(none, 0, &count);
        expect(rewriters[i].name, with_null, null_count, status, count);
    }
    for (size_t i = 0; i < LENGTH(checkers); i++) {
        size_t null_count = 7, count = 7;
        uint32_t with_null = checkers[i].call(NULL, 0, &null_count);
        uint32_t status = checkers[i].call(none, 0, &count);
        expect(checkers[i].name, with_null, null_count, status, count);
    }
    try_strip();
    try_explain();
    return failures != 0;
}
