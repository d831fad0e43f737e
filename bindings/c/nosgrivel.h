/* Nosgrivel, a proved WebAssembly encoder: its normalisers and checks, for C.
 *
 * Every promise in this file is proved for all inputs, unless it says otherwise, if the caller keeps these rules:
 *
 * - No pointer is null, unless its length is 0. That null pointers to no bytes work is tested, not proved.
 * - `input` points to `input_len` bytes, `output` to `output_len` bytes, `bytes` to `len` bytes, `buffer` to `size`
 *   bytes, and `count` to one size_t. `dropped` and `kept` point to as many bytes as the lengths after them say. None
 *   of them overlaps another. During the call nothing else writes to any of them, and nothing else reads what the call
 *   writes.
 * - No length is greater than PTRDIFF_MAX.
 * - malloc, realloc and free belong to one allocator, and malloc aligns as C demands.
 * - No call is made from a signal handler, or in the forked child of a process with threads.
 *
 * A call keeps no pointer and no state, so any number of threads may call at once. It frees all memory that it
 * allocates.
 *
 * Normalising moves bytes, so offsets in custom sections become stale: those of relocatable object files (`linking`,
 * `reloc.*`), of debug information (`.debug_*`, `external_debug_info`, `sourceMappingURL`) and of code metadata
 * (`metadata.code.*`). Normalise linked modules that need none of these. */
#ifndef NOSGRIVEL_H
#define NOSGRIVEL_H

#include <stdbool.h>
#include <stddef.h>
#include <stdint.h>

/* The version of this header. */
#define NOSGRIVEL_VERSION_MAJOR 0
#define NOSGRIVEL_VERSION_MINOR 1
#define NOSGRIVEL_VERSION_PATCH 0
#define NOSGRIVEL_VERSION "0.1.0"

/* The version as one number, for comparisons. */
#define NOSGRIVEL_VERSION_NUMBER \
    (NOSGRIVEL_VERSION_MAJOR * 65536u + NOSGRIVEL_VERSION_MINOR * 256u + NOSGRIVEL_VERSION_PATCH)

#ifdef __cplusplus
extern "C" {
#endif

/* Return the version of the library as such a number. It is NOSGRIVEL_VERSION_NUMBER if the header and the library
 * belong together. */
uint32_t nosgrivel_version(void);

/* The statuses of the calls, and the value of *count after each. `normalise` and `canonicalise` return 0, 1, 3 or 5, in
 * place 0, 1 or 3, `rewrite` 0 or 1, `judge` 0, 1, 2 or 3, `check` and `explain` 0, 1 or 3, and `strip` 0, 1, 3, 5 or 6.
 * No call returns 4, the exit status of programs that couldn't read or write. */

/* Success. `normalise`, `canonicalise` and `rewrite` have written the minimal encoding; for `judge` and `check` the
 * input is minimally encoded. *count: the length of the minimal encoding. */
#define NOSGRIVEL_NORMAL 0u

/* The input is malformed; for `check`, it is malformed or not minimally encoded. Only `rewrite` has written. *count: the
 * length of the longest prefix that decodes, so the offset of the first section, instruction, entry or code body that
 * doesn't; for `check`, the length of the longest prefix that is minimally encoded. It is 0 if the header of a module,
 * or the count of a body, is malformed. */
#define NOSGRIVEL_REFUSED 1u

/* The input decodes, but its minimal encoding is shorter, so `normalise` would change it. Only `judge` returns this.
 * *count: the length of the minimal encoding. */
#define NOSGRIVEL_NOT_NORMAL 2u

/* malloc or realloc returned a null pointer. Nothing was written, and all memory of the call is free again. *count is
 * unchanged. The call may succeed later. */
#define NOSGRIVEL_NO_MEMORY 3u

/* The output is too short. Nothing was written. Only `normalise`, `canonicalise` and `strip` return this, the first two
 * never if output_len >= input_len. *count: the length that the output needs. Call again with that length. */
#define NOSGRIVEL_TOO_LONG 5u

/* A list of patterns isn't UTF-8. Nothing was written. Only `strip` returns this. *count is unchanged. */
#define NOSGRIVEL_BAD_PATTERN 6u

/* Write the minimal encoding of the input to the start of the output. It is never longer than the input. After
 * NOSGRIVEL_NORMAL the output past *count is unchanged; after any other status all of it is.
 *
 * module: section sizes, type sections and code sections get their minimal encoding. All other bodies are copied.
 * instructions: a list of instructions that ends with the input. They need not nest, and need no final `end`.
 * type_section, code_section: the body of such a section, without its id and size. */
uint32_t nosgrivel_normalise_module(
    const uint8_t *input, size_t input_len, uint8_t *output, size_t output_len, size_t *count);
uint32_t nosgrivel_normalise_instructions(
    const uint8_t *input, size_t input_len, uint8_t *output, size_t output_len, size_t *count);
uint32_t nosgrivel_normalise_type_section(
    const uint8_t *input, size_t input_len, uint8_t *output, size_t output_len, size_t *count);
uint32_t nosgrivel_normalise_code_section(
    const uint8_t *input, size_t input_len, uint8_t *output, size_t output_len, size_t *count);

/* The same over the input. After NOSGRIVEL_NORMAL the first *count bytes are the minimal encoding, and the others are
 * unchanged; after any other status all bytes are unchanged. */
uint32_t nosgrivel_normalise_module_in_place(uint8_t *bytes, size_t len, size_t *count);
uint32_t nosgrivel_normalise_instructions_in_place(uint8_t *bytes, size_t len, size_t *count);
uint32_t nosgrivel_normalise_type_section_in_place(uint8_t *bytes, size_t len, size_t *count);
uint32_t nosgrivel_normalise_code_section_in_place(uint8_t *bytes, size_t len, size_t *count);

/* Write the canonical form of a module: every number, size, type, index and limit has its minimal encoding. Two modules
 * have the same canonical form if and only if their decoded sections are equal. The status is NOSGRIVEL_REFUSED if any
 * section is malformed; section order is not checked. Otherwise as nosgrivel_normalise_module and
 * nosgrivel_normalise_module_in_place. */
uint32_t nosgrivel_canonicalise(
    const uint8_t *input, size_t input_len, uint8_t *output, size_t output_len, size_t *count);
uint32_t nosgrivel_canonicalise_in_place(uint8_t *bytes, size_t len, size_t *count);

/* Replace the bytes by their minimal encoding, or a module by its canonical form, without any memory. After
 * NOSGRIVEL_NORMAL the first *count bytes are that encoding. The others are unspecified, and after NOSGRIVEL_REFUSED all
 * are: keep a copy, or use the calls in place above, if you need them. */
uint32_t nosgrivel_rewrite_module(uint8_t *bytes, size_t len, size_t *count);
uint32_t nosgrivel_rewrite_instructions(uint8_t *bytes, size_t len, size_t *count);
uint32_t nosgrivel_rewrite_type_section(uint8_t *bytes, size_t len, size_t *count);
uint32_t nosgrivel_rewrite_code_section(uint8_t *bytes, size_t len, size_t *count);
uint32_t nosgrivel_rewrite_canonical(uint8_t *bytes, size_t len, size_t *count);

/* Check whether the input is minimally encoded: NOSGRIVEL_NORMAL if it is, NOSGRIVEL_NOT_NORMAL if its minimal encoding
 * is shorter. In both cases *count is the length of the minimal encoding, and the length that a normaliser needs. */
uint32_t nosgrivel_judge_module(const uint8_t *input, size_t input_len, size_t *count);
uint32_t nosgrivel_judge_instructions(const uint8_t *input, size_t input_len, size_t *count);
uint32_t nosgrivel_judge_type_section(const uint8_t *input, size_t input_len, size_t *count);
uint32_t nosgrivel_judge_code_section(const uint8_t *input, size_t input_len, size_t *count);
uint32_t nosgrivel_judge_canonical(const uint8_t *input, size_t input_len, size_t *count);

/* Check whether the input is minimally encoded, and locate the first part that isn't: NOSGRIVEL_NORMAL if it is,
 * NOSGRIVEL_REFUSED if it is malformed or not minimally encoded. In the second case *count is the length of the longest
 * prefix that is minimally encoded.
 *
 * nosgrivel_check_module checks the header and the section sizes, and no body. nosgrivel_judge_module also decodes type
 * sections and code sections; the two for canonical forms decode all sections. */
uint32_t nosgrivel_check_module(const uint8_t *input, size_t input_len, size_t *count);
uint32_t nosgrivel_check_instructions(const uint8_t *input, size_t input_len, size_t *count);
uint32_t nosgrivel_check_type_section(const uint8_t *input, size_t input_len, size_t *count);
uint32_t nosgrivel_check_code_section(const uint8_t *input, size_t input_len, size_t *count);
uint32_t nosgrivel_check_canonical(const uint8_t *input, size_t input_len, size_t *count);

/* Why a module is refused: the values of `reason` in a nosgrivel_refusal. Later versions may add members. `construct`,
 * `first` and `second` are those of the struct; a reason that doesn't name them leaves them 0. */
enum nosgrivel_reason {
    /* Nothing is refused. */
    NOSGRIVEL_NO_REASON = 0,
    /* The input, or the body that holds the part, ends before or inside `construct`. */
    NOSGRIVEL_UNEXPECTED_END = 1,
    /* A LEB128 number has more than `first` bytes. */
    NOSGRIVEL_NUMBER_TOO_LONG = 2,
    /* A LEB128 number is too large or too small for `construct`. */
    NOSGRIVEL_NUMBER_OUT_OF_RANGE = 3,
    /* The byte `first` is no `construct`. */
    NOSGRIVEL_INVALID_BYTE = 4,
    /* The number `first` is no `construct`. */
    NOSGRIVEL_INVALID_NUMBER = 5,
    /* No instruction has the opcode `first`. */
    NOSGRIVEL_UNKNOWN_OPCODE = 6,
    /* No instruction has the prefix `first` and, after it, the number `second`. */
    NOSGRIVEL_UNKNOWN_PREFIXED_OPCODE = 7,
    /* The alignment in the flags `first` of a memory argument is 64 or more. */
    NOSGRIVEL_INVALID_ALIGNMENT = 8,
    /* A name isn't UTF-8 from its byte `first` on. */
    NOSGRIVEL_INVALID_UTF8 = 9,
    /* After the last part, `first` bytes follow. */
    NOSGRIVEL_TRAILING_BYTES = 10,
    /* The size `first` is larger than `second`, the number of bytes after it. */
    NOSGRIVEL_SIZE_TOO_LARGE = 11,
    /* A constant expression has no final `end`. */
    NOSGRIVEL_MISSING_END = 12,
    /* A `delegate` stands outside of a block of a constant expression. */
    NOSGRIVEL_STRAY_DELIMITER = 13,
    /* No section has the id `first`. */
    NOSGRIVEL_UNKNOWN_SECTION = 14,
    /* The input, of `second` bytes, doesn't begin with the header 00 61 73 6D 01 00 00 00. `first` holds its first four
     * bytes, the first in the lowest bits. Each that is missing counts as 0. */
    NOSGRIVEL_NOT_A_MODULE = 15,
    /* The version in the header is `first`, not 1. It is 0x1000D in a component. */
    NOSGRIVEL_UNSUPPORTED_VERSION = 16,
    /* A part has `first` bytes, and `second` in its minimal encoding. Only if `strict` is set. */
    NOSGRIVEL_NOT_MINIMAL = 17,
    /* A number or a form isn't minimally encoded. Only if `strict` is set. */
    NOSGRIVEL_LONG_FORM = 18,
    /* The reason wasn't confirmed. No known input has it. */
    NOSGRIVEL_UNEXPLAINED = 19
};

/* A part of the binary format: the values of `construct` in a nosgrivel_refusal. */
enum nosgrivel_construct {
    NOSGRIVEL_CONSTRUCT_NONE = 0,           /* the reason names no part */
    NOSGRIVEL_CONSTRUCT_BYTE = 1,           /* a byte */
    NOSGRIVEL_CONSTRUCT_NUMBER = 2,         /* a number in LEB128 */
    NOSGRIVEL_CONSTRUCT_U32 = 3,            /* an unsigned number of 32 bits */
    NOSGRIVEL_CONSTRUCT_U64 = 4,            /* an unsigned number of 64 bits */
    NOSGRIVEL_CONSTRUCT_S32 = 5,            /* a signed number of 32 bits */
    NOSGRIVEL_CONSTRUCT_S64 = 6,            /* a signed number of 64 bits */
    NOSGRIVEL_CONSTRUCT_TYPE_INDEX = 7,     /* a type index, as a non-negative number of 33 bits */
    NOSGRIVEL_CONSTRUCT_CONSTANT = 8,       /* a float or a vector */
    NOSGRIVEL_CONSTRUCT_BODY = 9,           /* bytes after their size, such as a section */
    NOSGRIVEL_CONSTRUCT_NAME = 10,          /* a name */
    NOSGRIVEL_CONSTRUCT_VAL_TYPE = 11,      /* a value type */
    NOSGRIVEL_CONSTRUCT_HEAP_TYPE = 12,     /* a heap type */
    NOSGRIVEL_CONSTRUCT_REF_TYPE = 13,      /* a reference type */
    NOSGRIVEL_CONSTRUCT_TYPE_FORM = 14,     /* the first byte of a recursive, sub or composite type */
    NOSGRIVEL_CONSTRUCT_MUTABILITY = 15,    /* whether a field is mutable */
    NOSGRIVEL_CONSTRUCT_LIMITS = 16,        /* the flags of limits */
    NOSGRIVEL_CONSTRUCT_MEMORY_FLAGS = 17,  /* the flags of a memory type */
    NOSGRIVEL_CONSTRUCT_TABLE = 18,         /* a table */
    NOSGRIVEL_CONSTRUCT_TAG_ATTRIBUTE = 19, /* the attribute of a tag type */
    NOSGRIVEL_CONSTRUCT_IMPORT_KIND = 20,   /* the kind of an import */
    NOSGRIVEL_CONSTRUCT_EXPORT_KIND = 21,   /* the kind of an export */
    NOSGRIVEL_CONSTRUCT_OPCODE = 22,        /* an opcode, or the number after its prefix */
    NOSGRIVEL_CONSTRUCT_BLOCK_TYPE = 23,    /* a block type */
    NOSGRIVEL_CONSTRUCT_CLAUSE = 24,        /* a clause of `try_table` */
    NOSGRIVEL_CONSTRUCT_ORDERING = 25,      /* the ordering of an atomic instruction */
    NOSGRIVEL_CONSTRUCT_CAST_FLAGS = 26,    /* the flags of a branch on a cast */
    NOSGRIVEL_CONSTRUCT_ELEMENT_FORM = 27,  /* the form of an element segment */
    NOSGRIVEL_CONSTRUCT_ELEMENT_KIND = 28,  /* the kind of an element segment's items */
    NOSGRIVEL_CONSTRUCT_DATA_FORM = 29,     /* the form of a data segment */
    NOSGRIVEL_CONSTRUCT_SECTION_ID = 30,    /* the id of a section */
    NOSGRIVEL_CONSTRUCT_SUBSECTION_ID = 31, /* the id of a subsection */
    NOSGRIVEL_CONSTRUCT_RESERVED = 32,      /* a byte that is 0 */
    NOSGRIVEL_CONSTRUCT_ABSTRACT_HEAP_TYPE = 33, /* an abstract heap type, after the byte of a shared one */
    NOSGRIVEL_CONSTRUCT_HANDLER_CLAUSE = 34,     /* a clause of `resume`, which handles a tag */
    NOSGRIVEL_CONSTRUCT_COMPOSITE_TYPE = 35, /* the byte of a function, structure, array or continuation type */
    NOSGRIVEL_CONSTRUCT_GLOBAL_MUTABILITY = 36, /* whether a global is mutable, and whether it is shared */
    NOSGRIVEL_CONSTRUCT_BRANCH_HINT = 37, /* the byte of a branch hint */
    NOSGRIVEL_CONSTRUCT_FEATURE_PREFIX = 38, /* the prefix of a target feature */
    NOSGRIVEL_CONSTRUCT_LINKING_VERSION = 39, /* the version of a `linking` section */
    NOSGRIVEL_CONSTRUCT_SYMBOL_KIND = 40, /* the kind of a symbol */
    NOSGRIVEL_CONSTRUCT_CORE_DUMP_VALUE = 41  /* the first byte of a value in a core dump */
};

/* Why and where a module is refused. Offsets are counted in bytes from the start of the input. */
struct nosgrivel_refusal {
    uint32_t status;     /* what nosgrivel_explain_module returned */
    uint32_t reason;     /* an enum nosgrivel_reason */
    uint32_t construct;  /* an enum nosgrivel_construct: the part that the reason names */
    int32_t section_id;  /* the id of the section; -1 outside of sections */
    uint64_t at;         /* the length of the longest prefix that is accepted, as *count of a check */
    uint64_t offset;     /* the offset of the bytes for which the reason is given; never less than `at` */
    int64_t section;     /* the number of sections before this one; -1 outside of sections */
    int64_t item;        /* the index of the item, such as a function of the code section; -1 outside of lists */
    int64_t local_group; /* the index of the group of locals in its code body; -1 outside of locals */
    int64_t instruction; /* the offset of the instruction; -1 outside of instructions */
    uint64_t first;      /* the first number that the reason carries */
    uint64_t second;     /* the second number that the reason carries */
};

/* Check whether every section of a module decodes, as nosgrivel_canonicalise does, or if `strict` is set, whether the
 * module is in its canonical form, as nosgrivel_check_canonical does. Fill *refusal, and return its status:
 *
 * NOSGRIVEL_NORMAL: `reason` is NOSGRIVEL_NO_REASON, `at` and `offset` are input_len, and the places are -1.
 * NOSGRIVEL_REFUSED: all fields say why and where.
 * NOSGRIVEL_NO_MEMORY: the fields other than `status` are unchanged. */
uint32_t nosgrivel_explain_module(
    const uint8_t *input, size_t input_len, bool strict, struct nosgrivel_refusal *refusal);

/* The number of bytes that hold every message and the NUL at its end. */
#define NOSGRIVEL_MESSAGE_SIZE 257

/* Write a refusal as text, such as "code section, function 12, offset 0x1a4f: unknown opcode 0xFF", to the buffer. Like
 * snprintf, cut the text to size - 1 bytes, end it by NUL, and return the length of the whole text, which is at most
 * 256. If size is 0, write nothing; the buffer may then be null. The call allocates nothing.
 *
 * The text is empty for NOSGRIVEL_NORMAL, and "no memory" for NOSGRIVEL_NO_MEMORY. *refusal is one that
 * nosgrivel_explain_module filled. */
size_t nosgrivel_message(const struct nosgrivel_refusal *refusal, char *buffer, size_t size);

/* Write the canonical form of a module to the output, as nosgrivel_canonicalise, but without the custom sections whose
 * names match a pattern of `dropped` and none of `kept`.
 *
 * `dropped` and `kept` are lists of patterns in UTF-8. Each pattern ends at a NUL or at the end of the list; an empty
 * list has no pattern. Each `*` in a pattern stands for any characters, or for none. So "*" with 1 byte drops all
 * custom sections, and "name\0producers" with 14 bytes names two. The statuses are those of nosgrivel_canonicalise,
 * and NOSGRIVEL_BAD_PATTERN.
 *
 * Proved: the output is the canonical form without exactly these custom sections, and the status is
 * NOSGRIVEL_BAD_PATTERN if and only if a list isn't UTF-8. */
uint32_t nosgrivel_strip(
    const uint8_t *input, size_t input_len, const char *dropped, size_t dropped_len, const char *kept,
    size_t kept_len, uint8_t *output, size_t output_len, size_t *count);

#ifdef __cplusplus
}
#endif

#endif
