/* Tests why and where modules are refused, and the messages. The rows are worked out by hand from the binary format.
 * The header has 8 bytes, so that the first section has its id at 8, its size at 9 and its body at 10. */
#include "nosgrivel.h"
#include <stdio.h>
#include <string.h>

#define HEADER 0x00, 0x61, 0x73, 0x6D, 0x01, 0x00, 0x00, 0x00
#define BYTES(...) (const uint8_t[]){__VA_ARGS__}, sizeof((const uint8_t[]){__VA_ARGS__})
#define MODULE(...) BYTES(HEADER, __VA_ARGS__)

/* A module, and why and where it is refused. */
struct row {
    const uint8_t *input;
    size_t len;
    bool strict;
    struct nosgrivel_refusal refusal;
    const char *message;
};

/* The fields of a refusal: the section, its id, `at`, `offset`, item, group of locals, instruction, and the reason with
 * the part and the numbers that it carries. */
#define REFUSED(section, id, at, offset, item, group, instruction, reason, construct, first, second)                   \
    {NOSGRIVEL_REFUSED, NOSGRIVEL_##reason, NOSGRIVEL_CONSTRUCT_##construct, id, at, offset, section, item, group,     \
     instruction, first, second}

static const struct row rows[] = {
    {(const uint8_t *)"", 0, false, REFUSED(-1, -1, 0, 0, -1, -1, -1, NOT_A_MODULE, NONE, 0, 0),
     "offset 0x0: not a WebAssembly module: expected the header 00 61 73 6D 01 00 00 00, found no bytes"},
    {BYTES(0x1F, 0x8B, 0x08, 0x00, 0x00), false,
     REFUSED(-1, -1, 0, 0, -1, -1, -1, NOT_A_MODULE, NONE, 0x00088B1F, 5),
     "offset 0x0: not a WebAssembly module: expected the header 00 61 73 6D 01 00 00 00, found a gzip file"},
    /* a component */
    {BYTES(0x00, 0x61, 0x73, 0x6D, 0x0D, 0x00, 0x01, 0x00), false,
     REFUSED(-1, -1, 0, 0, -1, -1, -1, UNSUPPORTED_VERSION, NONE, 0x1000D, 0),
     "offset 0x0: unsupported version 0x1000d: expected 1, found a component"},
    {MODULE(0x0E, 0x00), false, REFUSED(0, 14, 8, 8, -1, -1, -1, UNKNOWN_SECTION, NONE, 14, 0),
     "section 0, offset 0x8: unknown section id 14"},
    /* the size 9 at 9, and one byte after it */
    {MODULE(0x05, 0x09, 0x00), false, REFUSED(0, 5, 8, 9, -1, -1, -1, SIZE_TOO_LARGE, NONE, 9, 1),
     "memory section, offset 0x9: size 9 too large: 1 byte left"},
    /* two functions at 10, but one index at 11 */
    {MODULE(0x03, 0x02, 0x02, 0x00), false, REFUSED(0, 3, 8, 12, 1, -1, -1, UNEXPECTED_END, NUMBER, 0, 0),
     "function section, function 1, offset 0xc: unexpected end: expected LEB128 number"},
    /* an index of six bytes at 11 */
    {MODULE(0x03, 0x07, 0x01, 0x80, 0x80, 0x80, 0x80, 0x80, 0x00), false,
     REFUSED(0, 3, 8, 11, 0, -1, -1, NUMBER_TOO_LONG, NONE, 5, 0),
     "function section, function 0, offset 0xb: LEB128 number too long: more than 5 bytes"},
    /* an index of 35 bits at 11 */
    {MODULE(0x03, 0x06, 0x01, 0xFF, 0xFF, 0xFF, 0xFF, 0x7F), false,
     REFUSED(0, 3, 8, 11, 0, -1, -1, NUMBER_OUT_OF_RANGE, U32, 0, 0),
     "function section, function 0, offset 0xb: LEB128 number out of range of u32"},
    /* the second type, at 14, begins with the code of i32 */
    {MODULE(0x01, 0x05, 0x02, 0x60, 0x00, 0x00, 0x7F), false,
     REFUSED(0, 1, 8, 14, 1, -1, -1, INVALID_BYTE, COMPOSITE_TYPE, 0x7F, 0),
     "type section, type 1, offset 0xe: invalid composite type 0x7f"},
    /* the parameter at 13 has an unknown type; the section is the second one, after a custom section of 3 bytes */
    {MODULE(0x00, 0x01, 0x00, 0x01, 0x04, 0x01, 0x60, 0x01, 0x40), false,
     REFUSED(1, 1, 11, 16, 0, -1, -1, INVALID_BYTE, VAL_TYPE, 0x40, 0),
     "type section, type 0, offset 0x10: invalid value type 0x40"},
    /* two empty names at 11 and 12, and the kind at 13 */
    {MODULE(0x02, 0x05, 0x01, 0x00, 0x00, 0x05, 0x00), false,
     REFUSED(0, 2, 8, 13, 0, -1, -1, INVALID_BYTE, IMPORT_KIND, 5, 0),
     "import section, import 0, offset 0xd: invalid import kind 0x05"},
    /* a name of two bytes at 12, the second not UTF-8 */
    {MODULE(0x07, 0x06, 0x01, 0x02, 0x61, 0xFF, 0x00, 0x00), false,
     REFUSED(0, 7, 8, 13, 0, -1, -1, INVALID_UTF8, NONE, 1, 0),
     "export section, export 0, offset 0xd: name isn't UTF-8 from its byte 1 on"},
    /* a segment of the form 3 at 11 */
    {MODULE(0x0B, 0x02, 0x01, 0x03), false, REFUSED(0, 11, 8, 11, 0, -1, -1, INVALID_NUMBER, DATA_FORM, 3, 0),
     "data section, segment 0, offset 0xb: invalid data segment form 3"},
    /* an index at 10, and two bytes after it */
    {MODULE(0x08, 0x03, 0x05, 0x00, 0x00), false, REFUSED(0, 8, 8, 11, -1, -1, -1, TRAILING_BYTES, NONE, 2, 0),
     "start section, offset 0xb: 2 trailing bytes"},
    /* a code body at 12: one group of locals, of an unknown type at 14 */
    {MODULE(0x0A, 0x06, 0x01, 0x04, 0x01, 0x01, 0x40, 0x0B), false,
     REFUSED(0, 10, 8, 14, 0, 0, -1, INVALID_BYTE, VAL_TYPE, 0x40, 0),
     "code section, function 0, local group 0, offset 0xe: invalid value type 0x40"},
    /* no locals at 12, and the opcode 0xFF at 13 */
    {MODULE(0x0A, 0x05, 0x01, 0x03, 0x00, 0xFF, 0x0B), false,
     REFUSED(0, 10, 8, 13, 0, -1, 13, UNKNOWN_OPCODE, NONE, 0xFF, 0),
     "code section, function 0, offset 0xd: unknown opcode 0xFF"},
    /* nop at 13; the prefix 0xFD at 14, and the number 282 */
    {MODULE(0x0A, 0x08, 0x01, 0x06, 0x00, 0x01, 0xFD, 0x9A, 0x02, 0x0B), false,
     REFUSED(0, 10, 8, 14, 0, -1, 14, UNKNOWN_PREFIXED_OPCODE, NONE, 0xFD, 282),
     "code section, function 0, offset 0xe: unknown opcode 0xFD 0x11A"},
    /* i32.load at 13, and its flags 128 at 14 */
    {MODULE(0x0A, 0x08, 0x01, 0x06, 0x00, 0x28, 0x80, 0x01, 0x00, 0x0B), false,
     REFUSED(0, 10, 8, 14, 0, -1, 13, INVALID_ALIGNMENT, NONE, 128, 0),
     "code section, function 0, offset 0xe: alignment flags 128 out of range: expected less than 128"},
    /* a constant i32 at 11 and 12, nop at 13, and the end of the body at 14 */
    {MODULE(0x06, 0x04, 0x01, 0x7F, 0x00, 0x01), false, REFUSED(0, 6, 8, 14, 0, -1, -1, MISSING_END, NONE, 0, 0),
     "global section, global 0, offset 0xe: expression without a final end"},
    /* a constant i32 at 11 and 12, and delegate 0 at 13 */
    {MODULE(0x06, 0x06, 0x01, 0x7F, 0x00, 0x18, 0x00, 0x0B), false,
     REFUSED(0, 6, 8, 13, 0, -1, 13, STRAY_DELIMITER, NONE, 0, 0),
     "global section, global 0, offset 0xd: delegate outside of a block"},
    /* a section of 4 bytes: its size is 1, in two bytes */
    {MODULE(0x08, 0x81, 0x00, 0x05), true, REFUSED(0, 8, 8, 8, -1, -1, -1, NOT_MINIMAL, NONE, 4, 3),
     "start section, offset 0x8: not minimally encoded: 4 bytes, minimal is 3"},
};

static int faults;

static void expect(int holds, size_t row, const char *what) {
    if (!holds && faults++ < 20) {
        printf("row %zu: %s isn't as it must be\n", row, what);
    }
}

#define SAME(field) expect(told.field == wanted->field, row, #field)

static void compare(size_t row, struct nosgrivel_refusal told, const struct nosgrivel_refusal *wanted) {
    SAME(status);
    SAME(reason);
    SAME(construct);
    SAME(section_id);
    SAME(at);
    SAME(offset);
    SAME(section);
    SAME(item);
    SAME(local_group);
    SAME(instruction);
    SAME(first);
    SAME(second);
}

/* Writes the message to buffers of every length. Nothing after the length may change. */
static void cut_message(size_t row, const struct nosgrivel_refusal *refusal, const char *wanted) {
    size_t whole = strlen(wanted);
    for (size_t size = 0; size <= whole + 2; size++) {
        char buffer[NOSGRIVEL_MESSAGE_SIZE + 2];
        memset(buffer, 'x', sizeof buffer);
        size_t kept = size == 0 ? 0 : size - 1 < whole ? size - 1 : whole;
        expect(nosgrivel_message(refusal, buffer, size) == whole, row, "the length of the message");
        expect(memcmp(buffer, wanted, kept) == 0, row, "the message");
        expect(size == 0 || buffer[kept] == '\0', row, "the end of the message");
        for (size_t i = size == 0 ? 0 : kept + 1; i < sizeof buffer; i++) expect(buffer[i] == 'x', row, "what follows");
    }
}

/* Expects the same of a strict call: these modules are minimally encoded up to the malformed part. */
static void explain_strictly(size_t number) {
    const struct row *row = &rows[number];
    struct nosgrivel_refusal told;
    uint32_t status = nosgrivel_explain_module(row->input, row->len, true, &told);
    expect(status == NOSGRIVEL_REFUSED, number, "the status of a strict call");
    compare(number, told, &row->refusal);
}

static void explain(size_t number) {
    const struct row *row = &rows[number];
    struct nosgrivel_refusal told;
    memset(&told, 0xAA, sizeof told);
    uint32_t status = nosgrivel_explain_module(row->input, row->len, row->strict, &told);
    char message[NOSGRIVEL_MESSAGE_SIZE];
    nosgrivel_message(&told, message, sizeof message);
    if (strcmp(message, row->message) != 0) printf("row %zu: %s\n", number, message);
    expect(status == NOSGRIVEL_REFUSED, number, "the status");
    compare(number, told, &row->refusal);
    cut_message(number, &told, row->message);
    size_t count = 77;
    status = row->strict ? nosgrivel_check_canonical(row->input, row->len, &count)
                         : nosgrivel_judge_canonical(row->input, row->len, &count);
    expect(status == NOSGRIVEL_REFUSED && count == told.at, number, "the count of the other call");
}

/* A module that is accepted, but not if `strict` is set: a memory section with a padded number. */
static void accepted(void) {
    static const uint8_t padded[] = {HEADER, 0x05, 0x04, 0x01, 0x00, 0x81, 0x00};
    static const struct nosgrivel_refusal none = {
        NOSGRIVEL_NORMAL, NOSGRIVEL_NO_REASON, 0, -1, sizeof padded, sizeof padded, -1, -1, -1, -1, 0, 0};
    struct nosgrivel_refusal told;
    memset(&told, 0xAA, sizeof told);
    expect(nosgrivel_explain_module(padded, sizeof padded, false, &told) == NOSGRIVEL_NORMAL, 100, "the status");
    compare(100, told, &none);
    cut_message(100, &told, "");
    expect(nosgrivel_explain_module(padded, sizeof padded, true, &told) == NOSGRIVEL_REFUSED, 101, "the status");
    told.reason = 1000;
    cut_message(102, &told, "refused at 8");
    told.status = NOSGRIVEL_NO_MEMORY;
    cut_message(103, &told, "no memory");
}

int main(void) {
    size_t count = sizeof rows / sizeof *rows;
    for (size_t row = 0; row < count; row++) {
        explain(row);
        explain_strictly(row);
    }
    accepted();
    printf("%zu refusals, %d faults\n", count, faults);
    return faults != 0;
}
