/* A few calls of every group of include/klem.h, and what they must answer. It stops at the first wrong answer, says which line asked,
 * and exits with 1. It also shows how the calls are used from C. */
#include <stdbool.h>
#include <stdio.h>
#include <stdlib.h>
#include <string.h>

#include "klem.h"

static unsigned checked;

#define MUST(what)                                                                          \
    do {                                                                                    \
        checked++;                                                                          \
        if (!(what)) {                                                                      \
            fprintf(stderr, "klem_test: wrong answer, line %d: %s\n", __LINE__, #what);     \
            exit(1);                                                                        \
        }                                                                                   \
    } while (0)

static uint64_t r[KLEM_RESULT];
static uint64_t table[KLEM_TABLE];

/* what a call returned, and the result that it wrote: both say the number, then come the place and three values */
static bool answered(uint64_t number, uint64_t place, uint64_t a, uint64_t b, uint64_t c, uint64_t returned) {
    return returned == number && r[0] == number && r[1] == place && r[2] == a && r[3] == b && r[4] == c && r[5] == 0 && r[6] == 0 && r[7] == 0;
}
#define GIVES(a, b, c, call) MUST(answered(KLEM_OK, 0, a, b, c, call))
#define REFUSES(number, place, call) MUST(answered(number, place, 0, 0, 0, call))
/* a call that refuses leaves the path that it would have written as it was */
#define REFUSES_OUT(number, place, call)           \
    do {                                           \
        uint8_t as_it_was[KLEM_PATH];              \
        memcpy(as_it_was, out, KLEM_PATH);         \
        REFUSES(number, place, call);              \
        MUST(memcmp(as_it_was, out, KLEM_PATH) == 0); \
    } while (0)
/* and a table that it would have edited */
#define REFUSES_EDIT(number, place, call)          \
    do {                                           \
        memcpy(before, table, sizeof table);       \
        REFUSES(number, place, call);              \
        MUST(memcmp(before, table, sizeof table) == 0); \
    } while (0)

/* a path of text that is known to be one */
struct path {
    uint8_t bytes[KLEM_PATH];
};

static struct path path(const char *text) {
    struct path p;
    if (klem_from_str((const uint8_t *)text, strlen(text), p.bytes, KLEM_PATH, r, KLEM_RESULT) != 0) {
        fprintf(stderr, "klem_test: '%s' is refused with %u at %u\n", text, (unsigned)r[0], (unsigned)r[1]);
        exit(1);
    }
    return p;
}

static bool is(const uint8_t *bytes, const char *text) {
    struct path p = path(text);
    return memcmp(bytes, p.bytes, KLEM_PATH) == 0;
}

static void package_lengths(void) {
    uint8_t input[64] = {0x40, 0x04};
    GIVES(64, 0, 2, klem_pkg_length(input, 64, r, KLEM_RESULT));
    REFUSES(KLEM_INVALID_PKG_LENGTH, 0, klem_pkg_length(input, 63, r, KLEM_RESULT));
    input[0] = 0x41;
    REFUSES(KLEM_UNEXPECTED_END_OF_STREAM, 1, klem_pkg_length(input, 1, r, KLEM_RESULT));
    input[0] = 0x70;
    GIVES(64, 2, 0, klem_raw_pkg_length(input, 2, r, KLEM_RESULT));
    GIVES(60, 4, 0, klem_from_raw_length(input, 64, 60, r, KLEM_RESULT));
    REFUSES(KLEM_INVALID_PKG_LENGTH, 0, klem_from_raw_length(input, 64, 65, r, KLEM_RESULT));
    MUST(klem_still_parsing(60, 4, input, 5));
    MUST(!klem_still_parsing(60, 4, input, 4));
}

static void whole_tables(void) {
    uint8_t table[64];
    uint8_t rest[KLEM_HEADER_REST] = {1, 2, 3};
    const uint8_t body[3] = {0xA4, 0x0A, 0x05};
    const uint8_t *dsdt = (const uint8_t *)"DSDT";
    uint8_t sum = 0;
    size_t i;

    memset(table, 0xEE, sizeof table);
    REFUSES(KLEM_BAD_SIGNATURE, 0, klem_header_write((const uint8_t *)"XSDT", 4, 2, rest, sizeof rest, body, 3, table, 64, r, KLEM_RESULT));
    REFUSES(KLEM_OUT_TOO_SMALL, 0, klem_header_write(dsdt, 4, 2, rest, sizeof rest, body, 3, table, 38, r, KLEM_RESULT));
    MUST(klem_header_write(dsdt, 3, 2, rest, sizeof rest, body, 3, table, 64, r, KLEM_RESULT) == KLEM_BAD_SLICE);
    MUST(klem_header_write(dsdt, 4, 2, rest, 25, body, 3, table, 64, r, KLEM_RESULT) == KLEM_BAD_SLICE);
    MUST(table[0] == 0xEE);
    GIVES(39, 0, 0, klem_header_write(dsdt, 4, 2, rest, sizeof rest, body, 3, table, 64, r, KLEM_RESULT));
    for (i = 0; i < 39; i++) {
        sum = (uint8_t)(sum + table[i]);
    }
    MUST(sum == 0 && table[4] == 39 && table[8] == 2 && table[39] == 0xEE);
    MUST(memcmp(table + 10, rest, KLEM_HEADER_REST) == 0 && memcmp(table + KLEM_HEADER, body, 3) == 0);
    GIVES(KLEM_DSDT, 2, 39, klem_header_read(table, 64, r, KLEM_RESULT));
    REFUSES(KLEM_TABLE_TOO_SHORT, 0, klem_header_read(table, 35, r, KLEM_RESULT));
    REFUSES(KLEM_BAD_TABLE_LENGTH, 0, klem_header_read(table, 38, r, KLEM_RESULT));
    table[38] ^= 1;
    REFUSES(KLEM_BAD_CHECKSUM, 0, klem_header_read(table, 39, r, KLEM_RESULT));
    table[38] ^= 1;
    table[0] = 'S';
    REFUSES(KLEM_BAD_CHECKSUM, 0, klem_header_read(table, 39, r, KLEM_RESULT));
    table[9] = (uint8_t)(table[9] - ('S' - 'D'));
    GIVES(KLEM_SSDT, 2, 39, klem_header_read(table, 39, r, KLEM_RESULT));
    table[1] = 's';
    REFUSES(KLEM_BAD_SIGNATURE, 0, klem_header_read(table, 39, r, KLEM_RESULT));
}

static void names(void) {
    uint8_t out[KLEM_PATH];
    MUST(klem_is_lead_name_char('_') && !klem_is_lead_name_char('0'));
    MUST(klem_is_digit_char('9') && !klem_is_digit_char('A'));
    MUST(klem_is_name_char('Z') && klem_is_name_char('0') && !klem_is_name_char('a'));
    GIVES(2, 0, 0, klem_name_string((const uint8_t *)"\x5C\x00", 2, out, KLEM_PATH, r, KLEM_RESULT));
    MUST(is(out, "\\"));
    GIVES(10, 0, 0, klem_name_string((const uint8_t *)"\\.AB12_X__", 10, out, KLEM_PATH, r, KLEM_RESULT));
    MUST(is(out, "\\AB12._X"));
    REFUSES_OUT(KLEM_EMPTY_NAMES_ARE_INVALID, 0, klem_name_string((const uint8_t *)"\x2F\x00", 2, out, KLEM_PATH, r, KLEM_RESULT));
    REFUSES_OUT(KLEM_BAD_NAME_BYTE, 3, klem_name_string((const uint8_t *)"AB1-", 4, out, KLEM_PATH, r, KLEM_RESULT));
}

static void paths(void) {
    uint8_t out[KLEM_PATH];
    uint8_t text[16];
    uint8_t bytes[KLEM_COMPONENT_BYTES] = {'\\', 0, 0, 0, 'A', '_', '_', '_'};
    struct path p = path("\\_SB_.PCI0.^ISA_");
    struct path bad = p;

    GIVES(0, 0, 0, klem_root(out, KLEM_PATH, r, KLEM_RESULT));
    MUST(is(out, "\\"));
    GIVES(0, 0, 0, klem_from_name_seg((const uint8_t *)"A___", 4, out, KLEM_PATH, r, KLEM_RESULT));
    MUST(is(out, "A"));
    REFUSES_OUT(KLEM_BAD_PATH, 0, klem_from_name_seg((const uint8_t *)"1___", 4, out, KLEM_PATH, r, KLEM_RESULT));
    GIVES(0, 0, 0, klem_from_components(2, bytes, sizeof bytes, out, KLEM_PATH, r, KLEM_RESULT));
    MUST(is(out, "\\A"));
    REFUSES_OUT(KLEM_BAD_PATH, 0, klem_from_components(1, bytes, sizeof bytes, out, KLEM_PATH, r, KLEM_RESULT));
    REFUSES_OUT(KLEM_INVALID_NAME_SEG, 1, klem_from_str((const uint8_t *)"^", 1, out, KLEM_PATH, r, KLEM_RESULT));
    REFUSES_OUT(KLEM_EMPTY_NAMES_ARE_INVALID, 0, klem_from_str((const uint8_t *)"", 0, out, KLEM_PATH, r, KLEM_RESULT));

    GIVES(0, 0, 0, klem_normalize(p.bytes, KLEM_PATH, out, KLEM_PATH, r, KLEM_RESULT));
    MUST(is(out, "\\_SB_.ISA_"));
    memset(text, '!', sizeof text);
    GIVES(10, 0, 0, klem_as_string(out, KLEM_PATH, text, sizeof text, r, KLEM_RESULT));
    MUST(memcmp(text, "\\_SB_.ISA_!!!!!!", sizeof text) == 0);
    REFUSES(KLEM_OUT_TOO_SMALL, 0, klem_as_string(out, KLEM_PATH, text, 9, r, KLEM_RESULT));
    GIVES(0, 0, 0, klem_is_normal(p.bytes, KLEM_PATH, r, KLEM_RESULT));
    GIVES(1, 0, 0, klem_is_absolute(p.bytes, KLEM_PATH, r, KLEM_RESULT));
    GIVES(0, 0, 0, klem_search_rules_apply(p.bytes, KLEM_PATH, r, KLEM_RESULT));
    p = path("\\^ISA_");
    REFUSES_OUT(KLEM_INVALID_NORMALIZED_NAME, 0, klem_normalize(p.bytes, KLEM_PATH, out, KLEM_PATH, r, KLEM_RESULT));
    REFUSES_OUT(KLEM_INVALID_NORMALIZED_NAME, 0, klem_parent(p.bytes, KLEM_PATH, out, KLEM_PATH, r, KLEM_RESULT));
    p = path("\\A.B");
    GIVES(0, 0, 0, klem_parent(p.bytes, KLEM_PATH, out, KLEM_PATH, r, KLEM_RESULT));
    MUST(is(out, "\\A"));
    GIVES(0, 0, 0, klem_resolve(path("^X").bytes, KLEM_PATH, p.bytes, KLEM_PATH, out, KLEM_PATH, r, KLEM_RESULT));
    MUST(is(out, "\\A.X"));
    REFUSES_OUT(KLEM_NOT_ABSOLUTE, 0, klem_resolve(p.bytes, KLEM_PATH, path("Y").bytes, KLEM_PATH, out, KLEM_PATH, r, KLEM_RESULT));
    /* what is const may be the same memory */
    GIVES(0, 0, 0, klem_resolve(p.bytes, KLEM_PATH, p.bytes, KLEM_PATH, out, KLEM_PATH, r, KLEM_RESULT));
    MUST(is(out, "\\A.B"));
    /* a spare byte that is not zero: no path */
    bad.bytes[KLEM_PATH - 1] = 1;
    REFUSES_OUT(KLEM_BAD_PATH, 0, klem_normalize(bad.bytes, KLEM_PATH, out, KLEM_PATH, r, KLEM_RESULT));
}

static uint64_t add_level(const char *at, uint64_t typ) {
    return klem_add_level(table, KLEM_TABLE, path(at).bytes, KLEM_PATH, typ, r, KLEM_RESULT);
}

static uint64_t add_value(const char *at, uint64_t value) {
    return klem_add_value(table, KLEM_TABLE, path(at).bytes, KLEM_PATH, value, r, KLEM_RESULT);
}

static uint64_t search(const char *name, const char *scope, uint8_t *out) {
    return klem_search(table, KLEM_TABLE, path(name).bytes, KLEM_PATH, path(scope).bytes, KLEM_PATH, out, KLEM_PATH, r, KLEM_RESULT);
}

static void tables(void) {
    uint8_t out[KLEM_PATH];
    uint64_t list[4];
    uint8_t image[46];
    static uint64_t before[KLEM_TABLE];

    MUST(!klem_well_formed(table, KLEM_TABLE));
    REFUSES_EDIT(KLEM_BAD_TABLE, 0, klem_table_new(table, KLEM_TABLE - 1, r, KLEM_RESULT));
    REFUSES_EDIT(KLEM_BAD_TABLE, 0, add_level("\\A", KLEM_SCOPE));
    GIVES(0, 0, 0, klem_table_new(table, KLEM_TABLE, r, KLEM_RESULT));
    MUST(klem_well_formed(table, KLEM_TABLE));

    GIVES(0, 0, 0, add_level("\\A", KLEM_SCOPE));
    GIVES(0, 0, 0, add_level("\\A.B", KLEM_DEVICE));
    GIVES(0, 0, 0, add_value("\\X", 5));
    GIVES(1, 0, 0, add_value("\\A.X", 6));
    GIVES(1, 3, 0, search("X", "\\A.B.C", out));
    MUST(is(out, "\\A.X"));
    GIVES(0, 1, 0, search("X", "\\", out));
    REFUSES_OUT(KLEM_VALUE_DOES_NOT_EXIST, 0, search("Y", "\\A.B", out));
    REFUSES_OUT(KLEM_LEVEL_DOES_NOT_EXIST, 1, klem_search_for_level(table, KLEM_TABLE, path("Z").bytes, KLEM_PATH, path("\\A").bytes, KLEM_PATH, out, KLEM_PATH, r, KLEM_RESULT));
    GIVES(3, 0, 0, klem_search_for_level(table, KLEM_TABLE, path("B").bytes, KLEM_PATH, path("\\A.B.C").bytes, KLEM_PATH, out, KLEM_PATH, r, KLEM_RESULT));
    MUST(is(out, "\\A.B"));

    list[2] = list[3] = 7;
    REFUSES(KLEM_OUT_TOO_SMALL, 3, klem_levels(table, KLEM_TABLE, path("\\").bytes, KLEM_PATH, list, 2, r, KLEM_RESULT));
    REFUSES(KLEM_LEVEL_DOES_NOT_EXIST, 2, klem_levels(table, KLEM_TABLE, path("\\A.Q").bytes, KLEM_PATH, list, 4, r, KLEM_RESULT));
    MUST(list[2] == 7);
    GIVES(3, 0, 0, klem_levels(table, KLEM_TABLE, path("\\").bytes, KLEM_PATH, list, 4, r, KLEM_RESULT));
    MUST(list[0] == 0 && list[3] == 7);
    MUST(KLEM_LEVEL_DEPTH(list[1]) == 1 && KLEM_LEVEL_TYPE(list[1]) == KLEM_SCOPE && KLEM_LEVEL_BYTE(list[1], 0) == 'A');
    MUST(KLEM_LEVEL_DEPTH(list[2]) == 2 && KLEM_LEVEL_TYPE(list[2]) == KLEM_DEVICE && KLEM_LEVEL_BYTE(list[2], 0) == 'B' && KLEM_LEVEL_BYTE(list[2], 3) == '_');
    GIVES(1, 0, 0, klem_levels(table, KLEM_TABLE, path("\\A.B").bytes, KLEM_PATH, list, 1, r, KLEM_RESULT));
    MUST(KLEM_LEVEL_DEPTH(list[0]) == 2);

    memset(image, 7, sizeof image);
    REFUSES(KLEM_OUT_TOO_SMALL, 0, klem_image_write(table, KLEM_TABLE, image, 44, r, KLEM_RESULT));
    REFUSES(KLEM_BAD_TABLE, 0, klem_image_write(table, KLEM_TABLE - 1, image, 46, r, KLEM_RESULT));
    MUST(image[0] == 7);
    GIVES(45, 0, 0, klem_image_write(table, KLEM_TABLE, image, 46, r, KLEM_RESULT));
    MUST(image[0] == 0x10 && image[1] == 0x20 && image[2] == 0x08 && image[3] == 0x02 && image[44] == 0x60 && image[45] == 7);
    REFUSES_EDIT(KLEM_IMAGE_BYTES_LEFT, 360, klem_image_read(image, 46, table, KLEM_TABLE, r, KLEM_RESULT));
    REFUSES_EDIT(KLEM_IMAGE_ENDED_EARLY, 292, klem_image_read(image, 44, table, KLEM_TABLE, r, KLEM_RESULT));
    REFUSES_EDIT(KLEM_BAD_TABLE, 0, klem_image_read(image, 45, table, KLEM_TABLE - 1, r, KLEM_RESULT));
    image[44] |= 1;
    REFUSES_EDIT(KLEM_IMAGE_SPARE_BITS, 356, klem_image_read(image, 45, table, KLEM_TABLE, r, KLEM_RESULT));
    image[44] &= 0xFE;
    memcpy(before, table, sizeof table);
    memset(table, 0xA5, sizeof table);
    GIVES(2, 2, 2, klem_image_read(image, 45, table, KLEM_TABLE, r, KLEM_RESULT));
    MUST(memcmp(before, table, sizeof table) == 0);

    REFUSES_EDIT(KLEM_LEVEL_DOES_NOT_EXIST, 2, add_level("\\A.Q.R", KLEM_SCOPE));
    REFUSES_EDIT(KLEM_NAME_COLLISION, 0, add_value("\\A.X", 9));
    REFUSES_EDIT(KLEM_BAD_TYPE, 0, add_level("\\C", KLEM_METHOD_LOCALS + 1));
    REFUSES_EDIT(KLEM_TRIED_TO_REMOVE_ROOT_NAMESPACE, 0, klem_remove_level(table, KLEM_TABLE, path("\\").bytes, KLEM_PATH, r, KLEM_RESULT));
    REFUSES_EDIT(KLEM_NO_SUCH_HANDLE, 0, klem_set(table, KLEM_TABLE, 2, 9, r, KLEM_RESULT));
    REFUSES_EDIT(KLEM_VALUE_DOES_NOT_EXIST, 0, klem_set_by_path(table, KLEM_TABLE, path("\\A.Q").bytes, KLEM_PATH, 9, r, KLEM_RESULT));
    REFUSES_EDIT(KLEM_INVALID_NORMALIZED_NAME, 0, klem_add_value_at_resolved_path(table, KLEM_TABLE, path("^^Z").bytes, KLEM_PATH, path("\\A").bytes, KLEM_PATH, 7, r, KLEM_RESULT));
    REFUSES_EDIT(KLEM_ROOT_NOT_ALLOWED, 0, klem_add_alias_at_resolved_path(table, KLEM_TABLE, path("Y").bytes, KLEM_PATH, path("\\A").bytes, KLEM_PATH, path("\\").bytes, KLEM_PATH, r, KLEM_RESULT));

    GIVES(0, 0, 0, klem_add_alias_at_resolved_path(table, KLEM_TABLE, path("Y").bytes, KLEM_PATH, path("\\A").bytes, KLEM_PATH, path("^X").bytes, KLEM_PATH, r, KLEM_RESULT));
    GIVES(0, 0, 0, klem_get_handle(table, KLEM_TABLE, path("\\A.Y").bytes, KLEM_PATH, r, KLEM_RESULT));
    GIVES(2, 0, 0, klem_add_value_at_resolved_path(table, KLEM_TABLE, path("^Z").bytes, KLEM_PATH, path("\\A.B").bytes, KLEM_PATH, 7, r, KLEM_RESULT));
    GIVES(7, 0, 0, klem_get_by_path(table, KLEM_TABLE, path("\\A.Z").bytes, KLEM_PATH, r, KLEM_RESULT));
    GIVES(0, 0, 0, klem_set_by_path(table, KLEM_TABLE, path("\\A.Z").bytes, KLEM_PATH, 8, r, KLEM_RESULT));
    GIVES(8, 0, 0, klem_get(table, KLEM_TABLE, 2, r, KLEM_RESULT));
    GIVES(0, 0, 0, klem_set(table, KLEM_TABLE, 2, UINT64_MAX, r, KLEM_RESULT));
    GIVES(UINT64_MAX, 0, 0, klem_get(table, KLEM_TABLE, 2, r, KLEM_RESULT));
    GIVES(0, 0, 0, klem_remove_level(table, KLEM_TABLE, path("\\A").bytes, KLEM_PATH, r, KLEM_RESULT));
    REFUSES(KLEM_LEVEL_DOES_NOT_EXIST, 1, klem_get_handle(table, KLEM_TABLE, path("\\A.X").bytes, KLEM_PATH, r, KLEM_RESULT));
    GIVES(6, 0, 0, klem_get(table, KLEM_TABLE, 1, r, KLEM_RESULT));
    REFUSES(KLEM_NO_SUCH_HANDLE, 0, klem_get(table, KLEM_TABLE, UINT32_MAX, r, KLEM_RESULT));
}

static void blocks(void) {
    static const uint8_t loop[] = {0x70, 0x0A, 0x03, 0x60, 0xA2, 0x04, 0x60, 0x76, 0x60, 0xA4, 0x60};
    static const uint8_t branch[] = {0xA0, 0x04, 0x00, 0xA4, 0x01, 0xA1, 0x03, 0xA4, 0x00};
    static const uint8_t dead[] = {0x75, 0x60, 0xA0, 0x04, 0x00, 0x30, 0xA4, 0x00};
    static const uint8_t unset[] = {0x75, 0x60, 0x75, 0x61};
    static const uint8_t breaks[] = {0xA5};
    static const uint8_t early[] = {0xA0, 0x02, 0x0A, 0x05};
    static const uint8_t past[] = {0xA0, 0x03, 0x00};
    static uint8_t large[KLEM_BLOCK_BYTES + 1];
    uint64_t frame[KLEM_FRAME];
    uint64_t before[KLEM_FRAME];

    GIVES(0, 0, 0, klem_check(loop, sizeof loop, r, KLEM_RESULT));
    REFUSES(KLEM_BAD_OPCODE, 5, klem_check(dead, sizeof dead, r, KLEM_RESULT));
    REFUSES(KLEM_PACKAGE_ENDS_EARLY, 3, klem_check(early, sizeof early, r, KLEM_RESULT));
    REFUSES(KLEM_INVALID_PKG_LENGTH, 1, klem_check(past, sizeof past, r, KLEM_RESULT));
    memset(large, 0xA3, sizeof large);
    GIVES(0, 0, 0, klem_check(large, KLEM_BLOCK_BYTES, r, KLEM_RESULT));
    REFUSES(KLEM_BLOCK_TOO_LONG, 0, klem_check(large, KLEM_BLOCK_BYTES + 1, r, KLEM_RESULT));

    memset(frame, 0xA5, sizeof frame);
    GIVES(0, 0, 0, klem_frame_new(frame, KLEM_FRAME, KLEM_BITS64, r, KLEM_RESULT));
    GIVES(KLEM_RETURNED, 0, 10, klem_run(loop, sizeof loop, frame, KLEM_FRAME, 100, r, KLEM_RESULT));
    GIVES(0, 0, 0, klem_frame_get(frame, KLEM_FRAME, KLEM_LOCAL0, r, KLEM_RESULT));
    GIVES(KLEM_RETURNED, 0, 2, klem_run(branch, sizeof branch, frame, KLEM_FRAME, 100, r, KLEM_RESULT));
    GIVES(KLEM_BREAK, 0, 1, klem_run(breaks, sizeof breaks, frame, KLEM_FRAME, 100, r, KLEM_RESULT));
    GIVES(KLEM_FINISHED, 0, 0, klem_run(breaks, 0, frame, KLEM_FRAME, 0, r, KLEM_RESULT));

    REFUSES(KLEM_UNSET, 14, klem_frame_get(frame, KLEM_FRAME, KLEM_ARG0 + 6, r, KLEM_RESULT));
    GIVES(0, 0, 0, klem_frame_set(frame, KLEM_FRAME, KLEM_ARG0 + 6, 9, r, KLEM_RESULT));
    GIVES(9, 0, 0, klem_frame_get(frame, KLEM_FRAME, KLEM_ARG0 + 6, r, KLEM_RESULT));
    GIVES(0, 0, 0, klem_frame_set(frame, KLEM_FRAME, KLEM_LOCAL0, 5, r, KLEM_RESULT));
    /* a block that the check refuses leaves the frame as it was, word for word: here a flag that is neither 0 nor 1 */
    frame[14] = 77;
    memcpy(before, frame, sizeof frame);
    REFUSES(KLEM_BAD_OPCODE, 5, klem_run(dead, sizeof dead, frame, KLEM_FRAME, 9, r, KLEM_RESULT));
    MUST(memcmp(before, frame, sizeof frame) == 0);
    /* the units stand beside 22 and 23 too, and the frame is as the run left it */
    MUST(answered(KLEM_UNSET, 1, 0, 0, 2, klem_run(unset, sizeof unset, frame, KLEM_FRAME, 9, r, KLEM_RESULT)));
    GIVES(6, 0, 0, klem_frame_get(frame, KLEM_FRAME, KLEM_LOCAL0, r, KLEM_RESULT));
    MUST(answered(KLEM_BUDGET_SPENT, 0, 0, 0, 1, klem_run(unset, sizeof unset, frame, KLEM_FRAME, 1, r, KLEM_RESULT)));
    GIVES(7, 0, 0, klem_frame_get(frame, KLEM_FRAME, KLEM_LOCAL0, r, KLEM_RESULT));
    MUST(frame[14] == 1);
    /* a cell that is not there is refused, and the frame stays as it was, word for word */
    frame[14] = 77;
    memcpy(before, frame, sizeof frame);
    REFUSES(KLEM_BAD_CELL, KLEM_CELLS, klem_frame_set(frame, KLEM_FRAME, KLEM_CELLS, 1, r, KLEM_RESULT));
    REFUSES(KLEM_BAD_CELL, SIZE_MAX, klem_frame_set(frame, KLEM_FRAME, SIZE_MAX, 1, r, KLEM_RESULT));
    MUST(memcmp(before, frame, sizeof frame) == 0);
    REFUSES(KLEM_UNSET, KLEM_CELLS, klem_frame_get(frame, KLEM_FRAME, KLEM_CELLS, r, KLEM_RESULT));
}

/* a fresh frame of that width, with Local0 set */
static void filled(uint64_t *frame, uint64_t width, uint64_t local0) {
    GIVES(0, 0, 0, klem_frame_new(frame, KLEM_FRAME, width, r, KLEM_RESULT));
    GIVES(0, 0, 0, klem_frame_set(frame, KLEM_FRAME, KLEM_LOCAL0, local0, r, KLEM_RESULT));
}

/* Request R-2: what a block that ends in a Return gives in a frame of either width, whose Local0 holds a number */
static void returns(const uint8_t *block, size_t len, uint64_t local0, uint64_t at_32, uint64_t at_64) {
    uint64_t frame[KLEM_FRAME];
    filled(frame, KLEM_BITS32, local0);
    GIVES(KLEM_RETURNED, at_32, 1, klem_run(block, len, frame, KLEM_FRAME, 1, r, KLEM_RESULT));
    MUST(frame[KLEM_WIDTH_AT] == KLEM_BITS32 && frame[KLEM_CELLS] <= UINT32_MAX);
    filled(frame, KLEM_BITS64, local0);
    GIVES(KLEM_RETURNED, at_64, 1, klem_run(block, len, frame, KLEM_FRAME, 1, r, KLEM_RESULT));
    MUST(frame[KLEM_WIDTH_AT] == KLEM_BITS64);
}

#define RETURNS(local0, at_32, at_64, ...)                             \
    do {                                                               \
        static const uint8_t block[] = {0xA4, __VA_ARGS__};            \
        returns(block, sizeof block, local0, at_32, at_64);            \
    } while (0)

static void widths(void) {
    static const uint8_t steps[] = {0x75, 0x60, 0x75, 0x61};
    static const uint8_t dead[] = {0x75, 0x60, 0xA0, 0x04, 0x00, 0x30, 0xA4, 0x00};
    static const uint64_t wrong[] = {0, 1, 31, 33, 63, 65, 128, (uint64_t)1 << 32 | 32, UINT64_MAX};
    const uint64_t over = (uint64_t)1 << 32, large = 0xFEDCBA9876543210, low = 0x76543210;
    uint64_t frame[KLEM_FRAME], before[KLEM_FRAME];
    unsigned i;

    /* the DSDT's revision decides, in its SSDTs too */
    for (i = 0; i < 256; i++) {
        MUST(klem_width_of((uint8_t)i) == (i < 2 ? KLEM_BITS32 : KLEM_BITS64));
        MUST(klem_width_of_ssdt((uint8_t)i, 0) == klem_width_of((uint8_t)i) && klem_width_of_ssdt((uint8_t)i, 255) == klem_width_of((uint8_t)i));
    }

    /* all ones, and true; wrapping; an eight-byte constant; what is compared */
    RETURNS(0, UINT32_MAX, UINT64_MAX, 0xFF);
    RETURNS(5, UINT32_MAX, UINT64_MAX, 0x93, 0x60, 0x0A, 0x05);
    RETURNS(0, UINT32_MAX, UINT64_MAX, 0x92, 0x60);
    RETURNS(UINT32_MAX, 0, over, 0x75, 0x60);
    RETURNS(UINT64_MAX, 0, 0, 0x75, 0x60);
    RETURNS(0, UINT32_MAX, UINT64_MAX, 0x76, 0x60);
    RETURNS(over, UINT32_MAX, UINT32_MAX, 0x76, 0x60);
    RETURNS(UINT32_MAX, 0, over, 0x72, 0x60, 0x01, 0x00);
    RETURNS(UINT32_MAX, 4, over + 4, 0x72, 0x60, 0x0A, 0x05, 0x60);
    RETURNS(0, low, large, 0x0E, 0x10, 0x32, 0x54, 0x76, 0x98, 0xBA, 0xDC, 0xFE);
    RETURNS(0, low, large, 0x70, 0x0E, 0x10, 0x32, 0x54, 0x76, 0x98, 0xBA, 0xDC, 0xFE, 0x60);
    RETURNS(0, UINT32_MAX, UINT32_MAX, 0x0C, 0xFF, 0xFF, 0xFF, 0xFF);
    RETURNS(large, low, large, 0x60);
    RETURNS(large, low, large, 0x7B, 0x60, 0xFF, 0x00);
    RETURNS(over, 0, UINT64_MAX, 0x91, 0x60, 0x00);
    RETURNS(over, UINT32_MAX, 0, 0x93, 0x60, 0x00);
    RETURNS(over, 0, UINT64_MAX, 0x94, 0x60, 0x01);

    /* a frame holds what it was given, until execution begins: then a larger number keeps its low 32 bits, that of an unset cell too */
    filled(frame, KLEM_BITS32, large);
    frame[KLEM_CELLS + 1] = large;
    GIVES(large, 0, 0, klem_frame_get(frame, KLEM_FRAME, KLEM_LOCAL0, r, KLEM_RESULT));
    /* a block that the check refuses, whatever the budget */
    memcpy(before, frame, sizeof frame);
    REFUSES(KLEM_BAD_OPCODE, 5, klem_run(dead, sizeof dead, frame, KLEM_FRAME, 9, r, KLEM_RESULT));
    REFUSES(KLEM_BAD_OPCODE, 5, klem_run(dead, sizeof dead, frame, KLEM_FRAME, 0, r, KLEM_RESULT));
    MUST(memcmp(before, frame, sizeof frame) == 0);
    /* an empty block */
    GIVES(KLEM_FINISHED, 0, 0, klem_run(NULL, 0, frame, KLEM_FRAME, 0, r, KLEM_RESULT));
    GIVES(low, 0, 0, klem_frame_get(frame, KLEM_FRAME, KLEM_LOCAL0, r, KLEM_RESULT));
    MUST(frame[KLEM_CELLS] == low && frame[1] == 0 && frame[KLEM_CELLS + 1] == low);
    /* a first 22, and a 23 */
    filled(frame, KLEM_BITS32, large);
    MUST(answered(KLEM_BUDGET_SPENT, 0, 0, 0, 0, klem_run(steps, sizeof steps, frame, KLEM_FRAME, 0, r, KLEM_RESULT)));
    GIVES(low, 0, 0, klem_frame_get(frame, KLEM_FRAME, KLEM_LOCAL0, r, KLEM_RESULT));
    filled(frame, KLEM_BITS32, large);
    MUST(answered(KLEM_UNSET, 1, 0, 0, 2, klem_run(steps, sizeof steps, frame, KLEM_FRAME, 9, r, KLEM_RESULT)));
    GIVES(low + 1, 0, 0, klem_frame_get(frame, KLEM_FRAME, KLEM_LOCAL0, r, KLEM_RESULT));
    /* in a frame of 64 bits nothing is cut */
    filled(frame, KLEM_BITS64, large);
    frame[KLEM_CELLS + 1] = large;
    GIVES(KLEM_FINISHED, 0, 0, klem_run(NULL, 0, frame, KLEM_FRAME, 0, r, KLEM_RESULT));
    MUST(answered(KLEM_BUDGET_SPENT, 0, 0, 0, 0, klem_run(steps, sizeof steps, frame, KLEM_FRAME, 0, r, KLEM_RESULT)));
    MUST(frame[KLEM_CELLS] == large && frame[KLEM_CELLS + 1] == large);

    /* a width that is neither is told before the block and before the cell, and the frame stays as it was, word for word */
    for (i = 0; i < sizeof wrong / sizeof *wrong; i++) {
        memset(frame, 0xA5, sizeof frame);
        frame[KLEM_WIDTH_AT] = wrong[i];
        memcpy(before, frame, sizeof frame);
        REFUSES(KLEM_BAD_WIDTH, wrong[i], klem_run(steps, sizeof steps, frame, KLEM_FRAME, 9, r, KLEM_RESULT));
        REFUSES(KLEM_BAD_WIDTH, wrong[i], klem_run(NULL, 0, frame, KLEM_FRAME, 0, r, KLEM_RESULT));
        REFUSES(KLEM_BAD_WIDTH, wrong[i], klem_run(dead, sizeof dead, frame, KLEM_FRAME, 9, r, KLEM_RESULT));
        REFUSES(KLEM_BAD_WIDTH, wrong[i], klem_frame_new(frame, KLEM_FRAME, wrong[i], r, KLEM_RESULT));
        REFUSES(KLEM_BAD_WIDTH, wrong[i], klem_frame_get(frame, KLEM_FRAME, KLEM_LOCAL0, r, KLEM_RESULT));
        REFUSES(KLEM_BAD_WIDTH, wrong[i], klem_frame_get(frame, KLEM_FRAME, KLEM_CELLS, r, KLEM_RESULT));
        REFUSES(KLEM_BAD_WIDTH, wrong[i], klem_frame_set(frame, KLEM_FRAME, KLEM_LOCAL0, 1, r, KLEM_RESULT));
        REFUSES(KLEM_BAD_WIDTH, wrong[i], klem_frame_set(frame, KLEM_FRAME, KLEM_CELLS, 1, r, KLEM_RESULT));
        MUST(memcmp(before, frame, sizeof frame) == 0);
        /* a frame is made of any words */
        GIVES(0, 0, 0, klem_frame_new(frame, KLEM_FRAME, KLEM_BITS32, r, KLEM_RESULT));
        MUST(frame[KLEM_WIDTH_AT] == KLEM_BITS32);
        /* and a good one stays where the width that is asked for is none */
        filled(frame, KLEM_BITS32, large);
        memcpy(before, frame, sizeof frame);
        REFUSES(KLEM_BAD_WIDTH, wrong[i], klem_frame_new(frame, KLEM_FRAME, wrong[i], r, KLEM_RESULT));
        MUST(memcmp(before, frame, sizeof frame) == 0);
    }
}

/* the count of a path: two bytes, low first */
static void counts(void) {
    uint8_t out[KLEM_PATH];
    uint8_t bytes[KLEM_COMPONENT_BYTES] = {'\\', 0, 0, 0, 'A', '_', '_', '_'};
    struct path p = path("\\A");
    size_t i;

    MUST(KLEM_PATH == 2 + 4 * KLEM_COMPONENTS && sizeof bytes == KLEM_PATH - 2);
    MUST(p.bytes[0] == 2 && p.bytes[1] == 0 && memcmp(p.bytes + 2, bytes, sizeof bytes) == 0);
    /* the high byte counts: 258 components are too many, and are not taken for two */
    p.bytes[1] = 1;
    REFUSES(KLEM_BAD_PATH, 0, klem_is_normal(p.bytes, KLEM_PATH, r, KLEM_RESULT));
    REFUSES_OUT(KLEM_BAD_PATH, 0, klem_from_components(258, bytes, sizeof bytes, out, KLEM_PATH, r, KLEM_RESULT));
    REFUSES_OUT(KLEM_BAD_PATH, 0, klem_from_components(65538, bytes, sizeof bytes, out, KLEM_PATH, r, KLEM_RESULT));
    REFUSES_OUT(KLEM_BAD_PATH, 0, klem_from_components(SIZE_MAX, bytes, sizeof bytes, out, KLEM_PATH, r, KLEM_RESULT));
    /* the longest path: it is given, lent again, and written as text */
    for (i = 1; i < KLEM_COMPONENTS; i++) memcpy(bytes + 4 * i, "ABCD", 4);
    GIVES(0, 0, 0, klem_from_components(KLEM_COMPONENTS, bytes, sizeof bytes, out, KLEM_PATH, r, KLEM_RESULT));
    MUST(out[0] == KLEM_COMPONENTS && out[1] == 0 && memcmp(out + 2, bytes, sizeof bytes) == 0);
    GIVES(1, 0, 0, klem_is_absolute(out, KLEM_PATH, r, KLEM_RESULT));
    REFUSES_OUT(KLEM_BAD_PATH, 0, klem_from_components(KLEM_COMPONENTS + 1, bytes, sizeof bytes, out, KLEM_PATH, r, KLEM_RESULT));
    memcpy(bytes, "WXYZ", 4);
    GIVES(0, 0, 0, klem_from_components(KLEM_COMPONENTS, bytes, sizeof bytes, out, KLEM_PATH, r, KLEM_RESULT));
    {
        uint8_t text[KLEM_TEXT_BYTES];
        GIVES(KLEM_TEXT_BYTES, 0, 0, klem_as_string(out, KLEM_PATH, text, sizeof text, r, KLEM_RESULT));
        REFUSES(KLEM_OUT_TOO_SMALL, 0, klem_as_string(out, KLEM_PATH, text, sizeof text - 1, r, KLEM_RESULT));
    }
}

/* a length of 0 takes a null pointer */
static void nulls(void) {
    uint8_t out[KLEM_PATH];
    uint64_t frame[KLEM_FRAME];
    struct path p = path("\\A");

    REFUSES(KLEM_UNEXPECTED_END_OF_STREAM, 0, klem_pkg_length(NULL, 0, r, KLEM_RESULT));
    REFUSES(KLEM_UNEXPECTED_END_OF_STREAM, 0, klem_raw_pkg_length(NULL, 0, r, KLEM_RESULT));
    GIVES(0, 0, 0, klem_from_raw_length(NULL, 0, 0, r, KLEM_RESULT));
    REFUSES(KLEM_INVALID_PKG_LENGTH, 0, klem_from_raw_length(NULL, 0, 1, r, KLEM_RESULT));
    MUST(!klem_still_parsing(0, 0, NULL, 0));
    REFUSES_OUT(KLEM_UNEXPECTED_END_OF_STREAM, 0, klem_name_string(NULL, 0, out, KLEM_PATH, r, KLEM_RESULT));
    REFUSES_OUT(KLEM_EMPTY_NAMES_ARE_INVALID, 0, klem_from_str(NULL, 0, out, KLEM_PATH, r, KLEM_RESULT));
    REFUSES(KLEM_OUT_TOO_SMALL, 0, klem_as_string(p.bytes, KLEM_PATH, NULL, 0, r, KLEM_RESULT));
    MUST(!klem_well_formed(NULL, 0));
    REFUSES(KLEM_BAD_TABLE, 0, klem_table_new(NULL, 0, r, KLEM_RESULT));
    REFUSES(KLEM_BAD_TABLE, 0, klem_add_level(NULL, 0, p.bytes, KLEM_PATH, KLEM_SCOPE, r, KLEM_RESULT));
    REFUSES(KLEM_BAD_TABLE, 0, klem_get(NULL, 0, 0, r, KLEM_RESULT));
    REFUSES(KLEM_BAD_TABLE, 0, klem_image_write(NULL, 0, NULL, 0, r, KLEM_RESULT));
    REFUSES(KLEM_BAD_TABLE, 0, klem_image_read(NULL, 0, NULL, 0, r, KLEM_RESULT));
    GIVES(0, 0, 0, klem_check(NULL, 0, r, KLEM_RESULT));
    GIVES(0, 0, 0, klem_frame_new(frame, KLEM_FRAME, KLEM_BITS32, r, KLEM_RESULT));
    GIVES(KLEM_FINISHED, 0, 0, klem_run(NULL, 0, frame, KLEM_FRAME, 9, r, KLEM_RESULT));
    /* and where the length is fixed it is a wrong one */
    MUST(klem_root(NULL, 0, r, KLEM_RESULT) == KLEM_BAD_SLICE);
    MUST(klem_root(out, KLEM_PATH, NULL, 0) == KLEM_BAD_SLICE);
    MUST(klem_frame_new(NULL, 0, KLEM_BITS64, r, KLEM_RESULT) == KLEM_BAD_SLICE);
}

/* all memory of the calls below, one element longer than it must be */
static struct {
    uint64_t result[KLEM_RESULT + 1], table[KLEM_TABLE + 1], frame[KLEM_FRAME + 1];
    uint8_t input[8], seg[KLEM_SEGMENT + 1], bytes[KLEM_COMPONENT_BYTES + 1], text[KLEM_TEXT_BYTES];
    uint8_t out[KLEM_PATH + 1], path[KLEM_PATH + 1], scope[KLEM_PATH + 1], target[KLEM_PATH + 1];
    uint64_t list[KLEM_LEVELS];
    uint8_t image[6];
} m, kept;

#define UNTOUCHED(call)                           \
    do {                                          \
        memcpy(&kept, &m, sizeof m);              \
        MUST((call) == KLEM_BAD_SLICE);           \
        MUST(memcmp(&kept, &m, sizeof m) == 0);   \
    } while (0)
/* a call with n for a length that is fixed: where n is another, nothing is written, to the result neither */
#define WRONG(length, call)                       \
    do {                                          \
        size_t n = 0;                             \
        UNTOUCHED(call);                          \
        n = (length) - 1;                         \
        UNTOUCHED(call);                          \
        n = (length) + 1;                         \
        UNTOUCHED(call);                          \
    } while (0)
/* pointers with their right lengths, and the result with n */
#define R m.result, KLEM_RESULT
#define RN m.result, n
#define T m.table, KLEM_TABLE
#define OUT m.out, KLEM_PATH
#define PATH m.path, KLEM_PATH
#define SCOPE m.scope, KLEM_PATH
#define TARGET m.target, KLEM_PATH
#define FRAME m.frame, KLEM_FRAME
#define INPUT m.input, sizeof m.input

static void misuse(void) {
    memset(&m, 0, sizeof m);
    memcpy(m.path, path("\\A").bytes, KLEM_PATH);
    memcpy(m.scope, path("\\").bytes, KLEM_PATH);
    memcpy(m.target, path("\\X").bytes, KLEM_PATH);
    memcpy(m.seg, "ABCD", 4);
    memcpy(m.bytes, "ABCD", 4);
    memset(m.result, 0xA5, sizeof m.result);
    memset(m.out, 0xA5, sizeof m.out);
    memset(m.text, 0xA5, sizeof m.text);
    m.image[0] = 0x10;
    m.frame[0] = 77;
    m.frame[KLEM_WIDTH_AT] = KLEM_BITS64;
    MUST(klem_table_new(T, r, KLEM_RESULT) == KLEM_OK);
    MUST(klem_add_value(T, TARGET, 5, r, KLEM_RESULT) == KLEM_OK);

    WRONG(KLEM_RESULT, klem_pkg_length(INPUT, RN));
    WRONG(KLEM_RESULT, klem_raw_pkg_length(INPUT, RN));
    WRONG(KLEM_RESULT, klem_from_raw_length(INPUT, 4, RN));
    WRONG(KLEM_RESULT, klem_name_string(INPUT, OUT, RN));
    WRONG(KLEM_PATH, klem_name_string(INPUT, m.out, n, R));
    WRONG(KLEM_RESULT, klem_root(OUT, RN));
    WRONG(KLEM_PATH, klem_root(m.out, n, R));
    WRONG(KLEM_RESULT, klem_from_name_seg(m.seg, KLEM_SEGMENT, OUT, RN));
    WRONG(KLEM_PATH, klem_from_name_seg(m.seg, KLEM_SEGMENT, m.out, n, R));
    WRONG(KLEM_SEGMENT, klem_from_name_seg(m.seg, n, OUT, R));
    WRONG(KLEM_RESULT, klem_from_components(1, m.bytes, KLEM_COMPONENT_BYTES, OUT, RN));
    WRONG(KLEM_PATH, klem_from_components(1, m.bytes, KLEM_COMPONENT_BYTES, m.out, n, R));
    WRONG(KLEM_COMPONENT_BYTES, klem_from_components(1, m.bytes, n, OUT, R));
    WRONG(KLEM_RESULT, klem_from_str(m.seg, KLEM_SEGMENT, OUT, RN));
    WRONG(KLEM_PATH, klem_from_str(m.seg, KLEM_SEGMENT, m.out, n, R));
    WRONG(KLEM_RESULT, klem_as_string(PATH, m.text, sizeof m.text, RN));
    WRONG(KLEM_PATH, klem_as_string(m.path, n, m.text, sizeof m.text, R));
    WRONG(KLEM_RESULT, klem_is_normal(PATH, RN));
    WRONG(KLEM_PATH, klem_is_normal(m.path, n, R));
    WRONG(KLEM_RESULT, klem_is_absolute(PATH, RN));
    WRONG(KLEM_PATH, klem_is_absolute(m.path, n, R));
    WRONG(KLEM_RESULT, klem_search_rules_apply(PATH, RN));
    WRONG(KLEM_PATH, klem_search_rules_apply(m.path, n, R));
    WRONG(KLEM_RESULT, klem_normalize(PATH, OUT, RN));
    WRONG(KLEM_PATH, klem_normalize(m.path, n, OUT, R));
    WRONG(KLEM_PATH, klem_normalize(PATH, m.out, n, R));
    WRONG(KLEM_RESULT, klem_parent(PATH, OUT, RN));
    WRONG(KLEM_PATH, klem_parent(m.path, n, OUT, R));
    WRONG(KLEM_PATH, klem_parent(PATH, m.out, n, R));
    WRONG(KLEM_RESULT, klem_resolve(PATH, SCOPE, OUT, RN));
    WRONG(KLEM_PATH, klem_resolve(m.path, n, SCOPE, OUT, R));
    WRONG(KLEM_PATH, klem_resolve(PATH, m.scope, n, OUT, R));
    WRONG(KLEM_PATH, klem_resolve(PATH, SCOPE, m.out, n, R));

    WRONG(KLEM_RESULT, klem_table_new(T, RN));
    WRONG(KLEM_RESULT, klem_add_level(T, PATH, KLEM_SCOPE, RN));
    WRONG(KLEM_PATH, klem_add_level(T, m.path, n, KLEM_SCOPE, R));
    WRONG(KLEM_RESULT, klem_remove_level(T, PATH, RN));
    WRONG(KLEM_PATH, klem_remove_level(T, m.path, n, R));
    WRONG(KLEM_RESULT, klem_add_value(T, PATH, 1, RN));
    WRONG(KLEM_PATH, klem_add_value(T, m.path, n, 1, R));
    WRONG(KLEM_RESULT, klem_add_value_at_resolved_path(T, PATH, SCOPE, 1, RN));
    WRONG(KLEM_PATH, klem_add_value_at_resolved_path(T, m.path, n, SCOPE, 1, R));
    WRONG(KLEM_PATH, klem_add_value_at_resolved_path(T, PATH, m.scope, n, 1, R));
    WRONG(KLEM_RESULT, klem_add_alias_at_resolved_path(T, PATH, SCOPE, TARGET, RN));
    WRONG(KLEM_PATH, klem_add_alias_at_resolved_path(T, m.path, n, SCOPE, TARGET, R));
    WRONG(KLEM_PATH, klem_add_alias_at_resolved_path(T, PATH, m.scope, n, TARGET, R));
    WRONG(KLEM_PATH, klem_add_alias_at_resolved_path(T, PATH, SCOPE, m.target, n, R));
    WRONG(KLEM_RESULT, klem_get(T, 0, RN));
    WRONG(KLEM_RESULT, klem_set(T, 0, 9, RN));
    WRONG(KLEM_RESULT, klem_get_handle(T, TARGET, RN));
    WRONG(KLEM_PATH, klem_get_handle(T, m.target, n, R));
    WRONG(KLEM_RESULT, klem_get_by_path(T, TARGET, RN));
    WRONG(KLEM_PATH, klem_get_by_path(T, m.target, n, R));
    WRONG(KLEM_RESULT, klem_set_by_path(T, TARGET, 9, RN));
    WRONG(KLEM_PATH, klem_set_by_path(T, m.target, n, 9, R));
    WRONG(KLEM_RESULT, klem_search(T, TARGET, SCOPE, OUT, RN));
    WRONG(KLEM_PATH, klem_search(T, m.target, n, SCOPE, OUT, R));
    WRONG(KLEM_PATH, klem_search(T, TARGET, m.scope, n, OUT, R));
    WRONG(KLEM_PATH, klem_search(T, TARGET, SCOPE, m.out, n, R));
    WRONG(KLEM_RESULT, klem_search_for_level(T, TARGET, SCOPE, OUT, RN));
    WRONG(KLEM_PATH, klem_search_for_level(T, m.target, n, SCOPE, OUT, R));
    WRONG(KLEM_PATH, klem_search_for_level(T, TARGET, m.scope, n, OUT, R));
    WRONG(KLEM_PATH, klem_search_for_level(T, TARGET, SCOPE, m.out, n, R));
    WRONG(KLEM_RESULT, klem_levels(T, TARGET, m.list, KLEM_LEVELS, RN));
    WRONG(KLEM_PATH, klem_levels(T, m.target, n, m.list, KLEM_LEVELS, R));
    WRONG(KLEM_RESULT, klem_image_write(T, m.text, sizeof m.text, RN));
    WRONG(KLEM_RESULT, klem_image_read(m.image, sizeof m.image, T, RN));

    WRONG(KLEM_RESULT, klem_check(INPUT, RN));
    WRONG(KLEM_RESULT, klem_run(INPUT, FRAME, 9, RN));
    WRONG(KLEM_FRAME, klem_run(INPUT, m.frame, n, 9, R));
    WRONG(KLEM_RESULT, klem_frame_new(FRAME, KLEM_BITS64, RN));
    WRONG(KLEM_FRAME, klem_frame_new(m.frame, n, KLEM_BITS32, R));
    WRONG(KLEM_RESULT, klem_frame_get(FRAME, KLEM_LOCAL0, RN));
    WRONG(KLEM_FRAME, klem_frame_get(m.frame, n, KLEM_LOCAL0, R));
    WRONG(KLEM_RESULT, klem_frame_set(FRAME, KLEM_LOCAL0, 9, RN));
    WRONG(KLEM_FRAME, klem_frame_set(m.frame, n, KLEM_LOCAL0, 9, R));

    /* a slice of a wrong length is found before a wrong type, a wrong cell, a wrong width and memory that is no table */
    UNTOUCHED(klem_add_level(T, m.path, 0, KLEM_METHOD_LOCALS + 1, R));
    UNTOUCHED(klem_frame_set(m.frame, 0, KLEM_CELLS, 9, R));
    m.frame[KLEM_WIDTH_AT] = 33;
    WRONG(KLEM_FRAME, klem_run(INPUT, m.frame, n, 9, R));
    WRONG(KLEM_FRAME, klem_frame_new(m.frame, n, 33, R));
    WRONG(KLEM_FRAME, klem_frame_get(m.frame, n, KLEM_LOCAL0, R));
    WRONG(KLEM_FRAME, klem_frame_set(m.frame, n, KLEM_LOCAL0, 9, R));
    WRONG(KLEM_RESULT, klem_run(INPUT, FRAME, 9, RN));
    WRONG(KLEM_RESULT, klem_frame_new(FRAME, 33, RN));
    WRONG(KLEM_RESULT, klem_frame_get(FRAME, KLEM_LOCAL0, RN));
    WRONG(KLEM_RESULT, klem_frame_set(FRAME, KLEM_LOCAL0, 9, RN));
    UNTOUCHED(klem_add_level(m.table, KLEM_TABLE - 1, m.path, 0, KLEM_SCOPE, R));
    /* and a wrong type before memory that is no table or no path */
    m.path[1] = 1;
    MUST(klem_add_level(m.table, KLEM_TABLE - 1, PATH, KLEM_METHOD_LOCALS + 1, R) == KLEM_BAD_TYPE && m.result[0] == KLEM_BAD_TYPE && m.result[1] == 0);
    MUST(klem_add_level(m.table, KLEM_TABLE - 1, PATH, UINT64_MAX, R) == KLEM_BAD_TYPE);
}

int main(void) {
    package_lengths();
    whole_tables();
    names();
    paths();
    tables();
    blocks();
    widths();
    counts();
    nulls();
    misuse();
    printf("klem_test: %u answers, all as they must be\n", checked);
    return 0;
}
