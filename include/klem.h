/* Klemovarith: whole tables, names, paths, the namespace and control blocks of ACPI byte code, proved.
 *
 * Every function takes any bytes and numbers, ends, and never traps. All memory is the caller's; nothing is kept between calls, so
 * that any number of calls may run at once on different memory.
 *
 * Memory. A pointer is followed by its length, counted in elements: bytes of a uint8_t, words of a uint64_t. What the two name must be
 * readable, writable where it is not const, and must not change during the call. Words are aligned to 8 bytes; bytes may stand
 * anywhere. With a length of 0 the pointer may be null.
 * Memory that a call may write (it is not const) must not overlap any other memory of the same call. What is const may overlap what
 * is const: one path may be given as path and as scope.
 *
 * Paths. A path is KLEM_PATH bytes: how many components it has, in two bytes, low first, then KLEM_COMPONENTS components of four
 * bytes: 5C 00 00 00 is `\`, 5E 00 00 00 is `^`, anything else is a segment; spare bytes are zero. Equal paths have equal bytes.
 * Memory that holds no path is refused (26).
 *
 * Answers. A call that can refuse writes KLEM_RESULT words:
 *   result[0]   0: it gives the values; else the number of its refusal: 1 to 44 of the table of refusals, or one of the library's own
 *   result[1]   the refusal's place, 0 where it has none
 *   result[2..] the values, as each function says; 0 for those that it does not name, and all 0 on a refusal (but see klem_run)
 * and returns result[0]. Where a slice whose length is fixed has another length, the call returns KLEM_BAD_SLICE and writes nothing,
 * to the result neither. The table is the exception: its length is refused by 24.
 * A path that a call gives is written to `out`; a call that refuses leaves `out` as it was.
 *
 * `refuses` below lists a call's numbers in the order in which they are tested; docs/REFUSALS.md has what each means and its place.
 * KLEM_BAD_SLICE is tested before them all.
 *
 * What a call asks of the processor and the stack. x86-64 with SSE2 switched on: xmm registers are used and not preserved. A stack that
 * is aligned to 16 at the call, has KLEM_STACK bytes, and is not written below its pointer by interrupts: the red zone is used. No
 * indirect branch tracking (IBT) during the call: the code has indirect jumps and no endbr64. A run costs at most budget times the bytes
 * of its block. A kernel must read bindings/README.md before its first call.
 */
#ifndef KLEM_H
#define KLEM_H

/* The types. Linux has the integers in a place of its own. C before 1999 has no bool; a byte that is 0 or 1 is returned as a bool is. */
#ifdef __KERNEL__
#include <linux/types.h>
#else
#include <stddef.h>
#include <stdint.h>
#endif
#if defined(__cplusplus)
typedef bool klem_bool;
#elif defined(__KERNEL__) || (defined(__STDC_VERSION__) && __STDC_VERSION__ >= 199901L)
typedef _Bool klem_bool;
#else
typedef unsigned char klem_bool;
#endif

#ifdef __cplusplus
extern "C" {
#endif

/* The version of this interface. A new number or a new call changes MINOR; what a program must be changed for changes MAJOR, or MINOR
 * while MAJOR is 0. */
#define KLEM_VERSION_MAJOR 0
#define KLEM_VERSION_MINOR 8
#define KLEM_VERSION_PATCH 0

/* Lengths of slices */
#define KLEM_RESULT 8            /* words of a result */
#define KLEM_PATH 130            /* bytes of a path: two for the count, 128 for the components */
#define KLEM_TABLE 1153          /* words of a table: 128 levels, 512 bindings, the count of objects, 512 objects */
#define KLEM_FRAME 31            /* words of a frame: 15 flags, 15 numbers, their width */
#define KLEM_SEGMENT 4           /* bytes of a segment, and of a signature */
#define KLEM_HEADER_REST 26      /* bytes 10 to 35 of a header */
#define KLEM_COMPONENT_BYTES 128 /* bytes of all components of a path */

/* Limits */
#define KLEM_HEADER 36           /* bytes of a header: the body of a whole table starts there */
#define KLEM_BODY_BYTES 4294967259 /* bytes of the longest body */
#define KLEM_COMPONENTS 32       /* components of a path */
#define KLEM_LEVELS 128          /* levels of a table, the root counted */
#define KLEM_BINDINGS 512        /* bindings of a table */
#define KLEM_OBJECTS 512         /* objects of a table */
#define KLEM_BLOCK_BYTES 65536   /* bytes of a block, and of the input of klem_pkg_length and klem_raw_pkg_length */
#define KLEM_TEXT_BYTES 159      /* bytes of the longest text of a path, without an end mark */
#define KLEM_IMAGE_BYTES 7599    /* bytes of the largest image of a table */
#define KLEM_DEPTH 16            /* how deep statements and terms may stand in each other */
#define KLEM_STACK 8704          /* bytes of stack that a check or a run needs at the most */
#define KLEM_STACK_OTHER 3500    /* bytes of stack that any other call needs at the most */

/* The table of refusals */
#define KLEM_OK 0
#define KLEM_UNEXPECTED_END_OF_STREAM 1
#define KLEM_INVALID_PKG_LENGTH 2
#define KLEM_BAD_OPCODE 3
#define KLEM_TOO_DEEP 4
#define KLEM_BLOCK_TOO_LONG 5
#define KLEM_BAD_NAME_BYTE 6
#define KLEM_EMPTY_NAMES_ARE_INVALID 7
#define KLEM_INVALID_NAME_SEG 8
#define KLEM_TOO_MANY_COMPONENTS 9
#define KLEM_INVALID_NORMALIZED_NAME 10
#define KLEM_NOT_ABSOLUTE 11
#define KLEM_ROOT_HAS_NO_PARENT 12
#define KLEM_ROOT_NOT_ALLOWED 13
#define KLEM_TRIED_TO_REMOVE_ROOT_NAMESPACE 14
#define KLEM_LEVEL_DOES_NOT_EXIST 15
#define KLEM_VALUE_DOES_NOT_EXIST 16
#define KLEM_NAME_COLLISION 17
#define KLEM_LEVELS_FULL 18
#define KLEM_BINDINGS_FULL 19
#define KLEM_OBJECTS_FULL 20
#define KLEM_NO_SUCH_HANDLE 21
#define KLEM_BUDGET_SPENT 22
#define KLEM_UNSET 23
#define KLEM_BAD_TABLE 24
#define KLEM_OUT_TOO_SMALL 25
#define KLEM_BAD_PATH 26
#define KLEM_TABLE_TOO_SHORT 27
#define KLEM_BAD_SIGNATURE 28
#define KLEM_BAD_TABLE_LENGTH 29
#define KLEM_BAD_CHECKSUM 30
#define KLEM_PACKAGE_ENDS_EARLY 31
#define KLEM_IMAGE_ENDED_EARLY 32
#define KLEM_IMAGE_EDITION 33
#define KLEM_IMAGE_COUNT 34
#define KLEM_IMAGE_DEPTH 35
#define KLEM_IMAGE_TYPE 36
#define KLEM_IMAGE_SEGMENT 37
#define KLEM_IMAGE_ORDER 38
#define KLEM_IMAGE_DEEP_BINDINGS 39
#define KLEM_IMAGE_BINDINGS_OVER 40
#define KLEM_IMAGE_BINDINGS_SHORT 41
#define KLEM_IMAGE_HANDLE 42
#define KLEM_IMAGE_SPARE_BITS 43
#define KLEM_IMAGE_BYTES_LEFT 44

/* The library's own, apart from the table, which may grow */
#define KLEM_BAD_SLICE 1001 /* a slice whose length is fixed has another; nothing is written */
#define KLEM_BAD_TYPE 1002  /* a level's type is over 5 */
#define KLEM_BAD_CELL 1003  /* klem_frame_set of a cell over 14, its place; the frame stays as it was */
#define KLEM_BAD_WIDTH 1004 /* a width that is neither 32 nor 64, its place; the frame stays as it was */

/* Signatures of a whole table */
#define KLEM_DSDT 0
#define KLEM_SSDT 1

/* Types of a level */
#define KLEM_SCOPE 0
#define KLEM_DEVICE 1
#define KLEM_PROCESSOR 2
#define KLEM_POWER_RESOURCE 3
#define KLEM_THERMAL_ZONE 4
#define KLEM_METHOD_LOCALS 5

/* A level in a word of klem_levels: its depth, its type, and byte i of its segment, from 0 to 3 */
#define KLEM_LEVEL_DEPTH(word) ((word) >> 40)
#define KLEM_LEVEL_TYPE(word) ((word) >> 32 & 255)
#define KLEM_LEVEL_BYTE(word, i) ((word) >> 8 * (i) & 255)

/* How a run ended */
#define KLEM_FINISHED 0
#define KLEM_RETURNED 1
#define KLEM_BREAK 2
#define KLEM_CONTINUE 3

/* Cells of a frame: Local0 to Local7, then Arg0 to Arg6 */
#define KLEM_LOCAL0 0
#define KLEM_ARG0 8
#define KLEM_CELLS 15

/* The width of a frame: which word holds it, and what it may be */
#define KLEM_WIDTH_AT 30
#define KLEM_BITS32 32
#define KLEM_BITS64 64

/* Package lengths. The readers share a limit of 65,536 bytes */

/* a package length at the front of input, which must hold the package. values: raw length, end offset, bytes used. refuses: 5, 1, 2 */
uint64_t klem_pkg_length(const uint8_t *input, size_t input_len, uint64_t *result, size_t result_len);
/* the length alone, whatever input holds. values: raw length, bytes used. refuses: 5, 1 */
uint64_t klem_raw_pkg_length(const uint8_t *input, size_t input_len, uint64_t *result, size_t result_len);
/* a raw length fitted to a stream. values: raw length, end offset. refuses: 2 */
uint64_t klem_from_raw_length(const uint8_t *stream, size_t stream_len, size_t raw_length, uint64_t *result, size_t result_len);
/* whether the stream, of which the front is read, is still within the package with this end offset */
klem_bool klem_still_parsing(size_t raw_length, size_t end_offset, const uint8_t *stream, size_t stream_len);

/* Whole ACPI tables: a header of KLEM_HEADER bytes, then the body. They have nothing to do with the table of the namespace below */

/* the header at the front of any bytes; what stands after the stated length is not looked at. The body stands at table + KLEM_HEADER up to
 * table + the third value. values: KLEM_DSDT or KLEM_SSDT, the revision, where the body ends. refuses: 27, 28, 29, 30 */
uint64_t klem_header_read(const uint8_t *table, size_t table_len, uint64_t *result, size_t result_len);
/* a header and then the body, at the start of out; length and checksum are worked out, what follows stays. signature: KLEM_SEGMENT bytes;
 * rest: bytes 10 to 35. values: the bytes written. refuses: 28, 29 (the body is over KLEM_BODY_BYTES), 25 (out stays) */
uint64_t klem_header_write(const uint8_t *signature, size_t signature_len, uint8_t revision, const uint8_t *rest, size_t rest_len, const uint8_t *body, size_t body_len, uint8_t *out, size_t out_len, uint64_t *result, size_t result_len);

/* Names */

klem_bool klem_is_lead_name_char(uint8_t byte);
klem_bool klem_is_digit_char(uint8_t byte);
klem_bool klem_is_name_char(uint8_t byte);
/* a NameString at the front of input. out: the path. values: bytes used. refuses: 1, 6 (whichever comes first), 7, 9 */
uint64_t klem_name_string(const uint8_t *input, size_t input_len, uint8_t *out, size_t out_len, uint64_t *result, size_t result_len);

/* Paths */

/* out: `\`. refuses: nothing */
uint64_t klem_root(uint8_t *out, size_t out_len, uint64_t *result, size_t result_len);
/* a segment of four bytes. out: the path of it alone. refuses: 26 */
uint64_t klem_from_name_seg(const uint8_t *seg, size_t seg_len, uint8_t *out, size_t out_len, uint64_t *result, size_t result_len);
/* any count and 128 bytes. out: the path. refuses: 26 */
uint64_t klem_from_components(size_t count, const uint8_t *bytes, size_t bytes_len, uint8_t *out, size_t out_len, uint64_t *result, size_t result_len);
/* text. out: the path. refuses: 7, 8, 9 */
uint64_t klem_from_str(const uint8_t *text, size_t text_len, uint8_t *out, size_t out_len, uint64_t *result, size_t result_len);
/* writes the text of a path, at most 159 bytes, at the start of text; what follows it stays, and no end mark is written.
 * values: its length. refuses: 26, 25 (it does not fit; text stays) */
uint64_t klem_as_string(const uint8_t *path, size_t path_len, uint8_t *text, size_t text_len, uint64_t *result, size_t result_len);
/* whether a path has no `^`; starts at `\`; is one bare segment. values: 1 where it is so, else 0. refuses: 26 */
uint64_t klem_is_normal(const uint8_t *path, size_t path_len, uint64_t *result, size_t result_len);
uint64_t klem_is_absolute(const uint8_t *path, size_t path_len, uint64_t *result, size_t result_len);
uint64_t klem_search_rules_apply(const uint8_t *path, size_t path_len, uint64_t *result, size_t result_len);
/* each `^` takes away the segment before it. out: the path. refuses: 26, 10 */
uint64_t klem_normalize(const uint8_t *path, size_t path_len, uint8_t *out, size_t out_len, uint64_t *result, size_t result_len);
/* the normal form without its last segment. out: the path. refuses: 26, 10, 12 */
uint64_t klem_parent(const uint8_t *path, size_t path_len, uint8_t *out, size_t out_len, uint64_t *result, size_t result_len);
/* a path seen from a scope, normal. out: the path. refuses: 26, 11, 10, 9 */
uint64_t klem_resolve(const uint8_t *path, size_t path_len, const uint8_t *scope, size_t scope_len, uint8_t *out, size_t out_len, uint64_t *result, size_t result_len);

/* The table: KLEM_TABLE words, whatever they hold (24 where they hold no table); a call that refuses leaves it as it was */

/* whether the words hold a table */
klem_bool klem_well_formed(const uint64_t *table, size_t table_len);
/* writes a fresh table: the root alone. refuses: 24 (the length alone) */
uint64_t klem_table_new(uint64_t *table, size_t table_len, uint64_t *result, size_t result_len);
/* adds a level; one that is there stays as it is. typ: KLEM_SCOPE to KLEM_METHOD_LOCALS. refuses: KLEM_BAD_TYPE, 24, 26, 11, 10, 15, 18 */
uint64_t klem_add_level(uint64_t *table, size_t table_len, const uint8_t *path, size_t path_len, uint64_t typ, uint64_t *result, size_t result_len);
/* removes a level and all below it; objects stay readable by their handles. refuses: 24, 26, 11, 10, 14, 15 */
uint64_t klem_remove_level(uint64_t *table, size_t table_len, const uint8_t *path, size_t path_len, uint64_t *result, size_t result_len);
/* binds a path to a new object. values: the handle. refuses: 24, 26, 11, 10, 13, 15, 17, 19, 20 */
uint64_t klem_add_value(uint64_t *table, size_t table_len, const uint8_t *path, size_t path_len, uint64_t value, uint64_t *result, size_t result_len);
/* the same at a path that is resolved against a scope. refuses: 24, 26, 11, 10, 9, 13, 15, 17, 19, 20 */
uint64_t klem_add_value_at_resolved_path(uint64_t *table, size_t table_len, const uint8_t *path, size_t path_len, const uint8_t *scope, size_t scope_len, uint64_t value, uint64_t *result, size_t result_len);
/* binds a path to what the target is bound to; both are resolved against the scope. values: the handle.
 * refuses: 24, 26, 11, 10, 9, then the target's 13, 15, 16, then the path's 13, 15, 17, 19 */
uint64_t klem_add_alias_at_resolved_path(uint64_t *table, size_t table_len, const uint8_t *path, size_t path_len, const uint8_t *scope, size_t scope_len, const uint8_t *target, size_t target_len, uint64_t *result, size_t result_len);
/* values: the object of a handle. refuses: 24, 21 */
uint64_t klem_get(const uint64_t *table, size_t table_len, uint32_t handle, uint64_t *result, size_t result_len);
/* writes the object of a handle. refuses: 24, 21 */
uint64_t klem_set(uint64_t *table, size_t table_len, uint32_t handle, uint64_t value, uint64_t *result, size_t result_len);
/* exact lookup. values: the handle. refuses: 24, 26, 11, 10, 13, 15, 16 */
uint64_t klem_get_handle(const uint64_t *table, size_t table_len, const uint8_t *path, size_t path_len, uint64_t *result, size_t result_len);
/* the same, to the object. values: the object. refuses: as klem_get_handle */
uint64_t klem_get_by_path(const uint64_t *table, size_t table_len, const uint8_t *path, size_t path_len, uint64_t *result, size_t result_len);
/* the same, and writes the object. refuses: as klem_get_handle */
uint64_t klem_set_by_path(uint64_t *table, size_t table_len, const uint8_t *path, size_t path_len, uint64_t value, uint64_t *result, size_t result_len);
/* a bare segment is asked for in the scope and each one around it, any other path is looked up from the scope.
 * out: the full name. values: the handle, the scopes asked. refuses: 24, 26, 11, 10, 9, 13, 15, 16 */
uint64_t klem_search(const uint64_t *table, size_t table_len, const uint8_t *path, size_t path_len, const uint8_t *scope, size_t scope_len, uint8_t *out, size_t out_len, uint64_t *result, size_t result_len);
/* the same over levels; a path that is not one bare segment is given back unchanged, with 0 asked.
 * out: the full name. values: the scopes asked. refuses: 24, 26, 11, 10, 15 */
uint64_t klem_search_for_level(const uint64_t *table, size_t table_len, const uint8_t *path, size_t path_len, const uint8_t *scope, size_t scope_len, uint8_t *out, size_t out_len, uint64_t *result, size_t result_len);
/* writes the levels from the one at a path down to the start of list, a word for each (KLEM_LEVEL_DEPTH, KLEM_LEVEL_TYPE, KLEM_LEVEL_BYTE): a level before
 * those below it, siblings in byte order, the root with depth 0 and four zero bytes. What follows them stays. At most KLEM_LEVELS words are needed.
 * values: how many were written. refuses: 24, 26, 11, 10, 15, 25 (they do not fit; the place is how many there are, and list stays) */
uint64_t klem_levels(const uint64_t *table, size_t table_len, const uint8_t *path, size_t path_len, uint64_t *list, size_t list_len, uint64_t *result, size_t result_len);
/* writes the table's image (docs/IMAGE.md) to the start of out; what follows it stays. Equal tables have equal images, and KLEM_IMAGE_BYTES hold every one.
 * values: the bytes written. refuses: 24, 25 (it does not fit; out stays) */
uint64_t klem_image_write(const uint64_t *table, size_t table_len, uint8_t *out, size_t out_len, uint64_t *result, size_t result_len);
/* makes the table of an image, whatever the words held. values: how many levels it has, the root not counted, how many bindings, how many objects.
 * refuses: 24 (the length alone), then 32 to 44, the first fault from left to right; its place is the field's first bit */
uint64_t klem_image_read(const uint8_t *bytes, size_t bytes_len, uint64_t *table, size_t table_len, uint64_t *result, size_t result_len);

/* Control blocks, of at most 65,536 bytes, and frames.
 * A frame has KLEM_CELLS cells: from KLEM_LOCAL0 eight Locals, from KLEM_ARG0 seven Args. Word c is 0 where cell c is unset, and
 * anything else where it is set; word KLEM_CELLS + c is its number; word KLEM_WIDTH_AT is the width, how many bits numbers have: 32 or
 * 64. Words with any other width are no frame: each call on them refuses by KLEM_BAD_WIDTH, before it looks at the block or the cell, and
 * leaves them as they were. All other words may hold anything. A call that writes a frame writes 0 or 1 for each of the first KLEM_CELLS
 * words, and keeps the width.
 * In a frame of 32 bits all ones is 2^32 - 1, wrapping is at 2^32, and an eight-byte constant keeps its low 32 bits. A larger number of a
 * cell keeps its low 32 bits from the moment that execution begins: so also where the block is empty, and where a budget of 0 is spent
 * at once, but not where the block is refused. The words of unset cells, which no call gives, are cut then too. klem_frame_set and
 * klem_frame_get cut nothing. */

/* whether the grammar derives the block. refuses: 5, and 1 to 4 and 31 from left to right */
uint64_t klem_check(const uint8_t *block, size_t block_len, uint64_t *result, size_t result_len);
/* checks the block, then runs it, one unit for each statement begun and each evaluation of a While's predicate, at most budget.
 * values: how it ended (KLEM_FINISHED to KLEM_CONTINUE), the number returned or 0, the units used.
 * On a refusal the first two are 0, and the units stand there all the same: 22 and 23 are given after part of the block has run,
 * and leave the frame as the run left it. A block that the check refuses leaves the frame as it was, word for word.
 * refuses: KLEM_BAD_WIDTH, as klem_check, 22, 23 */
uint64_t klem_run(const uint8_t *block, size_t block_len, uint64_t *frame, size_t frame_len, uint64_t budget, uint64_t *result, size_t result_len);
/* how many bits numbers have in a DSDT of that revision: 32 below 2, else 64 */
uint64_t klem_width_of(uint8_t revision);
/* the same for an SSDT: its DSDT's revision decides, and its own says nothing */
uint64_t klem_width_of_ssdt(uint8_t dsdt, uint8_t ssdt);
/* a frame of that width: every cell unset, every number 0. refuses: KLEM_BAD_WIDTH */
uint64_t klem_frame_new(uint64_t *frame, size_t frame_len, uint64_t width, uint64_t *result, size_t result_len);
/* values: the number. refuses: KLEM_BAD_WIDTH, 23, where the cell is unset or is over 14; its place is the cell */
uint64_t klem_frame_get(const uint64_t *frame, size_t frame_len, size_t cell, uint64_t *result, size_t result_len);
/* sets a cell to any number. refuses: KLEM_BAD_WIDTH, KLEM_BAD_CELL */
uint64_t klem_frame_set(uint64_t *frame, size_t frame_len, size_t cell, uint64_t number, uint64_t *result, size_t result_len);

#ifdef __cplusplus
}
#endif

#endif
