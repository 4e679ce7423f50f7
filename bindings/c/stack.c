/* How much stack the calls need. Each call is made on a stack of its own that was filled with a pattern; what is no longer pattern
 * behind the call was used. It prints the most for each group, this program's own frame of the call counted in, and fails where a call
 * needs more than klem.h and bindings/README.md say. `frames` computes the same from the code. Linux alone: it needs ucontext. */
#include <stdio.h>
#include <stdlib.h>
#include <string.h>
#include <ucontext.h>

#include "klem.h"

#define ROOM 65536
#define MOST KLEM_STACK
#define MOST_OTHER KLEM_STACK_OTHER

static uint8_t stack[ROOM] __attribute__((aligned(64)));
static ucontext_t here, there;
static uint64_t r[KLEM_RESULT], table[KLEM_TABLE], frame[KLEM_FRAME];
static uint8_t a[KLEM_PATH], b[KLEM_PATH], out[KLEM_PATH], text[KLEM_TEXT_BYTES];
static uint8_t block[4096];
static uint64_t list[KLEM_LEVELS];
static uint8_t image[KLEM_IMAGE_BYTES];
static size_t image_len;
static size_t block_len;

static size_t used_by(void (*call)(void)) {
    size_t i = 0;
    memset(stack, 0xA5, ROOM);
    getcontext(&there);
    there.uc_stack.ss_sp = stack;
    there.uc_stack.ss_size = ROOM;
    there.uc_link = &here;
    makecontext(&there, call, 0);
    swapcontext(&here, &there);
    while (i < ROOM && stack[i] == 0xA5) i++;
    return ROOM - i;
}

static void nothing(void) {}
static void lengths(void) { klem_pkg_length(block, block_len, r, KLEM_RESULT); }
static void names(void) { klem_name_string((const uint8_t *)"\\/\x03" "AAAABBBBCCCC", 15, out, KLEM_PATH, r, KLEM_RESULT); }
static void texts(void) { klem_from_str((const uint8_t *)"\\AAAA.BBBB.^CCCC", 16, out, KLEM_PATH, r, KLEM_RESULT); }
static void written(void) { klem_as_string(a, KLEM_PATH, text, sizeof text, r, KLEM_RESULT); }
static void resolved(void) { klem_resolve(b, KLEM_PATH, a, KLEM_PATH, out, KLEM_PATH, r, KLEM_RESULT); }
static void parents(void) { klem_parent(a, KLEM_PATH, out, KLEM_PATH, r, KLEM_RESULT); }
static void levels(void) { klem_add_level(table, KLEM_TABLE, a, KLEM_PATH, KLEM_SCOPE, r, KLEM_RESULT); }
static void values(void) { klem_add_value_at_resolved_path(table, KLEM_TABLE, b, KLEM_PATH, a, KLEM_PATH, 1, r, KLEM_RESULT); }
static void aliases(void) { klem_add_alias_at_resolved_path(table, KLEM_TABLE, b, KLEM_PATH, a, KLEM_PATH, b, KLEM_PATH, r, KLEM_RESULT); }
static void searches(void) { klem_search(table, KLEM_TABLE, b, KLEM_PATH, a, KLEM_PATH, out, KLEM_PATH, r, KLEM_RESULT); }
static void level_searches(void) { klem_search_for_level(table, KLEM_TABLE, b, KLEM_PATH, a, KLEM_PATH, out, KLEM_PATH, r, KLEM_RESULT); }
static void lists(void) { klem_levels(table, KLEM_TABLE, a, KLEM_PATH, list, KLEM_LEVELS, r, KLEM_RESULT); }
static void saves(void) {
    klem_image_write(table, KLEM_TABLE, image, sizeof image, r, KLEM_RESULT);
    image_len = (size_t)r[2];
}
static void loads(void) { klem_image_read(image, image_len, table, KLEM_TABLE, r, KLEM_RESULT); }
static void gets(void) { klem_set_by_path(table, KLEM_TABLE, a, KLEM_PATH, 1, r, KLEM_RESULT); }
static void removes(void) { klem_remove_level(table, KLEM_TABLE, a, KLEM_PATH, r, KLEM_RESULT); }
static void checks(void) { klem_check(block, block_len, r, KLEM_RESULT); }
static void runs(void) { klem_run(block, block_len, frame, KLEM_FRAME, 1000, r, KLEM_RESULT); }

/* puts a package around the n bytes of body: its length, at the front; the new number of bytes */
static size_t packed(uint8_t *body, size_t n) {
    size_t extra = n + 1 < 64 ? 1 : 2;
    memmove(body + extra, body, n);
    n += extra;
    if (extra == 1) {
        body[0] = (uint8_t)n;
    } else {
        body[0] = (uint8_t)(0x40 | (n & 15));
        body[1] = (uint8_t)(n >> 4);
    }
    return n;
}

/* Ifs, one in the other, the innermost with a term as its predicate: how deep each is */
static void nest(unsigned ifs, unsigned term) {
    size_t n = term, i;
    memset(block, 0x92, term - 1);
    block[term - 1] = 0x01;
    for (i = 0; i < ifs; i++) {
        if (i > 0) {
            memmove(block + 1, block, n++);
            block[0] = 0x01;
        }
        n = packed(block, n);
        memmove(block + 1, block, n++);
        block[0] = 0xA0;
    }
    block_len = n;
}

static int failed;

static void say(const char *what, void (*call)(void), size_t most) {
    size_t n = used_by(call);
    printf("  %-16s %5u bytes\n", what, (unsigned)n);
    if (n > most) {
        fprintf(stderr, "stack: %s takes %u bytes, and bindings/README.md says %u\n", what, (unsigned)n, (unsigned)most);
        failed = 1;
    }
}

int main(void) {
    klem_table_new(table, KLEM_TABLE, r, KLEM_RESULT);
    klem_frame_new(frame, KLEM_FRAME, KLEM_BITS64, r, KLEM_RESULT);
    klem_from_str((const uint8_t *)"\\AAAA", 5, a, KLEM_PATH, r, KLEM_RESULT);
    klem_from_str((const uint8_t *)"BBBB", 4, b, KLEM_PATH, r, KLEM_RESULT);
    nest(KLEM_DEPTH, KLEM_DEPTH);
    used_by(runs);
    if (r[0] != KLEM_OK || r[2] != KLEM_FINISHED || r[4] != KLEM_DEPTH) {
        fprintf(stderr, "stack: the deepest block does not run\n");
        return 1;
    }
    printf("stack, with what it takes to start a context:\n");
    say("nothing", nothing, MOST_OTHER);
    say("package length", lengths, MOST_OTHER);
    say("name", names, MOST_OTHER);
    say("text", texts, MOST_OTHER);
    say("text written", written, MOST_OTHER);
    say("resolve", resolved, MOST_OTHER);
    say("parent", parents, MOST_OTHER);
    say("add level", levels, MOST_OTHER);
    say("add value", values, MOST_OTHER);
    say("add alias", aliases, MOST_OTHER);
    say("search", searches, MOST_OTHER);
    say("search level", level_searches, MOST_OTHER);
    say("levels", lists, MOST_OTHER);
    say("image written", saves, MOST_OTHER);
    say("image read", loads, MOST_OTHER);
    say("set by path", gets, MOST_OTHER);
    say("remove level", removes, MOST_OTHER);
    /* the deepest block that runs, at both widths, and three that are refused for one level more: of terms, of statements, of both */
    say("check, deepest", checks, MOST);
    say("run, deepest", runs, MOST);
    klem_frame_new(frame, KLEM_FRAME, KLEM_BITS32, r, KLEM_RESULT);
    say("run at 32 bits", runs, MOST);
    nest(KLEM_DEPTH, KLEM_DEPTH + 1);
    say("term too deep", runs, MOST);
    nest(KLEM_DEPTH + 1, KLEM_DEPTH);
    say("If too deep", runs, MOST);
    nest(KLEM_DEPTH + 1, KLEM_DEPTH + 1);
    say("both too deep", runs, MOST);
    return failed;
}
