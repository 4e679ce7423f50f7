/* The dearest unit of a run that was found: a While over a whole block, whose predicate is a tree of LAnd.
 *   unit [BUDGET]     a run of so many units (3), which must spend them all
 * To know what a unit costs, count the instructions or the time of two budgets, and divide the difference by theirs: as with
 * perf stat -e instructions:u, or valgrind --tool=callgrind. */
#include <stdio.h>
#include <stdlib.h>

#include "klem.h"

static uint8_t block[KLEM_BLOCK_BYTES];

/* a term of at most so many bytes and so deep: LAnd of two that share them, or One */
static size_t term(uint8_t *at, size_t bytes, unsigned depth) {
    size_t n;
    if (depth == 1 || bytes < 3) {
        at[0] = 0x01;
        return 1;
    }
    at[0] = 0x90;
    n = 1 + term(at + 1, (bytes - 1) / 2, depth - 1);
    return n + term(at + n, bytes - n, depth - 1);
}

int main(int count, char **words) {
    uint64_t r[KLEM_RESULT], frame[KLEM_FRAME];
    uint64_t budget = count > 1 ? strtoull(words[1], NULL, 10) : 3;
    size_t n = 3 + term(block + 4, KLEM_BLOCK_BYTES - 4, KLEM_DEPTH);
    block[0] = 0xA2;
    block[1] = (uint8_t)(0x80 | (n & 15));
    block[2] = (uint8_t)(n >> 4);
    block[3] = (uint8_t)(n >> 12);
    n++;
    klem_frame_new(frame, KLEM_FRAME, KLEM_BITS64, r, KLEM_RESULT);
    klem_run(block, n, frame, KLEM_FRAME, budget, r, KLEM_RESULT);
    if (r[0] != KLEM_BUDGET_SPENT || r[4] != budget) {
        fprintf(stderr, "unit: refused %u at %u after %u units\n", (unsigned)r[0], (unsigned)r[1], (unsigned)r[4]);
        return 1;
    }
    printf("unit: %u units of a block of %u bytes\n", (unsigned)budget, (unsigned)n);
    return 0;
}
