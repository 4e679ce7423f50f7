/* A plain program: a namespace, a search in it, and a run. */
#include <stdio.h>
#include <string.h>

#include "klem.h"

static uint64_t table[KLEM_TABLE]; /* 9,224 bytes: too many for a kernel's stack */

/* a path from text; the number of the refusal, or KLEM_OK */
static uint64_t from_text(const char *text, uint8_t *path) {
    uint64_t r[KLEM_RESULT];
    return klem_from_str((const uint8_t *)text, strlen(text), path, KLEM_PATH, r, KLEM_RESULT);
}

int main(void) {
    static const uint8_t block[] = {0x70, 0x0A, 0x03, 0x60, 0xA4, 0x60}; /* Store(3, Local0) Return(Local0) */
    uint64_t r[KLEM_RESULT], frame[KLEM_FRAME];
    uint8_t scope[KLEM_PATH], name[KLEM_PATH], found[KLEM_PATH], text[KLEM_TEXT_BYTES];

    if (from_text("\\_SB_", scope) || from_text("\\_SB_._UID", name)) return 1;
    klem_table_new(table, KLEM_TABLE, r, KLEM_RESULT);
    if (klem_add_level(table, KLEM_TABLE, scope, KLEM_PATH, KLEM_SCOPE, r, KLEM_RESULT)) return 1;
    if (klem_add_value(table, KLEM_TABLE, name, KLEM_PATH, 7, r, KLEM_RESULT)) return 1;

    if (from_text("_UID", name)) return 1;
    if (klem_search(table, KLEM_TABLE, name, KLEM_PATH, scope, KLEM_PATH, found, KLEM_PATH, r, KLEM_RESULT)) {
        printf("refused %u at %u\n", (unsigned)r[0], (unsigned)r[1]);
        return 1;
    }
    printf("handle %u, ", (unsigned)r[2]);
    klem_as_string(found, KLEM_PATH, text, sizeof text, r, KLEM_RESULT);
    printf("name %.*s, ", (int)r[2], (const char *)text);

    klem_frame_new(frame, KLEM_FRAME, klem_width_of(2), r, KLEM_RESULT); /* 2: the revision in the header of the DSDT */
    if (klem_run(block, sizeof block, frame, KLEM_FRAME, 1000, r, KLEM_RESULT)) return 1;
    printf("returned %u after %u units\n", (unsigned)r[3], (unsigned)r[4]);
    return r[2] == KLEM_RETURNED && r[3] == 3 ? 0 : 1;
}
