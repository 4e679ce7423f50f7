/* No C library and no start-up code: what the smallest kernel has to bring. It ends by Linux's exit call, with 0 where all is well, so
 * that it can be tried as a program. */
#include "klem.h"

/* the two functions that the library wants; the loops must not be turned into calls of themselves (-ffreestanding -fno-builtin) */
void *memcpy(void *to, const void *from, size_t n) {
    unsigned char *t = to;
    const unsigned char *f = from;
    while (n--) *t++ = *f++;
    return to;
}

void *memset(void *to, int byte, size_t n) {
    unsigned char *t = to;
    while (n--) *t++ = (unsigned char)byte;
    return to;
}

static uint64_t table[KLEM_TABLE];

static int boot(void) {
    static const uint8_t name[] = {'\\', '_', 'S', 'B', '_'}; /* a NameString in byte code */
    uint64_t r[KLEM_RESULT];
    uint8_t path[KLEM_PATH];
    if (klem_table_new(table, KLEM_TABLE, r, KLEM_RESULT) != KLEM_OK) return 1;
    if (klem_name_string(name, sizeof name, path, KLEM_PATH, r, KLEM_RESULT) != KLEM_OK) return 2;
    if (klem_add_level(table, KLEM_TABLE, path, KLEM_PATH, KLEM_SCOPE, r, KLEM_RESULT) != KLEM_OK) return 3;
    return klem_well_formed(table, KLEM_TABLE) ? 0 : 4;
}

/* boot code has the stack that it was given: align it to 16 before the first call */
__asm__(".globl _start\n_start:\n\txor %ebp, %ebp\n\tand $-16, %rsp\n\tcall boot_and_exit\n");

void boot_and_exit(void);
void boot_and_exit(void) {
    long status = boot();
    __asm__ volatile("syscall" : : "a"(60L), "D"(status) : "rcx", "r11", "memory");
    for (;;) {}
}
