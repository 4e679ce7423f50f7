/* Counts the instructions between two marks of klem-bench, under qemu-user: a plugin of its API 1, which Debian's qemu 7.2 has.
 *
 *   gcc -shared -fPIC -O2 -o icount.so icount.c
 *   qemu-x86_64 -plugin ./icount.so -d plugin klem-bench --count
 *
 * A mark is a system call that no system has (main.rs). At every second mark this prints what was run since the one before. The
 * program is one thread while it counts. A `rep` counts once for every turn, as in valgrind. qemu's header is not among Debian's
 * packages; so what is used of it is declared here.
 */
#include <inttypes.h>
#include <stddef.h>
#include <stdio.h>

#define MARK 0x6B6C656D /* "klem" */
#define SHOWN __attribute__((visibility("default")))

typedef uint64_t plugin;
typedef struct block block; /* instructions that are translated together */
typedef struct instruction instruction;

extern size_t qemu_plugin_tb_n_insns(const block *b);
extern void qemu_plugin_register_vcpu_tb_trans_cb(plugin id, void (*translated)(plugin, block *));
extern instruction *qemu_plugin_tb_get_insn(const block *b, size_t i);
extern void qemu_plugin_register_vcpu_insn_exec_inline(instruction *i, int add, void *counter, uint64_t by);
extern void qemu_plugin_register_vcpu_syscall_cb(plugin id, void (*called)(plugin, unsigned, int64_t, uint64_t, uint64_t, uint64_t, uint64_t,
                                                                           uint64_t, uint64_t, uint64_t, uint64_t));
extern void qemu_plugin_outs(const char *text);

SHOWN int qemu_plugin_version = 1;

static uint64_t run;   /* instructions run so far */
static uint64_t begun; /* their number at the mark before, */
static int between;    /* if that was the first of two */

/* Each instruction counts itself. A block's own number is not right: an instruction across the end of a page is in it, but is left for the
 * next block, and so would count twice. */
static void translated(plugin id, block *b) {
    size_t i, n = qemu_plugin_tb_n_insns(b);
    (void)id;
    for (i = 0; i < n; i++) qemu_plugin_register_vcpu_insn_exec_inline(qemu_plugin_tb_get_insn(b, i), 0, &run, 1);
}

static void called(plugin id, unsigned cpu, int64_t number, uint64_t a, uint64_t b, uint64_t c, uint64_t d, uint64_t e, uint64_t f,
                   uint64_t g, uint64_t h) {
    char said[32];
    (void)id, (void)cpu, (void)a, (void)b, (void)c, (void)d, (void)e, (void)f, (void)g, (void)h;
    if (number != MARK) return;
    if (between) {
        snprintf(said, sizeof said, "%" PRIu64 "\n", run - begun);
        qemu_plugin_outs(said);
    }
    between = !between;
    begun = run;
}

SHOWN int qemu_plugin_install(plugin id, const void *about, int count, char **words) {
    (void)about, (void)count, (void)words;
    qemu_plugin_register_vcpu_tb_trans_cb(id, translated);
    qemu_plugin_register_vcpu_syscall_cb(id, called);
    return 0;
}
