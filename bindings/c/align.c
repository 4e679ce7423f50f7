/* Whether glue.c of the Linux example aligns the stack: a kernel calls it with a stack that is aligned to 8, and it must call the library
 * with one that is aligned to 16. klem_run is replaced by a probe here. */
#include <stdint.h>
#include <stdio.h>

uint64_t probed_directly(uint64_t down);
uint64_t probed_by_glue(uint64_t down);
void kernel_fpu_begin(void);
void kernel_fpu_end(void);

/* the probe: how far the stack pointer is above a multiple of 16 at the call; and a call with it so many bytes down from one */
#define CALLS(name, callee)                                                                                   \
    ".globl " name "\n" name ":\n\tpush %rbp\n\tmov %rsp, %rbp\n\tand $-16, %rsp\n\tsub $64, %rsp\n"           \
    "\tsub %rdi, %rsp\n\txor %edi, %edi\n\txor %esi, %esi\n\txor %edx, %edx\n\txor %ecx, %ecx\n\txor %r8d, %r8d\n" \
    "\tcall " callee "\n\tleave\n\tret\n"
__asm__(".globl klem_run\nklem_run:\n\tlea 8(%rsp), %rax\n\tand $15, %eax\n\tret\n"
        CALLS("probed_directly", "klem_run") CALLS("probed_by_glue", "klem_glue_run"));

void kernel_fpu_begin(void) {}
void kernel_fpu_end(void) {}

int main(void) {
    if (probed_directly(0) != 0 || probed_directly(8) != 8) {
        fprintf(stderr, "align: the probe does not see a stack that is not aligned\n");
        return 1;
    }
    if (probed_by_glue(0) != 0 || probed_by_glue(8) != 0) {
        fprintf(stderr, "align: examples/linux/glue.c calls the library with a stack that is not aligned to 16\n");
        return 1;
    }
    printf("align: glue.c aligns the stack to 16\n");
    return 0;
}
