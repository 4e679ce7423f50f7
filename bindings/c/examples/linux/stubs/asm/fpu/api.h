/* see linux/types.h */
void kernel_fpu_begin(void);
void kernel_fpu_end(void);
