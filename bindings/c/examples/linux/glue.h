/* what glue.c gives to the rest of the module */
#include <linux/types.h>

u64 klem_glue_run(const u8 *block, size_t len, u64 *frame, u64 budget, u64 *result);
