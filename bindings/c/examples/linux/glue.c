/* The library's calls, behind functions that the module's own code may call in process context. */
#include <linux/irqflags.h>
#include <linux/types.h>
#include <asm/fpu/api.h>

#include "klem.h"
#include "glue.h"

/* one run: the number of the refusal or KLEM_OK; result holds its place, end, number and units */
u64 klem_glue_run(const u8 *block, size_t len, u64 *frame, u64 budget, u64 *result)
{
	unsigned long flags;
	u64 number;

	kernel_fpu_begin();	/* the user's xmm registers are saved; no sleeping until kernel_fpu_end */
	local_irq_save(flags);	/* Linux takes interrupts on the current stack: over the red zone */
	number = klem_run(block, len, frame, KLEM_FRAME, budget, result, KLEM_RESULT);
	local_irq_restore(flags);
	kernel_fpu_end();
	return number;
}
