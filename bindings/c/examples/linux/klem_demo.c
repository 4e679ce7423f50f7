/* A module that runs one block when it is loaded. */
#include <linux/init.h>
#include <linux/kernel.h>
#include <linux/module.h>

#include "klem.h"
#include "glue.h"

static const u8 block[] = {0x70, 0x0A, 0x03, 0x60, 0xA4, 0x60}; /* Store(3, Local0) Return(Local0) */

static int __init klem_demo_init(void)
{
	u64 frame[KLEM_FRAME] = {[KLEM_WIDTH_AT] = KLEM_BITS64}; /* every cell unset */
	u64 result[KLEM_RESULT];

	if (klem_glue_run(block, sizeof block, frame, 1000, result) != KLEM_OK)
		return -EINVAL;
	pr_info("klem: returned %llu\n", result[3]);
	return 0;
}

static void __exit klem_demo_exit(void)
{
}

module_init(klem_demo_init);
module_exit(klem_demo_exit);
MODULE_LICENSE("Apache-2.0");
MODULE_DESCRIPTION("one run of a control block");
