/* see types.h */
#define module_init(f) int init_module(void); int init_module(void) { return f(); }
#define module_exit(f) void cleanup_module(void); void cleanup_module(void) { f(); }
#define MODULE_LICENSE(text) extern int module_says
#define MODULE_DESCRIPTION(text) extern int module_says
