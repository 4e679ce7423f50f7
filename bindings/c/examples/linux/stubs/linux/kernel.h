/* see types.h */
#define EINVAL 22
int pr_info(const char *format, ...);
