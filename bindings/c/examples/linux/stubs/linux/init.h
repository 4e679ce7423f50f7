/* see types.h */
#define __init
#define __exit
