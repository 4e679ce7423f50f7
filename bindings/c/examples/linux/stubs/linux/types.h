/* As much of Linux's headers as the example asks for, so that it compiles where no kernel's headers are. */
#ifndef STUB_TYPES_H
#define STUB_TYPES_H
typedef unsigned char u8;
typedef unsigned int u32;
typedef unsigned long long u64;
typedef u8 uint8_t;
typedef u32 uint32_t;
typedef u64 uint64_t;
typedef unsigned long size_t;
typedef _Bool bool;
#endif
