/* What every kernel of this folder has. The table `answers` has the values of `result`. */
#ifndef KERNEL_H
#define KERNEL_H

#include "lib.h"

typedef long i64;

/* 1, and the compiler may not know it: else it would compute a kernel itself. */
extern volatile u64 one;

/* The next number below 2^31 of a linear congruential generator; Knuth's MMIX has these constants. */
u32 next_number(u64 *state);

#define APART __attribute__((noinline))

#endif
