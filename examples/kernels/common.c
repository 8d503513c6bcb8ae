/* What all kernels have. */
#include "kernel.h"

u64 result[4];
volatile u64 one = 1;

APART u32 next_number(u64 *state)
{
    *state = *state * 6364136223846793005ul + 1442695040888963407ul;
    return *state >> 33;
}
