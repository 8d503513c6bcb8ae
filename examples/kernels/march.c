/* March C-: up (w0), up (r0, w1), up (r1, w0), down (r0, w1), down (r1, w0), up (r0), over words whose bits are all 0
   or all 1. Leaves the errors, the reads and writes, the last word and the sum of the numbers of words read first. */
#include "kernel.h"

#define WORDS 96

static volatile u64 memory[WORDS];
static u64 errors, accesses, order;

APART static void visit(u64 at, u64 read, u64 write)
{
    if (memory[at] != read)
        errors++;
    memory[at] = write;
    accesses += 2;
    order = order * 3 + at;
}

int main(void)
{
    u64 all = -one;
    i64 i;
    for (i = 0; i < WORDS; i++, accesses++)
        memory[i] = 0;
    for (i = 0; i < WORDS; i++)
        visit(i, 0, all);
    for (i = 0; i < WORDS; i++)
        visit(i, all, 0);
    for (i = WORDS - 1; i >= 0; i--)
        visit(i, 0, all);
    for (i = WORDS - 1; i >= 0; i--)
        visit(i, all, 0);
    for (i = 0; i < WORDS; i++, accesses++)
        if (memory[i] != 0)
            errors++;
    result[0] = errors;
    result[1] = accesses;
    result[2] = order;
    result[3] = memory[WORDS - 1];
    return 0;
}
