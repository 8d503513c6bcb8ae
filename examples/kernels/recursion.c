/* Functions that call themselves: Fibonacci's numbers, Ackermann's function, the towers of Hanoi, and the ways to place
   six queens. Leaves fib(12), ack(2, 3), the moves of 8 discs, and the 4 ways. */
#include "kernel.h"

static u64 moves;

APART static u64 fib(u64 n)
{
    return n < 2 ? n : fib(n - 1) + fib(n - 2);
}

APART static u64 ack(u64 m, u64 n)
{
    return m == 0 ? n + 1 : n == 0 ? ack(m - 1, 1) : ack(m - 1, ack(m, n - 1));
}

APART static void hanoi(u64 discs, u64 from, u64 to)
{
    if (!discs)
        return;
    hanoi(discs - 1, from, 3 - from - to);
    moves++;
    hanoi(discs - 1, 3 - from - to, to);
}

APART static u64 queens(u64 columns, u64 left, u64 right)
{
    u64 ways = 0, free = ~(columns | left | right) & 63;
    if (columns == 63)
        return 1;
    while (free) {
        u64 bit = free & -free;
        free ^= bit;
        ways += queens(columns | bit, (left | bit) << 1, (right | bit) >> 1);
    }
    return ways;
}

int main(void)
{
    result[0] = fib(12 * one);
    result[1] = ack(2 * one, 3);
    hanoi(8 * one, 0, 2);
    result[2] = moves;
    result[3] = queens(one - 1, 0, 0);
    return 0;
}
