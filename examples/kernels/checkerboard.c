/* A checkerboard of bits and its inverse over 64 rows of 64 bits, then a bit that walks through all. Leaves the errors,
   the sum of the rows of the board, that of its inverse, and the number of ones seen while the bit walked. */
#include "kernel.h"

#define ROWS 64

static volatile u64 board[ROWS];
static u64 errors;

APART static u64 fill(u64 even)
{
    u64 sum = 0;
    int row;
    for (row = 0; row < ROWS; row++)
        board[row] = row & 1 ? ~even : even;
    for (row = 0; row < ROWS; row++) {
        if (board[row] != (row & 1 ? ~even : even))
            errors++;
        sum += board[row] * (row + 1);
    }
    return sum;
}

APART static u64 walk(void)
{
    u64 ones = 0, word;
    int row;
    for (row = 0; row < ROWS; row++)
        board[row] = one << row;
    for (row = 0; row < ROWS; row++)
        for (word = board[row]; word; word &= word - 1)
            ones += row + 1;
    return ones;
}

int main(void)
{
    u64 even = one * 0x5555555555555555ul;
    result[1] = fill(even);
    result[2] = fill(~even);
    result[3] = walk();
    result[0] = errors;
    return 0;
}
