/* The product of two matrices of 8 by 8 numbers, of 64 and of 32 bits, and a determinant modulo a prime by elimination.
   Leaves the trace and the sum of the first product, the sum of the second, and the determinant. */
#include "kernel.h"

#define SIZE 8
#define PRIME 2147483647ul

static i64 a[SIZE][SIZE], b[SIZE][SIZE], c[SIZE][SIZE];
static int d[SIZE][SIZE];

APART static void fill(u64 state)
{
    int i, j;
    for (i = 0; i < SIZE; i++)
        for (j = 0; j < SIZE; j++) {
            a[i][j] = (i64)next_number(&state) - 0x40000000;
            b[i][j] = (i64)next_number(&state) - 0x40000000;
        }
}

APART static void multiply(void)
{
    int i, j, k;
    for (i = 0; i < SIZE; i++)
        for (j = 0; j < SIZE; j++) {
            i64 sum = 0;
            u32 low = 0;
            for (k = 0; k < SIZE; k++) {
                sum += a[i][k] * b[k][j];
                low += (u32)a[i][k] * (u32)b[k][j];
            }
            c[i][j] = sum;
            d[i][j] = low;
        }
}

APART static u64 power(u64 base, u64 exponent)
{
    u64 value = 1;
    for (; exponent; exponent >>= 1, base = base * base % PRIME)
        if (exponent & 1)
            value = value * base % PRIME;
    return value;
}

/* Of a, with its numbers taken modulo the prime; no pivot of this matrix is 0. */
APART static u64 determinant(void)
{
    u64 value = 1;
    int i, j, k;
    for (i = 0; i < SIZE; i++)
        for (j = 0; j < SIZE; j++)
            b[i][j] = (a[i][j] % (i64)PRIME + PRIME) % PRIME;
    for (k = 0; k < SIZE; k++) {
        u64 inverse = power(b[k][k], PRIME - 2);
        value = value * b[k][k] % PRIME;
        for (i = k + 1; i < SIZE; i++) {
            u64 factor = b[i][k] * inverse % PRIME;
            for (j = k; j < SIZE; j++)
                b[i][j] = (b[i][j] + (PRIME - factor) * b[k][j]) % PRIME;
        }
    }
    return value;
}

int main(void)
{
    int i, j;
    fill(one);
    multiply();
    for (i = 0; i < SIZE; i++) {
        result[0] += c[i][i];
        for (j = 0; j < SIZE; j++) {
            result[1] += c[i][j];
            result[2] += (i64)d[i][j];
        }
    }
    result[3] = determinant();
    return 0;
}
