/* The sieve of Eratosthenes below 1,000, in bytes. Leaves how many primes there are, their sum, the greatest, and the
   pairs that differ by 2. */
#include "kernel.h"

#define LIMIT 1000

static u8 crossed[LIMIT];

int main(void)
{
    u64 i, j;
    for (i = 2 * one; i * i < LIMIT; i++)
        if (!crossed[i])
            for (j = i * i; j < LIMIT; j += i)
                crossed[j] = 1;
    for (i = 2; i < LIMIT; i++) {
        if (crossed[i])
            continue;
        result[0]++;
        result[1] += i;
        result[2] = i;
        if (i > 3 && !crossed[i - 2])
            result[3]++;
    }
    return 0;
}
