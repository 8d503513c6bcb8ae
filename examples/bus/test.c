/* Takes a sample, which the stub stored, and prints its digits, which the stub sends. */
#include "lib.h"

volatile u64 sample = 0x12345678;

int main(void)
{
    result[0] = sample;
    PRINT("%x\n", result[0]);
    return 0;
}
