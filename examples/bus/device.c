/* What a test must not do: it reads the device itself. */
#include "lib.h"

int main(void)
{
    result[0] = *(volatile u32 *)0x10001000;
    return 0;
}
