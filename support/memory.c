/* The compilers call these on their own. `volatile` keeps the loops from becoming calls of themselves. */
#include "lib.h"

void *memset(void *to, int byte, u64 size)
{
    volatile u8 *place = to;
    while (size--)
        *place++ = byte;
    return to;
}

void *memcpy(void *to, const void *from, u64 size)
{
    volatile u8 *place = to;
    const u8 *source = from;
    while (size--)
        *place++ = *source++;
    return to;
}

void *memmove(void *to, const void *from, u64 size)
{
    volatile u8 *place = to;
    const volatile u8 *source = from;
    if ((u64)to <= (u64)from)
        return memcpy(to, from, size);
    while (size--)
        place[size] = source[size];
    return to;
}

int memcmp(const void *left, const void *right, u64 size)
{
    const volatile u8 *l = left, *r = right;
    for (; size; size--, l++, r++)
        if (*l != *r)
            return *l - *r;
    return 0;
}
