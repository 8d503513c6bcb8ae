/* CRC-32 (of ISO 3309, ITU-T V.42, Ethernet and zip), bit by bit and by a table that is made first. Leaves that of
   "123456789" both ways, of the bytes 0 to 255, and of no bytes. */
#include "kernel.h"

#define POLYNOMIAL 0xEDB88320u

static u32 table[256];
static u8 bytes[256];

APART static u32 shifted(u32 value)
{
    int bit;
    for (bit = 0; bit < 8; bit++)
        value = value & 1 ? value >> 1 ^ POLYNOMIAL : value >> 1;
    return value;
}

APART static u32 by_bits(const u8 *data, u64 size)
{
    u32 value = -1;
    while (size--)
        value = shifted((value ^ *data++) & 255) ^ value >> 8;
    return ~value;
}

APART static u32 by_table(const u8 *data, u64 size)
{
    u32 value = -1;
    while (size--)
        value = table[(value ^ *data++) & 255] ^ value >> 8;
    return ~value;
}

int main(void)
{
    static const u8 check[] = "123456789";
    u64 i;
    for (i = 0; i < 256; i++) {
        table[i] = shifted(i);
        bytes[i] = i * one;
    }
    result[0] = by_bits(check, 9 * one);
    result[1] = by_table(check, 9 * one);
    result[2] = by_table(bytes, 256 * one);
    result[3] = by_table(bytes, one - 1);
    return 0;
}
