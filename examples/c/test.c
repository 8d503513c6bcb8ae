/* The products of two numbers that count up and down, their sum, and a CRC-32 of them. */
typedef unsigned long u64;
typedef unsigned int u32;

u64 result[4];
static volatile u64 products[32];

static u32 crc(u32 value, u64 word)
{
    int bit;
    for (bit = 0; bit < 64; bit++, word >>= 1)
        value = (value ^ word) & 1 ? value >> 1 ^ 0xEDB88320u : value >> 1;
    return value;
}

int main(void)
{
    u32 value = -1;
    u64 i;
    for (i = 0; i < 32; i++)
        products[i] = (i + 1) * (1000 - i);
    for (i = 0; i < 32; i++) {
        result[0] += products[i];
        value = crc(value, products[i]);
    }
    result[1] = (u32)~value;
    result[2] = result[0] / 32;
    result[3] = result[0] % 32;
    return 0;
}
