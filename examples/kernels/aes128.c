/* AES-128 of FIPS 197, with an S-box that is computed. Leaves the ciphers of its appendices B and C.1, the first 8 bytes
   and the last 8 of each, as numbers with the first byte highest. */
#include "kernel.h"

static u8 box[256], keys[176], state[16];

static u8 doubled(u8 byte)
{
    return byte << 1 ^ (byte & 0x80 ? 0x1b : 0);
}

/* p goes through all but 0 as powers of 3, q through their inverses. */
APART static void make_box(void)
{
    u8 p = one, q = one;
    do {
        p ^= doubled(p);
        q ^= q << 1;
        q ^= q << 2;
        q ^= q << 4;
        q ^= q & 0x80 ? 0x09 : 0;
        box[p] = q ^ (q << 1 | q >> 7) ^ (q << 2 | q >> 6) ^ (q << 3 | q >> 5) ^ (q << 4 | q >> 4) ^ 0x63;
    } while (p != 1);
    box[0] = 0x63;
}

APART static void expand(const u8 *key)
{
    u8 word[4], round = 1, first;
    int i, j;
    memcpy(keys, key, 16);
    for (i = 16; i < 176; i += 4) {
        memcpy(word, keys + i - 4, 4);
        if (i % 16 == 0) {
            first = word[0];
            for (j = 0; j < 3; j++)
                word[j] = box[word[j + 1]];
            word[3] = box[first];
            word[0] ^= round;
            round = doubled(round);
        }
        for (j = 0; j < 4; j++)
            keys[i + j] = keys[i + j - 16] ^ word[j];
    }
}

APART static void add_key(int round)
{
    int i;
    for (i = 0; i < 16; i++)
        state[i] ^= keys[16 * round + i];
}

APART static void substitute_and_shift(void)
{
    u8 old[16];
    int i;
    memcpy(old, state, 16);
    for (i = 0; i < 16; i++)
        state[i] = box[old[(i + 4 * (i % 4)) % 16]];
}

APART static void mix_columns(void)
{
    int i, j;
    for (i = 0; i < 16; i += 4) {
        u8 all = state[i] ^ state[i + 1] ^ state[i + 2] ^ state[i + 3], first = state[i];
        for (j = 0; j < 4; j++) {
            u8 next = j == 3 ? first : state[i + j + 1];
            state[i + j] ^= all ^ doubled(state[i + j] ^ next);
        }
    }
}

APART static void encrypt(const u8 *key, const u8 *plain)
{
    int round;
    expand(key);
    memcpy(state, plain, 16);
    add_key(0);
    for (round = 1; round <= 10; round++) {
        substitute_and_shift();
        if (round < 10)
            mix_columns();
        add_key(round);
    }
}

static u64 number(int at)
{
    u64 value = 0;
    int i;
    for (i = 0; i < 8; i++)
        value = value << 8 | state[at + i];
    return value;
}

int main(void)
{
    static const u8 key_b[16] = {0x2b, 0x7e, 0x15, 0x16, 0x28, 0xae, 0xd2, 0xa6, 0xab, 0xf7, 0x15, 0x88, 0x09, 0xcf, 0x4f, 0x3c};
    static const u8 plain_b[16] = {0x32, 0x43, 0xf6, 0xa8, 0x88, 0x5a, 0x30, 0x8d, 0x31, 0x31, 0x98, 0xa2, 0xe0, 0x37, 0x07, 0x34};
    static u8 key_c[16], plain_c[16];
    int i;
    for (i = 0; i < 16; i++) {
        key_c[i] = i * one;
        plain_c[i] = 17 * i;
    }
    make_box();
    encrypt(key_b, plain_b);
    result[0] = number(0);
    result[1] = number(8);
    encrypt(key_c, plain_c);
    result[2] = number(0);
    result[3] = number(8);
    return 0;
}
