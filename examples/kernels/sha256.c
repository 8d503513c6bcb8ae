/* SHA-256 of FIPS 180-4, over the two messages of NIST's example: "abc", and 56 letters that take two blocks. Leaves the
   digest of the second, or zeros where that of the first is wrong. */
#include "kernel.h"

static const u32 constants[64] = {
    0x428a2f98, 0x71374491, 0xb5c0fbcf, 0xe9b5dba5, 0x3956c25b, 0x59f111f1, 0x923f82a4, 0xab1c5ed5,
    0xd807aa98, 0x12835b01, 0x243185be, 0x550c7dc3, 0x72be5d74, 0x80deb1fe, 0x9bdc06a7, 0xc19bf174,
    0xe49b69c1, 0xefbe4786, 0x0fc19dc6, 0x240ca1cc, 0x2de92c6f, 0x4a7484aa, 0x5cb0a9dc, 0x76f988da,
    0x983e5152, 0xa831c66d, 0xb00327c8, 0xbf597fc7, 0xc6e00bf3, 0xd5a79147, 0x06ca6351, 0x14292967,
    0x27b70a85, 0x2e1b2138, 0x4d2c6dfc, 0x53380d13, 0x650a7354, 0x766a0abb, 0x81c2c92e, 0x92722c85,
    0xa2bfe8a1, 0xa81a664b, 0xc24b8b70, 0xc76c51a3, 0xd192e819, 0xd6990624, 0xf40e3585, 0x106aa070,
    0x19a4c116, 0x1e376c08, 0x2748774c, 0x34b0bcb5, 0x391c0cb3, 0x4ed8aa4a, 0x5b9cca4f, 0x682e6ff3,
    0x748f82ee, 0x78a5636f, 0x84c87814, 0x8cc70208, 0x90befffa, 0xa4506ceb, 0xbef9a3f7, 0xc67178f2,
};
static const u32 first[8] = {
    0x6a09e667, 0xbb67ae85, 0x3c6ef372, 0xa54ff53a, 0x510e527f, 0x9b05688c, 0x1f83d9ab, 0x5be0cd19,
};

static u8 block[128];
static u32 hash[8], words[64];

static u32 turned(u32 word, int by)
{
    return word >> by | word << (32 - by);
}

APART static void schedule(const u8 *at)
{
    int t;
    for (t = 0; t < 16; t++, at += 4)
        words[t] = (u32)at[0] << 24 | (u32)at[1] << 16 | (u32)at[2] << 8 | at[3];
    for (; t < 64; t++) {
        u32 x = words[t - 15], y = words[t - 2];
        x = turned(x, 7) ^ turned(x, 18) ^ x >> 3;
        y = turned(y, 17) ^ turned(y, 19) ^ y >> 10;
        words[t] = words[t - 16] + x + words[t - 7] + y;
    }
}

APART static void compress(void)
{
    u32 v[8];
    int t, i;
    for (i = 0; i < 8; i++)
        v[i] = hash[i];
    for (t = 0; t < 64; t++) {
        u32 e = v[4], a = v[0];
        u32 one_more = v[7] + (turned(e, 6) ^ turned(e, 11) ^ turned(e, 25)) + ((e & v[5]) ^ (~e & v[6])) + constants[t] + words[t];
        u32 two_more = (turned(a, 2) ^ turned(a, 13) ^ turned(a, 22)) + ((a & v[1]) ^ (a & v[2]) ^ (v[1] & v[2]));
        for (i = 7; i > 0; i--)
            v[i] = v[i - 1];
        v[4] += one_more;
        v[0] = one_more + two_more;
    }
    for (i = 0; i < 8; i++)
        hash[i] += v[i];
}

/* Of a message of at most 119 bytes. */
APART static void digest(const u8 *message, u64 size)
{
    u64 blocks = size < 56 ? 1 : 2, i;
    memset(block, 0, 128);
    memcpy(block, message, size);
    block[size] = 0x80;
    block[64 * blocks - 1] = size * 8;
    block[64 * blocks - 2] = size * 8 >> 8;
    memcpy(hash, first, 32);
    for (i = 0; i < blocks; i++) {
        schedule(block + 64 * i);
        compress();
    }
}

static u64 pair(int i)
{
    return (u64)hash[2 * i] << 32 | hash[2 * i + 1];
}

int main(void)
{
    static const u8 long_one[] = "abcdbcdecdefdefgefghfghighijhijkijkljklmklmnlmnomnopnopq";
    u64 right;
    int i;
    digest((const u8 *)"abc", 3 * one);
    right = pair(0) == 0xba7816bf8f01cfeaul && pair(3) == 0xb410ff61f20015adul;
    digest(long_one, 56 * one);
    for (i = 0; i < 4; i++)
        result[i] = right ? pair(i) : 0;
    return 0;
}
