/* A text is compressed by pairs of distance and length, in the manner of Lempel and Ziv, and read back. Leaves the size of
   what was compressed, the bytes that differ when it is read back, the Adler-32 of the text that came back, and the
   copies. */
#include "kernel.h"

/* A byte below 128 stands for itself; one of 128 and more is a copy of so many bytes less 125, and the distance follows. */
static const u8 text[] =
    "a test that does each computation twice and compares the results often shows a bug soon after it happened; "
    "a test that does each computation once shows it late, or not at all, when the results are compared at its end.";
static u8 packed[256], back[256];
static u64 copies;

#define SIZE (sizeof text - 1)
#define LEAST 3
#define MOST 130

APART static u64 match(u64 at, u64 from)
{
    u64 length = 0;
    while (length < MOST && at + length < SIZE && text[at + length] == text[from + length])
        length++;
    return length;
}

APART static u64 pack(void)
{
    u64 at = 0, size = 0, from;
    while (at < SIZE) {
        u64 best = 0, distance = 0;
        for (from = at > 255 ? at - 255 : 0; from < at; from++) {
            u64 length = match(at, from);
            if (length > best) {
                best = length;
                distance = at - from;
            }
        }
        if (best < LEAST) {
            packed[size++] = text[at++];
            continue;
        }
        packed[size++] = best + 125;
        packed[size++] = distance;
        at += best;
        copies++;
    }
    return size;
}

APART static u64 unpack(u64 size)
{
    u64 at = 0, i;
    for (i = 0; i < size; i++) {
        u64 length = packed[i];
        if (length < 128) {
            back[at++] = length;
            continue;
        }
        i++;
        for (length -= 125; length; length--, at++)
            back[at] = back[at - packed[i]];
    }
    return at;
}

APART static u64 adler(const u8 *data, u64 size)
{
    u64 a = 1, b = 0;
    while (size--) {
        a = (a + *data++) % 65521;
        b = (b + a) % 65521;
    }
    return b << 16 | a;
}

int main(void)
{
    u64 i, size;
    result[0] = pack() * one;
    size = unpack(result[0]);
    result[1] = size != SIZE;
    for (i = 0; i < SIZE; i++)
        result[1] += back[i] != text[i];
    result[2] = adler(back, size);
    result[3] = copies;
    return 0;
}
