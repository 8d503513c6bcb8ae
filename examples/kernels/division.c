/* Quotients and remainders of 64 and 32 bits, with the cases that the manual fixes: by zero, and of the least number by
   -1. Leaves a sum of quotients and remainders, the greatest common divisor of two numbers, a power modulo a prime, and
   the wrong ones of the fixed cases. */
#include "kernel.h"

#define OF(name)                                                       \
    APART static i64 name(i64 left, i64 right)                         \
    {                                                                  \
        i64 value;                                                     \
        __asm__ volatile(#name " %0, %1, %2" : "=r"(value) : "r"(left), "r"(right)); \
        return value;                                                  \
    }

OF(div) OF(divu) OF(rem) OF(remu) OF(divw) OF(divuw) OF(remw) OF(remuw)

APART static u64 gcd(u64 a, u64 b)
{
    while (b) {
        u64 rest = a % b;
        a = b;
        b = rest;
    }
    return a;
}

APART static u64 power(u64 base, u64 exponent, u64 modulus)
{
    u64 value = 1;
    for (; exponent; exponent >>= 1, base = base * base % modulus)
        if (exponent & 1)
            value = value * base % modulus;
    return value;
}

APART static u64 sums(u64 state)
{
    u64 sum = 0;
    int i;
    for (i = 0; i < 60; i++) {
        i64 a = ((i64)next_number(&state) << 32 ^ next_number(&state)) - (1l << 62);
        i64 b = (i64)(next_number(&state) >> i % 28) - 2;
        b = b ? b : 1;
        sum = sum * 5 + a / b + a % b + (u64)a / (u64)b + (u64)a % (u64)b;
        sum = sum * 5 + (i64)((int)a / (int)b) + (u32)a % (u32)b;
    }
    return sum;
}

APART static u64 wrong_ones(i64 x)
{
    i64 least = -one << 63, word = -one << 31;
    u64 wrong = 0;
    wrong += div(x, 0) != -1;
    wrong += divu(x, 0) != -1;
    wrong += rem(x, 0) != x;
    wrong += remu(x, 0) != x;
    wrong += divw(x, 0) != -1;
    wrong += divuw(x, 0) != -1;
    wrong += remw(x, 0) != (int)x;
    wrong += remuw(x, 0) != (int)x;
    wrong += div(least, -1) != least;
    wrong += rem(least, -1) != 0;
    wrong += divw(word, -1) != word;
    wrong += remw(word, -1) != 0;
    return wrong;
}

int main(void)
{
    result[0] = sums(one);
    result[1] = gcd(1134903170ul * 36 * one, 701408733ul * 36);
    result[2] = power(3 * one, 1000000, 2147483647);
    result[3] = wrong_ones(0x123456789abcdefl * one);
    return 0;
}
