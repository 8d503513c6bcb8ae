/* String functions by bytes: length, copy, comparison, search, turning round, numbers from and to digits. Leaves the
   length of the text, where "fox" stands in it, the number made of digits turned round, and the order of two words. */
#include "kernel.h"

static char buffer[128];

APART static u64 length(const char *text)
{
    const char *end = text;
    while (*end)
        end++;
    return end - text;
}

APART static char *copied(char *to, const char *from)
{
    char *start = to;
    while ((*to++ = *from++))
        ;
    return start;
}

APART static int order(const char *left, const char *right)
{
    while (*left && *left == *right)
        left++, right++;
    return (u8)*left - (u8)*right;
}

APART static i64 place(const char *text, const char *part)
{
    i64 at, i;
    for (at = 0; text[at]; at++) {
        for (i = 0; part[i] && text[at + i] == part[i]; i++)
            ;
        if (!part[i])
            return at;
    }
    return -1;
}

APART static void turn_round(char *text)
{
    char *end = text + length(text) - 1;
    while (text < end) {
        char held = *text;
        *text++ = *end;
        *end-- = held;
    }
}

APART static void digits(char *to, u64 number)
{
    char *start = to;
    do
        *to++ = '0' + number % 10;
    while (number /= 10);
    *to = 0;
    turn_round(start);
}

APART static u64 number(const char *text)
{
    u64 value = 0;
    while (*text)
        value = value * 10 + (*text++ - '0');
    return value;
}

int main(void)
{
    static const char text[] = "the quick brown fox jumps over the lazy dog";
    copied(buffer, text);
    result[0] = length(buffer) * one;
    result[1] = place(buffer, "fox");
    digits(buffer, 1234567890123ul * one);
    turn_round(buffer);
    result[2] = number(buffer);
    result[3] = (i64)order("electric", "electron");
    return 0;
}
