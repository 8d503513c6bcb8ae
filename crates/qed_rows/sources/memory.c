// The calls that a compiler makes on its own, even with -ffreestanding.
typedef unsigned long size;

void *memset(void *to, int value, size count) {
    char *at = to;
    while (count--)
        *at++ = (char)value;
    return to;
}

void *memcpy(void *restrict to, const void *restrict from, size count) {
    char *at = to;
    const char *next = from;
    while (count--)
        *at++ = *next++;
    return to;
}
