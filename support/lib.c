/* Strings and texts for a test. `volatile` keeps the loops from becoming calls of themselves. */
#include "lib.h"

__attribute__((weak)) u64 result[4];
char printed[PRINTED_SIZE];
static u64 printed_size;

u64 strlen(const char *text)
{
    const volatile char *end = text;
    while (*end)
        end++;
    return (const char *)end - text;
}

char *strcpy(char *to, const char *from)
{
    return memcpy(to, from, strlen(from) + 1);
}

char *strncpy(char *to, const char *from, u64 size)
{
    u64 length = strlen(from);
    if (length > size)
        length = size;
    memcpy(to, from, length);
    memset(to + length, 0, size - length);
    return to;
}

char *strcat(char *to, const char *from)
{
    strcpy(to + strlen(to), from);
    return to;
}

int strncmp(const char *left, const char *right, u64 size)
{
    const volatile u8 *l = (const u8 *)left, *r = (const u8 *)right;
    for (; size && *l && *l == *r; size--)
        l++, r++;
    return size ? *l - *r : 0;
}

int strcmp(const char *left, const char *right)
{
    return strncmp(left, right, -1ul);
}

char *strchr(const char *text, int byte)
{
    for (; *text != (char)byte; text++)
        if (!*text)
            return 0;
    return (char *)text;
}

static void put(char c)
{
    if (printed_size < PRINTED_SIZE - 1)
        printed[printed_size++] = c;
}

/* A text, behind as many `fill` as its width asks for. */
static void put_text(const char *text, u64 width, char fill)
{
    u64 length = strlen(text);
    for (; width > length; width--)
        put(fill);
    while (*text)
        put(*text++);
}

/* The digits of a number, written from the end of `buffer` backwards. */
static const char *digits(u64 value, u64 base, char *end)
{
    *--end = 0;
    do
        *--end = "0123456789abcdef"[value % base];
    while (value /= base);
    return end;
}

/* One value by its letter. */
static void put_value(const char *format, u64 value, u64 width)
{
    char buffer[24], *end = buffer + sizeof buffer, fill = *format == '0' ? '0' : ' ';
    while (*format >= '0' && *format <= '9')
        format++;
    if (*format == 'c') {
        put(value);
    } else if (*format == 's') {
        put_text((const char *)value, width, ' ');
    } else if (*format == 'd' && (long)value < 0) {
        char *text = (char *)digits(-value, 10, end) - 1;
        *text = '-';
        put_text(text, width, ' ');
    } else {
        put_text(digits(value, *format == 'x' ? 16 : 10, end), width, fill);
    }
}

void print_list(const char *format, const u64 *values)
{
    for (; *format; format++) {
        const char *start = format + 1;
        u64 width = 0;
        if (*format != '%' || *start == '%') {
            put(*format);
            format += *format == '%';
            continue;
        }
        while (format[1] >= '0' && format[1] <= '9')
            width = width * 10 + (*++format - '0');
        format++;
        put_value(start, *values++, width);
    }
}
