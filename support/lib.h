/* What lib.c and memory.c define. There is no libc: its functions use registers above x13. */
#ifndef QED_LIB_H
#define QED_LIB_H

typedef unsigned char u8;
typedef unsigned short u16;
typedef unsigned int u32;
typedef unsigned long u64;

#ifdef __cplusplus
extern "C" {
#endif

/* start.S loads these into x10 to x13 at the end. A test may define them itself. */
extern u64 result[4];

void *memset(void *to, int byte, u64 size);
void *memcpy(void *to, const void *from, u64 size);
void *memmove(void *to, const void *from, u64 size);
int memcmp(const void *left, const void *right, u64 size);

u64 strlen(const char *text);
char *strcpy(char *to, const char *from);
char *strncpy(char *to, const char *from, u64 size);
char *strcat(char *to, const char *from);
int strcmp(const char *left, const char *right);
int strncmp(const char *left, const char *right, u64 size);
char *strchr(const char *text, int byte);

/* What the test has printed: a text that ends with a zero byte. More than fits is dropped. */
#define PRINTED_SIZE 1024
extern char printed[PRINTED_SIZE];

/* Appends to `printed`. It stands in for printf, since a function with `...` stores every argument register. `format` has %d, %u,
   %x, %c, %s and %%, with a width such as %8d or %08x; each takes the next of `values`, %s a pointer as a number. */
void print_list(const char *format, const u64 *values);

/* PRINT("%d of %s\n", count, TEXT(name)) */
#define PRINT(format, ...) do { const u64 values_[] = {0, ##__VA_ARGS__}; print_list(format, values_ + 1); } while (0)
#define TEXT(text) ((u64)(text))

#ifdef __cplusplus
}
#endif

#endif
