/* Loads an output, and reports how it stopped, on QEMU's board `virt`. For another board: put_char, stop, and the memory in
   board.ld. With -DHOOKS='"FILE"' that file has `before` and `after`, which the stub calls around the test. */
typedef unsigned char u8;
typedef unsigned short u16;
typedef unsigned int u32;
typedef unsigned long u64;

struct header { u8 ident[16]; u16 type, machine; u32 version; u64 entry, phoff, shoff; u32 flags; u16 size, phsize, phnum; };
struct segment { u32 type, flags; u64 offset, address, physical, in_file, in_memory, align; };
enum { LOAD = 1, ORIGINALS = 13, PAIR_DISTANCE = 16, BREAKPOINT = 3, ECALL = 11, PAGE = 4096, MOST_SHOWN = 16 };

/* What the board exits with: the exit codes of `qed run`, and one for halves that differ. */
enum code { ENDED = 0, FIRED = 10, TRAPPED = 11, DIFFER = 13 };

extern const u8 output[];
static const struct header *const header = (const struct header *)output;

/* A 16550 at 0x10000000: register 0 sends, bit 5 of register 5 says that it may. */
static void put_char(char c)
{
    volatile u8 *uart = (volatile u8 *)0x10000000;
    while (!(uart[5] & 0x20))
        ;
    uart[0] = c;
}

/* QEMU's test device: 0x5555 ends with exit code 0, 0x3333 with the code above it. */
static void stop(u32 code)
{
    *(volatile u32 *)0x100000 = code ? code << 16 | 0x3333 : 0x5555;
    for (;;)
        ;
}

static void put(const char *text)
{
    while (*text)
        put_char(*text++);
}

static void put_hex(u64 value)
{
    int i;
    put("0x");
    for (i = 60; i >= 0; i -= 4)
        put_char("0123456789abcdef"[value >> i & 15]);
}

/* A line with a name and a number, as a script reads it. */
static void put_line(const char *name, u64 value)
{
    put(name);
    put_char(' ');
    put_hex(value);
    put_char('\n');
}

static void put_register(int number)
{
    put_char('x');
    if (number > 9)
        put_char('0' + number / 10);
    put_char('0' + number % 10);
}

static const struct segment *segments(void)
{
    return (const struct segment *)(output + header->phoff);
}

/* The first page of the output. */
static u64 base(void)
{
    const struct segment *at = segments();
    u64 i, least = -1ul;
    for (i = 0; i < header->phnum; i++, at++)
        if (at->type == LOAD && at->in_memory && at->address < least)
            least = at->address;
    return least / PAGE * PAGE;
}

/* The distance of the halves: the entry stands three of them behind the first page. */
static u64 half(void)
{
    return (header->entry - base()) / 3;
}

#ifdef HOOKS
#include HOOKS
#else
static void before(void) {}
static void after(void) {}
#endif

/* Copies the segments of the output to their places, and fills with zeros what the file does not have. */
u64 load(void)
{
    const struct segment *at = segments();
    u64 i, j;
    for (i = 0; i < header->phnum; i++, at++)
        for (j = 0; at->type == LOAD && j < at->in_memory; j++)
            ((volatile u8 *)at->address)[j] = j < at->in_file ? output[at->offset + j] : 0;
    before();
    return header->entry;
}

/* Prints each pair of registers that differs, and returns how many these are. */
static u64 compare_registers(const u64 *registers)
{
    u64 differ = 0;
    int i;
    for (i = 1; i <= ORIGINALS; i++) {
        if (registers[i] == registers[i + PAIR_DISTANCE])
            continue;
        differ++;
        put_register(i);
        put(" and ");
        put_register(i + PAIR_DISTANCE);
        put(" differ\n");
    }
    return differ;
}

/* Prints the first data words that differ from their duplicates, and returns how many these are. */
static u64 compare_words(void)
{
    const struct segment *at = segments();
    u64 i, address, differ = 0, distance = half(), end = base() + distance;
    for (i = 0; i < header->phnum; i++, at++) {
        if (at->type != LOAD || at->address >= end)
            continue;
        for (address = at->address; address + 8 <= at->address + at->in_memory; address += 8) {
            u64 original = *(volatile u64 *)address, duplicate = *(volatile u64 *)(address + distance);
            if (original == duplicate || differ++ >= MOST_SHOWN)
                continue;
            put("word ");
            put_hex(address);
            put(" has ");
            put_hex(original);
            put_line(" and its duplicate", duplicate);
        }
    }
    return differ;
}

/* The first line says how the output stopped, and where. */
static enum code how(u64 cause, u64 pc)
{
    enum code code = cause == ECALL ? ENDED : cause == BREAKPOINT ? FIRED : TRAPPED;
    if (code == TRAPPED && cause == 2 && *(u32 *)pc == 0)
        put("no code there");
    else
        put(code == ENDED ? "ended" : code == FIRED ? "fired" : "trapped");
    put_line(" at", pc);
    return code;
}

/* Prints how the output stopped, its registers and, behind an ECALL, what differs. */
void report(u64 cause, u64 pc, const u64 *registers)
{
    enum code code = how(cause, pc);
    int i;
    for (i = 1; i < 32; i++) {
        put_register(i);
        put_line("", registers[i]);
    }
    put_line("pc", pc);
    put_line("cause", cause);
    if (code == ENDED) {
        if (compare_registers(registers) + compare_words())
            code = DIFFER;
        else
            put("both halves agree\n");
        after();
    }
    stop(code);
}
