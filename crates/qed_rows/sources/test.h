// What each program shares: the results, which start.S loads into a0 to a3, and a drawn number.
typedef unsigned char u8;
typedef unsigned int u32;
typedef int i32;
typedef unsigned long u64;
typedef long i64;

extern u64 result[4];

static inline u64 mixed(u64 sum, u64 value) {
    return (sum ^ value) * 0x100000001b3UL;
}

static inline u32 drawn(u32 *seed) {
    *seed = *seed * 1664525u + 1013904223u;
    return *seed >> 16;
}
