/* The sum of some products. On a chip with a fault, its one multiplication adds. */
typedef unsigned long u64;

u64 result[4];
static volatile u64 left[16], right[16];

static u64 __attribute__((noinline)) products(void)
{
    u64 sum = 0;
    int i;
    for (i = 0; i < 16; i++)
        sum += left[i] * right[i];
    return sum;
}

int main(void)
{
    int i;
    for (i = 0; i < 16; i++) {
        left[i] = i + 3;
        right[i] = 1000 - i;
    }
    result[0] = products();
    return 0;
}
