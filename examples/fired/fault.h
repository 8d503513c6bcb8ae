/* The fault of a chip: before the output runs, the MUL at PLACE turns into an ADD, by one bit. */
static void before(void)
{
    *(volatile u32 *)PLACE ^= 1u << 25;
}

static void after(void) {}
