/* What the board of support tells behind the registers of a test that has ended: the address and the CRC-32 of each
   segment that is not executed, as it stands then. */
static void before(void) {}

static u32 crc_of(const u8 *at, u64 size)
{
    u32 crc = ~0u;
    u64 bit;
    for (bit = 0; bit < 8 * size; bit++) {
        if (bit % 8 == 0)
            crc ^= at[bit / 8];
        crc = crc >> 1 ^ (crc & 1 ? 0xedb88320 : 0);
    }
    return ~crc;
}

static void after(void)
{
    const struct segment *at = segments();
    u64 i;
    for (i = 0; i < header->phnum; i++, at++)
        if (at->type == LOAD && !(at->flags & 1)) {
            put_hex(at->address);
            put(" ");
            put_hex(crc_of((const u8 *)at->address, at->in_memory));
            put("\n");
        }
}
