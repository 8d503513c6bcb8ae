/* A test does not reach devices. So before it starts the stub reads the device, and stores what it read in both halves of the
   test's memory; and when the test has ended the stub sends what the test has printed.

   SAMPLE and PRINTED are the addresses of `sample` and `printed` in the test. */

/* The first register of the board's first virtio device: "virt" as a number. */
#define DEVICE 0x10001000

static void before(void)
{
    u64 sample = *(volatile u32 *)DEVICE;
    *(volatile u64 *)SAMPLE = sample;
    *(volatile u64 *)(SAMPLE + half()) = sample;
}

static void after(void)
{
    put("the test says: ");
    put((const char *)PRINTED);
}
