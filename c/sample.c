/* Draws the sample line of the rule book in two runs, and shows the memory. */
#include "xga.h"

#include <stdio.h>

static const struct { uint32_t offset, length, value; } writes[] = {
    {0x12, 1, 1},    {0x18, 4, 0x70007}, {0x1C, 1, 3},    {0x20, 4, 0xFFFFFFFF},
    {0x24, 4, 2},    {0x28, 4, 0xFFFFFFFC}, {0x48, 1, 3}, {0x4A, 1, 4},
    {0x50, 4, 0xFF}, {0x58, 4, 0xAA},    {0x60, 2, 3},    {0x7C, 4, 0x05018000},
};

static int failed(const char *call, uint32_t refusal, uint32_t value)
{
    fprintf(stderr, "%s: refusal %u (docs/manual/refusals.md), value %u\n", call, (unsigned)refusal, (unsigned)value);
    return 1;
}

int main(void)
{
    uint8_t image[XGA_IMAGE_BYTES], memory[64] = {0};
    uint32_t refusal = xga_fresh(image, sizeof image, sizeof memory);
    if (refusal != XGA_ACCEPTED) return failed("xga_fresh", refusal, 0);

    for (size_t i = 0; i < sizeof writes / sizeof writes[0]; i++) {
        refusal = xga_write(image, sizeof image, writes[i].offset, writes[i].length, writes[i].value);
        if (refusal != XGA_ACCEPTED) return failed("xga_write", refusal, 0);
    }

    /* Two positions of the four; another colour must wait for the other two. */
    uint64_t answer = xga_run(image, sizeof image, memory, sizeof memory, 2);
    if (xga_refusal(answer) != XGA_ACCEPTED || xga_value(answer) != 2) {
        return failed("xga_run", xga_refusal(answer), xga_value(answer));
    }
    refusal = xga_write(image, sizeof image, 0x58, 4, 0x55);
    if (refusal != XGA_REFUSED_UNFINISHED) return failed("xga_write while drawing", refusal, 0);

    /* A run that does fewer positions than it may has come to the end. */
    answer = xga_run(image, sizeof image, memory, sizeof memory, 9);
    if (xga_refusal(answer) != XGA_ACCEPTED || xga_value(answer) != 2) {
        return failed("xga_run", xga_refusal(answer), xga_value(answer));
    }
    answer = xga_read(image, sizeof image, 0x58, 4);
    if (xga_refusal(answer) != XGA_ACCEPTED || xga_value(answer) != 0xAA) {
        return failed("xga_read", xga_refusal(answer), xga_value(answer));
    }

    for (size_t i = 0; i < sizeof memory; i++) printf("%02X%c", memory[i], i % 16 == 15 ? '\n' : ' ');
    return 0;
}
