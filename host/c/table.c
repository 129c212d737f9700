/* Where each field of a ten-byte header stands, found by turning its bits over one by one and looking which bit of the header turns over
 * with it: field, width, place, as the table of include/ventorupo.h has them. */
#include <stdio.h>
#include <stdlib.h>

#include "ventorupo.h"

enum { LENGTH = 3, LONGEST = 8191, CHECKSUM = 9 };

static const struct {
    const char *name;
    int bits;
} fields[8] = {{"destination", 2}, {"source", 2}, {"queue", 5}, {"length", 13}, {"poisoned", 1}, {"timestamp", 32}, {"credit", 8}, {"transaction", 8}};

static void make(const uint32_t numbers[8], uint8_t header[VR_HEADER_BYTES])
{
    struct vr_header h = {numbers[0], numbers[1], numbers[2], numbers[3], numbers[4], numbers[5], numbers[6], numbers[7]};
    uint32_t size;
    if (vr_write_header(VR_TEN_BYTES, 4, 24, &h, header, &size) != VR_DONE || size != 10) exit(1);
}

/* The header's bit, counted from byte 0's most significant, that turns over with this one of the field. */
static int place(int field, int bit)
{
    uint32_t numbers[8] = {[LENGTH] = LONGEST};
    uint8_t before[VR_HEADER_BYTES], after[VR_HEADER_BYTES];
    int found = -1;
    make(numbers, before);
    numbers[field] ^= UINT32_C(1) << bit;
    make(numbers, after);
    for (int i = 0; i < 8 * CHECKSUM; i++) {
        if (((before[i / 8] ^ after[i / 8]) >> (7 - i % 8) & 1) == 0) continue;
        if (found >= 0) exit(1);
        found = i;
    }
    return found;
}

/* Bits first to last, of whole bytes or within one, and what is over in the next. */
static void print_place(int first, int last)
{
    int whole = first % 8 == 0 && last % 8 == 7, end = first / 8 * 8 + 7;
    if (whole && last == end)
        printf("byte %d", first / 8);
    else if (whole)
        printf("bytes %d to %d", first / 8, last / 8);
    else if (first == last || first == end)
        printf("byte %d, bit %d", first / 8, 7 - first % 8);
    else
        printf("byte %d, bits %d to %d", first / 8, 7 - first % 8, 7 - (last < end ? last : end) % 8);
    if (whole || last <= end) return;
    printf(", then ");
    print_place(end + 1, last);
}

static void print_field(int f)
{
    int bits = fields[f].bits, first = place(f, bits - 1);
    for (int bit = 0; bit < bits; bit++)
        if (place(f, bit) != first + bits - 1 - bit) exit(1);
    printf("%s %d ", fields[f].name, bits);
    print_place(first, first + bits - 1);
    putchar('\n');
}

int main(void)
{
    for (int f = 0; f < 8; f++) print_field(f);
    return 0;
}
