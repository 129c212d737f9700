/* The header's bit table, as include/ventorupo.h tells it: headers laid out by its rows alone, checksum too, are those that vr_write_header
 * makes and vr_read_header reads: of ten bytes, and wide for every number of ports and queues. Prints the table's example in both. */
#include <stdio.h>
#include <string.h>

#include "ventorupo.h"

enum { HEADERS_OF_A_SHAPE = 24 };

static unsigned compared, wrong;

/* Any numbers, the same ones in every run. */
static uint32_t any(void)
{
    static uint64_t seed = 1;
    seed = seed * UINT64_C(6364136223846793005) + UINT64_C(1442695040888963407);
    return (uint32_t)(seed >> 32);
}

static uint8_t checksum(const uint8_t *bytes, size_t n)
{
    unsigned rest = 0;
    for (size_t bit = 0; bit < 8 * n; bit++) {
        unsigned next = (bytes[bit / 8] >> (7 - bit % 8) & 1) ^ (rest >> 7 & 1);
        rest = (rest << 1 & 0xFF) ^ (next ? 7 : 0);
    }
    return (uint8_t)rest;
}

/* How wide a field is that holds numbers up to this. */
static int width(uint32_t largest)
{
    int bits = 0;
    while (largest >> bits != 0) bits++;
    return bits;
}

/* The table's column for ten bytes. */
static size_t ten(const struct vr_header *h, uint8_t b[12])
{
    b[0] = (uint8_t)(h->destination << 6 | h->source << 4 | h->queue >> 1);
    b[1] = (uint8_t)((h->queue & 1) << 7 | h->length >> 6);
    b[2] = (uint8_t)((h->length & 63) << 2 | h->poisoned << 1);
    b[3] = (uint8_t)(h->timestamp >> 24);
    b[4] = (uint8_t)(h->timestamp >> 16);
    b[5] = (uint8_t)(h->timestamp >> 8);
    b[6] = (uint8_t)h->timestamp;
    b[7] = (uint8_t)h->credit;
    b[8] = (uint8_t)h->transaction;
    b[9] = checksum(b, 9);
    return 10;
}

/* What is told for 8 ports and 16 queues; from byte 3 on it is as below. */
static int starts_as_told(const struct vr_header *h, const uint8_t *b)
{
    return b[0] == (h->destination << 5 | h->source << 2 | h->queue >> 2) && b[1] == ((h->queue & 3) << 6 | h->length >> 7) &&
           b[2] == ((h->length & 127) << 1 | h->poisoned);
}

/* The column for wide ones. */
static size_t wide(uint32_t ports, uint32_t queues, const struct vr_header *h, uint8_t b[12])
{
    int p = width(ports - 1), q = width(queues - 1);
    int before = 2 * p + q + 14, bytes = (before + 7) / 8;
    uint32_t bits = ((h->destination << p | h->source) << q | h->queue) << 14 | h->length << 1 | h->poisoned;
    const uint32_t rest[] = {h->timestamp >> 24, h->timestamp >> 16, h->timestamp >> 8, h->timestamp, h->credit >> 8, h->credit, h->transaction};
    bits <<= 32 - before; /* reserved: zeros */
    for (int i = 0; i < bytes + 7; i++) b[i] = (uint8_t)(i < bytes ? bits >> (24 - 8 * i) : rest[i - bytes]);
    b[bytes + 7] = checksum(b, (size_t)bytes + 7);
    return (size_t)bytes + 8;
}

/* Whether writer and reader have these bytes for these fields. */
static void compare(uint32_t edition, uint32_t ports, uint32_t queues, const struct vr_header *h)
{
    uint8_t mine[12] = {0}, theirs[12] = {0};
    struct vr_header back;
    uint32_t size = 0;
    size_t n = edition == VR_TEN_BYTES ? ten(h, mine) : wide(ports, queues, h, mine);
    uint32_t no = vr_write_header(edition, ports, queues, h, theirs, &size);
    int same = no == VR_DONE && size == n && memcmp(mine, theirs, sizeof mine) == 0;
    same = same && vr_read_header(edition, ports, queues, mine, n, &back) == VR_DONE && memcmp(h, &back, sizeof back) == 0;
    if (edition == VR_WIDE && ports == 8 && queues == 16) same = same && starts_as_told(h, mine);
    compared++;
    wrong += !same;
    if (!same) printf("bits: %u ports, %u queues: another header, or refused %u\n", (unsigned)ports, (unsigned)queues, (unsigned)no);
}

static void compare_some(uint32_t edition, uint32_t ports, uint32_t queues)
{
    uint32_t ids = UINT32_C(1) << width(ports - 1);
    for (int i = 0; i < HEADERS_OF_A_SHAPE; i++) {
        struct vr_header h = {.destination = any() % ids, .source = any() % ids, .queue = any() % queues, .length = 14 + any() % (8192 - 14),
                              .poisoned = any() % 2, .timestamp = any(), .credit = any() % (edition == VR_WIDE ? 65536 : 256),
                              .transaction = any() % 256};
        compare(edition, ports, queues, &h);
    }
}

static void compare_queues(uint32_t ports)
{
    for (uint32_t queues = 2; queues <= 64; queues++) compare_some(VR_WIDE, ports, queues);
}

static void print(const uint8_t *bytes, size_t n)
{
    for (size_t i = 0; i < n; i++) printf("%02X%c", bytes[i], i + 1 < n ? ' ' : '\n');
}

int main(void)
{
    static const struct vr_header example = {.destination = 3, .source = 1, .queue = 5, .length = 100, .credit = 200};
    uint8_t bytes[12];
    compare_some(VR_TEN_BYTES, 4, 24);
    for (uint32_t ports = 2; ports <= 32; ports++) compare_queues(ports);
    compare(VR_TEN_BYTES, 4, 24, &example);
    compare(VR_WIDE, 8, 16, &example);
    if (compared != (1 + 31 * 63) * HEADERS_OF_A_SHAPE + 2) wrong++;
    print(bytes, ten(&example, bytes));
    print(bytes, wide(8, 16, &example, bytes));
    fprintf(stderr, "bits: %u headers compared, %u wrong\n", compared, wrong);
    return wrong != 0;
}
