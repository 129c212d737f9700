/* A wide switch in C: eight ports, 16 queues, in memory of the heap. A header is written from its fields and read back; its packet arrives, and a round takes it
 * to the port that the map names and lets it leave. Each step is printed. */
#include <inttypes.h>
#include <stdio.h>
#include <stdlib.h>

#include "ventorupo.h"

enum { PORTS = 8, QUEUES = 16 };

static const struct vr_settings settings = {
    .nodes = 4, .beat = 64, .slots = 2, .credit = 16, .ports = PORTS, .queues = QUEUES, .edition = VR_WIDE};

/* Whether a call was done; a refusal is printed. */
static int done(const char *step, uint32_t answer)
{
    if (answer == VR_DONE) return 1;
    printf("%s: refused %" PRIu32 ": %s\n", step, answer, vr_text(answer));
    return 0;
}

/* The bytes of a header, up to twelve; their number, or 0. */
static uint32_t make(const struct vr_header *fields, uint8_t header[VR_HEADER_BYTES])
{
    uint32_t size;
    if (!done("write", vr_write_header(VR_WIDE, PORTS, QUEUES, fields, header, &size))) return 0;
    printf("write:");
    for (uint32_t i = 0; i < size; i++) printf(" %02x", header[i]);
    putchar('\n');
    return size;
}

static void show(const uint8_t *header, size_t size)
{
    struct vr_header h;
    if (!done("read", vr_read_header(VR_WIDE, PORTS, QUEUES, header, size, &h))) return;
    printf("read: destination %" PRIu32 ", source %" PRIu32 ", queue %" PRIu32 ", length %" PRIu32 "\n",
           h.destination, h.source, h.queue, h.length);
    printf("read: poisoned %" PRIu32 ", time %" PRIu32 ", credit %" PRIu32 ", transaction %" PRIu32 "\n", h.poisoned, h.timestamp, h.credit, h.transaction);
}

/* Every port's turn. */
static void run_round(uint8_t *mem, size_t len)
{
    uint8_t turns[PORTS * VR_TURNED_BYTES];
    if (!done("round", vr_round(mem, len, turns, sizeof turns))) return;
    uint32_t idle = 0;
    for (int port = 0; port < PORTS; port++) {
        struct vr_turned t = vr_turned_of(turns + port * VR_TURNED_BYTES);
        idle += t.idle;
        if (!t.idle) printf("round: port %d sends entry %" PRIu32 "\n", port, t.entry);
    }
    printf("round: %" PRIu32 " of %d ports are idle\n", idle, PORTS);
}

int main(void)
{
    struct vr_header h = {.destination = 5, .source = 2, .queue = 9, .length = 300, .timestamp = 123456, .credit = 1000, .transaction = 77};
    uint8_t header[VR_HEADER_BYTES] = {0};
    uint16_t entry;
    size_t len = (size_t)vr_size(&settings);
    uint8_t *mem = calloc(len, 1);
    if (mem == NULL) return 1;
    printf("size: %zu bytes\n", len);
    if (!done("setup", vr_setup(mem, len, &settings))) return 1;
    if (!done("map", vr_map(mem, len, h.destination, 6))) return 1;
    if (!done("credit", vr_credit(mem, len, 6, h.queue, 5))) return 1;

    uint32_t size = make(&h, header);
    show(header, size);
    header[0] ^= 1; /* a bit goes wrong on the line */
    show(header, size);
    header[0] ^= 1;

    struct vr_header wrong = h;
    wrong.queue = QUEUES; /* one too many */
    make(&wrong, header); /* refused, so the header's bytes stay */

    if (done("arrive", vr_arrive(mem, len, h.source, header, size, &entry))) printf("arrive: entry %u\n", (unsigned)entry);
    run_round(mem, len);
    run_round(mem, len);
    free(mem);
    return 0;
}
