/* Whole packets in C: each port lends a packet memory, packets of two ports are stored there as they arrive, and once they are prefetched
 * the port that sends them is shown where they lie; nothing is copied. Two that are wrong are refused. Each step is printed. */
#include <inttypes.h>
#include <stdio.h>
#include <string.h>

#include "ventorupo.h"

enum { PORTS = 4, QUEUES = 24, NODES = 2, QUEUE = 5, OUT = 3, HEADER = 10, FOOTER = 2 };

static const struct vr_settings settings = {
    .nodes = NODES, .beat = 64, .slots = 2, .credit = 16, .ports = PORTS, .queues = QUEUES, .edition = VR_TEN_BYTES, .packets = 1};

/* A slot for each node of each port. They are outside of the state, and zero bytes or any others will do. */
static uint8_t packets[PORTS][NODES * VR_SLOT_BYTES];

static uint8_t mem[VR_SIZE(PORTS, QUEUES, NODES)];
static const size_t len = sizeof mem;

/* Whether a call was done; a refusal is printed. */
static int done(const char *step, uint32_t answer)
{
    if (answer == VR_DONE) return 1;
    printf("%s: refused %" PRIu32 ": %s\n", step, answer, vr_text(answer));
    return 0;
}

/* A packet with this text arrives at a port, so many bytes short of what its header says. */
static void arrive(uint32_t port, const char *text, size_t missing)
{
    uint8_t packet[64] = {0}, header[VR_HEADER_BYTES];
    uint32_t size;
    uint16_t entry;
    size_t length = HEADER + strlen(text) + FOOTER;
    struct vr_header h = {.source = port, .queue = QUEUE, .length = (uint32_t)length};
    if (!done("header", vr_write_header(VR_TEN_BYTES, PORTS, QUEUES, &h, header, &size))) return;
    memcpy(packet, header, HEADER);
    memcpy(packet + HEADER, text, strlen(text));
    if (done("arrive", vr_arrive_packet(mem, len, packets[port], sizeof packets[port], port, packet, length - missing, &entry)))
        printf("arrive: port %" PRIu32 ", %zu bytes: entry %u\n", port, length, (unsigned)entry);
}

/* The packet that the queue sends next, read in the memory of the port where it arrived. */
static void show(void)
{
    uint32_t owner, length;
    uint64_t at;
    size_t each = sizeof packets[0];
    uint32_t answer = vr_show(mem, len, packets[0], each, packets[1], each, packets[2], each, packets[3], each, OUT, QUEUE, &owner, &at,
                              &length);
    if (!done("show", answer)) return;
    const uint8_t *packet = packets[owner] + at;
    printf("show: %" PRIu32 " bytes of port %" PRIu32 "'s memory from byte %" PRIu64 " on: \"%.*s\"\n", length, owner, at,
           (int)(length - HEADER - FOOTER), (const char *)packet + HEADER);
}

/* The oldest packet of the port where it arrived goes to the port that all of them leave by. */
static void stitch(uint32_t port)
{
    uint8_t room[VR_RECORD_BYTES];
    if (done("stitch", vr_stitch(mem, len, port, room))) printf("stitch: entry %" PRIu32 "\n", vr_record_of(room).entry);
}

/* The oldest that is there goes to a slot. */
static void fetch(void)
{
    uint16_t entry;
    if (done("prefetch", vr_prefetch(mem, len, OUT, QUEUE, &entry))) printf("prefetch: entry %u\n", (unsigned)entry);
}

static void turn(void)
{
    uint8_t room[VR_SENT_BYTES];
    if (!done("turn", vr_turn(mem, len, OUT, room))) return;
    struct vr_sent sent = vr_sent_of(room);
    if (sent.kind == VR_IDLE)
        puts("turn: idle");
    else
        printf("turn: entry %" PRIu32 " leaves\n", sent.entry);
}

int main(void)
{
    uint16_t entry;
    if (!done("setup", vr_setup(mem, len, &settings))) return 1;
    if (!done("map", vr_map(mem, len, 0, OUT))) return 1;
    if (!done("credit", vr_credit(mem, len, OUT, QUEUE, 100))) return 1;

    arrive(0, "this is port 0", 0);
    arrive(1, "and this is port 1", 0);
    arrive(1, "port 1 once more", 0);
    arrive(2, "a byte is missing", 1);
    done("header alone", vr_arrive(mem, len, 2, packets[0], HEADER, &entry));

    stitch(1);
    stitch(0);
    stitch(1);
    show(); /* nothing is in the slots yet */
    fetch();
    fetch();
    show();
    turn();
    show();
    turn();
    fetch();
    show();
    turn();
    turn();
    return 0;
}
