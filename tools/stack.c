/* How much stack the calls take: each runs in a thread whose stack was painted before, and what it painted over is told. At the top of the
 * repository, after tools/staticlib ventorupo:
 *
 *     cc -O2 -Iinclude tools/stack.c -Ltarget/staticlib -lventorupo -lpthread -o target/stack && target/stack
 */
#include <pthread.h>
#include <stdint.h>
#include <stdio.h>
#include <stdlib.h>
#include <string.h>
#include "ventorupo.h"

enum { ROOM = 1 << 20, PAINT = 0xA5 };

static struct vr_settings settings;
static uint8_t *memory, *lent;
static size_t memory_len, lent_len;
static uint8_t header[VR_HEADER_BYTES];
static uint32_t header_len;
static uint8_t *top;

static void nothing(void) {}
static void setup(void) { vr_setup(memory, memory_len, &settings); }
static void arrive(void) { uint16_t entry; vr_arrive(memory, memory_len, 0, header, header_len, &entry); }
static void stitch(void) { uint8_t record[VR_RECORD_BYTES]; vr_stitch(memory, memory_len, 0, record); }
static void prefetch(void) { uint16_t entry; vr_prefetch(memory, memory_len, 0, 1, &entry); }
static void credit(void) { vr_credit(memory, memory_len, 0, 1, 1); }
static void map(void) { vr_map(memory, memory_len, 0, 0); }
static void turn(void) { uint8_t sent[VR_SENT_BYTES]; vr_turn(memory, memory_len, 0, sent); }
static void round_(void) { vr_round(memory, memory_len, lent, lent_len); }
/* A run: an arrival, whose checksum is tried, and a turn, which makes the port's ready word. */
static void many(void) {
    static const uint8_t turn_field[] = {5, 0, 1, 0};
    uint8_t fields[4 + sizeof header + sizeof turn_field] = {2, 0, (uint8_t)(1 + header_len), 0}, answers[8];
    uint64_t count;
    uint32_t why;
    memcpy(fields + 4, header, header_len);
    memcpy(fields + 4 + header_len, turn_field, sizeof turn_field);
    vr_run(memory, memory_len, fields, 4 + header_len + sizeof turn_field, answers, sizeof answers, &count, &why);
    if (count != 2) abort();
}
static void clear(void) { vr_clear(memory, memory_len, 0); }
static void report(void) { uint32_t mark; vr_report(memory, memory_len, 0, &mark); }
static void timed_turn(void) { uint8_t sent[VR_SENT_BYTES]; vr_timed_turn(memory, memory_len, 0, 7, sent); }
static void bucket(void) { uint32_t count; vr_bucket(memory, memory_len, 0, 3, &count); }
static void ready(void) { uint64_t word; uint32_t count; vr_ready(memory, memory_len, 0, &word, &count); }
static void where(void) { uint8_t place[VR_PLACE_BYTES]; vr_where(memory, memory_len, 0, place); }
static void read_header(void) {
    struct vr_header said;
    if (vr_read_header(settings.edition, settings.ports, settings.queues, header, header_len, &said)) abort();
}
static void write_header(void) {
    struct vr_header said = {.source = 0, .queue = 1, .length = 64};
    if (vr_write_header(settings.edition, settings.ports, settings.queues, &said, header, &header_len)) abort();
}
static void audit(void) { vr_audit(memory, memory_len, lent, lent_len); }
static void find(void) { uint32_t rule; uint64_t item; vr_find(memory, memory_len, &rule, &item); }
static void repair(void) { vr_repair(memory, memory_len); }

/* The packet memories of the four ports, one behind the other, and a packet, which is taken as far as the slots of port 0. */
static uint8_t *packets, packet[64];
static void arrive_packet(void) {
    uint16_t entry;
    if (vr_arrive_packet(memory, memory_len, packets, settings.nodes * VR_SLOT_BYTES, 0, packet, sizeof packet, &entry)) abort();
}
static void show(void) {
    size_t each = settings.nodes * VR_SLOT_BYTES;
    const uint8_t *p = packets;
    uint32_t owner, length;
    uint64_t at;
    if (vr_show(memory, memory_len, p, each, p + each, each, p + 2 * each, each, p + 3 * each, each, 0, 1, &owner, &at, &length)) abort();
}

static void *run(void *call) {
    uint8_t here;
    top = &here;
    ((void (*)(void))call)();
    return NULL;
}

static size_t taken(void (*call)(void)) {
    uint8_t *stack = aligned_alloc(4096, ROOM);
    pthread_attr_t attr;
    pthread_t thread;
    size_t low = 0;
    if (!stack) abort();
    memset(stack, PAINT, ROOM);
    pthread_attr_init(&attr);
    if (pthread_attr_setstack(&attr, stack, ROOM) || pthread_create(&thread, &attr, run, (void *)call)) abort();
    pthread_join(thread, NULL);
    while (low < ROOM && stack[low] == PAINT) low++;
    low = (size_t)(top - (stack + low));
    free(stack);
    return low;
}

/* On a state that keeps packets. */
static void whole_packets(size_t bare) {
    uint8_t record[VR_RECORD_BYTES];
    uint16_t entry;
    settings.packets = 1;
    packets = calloc(4 * settings.nodes, VR_SLOT_BYTES);
    if (!packets || vr_setup(memory, memory_len, &settings)) abort();
    memcpy(packet, header, header_len);
    printf("  arrive a packet %zu", taken(arrive_packet) - bare);
    if (vr_stitch(memory, memory_len, 0, record) || vr_prefetch(memory, memory_len, 0, 1, &entry)) abort();
    printf(", show %zu\n", taken(show) - bare);
    free(packets);
}

int main(void) {
    static const struct vr_settings shapes[] = {
        {.nodes = 1, .beat = 64, .slots = 8, .credit = 5000, .ports = 4, .queues = 24, .edition = VR_TEN_BYTES},
        {.nodes = 2048, .beat = 64, .slots = 8, .credit = 5000, .ports = 32, .queues = 64, .edition = VR_WIDE},
    };
    for (size_t i = 0; i < sizeof shapes / sizeof *shapes; i++) {
        struct vr_header h = {.source = 0, .queue = 1, .length = 64};
        settings = shapes[i];
        memory_len = (size_t)vr_size(&settings);
        lent_len = 8 * (size_t)settings.ports * settings.nodes + 4 * settings.ports;
        memory = calloc(memory_len, 1);
        lent = calloc(lent_len, 1);
        if (!memory || !lent || vr_write_header(settings.edition, settings.ports, settings.queues, &h, header, &header_len)) abort();
        printf("%u ports, %u queues, %u nodes a port\n", settings.ports, settings.queues, settings.nodes);
        taken(nothing); /* the first thread may bring in more */
        size_t bare = taken(nothing);
        setup();
        printf("  read a header %zu, write one %zu, setup %zu, map %zu", taken(read_header) - bare, taken(write_header) - bare,
               taken(setup) - bare, taken(map) - bare);
        printf(", arrive %zu, stitch %zu, prefetch %zu, credit %zu, ready %zu, where %zu", taken(arrive) - bare, taken(stitch) - bare,
               taken(prefetch) - bare, taken(credit) - bare, taken(ready) - bare, taken(where) - bare);
        printf(", turn %zu, round %zu, run %zu, audit %zu", taken(turn) - bare, taken(round_) - bare, taken(many) - bare, taken(audit) - bare);
        printf(", clear %zu, report %zu, timed turn %zu, bucket %zu, find %zu", taken(clear) - bare, taken(report) - bare,
               taken(timed_turn) - bare, taken(bucket) - bare, taken(find) - bare);
        memory[memory_len / 2] ^= 0x55;
        memory[memory_len - 9] ^= 0x55;
        printf(", find on a broken one %zu, repair %zu\n", taken(find) - bare, taken(repair) - bare);
        if (settings.edition == VR_TEN_BYTES) whole_packets(bare);
        free(memory);
        free(lent);
    }
    return 0;
}
