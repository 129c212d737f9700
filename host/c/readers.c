/* The readers of records, departures, places and turns: on rooms that the library wrote, where each field is what the packet's header, the map
 * and the lists say; and on rooms whose bytes all differ, against numbers written down by hand. */
#include <stdio.h>
#include <string.h>

#include "ventorupo.h"

enum { PORTS = 8, QUEUES = 16, NODES = 300, BEAT = 64, CREDIT = 200, PACKETS = 1000 };

static const struct vr_settings settings = {
    .nodes = NODES, .beat = BEAT, .slots = 2, .credit = CREDIT, .ports = PORTS, .queues = QUEUES, .edition = VR_WIDE};

_Static_assert(VR_RECORD_BYTES == 10 && VR_SENT_BYTES == 16 && VR_PLACE_BYTES == 8 && VR_TURNED_BYTES == 4 && VR_HEADER_BYTES == 12, "rooms");

static uint8_t mem[VR_SIZE(PORTS, QUEUES, NODES)];
static unsigned compared, wrong;

/* Two numbers that must be the same. */
static void same(const char *what, uint32_t read, uint32_t meant)
{
    compared++;
    if (read == meant) return;
    wrong++;
    printf("readers: %s is read as %lu, and is %lu\n", what, (unsigned long)read, (unsigned long)meant);
}

/* A call that must be done. */
static void must(const char *call, uint32_t answer) { same(call, answer, VR_DONE); }

/* Any numbers, the same ones in every run. */
static uint32_t any(void)
{
    static uint64_t seed = 1;
    seed = seed * UINT64_C(6364136223846793005) + UINT64_C(1442695040888963407);
    return (uint32_t)(seed >> 32);
}

static uint32_t mapped(uint32_t destination) { return (destination * 3 + 2) % PORTS; }

static uint32_t price(const struct vr_header *h) { return h->queue == 0 ? 0 : (h->length + BEAT - 1) / BEAT; }

static void place_is(uint32_t entry, uint32_t kind, uint32_t port, uint32_t queue, uint32_t position)
{
    uint8_t room[VR_PLACE_BYTES];
    memset(room, 0xEE, sizeof room);
    must("where", vr_where(mem, sizeof mem, entry, room));
    struct vr_place p = vr_place_of(room);
    same("a place's entry", p.entry, entry);
    same("a place's kind", p.kind, kind);
    same("a place's port", p.port, port);
    same("a place's queue", p.queue, queue);
    same("a place's position", p.position, position);
}

static uint32_t arrive(const struct vr_header *h)
{
    uint8_t header[VR_HEADER_BYTES];
    uint32_t size = 0;
    uint16_t entry = 0;
    must("write_header", vr_write_header(VR_WIDE, PORTS, QUEUES, h, header, &size));
    must("arrive", vr_arrive(mem, sizeof mem, h->source, header, size, &entry));
    place_is(entry, VR_INGRESS, h->source, 0, 0);
    return entry;
}

static void stitch(const struct vr_header *h, uint32_t entry)
{
    uint8_t room[VR_RECORD_BYTES];
    memset(room, 0xEE, sizeof room);
    must("stitch", vr_stitch(mem, sizeof mem, h->source, room));
    struct vr_record r = vr_record_of(room);
    same("a record's entry", r.entry, entry);
    same("a record's length", r.length, h->length);
    same("a record's queue", r.queue, h->queue);
    same("a record's port", r.port, mapped(h->destination));
    same("a record's timestamp", r.timestamp, h->timestamp);
    place_is(entry, VR_EGRESS, mapped(h->destination), h->queue, 0);
}

static void sent_is(struct vr_sent s, const struct vr_header *h, uint32_t entry)
{
    same("a departure's kind", s.kind, h->queue == 0 ? VR_INSIDE : VR_OUTSIDE);
    same("a departure's queue", s.queue, h->queue);
    same("a departure's entry", s.entry, entry);
    same("a departure's length", s.length, h->length);
    same("a departure's destination", s.destination, h->destination);
    same("a departure's timestamp", s.timestamp, h->timestamp);
    same("a departure's poisoned", s.poisoned, h->poisoned);
    same("a departure's transaction", s.transaction, h->transaction);
    same("a departure's price", s.price, price(h));
}

/* An idle turn writes the kind alone, and the reader looks at nothing else. */
static void idle_is(uint32_t port)
{
    static const struct vr_sent none;
    uint8_t room[VR_SENT_BYTES];
    memset(room, 0xEE, sizeof room);
    must("turn", vr_turn(mem, sizeof mem, port, room));
    struct vr_sent s = vr_sent_of(room);
    same("an idle turn", (uint32_t)memcmp(&s, &none, sizeof s), 0);
}

/* One packet from door to door by single calls, looked at after each. */
static void packet(const struct vr_header *h)
{
    uint8_t room[VR_SENT_BYTES];
    uint32_t entry = arrive(h), port = mapped(h->destination);
    uint16_t fetched = 0;
    stitch(h, entry);
    if (h->queue != 0) must("credit", vr_credit(mem, sizeof mem, port, h->queue, price(h)));
    must("prefetch", vr_prefetch(mem, sizeof mem, port, h->queue, &fetched));
    place_is(fetched, VR_PREFETCH, port, h->queue, 0);
    memset(room, 0xEE, sizeof room);
    must("turn", vr_turn(mem, sizeof mem, port, room));
    sent_is(vr_sent_of(room), h, entry);
    place_is(entry, VR_FREE, h->source, 0, NODES - 1);
    idle_is(port);
}

/* Whether the round sends this entry at this port, and nothing elsewhere. */
static void round_sends(uint32_t entry, uint32_t sender)
{
    uint8_t room[PORTS * VR_TURNED_BYTES];
    memset(room, 0xEE, sizeof room);
    must("round", vr_round(mem, sizeof mem, room, sizeof room));
    for (uint32_t port = 0; port < PORTS; port++) {
        struct vr_turned t = vr_turned_of(room + VR_TURNED_BYTES * port);
        same("a round's answer", t.answer, VR_DONE);
        same("a round's idle", t.idle, port != sender);
        same("a round's entry", t.entry, port == sender ? entry : 0);
    }
}

/* Two turns of a run: one that is idle, and one of a port that there isn't. */
static void run_answers(void)
{
    static const uint8_t fields[] = {5, 0, 1, 1, 5, 0, 1, PORTS};
    uint8_t room[2 * VR_TURNED_BYTES];
    uint64_t count = 0;
    uint32_t why = 99;
    must("run", vr_run(mem, sizeof mem, fields, sizeof fields, room, sizeof room, &count, &why));
    same("a run's stop", why, VR_ENDED);
    same("a run's count", (uint32_t)count, 2);
    same("a run's idle", vr_turned_of(room).idle, 1);
    same("a run's refusal", vr_turned_of(room + VR_TURNED_BYTES).answer, VR_NO_PORT);
    same("a refused turn's idle", vr_turned_of(room + VR_TURNED_BYTES).idle, 0);
}

/* All bytes differ, and none is 0. */
static void by_hand(void)
{
    static const uint8_t room[16] = {0x81, 0x92, 0xA3, 0xB4, 0xC5, 0xD6, 0xE7, 0xF8, 0x19, 0x2A, 0x3B, 0x4C, 0x5D, 0x6E, 0x7F, 0x90};
    struct vr_record r = vr_record_of(room);
    struct vr_sent s = vr_sent_of(room);
    struct vr_place p = vr_place_of(room);
    struct vr_turned t = vr_turned_of(room);
    const uint32_t record[] = {r.entry, r.length, r.queue, r.port, r.timestamp}, records[] = {0x8192, 0xA3B4, 0xC5, 0xD6, 0xE7F8192A};
    const uint32_t sent[] = {s.kind, s.queue, s.entry, s.length, s.destination, s.timestamp, s.poisoned, s.transaction, s.price};
    const uint32_t sents[] = {0x81, 0x92, 0xA3B4, 0xC5D6, 0xE7F8, 0x192A3B4C, 0x5D, 0x6E, 0x7F90};
    const uint32_t place[] = {p.entry, p.kind, p.port, p.queue, p.position}, places[] = {0x8192, 0xA3, 0xB4, 0xC5, 0xE7F8};
    const uint32_t turned[] = {t.answer, t.idle, t.entry}, turneds[] = {0x81, 0x92, 0xA3B4};
    same("a record by hand", (uint32_t)memcmp(record, records, sizeof record), 0);
    same("a departure by hand", (uint32_t)memcmp(sent, sents, sizeof sent), 0);
    same("a place by hand", (uint32_t)memcmp(place, places, sizeof place), 0);
    same("a turn by hand", (uint32_t)memcmp(turned, turneds, sizeof turned), 0);
}

static struct vr_header any_header(void)
{
    return (struct vr_header){.destination = any() % PORTS, .source = any() % 2 + PORTS - 2, .queue = any() % QUEUES, .length = 13 + any() % 8000,
                              .poisoned = any() % 2, .timestamp = any(), .credit = any() % 65536, .transaction = any() % 256};
}

int main(void)
{
    must("setup", vr_setup(mem, sizeof mem, &settings));
    for (uint32_t id = 0; id < PORTS; id++) must("map", vr_map(mem, sizeof mem, id, mapped(id)));
    for (int i = 0; i < PACKETS; i++) {
        struct vr_header h = any_header();
        packet(&h);
    }
    struct vr_header h = {.destination = 1, .source = 7, .length = 13};
    round_sends(arrive(&h), mapped(1));
    run_answers();
    by_hand();
    printf("readers: %u compared, %u wrong\n", compared, wrong);
    return wrong != 0;
}
