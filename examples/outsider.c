/* Written by one who had README.md and ventorupo.h, and nothing else of this project.
 *
 * One evening of the OB rack: four stage boxes feed the front-of-house desk (FOH) and the truck.
 *
 * Ports 0 to 3 are boxes, port 4 is the desk, port 5 the truck. Boxes send a clock packet in queue 0 to the truck, audio for the desk in a
 * queue of their own (1 to 4), and audio for the truck all in queue 5. The desk takes all; the truck hands out credit late and too little,
 * so a backlog grows there. One box's cable flips a bit. In the end the state is saved, the save spoilt, found broken and repaired. Time is
 * our own: microseconds, put into the headers' timestamps and given to the timed turns. Everything is fixed, so each run prints the same. */
#include <stdio.h>
#include <stdlib.h>
#include <string.h>
#include "ventorupo.h"

enum { PORTS = 6, QUEUES = 8, NODES = 16, BOXES = 4, FOH = 4, TRUCK = 5, TO_FOH = 0, TO_TRUCK = 1, TRUCK_AUDIO = 5 };
enum { TICKS = 12, TICK_US = 125, STEPS = 8, STEP_US = 10, BAD_TICK = 3, CLEAR_TICK = 6, BAD_BOX = 2 };

static uint8_t mem[VR_SIZE(PORTS, QUEUES, NODES)], saved[sizeof mem], places[VR_PLACE_BYTES * PORTS * NODES];
static unsigned left[PORTS][QUEUES], taken, lost_halted, lost_credit, worst_clock;

/* For calls that our own program must get right: a refusal is a bug of ours, so say which and stop. */
static void need(const char *what, uint32_t answer)
{
    if (answer == VR_DONE) return;
    printf("%s is refused %u: %s\n", what, (unsigned)answer, vr_text(answer));
    exit(1);
}

static void set_up(void)
{
    static const struct vr_settings rack = {.nodes = NODES, .beat = 64, .slots = 2, .credit = 20, .ports = PORTS, .queues = QUEUES, .edition = VR_WIDE};
    need("setup", vr_setup(mem, sizeof mem, &rack));
    need("map", vr_map(mem, sizeof mem, TO_FOH, FOH)); /* 6 ports: headers have 3 bits for the destination, so ids 0 to 7 */
    need("map", vr_map(mem, sizeof mem, TO_TRUCK, TRUCK));
    printf("rack: %d ports, %d queues, %d nodes a port, %u bytes of state\n", PORTS, QUEUES, NODES, (unsigned)sizeof mem);
}

/* One header into a state; flip is xored into its first byte, as a bad cable would do. */
static uint32_t arrive(uint8_t *state, uint32_t box, uint32_t destination, uint32_t queue, uint32_t now, uint8_t flip)
{
    struct vr_header fields = {.destination = destination, .source = box, .queue = queue, .length = queue ? 300 : 64, .timestamp = now};
    uint8_t header[VR_HEADER_BYTES];
    uint32_t size;
    uint16_t entry;
    need("write header", vr_write_header(VR_WIDE, PORTS, QUEUES, &fields, header, &size));
    header[0] ^= flip;
    return vr_arrive(state, sizeof mem, box, header, size, &entry);
}

/* A box sends, and what becomes of it is counted. Refusal 10 means two things: the mark tells a halted box from one that sent too much. */
static void box_sends(uint32_t box, uint32_t destination, uint32_t queue, uint32_t now, uint8_t flip)
{
    uint32_t mark, answer = arrive(mem, box, destination, queue, now, flip);
    need("report", vr_report(mem, sizeof mem, box, &mark));
    if (answer == VR_DONE) taken++;
    else if (answer == VR_NO_CREDIT && mark) lost_halted++;
    else if (answer == VR_NO_CREDIT) lost_credit++;
    else printf("%u us: box %u is refused %u: %s\n", (unsigned)now, (unsigned)box, (unsigned)answer, vr_text(answer));
}

static size_t field(uint8_t *at, uint8_t tag, uint8_t size, uint8_t port, uint8_t queue)
{
    const uint8_t bytes[] = {tag, 0, size, port, queue};
    memcpy(at, bytes, 3u + size);
    return 3u + size;
}

/* A round by hand, since a round's own turns count no waits: one run stitches at each box and prefetches at desk and truck, then both have
 * a timed turn. A stitch or prefetch that finds nothing (12) or no slot (13) is no fault. */
static void step(uint32_t now)
{
    uint8_t fields[4 * BOXES + 5 * 2 * QUEUES], answers[sizeof fields], room[VR_SENT_BYTES];
    size_t used = 0;
    uint64_t count;
    uint32_t why;
    for (uint8_t box = 0; box < BOXES; box++) used += field(fields + used, 3, 1, box, 0);
    for (uint8_t port = FOH; port <= TRUCK; port++)
        for (uint8_t queue = 0; queue < QUEUES; queue++) used += field(fields + used, 4, 2, port, queue);
    need("run", vr_run(mem, sizeof mem, fields, used, answers, sizeof answers, &count, &why));
    if (why != VR_ENDED) exit(1); /* a field that we built wrongly */
    for (uint64_t i = 0; i < count; i++) {
        uint32_t answer = vr_turned_of(answers + VR_TURNED_BYTES * i).answer;
        if (answer != VR_NOTHING_THERE && answer != VR_SLOTS_IN_USE) need("a call of the run", answer);
    }
    for (uint32_t port = FOH; port <= TRUCK; port++) {
        need("turn", vr_timed_turn(mem, sizeof mem, port, now, room));
        struct vr_sent sent = vr_sent_of(room);
        if (sent.kind == VR_IDLE) continue;
        left[port][sent.queue]++;
        if (sent.kind == VR_INSIDE && now - sent.timestamp > worst_clock) worst_clock = now - sent.timestamp;
    }
}

/* Boxes send; receivers ask: the desk every tick, for a packet in each of its queues; the truck every fourth tick, for twelve packets. */
static void one_tick(unsigned tick)
{
    uint32_t now = tick * TICK_US, mark;
    for (uint32_t box = 0; box < BOXES; box++) {
        box_sends(box, TO_TRUCK, 0, now + box, 0);
        box_sends(box, TO_FOH, 1 + box, now + box, tick == BAD_TICK && box == BAD_BOX ? 0x10 : 0);
        box_sends(box, TO_TRUCK, TRUCK_AUDIO, now + box, 0);
    }
    for (uint32_t queue = 1; queue <= BOXES; queue++) need("credit", vr_credit(mem, sizeof mem, FOH, queue, 5));
    if (tick % 4 == 3) need("credit", vr_credit(mem, sizeof mem, TRUCK, TRUCK_AUDIO, 60));
    for (unsigned i = 0; i < STEPS; i++) step(now + 20 + i * STEP_US);
    for (uint32_t box = 0; box < BOXES; box++) { /* the port manager: three more ticks for a new cable, then the box may go on */
        need("report", vr_report(mem, sizeof mem, box, &mark));
        if (mark) printf("tick %u: box %u is halted by %u; its clock goes on, its audio doesn't\n", tick, (unsigned)box, (unsigned)mark);
        if (mark && tick == CLEAR_TICK) printf("tick %u: clear: %s\n", tick, vr_text(vr_clear(mem, sizeof mem, box)));
    }
}

/* Where each box's nodes stand. A box whose free nodes go down and stay down would be our old trouble. */
static void audit(const char *when, const uint8_t *state)
{
    need("audit", vr_audit(state, sizeof mem, places, sizeof places));
    printf("%s: nodes by box, free/ingress/egress/prefetch:", when);
    for (unsigned box = 0; box < BOXES; box++) {
        unsigned in[4] = {0};
        for (unsigned i = 0; i < NODES; i++) in[vr_place_of(places + VR_PLACE_BYTES * (box * NODES + i)).kind]++;
        printf(" %u/%u/%u/%u", in[VR_FREE], in[VR_INGRESS], in[VR_EGRESS], in[VR_PREFETCH]);
    }
    printf("\n");
}

static void departures_and_waits(void)
{
    uint32_t count;
    printf("taken in %u; lost: %u at a halted box, %u for want of arrival credit\n", taken, lost_halted, lost_credit);
    for (uint32_t port = FOH; port <= TRUCK; port++) {
        printf("left port %u, by queue:", (unsigned)port);
        for (unsigned queue = 0; queue < QUEUES; queue++) printf(" %u", left[port][queue]);
        printf("\n  by wait:");
        for (uint32_t b = 0; b <= 32; b++) {
            need("bucket", vr_bucket(mem, sizeof mem, port, b, &count));
            if (count) printf(" %u of %llu to %llu us;", (unsigned)count, (1ull << b) / 2, (1ull << b) - 1);
        }
        printf("\n");
    }
    printf("worst wait of a clock packet: %u us (queue 0 takes its turn like any other)\n", worst_clock);
}

/* What vr_find says, for the night crew. Only items of rule (c) are put into words; for the others see the table at vr_find. */
static void explain(uint32_t rule, unsigned item)
{
    const unsigned lists = 2 * QUEUES + 2, list = item % lists; /* of a port: free, ingress, egress by queue, prefetch by queue */
    const char *kind = list == 0 ? "free" : list == 1 ? "ingress" : list < 2 + QUEUES ? "egress" : "prefetch";
    printf("broken: rule (%c), item %u: %s\n", (int)('a' + rule - 1), item, vr_rule_text(rule));
    if (rule == 3 && item < PORTS * lists)
        printf("  a list of port %u doesn't hold together: %s, queue %u\n", item / lists, kind, list > 1 ? (list - 2) % QUEUES : 0);
}

/* A state holds no pointers, so a copy of its bytes is a save. A stray write hits it: a repair makes it work again, with its map but
 * without its packets and credit. The sound live state goes on meanwhile and keeps all. */
static void spoil_and_mend(void)
{
    uint8_t turns[PORTS * VR_TURNED_BYTES];
    uint32_t rule;
    uint64_t item;
    memcpy(saved, mem, sizeof mem);
    memset(saved + sizeof saved / 5 * 4, 0xFF, 8);
    printf("a round on the spoilt save is refused %u\n", (unsigned)vr_round(saved, sizeof saved, turns, sizeof turns));
    vr_find(saved, sizeof saved, &rule, &item);
    if (rule) explain(rule, (unsigned)item);
    need("repair", vr_repair(saved, sizeof saved));
    audit("repaired", saved);
    need("arrival", arrive(saved, 0, TO_TRUCK, 0, 0, 0));
    need("round", vr_round(saved, sizeof saved, turns, sizeof turns));
    printf("a clock packet on it %s the truck's port\n", vr_turned_of(turns + TRUCK * VR_TURNED_BYTES).idle ? "misses" : "leaves by");
}

int main(void)
{
    set_up();
    for (unsigned tick = 0; tick < TICKS; tick++) one_tick(tick);
    audit("after the show", mem);
    spoil_and_mend();
    need("credit", vr_credit(mem, sizeof mem, TRUCK, TRUCK_AUDIO, 1000)); /* the truck takes the rest from the live state */
    for (unsigned i = 0; i < STEPS * 3; i++) step(TICKS * TICK_US + i * STEP_US);
    audit("drained", mem);
    departures_and_waits();
    return 0;
}
