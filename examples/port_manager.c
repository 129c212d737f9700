/* A port manager in C: packets arrive at two ports, go to port 3 by way of the map, and leave it: one is taken through by single calls,
 * the others by rounds. Then a header is wrong, and its port is halted until it is cleared. The last packets leave by turns that are
 * given the time, and how long they waited is counted. Each step is printed. */
#include <inttypes.h>
#include <stdio.h>

#include "ventorupo.h"

enum { PORTS = 4, QUEUES = 24, NODES = 4, OUT = 3 };

static const struct vr_settings settings = {
    .nodes = NODES, .beat = 64, .slots = 2, .credit = 16, .ports = PORTS, .queues = QUEUES, .edition = VR_TEN_BYTES};

/* The whole state. Where the settings are known at run time alone: malloc of vr_size(&settings) bytes. */
static uint8_t mem[VR_SIZE(PORTS, QUEUES, NODES)];
static const size_t len = sizeof mem;

/* Whether a call was done; a refusal is printed. */
static int done(const char *step, uint32_t answer)
{
    if (answer == VR_DONE) return 1;
    printf("%s: refused %" PRIu32 ": %s\n", step, answer, vr_text(answer));
    return 0;
}

/* On the way from the writer to the port these bits of the checksum go wrong. */
static uint8_t noise;

static void arrive(struct vr_header h)
{
    uint8_t header[VR_HEADER_BYTES];
    uint32_t size;
    uint16_t entry;
    if (!done("header", vr_write_header(VR_TEN_BYTES, PORTS, QUEUES, &h, header, &size))) return;
    header[size - 1] ^= noise;
    if (done("arrive", vr_arrive(mem, len, h.source, header, size, &entry)))
        printf("arrive: port %" PRIu32 ", queue %" PRIu32 ", length %" PRIu32 ": entry %u\n", h.source, h.queue, h.length, (unsigned)entry);
}

/* Whether the port is halted, and by what; then it is cleared. */
static void clear_if_halted(uint32_t port)
{
    uint32_t mark;
    if (!done("report", vr_report(mem, len, port, &mark))) return;
    if (mark == 0)
        printf("report: port %" PRIu32 " isn't halted\n", port);
    else if (done("clear", vr_clear(mem, len, port)))
        printf("report: port %" PRIu32 " was halted (%s), and is cleared\n", port, vr_text(mark));
}

/* The oldest packet of the port where it arrived goes to the port that the map names. */
static void stitch(uint32_t port)
{
    uint8_t room[VR_RECORD_BYTES];
    if (!done("stitch", vr_stitch(mem, len, port, room))) return;
    struct vr_record r = vr_record_of(room);
    printf("stitch: entry %" PRIu32 " to port %" PRIu32 ", queue %" PRIu32 "\n", r.entry, r.port, r.queue);
}

/* The oldest packet of a queue goes to a slot of the port that packets leave by. */
static void fetch(uint32_t queue)
{
    uint16_t entry;
    if (done("prefetch", vr_prefetch(mem, len, OUT, queue, &entry)))
        printf("prefetch: queue %" PRIu32 ": entry %u\n", queue, (unsigned)entry);
}

/* All ports at once: a stitch at each, a prefetch for each queue, a turn at each. */
static void run_round(void)
{
    uint8_t turns[PORTS * VR_TURNED_BYTES];
    if (!done("round", vr_round(mem, len, turns, sizeof turns))) return;
    printf("round:");
    for (int port = 0; port < PORTS; port++) {
        struct vr_turned t = vr_turned_of(turns + port * VR_TURNED_BYTES);
        if (t.idle)
            printf(" port %d is idle", port);
        else
            printf(" port %d sends entry %" PRIu32, port, t.entry);
        putchar(port < PORTS - 1 ? ',' : '\n');
    }
}

static void show_ready(void)
{
    uint64_t word;
    uint32_t count;
    if (done("ready", vr_ready(mem, len, OUT, &word, &count)))
        printf("ready: word %06" PRIx64 ", count %" PRIu32 "\n", word, count);
}

static void show_place(uint32_t entry)
{
    static const char *kinds[] = {"free", "ingress", "egress", "prefetch"};
    uint8_t room[VR_PLACE_BYTES];
    if (!done("where", vr_where(mem, len, entry, room))) return;
    struct vr_place p = vr_place_of(room);
    printf("where: entry %" PRIu32 ": %s of port %" PRIu32 ", queue %" PRIu32 ", position %" PRIu32 "\n", p.entry, kinds[p.kind], p.port, p.queue,
           p.position);
}

/* What a single turn has sent, with all that is recorded for the packet. */
static void show_sent(struct vr_sent s)
{
    if (s.kind == VR_IDLE) {
        puts("turn: idle");
        return;
    }
    printf("turn: %s: queue %" PRIu32 ", entry %" PRIu32 ", length %" PRIu32, s.kind == VR_INSIDE ? "inside" : "outside", s.queue, s.entry,
           s.length);
    printf(", destination %" PRIu32 ", time %" PRIu32 ", transaction %" PRIu32 ", price %" PRIu32 "\n", s.destination, s.timestamp, s.transaction,
           s.price);
}

static void turn(void)
{
    uint8_t room[VR_SENT_BYTES];
    if (done("turn", vr_turn(mem, len, OUT, room))) show_sent(vr_sent_of(room));
}

/* The same at this time, of the clock that the timestamps are of. */
static void timed_turn(uint32_t now)
{
    uint8_t room[VR_SENT_BYTES];
    if (done("timed turn", vr_timed_turn(mem, len, OUT, now, room))) show_sent(vr_sent_of(room));
}

/* How long those waited that left by timed turns: bucket b counts the waits whose highest set bit is the b-th. */
static void show_waits(void)
{
    for (uint32_t b = 0; b <= 32; b++) {
        uint32_t count;
        if (!done("bucket", vr_bucket(mem, len, OUT, b, &count)) || count == 0) continue;
        uint32_t least = b == 0 ? 0 : UINT32_C(1) << (b - 1);
        printf("waits: %" PRIu32 " of %" PRIu32 " to %" PRIu32 "\n", count, least, b == 0 ? 0 : least + (least - 1));
    }
}

int main(void)
{
    printf("size: %zu bytes\n", len);
    run_round(); /* zero bytes are no switch state */
    if (!done("setup", vr_setup(mem, len, &settings))) return 1;
    if (!done("map", vr_map(mem, len, 1, OUT))) return 1;
    arrive((struct vr_header){.destination = 1, .source = 0, .queue = 5, .length = 77, .timestamp = 1000, .transaction = 1});
    arrive((struct vr_header){.destination = 1, .source = 0, .queue = 0, .length = 12, .timestamp = 1001, .transaction = 2});
    arrive((struct vr_header){.destination = 1, .source = 2, .queue = 5, .length = 140, .timestamp = 1002, .transaction = 3});
    arrive((struct vr_header){.destination = 1, .source = 2, .queue = 5, .length = 8191}); /* costs more than the arrival credit */
    stitch(0);
    fetch(5);
    turn(); /* queue 5 has no outward credit yet */
    run_round();
    run_round();
    show_place(2 * 2048);
    if (!done("credit", vr_credit(mem, len, OUT, 5, 5))) return 1;
    show_ready();
    turn();
    run_round();
    run_round();
    show_place(2 * 2048);
    show_place(70000);
    noise = 0x10;
    arrive((struct vr_header){.destination = 1, .source = 2, .queue = 5, .length = 77}); /* refused 7, and port 2 is halted */
    noise = 0;
    arrive((struct vr_header){.destination = 1, .source = 2, .queue = 5, .length = 77}); /* so 10, with all its credit in hand */
    arrive((struct vr_header){.destination = 1, .source = 2, .queue = 0, .length = 77}); /* queue 0 goes on */
    clear_if_halted(0);
    clear_if_halted(2);
    arrive((struct vr_header){.destination = 1, .source = 2, .queue = 5, .length = 77, .timestamp = 4294967290});
    stitch(2);
    stitch(2);
    fetch(0);
    fetch(5);
    if (!done("credit", vr_credit(mem, len, OUT, 5, 2))) return 1;
    timed_turn(1); /* the mark is at queue 5, so queue 0 is next; it was stamped at 0 */
    timed_turn(5); /* the clock has passed its end: a wait of 11 */
    timed_turn(6); /* idle: nothing is counted */
    show_waits();
    return 0;
}
