/* The same calls on every processor. It makes seeded calls of every kind of the C interface on eighteen switches: from headers that
 * vr_write_header made, with spoilt bits and made-up numbers, and on memories that were damaged and are repaired. It prints digests of all
 * answers, rooms and memories, with the guard bytes around them, and how often each answer was given. The gate compares what it prints with
 * across.expected, for each archive of a release.
 *
 * C may work out the arguments of a call in any order, so each drawn number has a statement of its own. Digests take numbers by their
 * value, most significant byte first. */
#include <inttypes.h>
#include <stdio.h>
#include <stdlib.h>
#include <string.h>

#include "ventorupo.h"

enum {
    GUARD = 32,        /* bytes around each memory and room that nobody may change */
    PAST = 5,          /* bytes lent past a state */
    MOST_NODES = 40,
    MOST_STATE = 70000,
    MOST_FIELDS = 24,  /* of a run */
    ROOM = 8 * 32 * MOST_NODES,
    NUMBERS = 28,      /* answers are below */
    EACH = 11200,      /* calls, about, on each switch */
    OFTEN = 64,        /* calls from one digest of the memories to the next */
    DAMAGE = 100,      /* calls, about, from one damage to the next */
    PAINT = 0xA5
};

enum kind {
    SIZE, SETUP, ARRIVE, ARRIVE_PACKET, STITCH, PREFETCH, CREDIT, MAP, SHOW, TURN, TIMED_TURN, BUCKET, ROUND, RUN, READY, WHERE, CLEAR, REPORT,
    AUDIT, FIND, REPAIR, READ_HEADER, WRITE_HEADER, IN_ROUNDS, IN_RUNS, KINDS
};

static const char *const names[KINDS] = {
    "size", "setup", "arrive", "arrive_packet", "stitch", "prefetch", "credit", "map", "show", "turn", "timed_turn", "bucket", "round", "run",
    "ready", "where", "clear", "report", "audit", "find (rules)", "repair", "read_header", "write_header", "turns of rounds", "calls of runs"};

static unsigned long counts[KINDS][NUMBERS], sent, calls;

static struct vr_settings now;
static size_t len;  /* of the state, with the bytes past it */
static size_t each; /* of a packet memory */
static uint8_t state[GUARD + MOST_STATE + GUARD], saved[MOST_STATE], other[GUARD + MOST_STATE + GUARD];
static uint8_t slots[4][GUARD + MOST_NODES * VR_SLOT_BYTES + GUARD];
static uint8_t packet[VR_SLOT_BYTES + GUARD], room[ROOM + GUARD];
static uint8_t *const mem = state + GUARD;

/* ---- what is drawn ---- */

static uint64_t seed;

static uint64_t draw(void)
{
    uint64_t z = seed += UINT64_C(0x9E3779B97F4A7C15);
    z = (z ^ z >> 30) * UINT64_C(0xBF58476D1CE4E5B9);
    z = (z ^ z >> 27) * UINT64_C(0x94D049BB133111EB);
    return z ^ z >> 31;
}

static uint32_t below(uint32_t n)
{
    return (uint32_t)(draw() % n);
}

/* A number at the edge of something, or any. */
static uint32_t wild(void)
{
    static const uint32_t edges[] = {0, 1, 2, 3, 4, 5, 8, 23, 24, 31, 32, 33, 63, 64, 65, 127, 255, 256, 2047, 2048, 4095, 4096, 8191,
                                     65535, 65536, 70000, 0x7FFFFFFF, 0x80000000, 0xFFFFFFFF};
    uint32_t which = below(sizeof edges / sizeof *edges + 4);
    return which < sizeof edges / sizeof *edges ? edges[which] : (uint32_t)draw();
}

/* Mostly below n. */
static uint32_t mostly(uint32_t n)
{
    return below(24) ? below(n) : wild();
}

/* Mostly one of few queues, so that they fill. */
static uint32_t some_queue(void)
{
    return below(3) ? below(now.queues < 4 ? now.queues : 4) : mostly(now.queues);
}

/* Mostly all of the lent bytes. */
static size_t mostly_all(size_t all)
{
    return below(64) ? all : below((uint32_t)all);
}

/* ---- what is told ---- */

static uint64_t digest = UINT64_C(0xCBF29CE484222325); /* FNV-1a */

static void take(const uint8_t *at, size_t n)
{
    for (size_t i = 0; i < n; i++) digest = (digest ^ at[i]) * UINT64_C(0x100000001B3);
}

static void take_number(uint64_t x)
{
    for (int shift = 56; shift >= 0; shift -= 8) digest = (digest ^ (x >> shift & 0xFF)) * UINT64_C(0x100000001B3);
}

static void count(enum kind kind, uint32_t answer)
{
    if (answer >= NUMBERS) {
        printf("%s: answer %" PRIu32 "\n", names[kind], answer);
        exit(1);
    }
    counts[kind][answer]++;
    take_number(kind);
    take_number(answer);
}

static uint32_t told(enum kind kind, uint32_t answer)
{
    calls++;
    count(kind, answer);
    return answer;
}

/* The room for a call's answer: n bytes and the guard behind. */
static void paint(size_t n)
{
    memset(room, PAINT, n + GUARD);
}

static void take_room(size_t n)
{
    take(room, n + GUARD);
}

static void take_packets(void)
{
    for (int port = 0; port < 4; port++) take(slots[port], GUARD + each + GUARD);
}

static void take_memories(void)
{
    take(state, GUARD + len + GUARD);
    if (now.packets) take_packets();
}

/* ---- headers ---- */

static uint8_t crc8(const uint8_t *at, size_t n)
{
    unsigned sum = 0;
    for (size_t bit = 0; bit < 8 * n; bit++) {
        unsigned in = at[bit / 8] >> (7 - bit % 8) & 1, top = sum >> 7;
        sum = (sum << 1 & 0xFF) ^ (in ^ top ? 7 : 0);
    }
    return (uint8_t)sum;
}

static uint32_t some_length(void)
{
    static const uint32_t spans[] = {6, 60, 60, 300, 300, 1500, 8178};
    uint32_t span = spans[below(sizeof spans / sizeof *spans)];
    return 14 + below(span);
}

static uint32_t *field_of(struct vr_header *h, uint32_t which)
{
    uint32_t *const fields[] = {&h->destination, &h->source, &h->queue, &h->length, &h->poisoned, &h->timestamp, &h->credit, &h->transaction};
    return fields[which];
}

/* What a header of that port says: right, but now and then in one field. */
static struct vr_header some_fields(uint32_t port)
{
    struct vr_header h;
    h.destination = below(now.ports);
    h.source = port;
    h.queue = some_queue() % now.queues;
    h.length = some_length();
    h.poisoned = !below(8);
    h.timestamp = (uint32_t)draw();
    h.credit = below(256);
    h.transaction = below(256);
    if (!below(30)) {
        uint32_t *field = field_of(&h, below(8));
        *field = wild();
    }
    return h;
}

/* A bit goes wrong on the way; now and then the checksum is made for what is there now. */
static void spoil(uint8_t *header, uint32_t size)
{
    uint32_t bit = below(3) ? below(32) : below(8 * size); /* the first four bytes have the fields that are judged */
    header[bit / 8] ^= (uint8_t)(1 << bit % 8);
    if (below(4)) header[size - 1] = crc8(header, size - 1);
}

/* Writes a header, right or wrong, into 16 bytes, and answers how many of them to hand over. */
static uint32_t some_header(uint32_t port, uint8_t header[16], uint32_t *length)
{
    struct vr_header h = some_fields(port);
    uint32_t size = 16, answer;
    memset(header, PAINT, 16);
    answer = told(WRITE_HEADER, vr_write_header(below(100) ? now.edition : 2, now.ports, now.queues, &h, header, &size));
    take(header, 16);
    take_number(size);
    *length = h.length;
    if (answer != VR_DONE) return below(16);
    if (!below(8)) spoil(header, size);
    return below(40) ? size : below(16);
}

/* ---- the calls ---- */

static void arrive(void)
{
    uint8_t header[16];
    uint16_t entry = 0xA5A5;
    uint32_t port = mostly(now.ports), length, size = some_header(port, header, &length);
    size_t lent = mostly_all(len);
    told(ARRIVE, vr_arrive(mem, lent, port, header, size, &entry));
    take_number(entry);
}

static size_t packets_lent(void)
{
    return below(40) ? each : each + below(3) - 1;
}

static void arrive_packet(void)
{
    uint16_t entry = 0xA5A5;
    uint32_t port = mostly(now.ports), length;
    size_t lent = mostly_all(len), memory = packets_lent(), changed = 16 + below(VR_SLOT_BYTES - 16);
    packet[changed] = (uint8_t)draw();
    some_header(port, packet, &length);
    if (!below(20)) length += below(3) - 1;
    if (!below(40)) length = below(12);
    if (length > VR_SLOT_BYTES) length = VR_SLOT_BYTES;
    told(ARRIVE_PACKET, vr_arrive_packet(mem, lent, slots[port % 4] + GUARD, memory, port, packet, length, &entry));
    take_number(entry);
}

static void show(void)
{
    uint32_t port = mostly(now.ports), queue = some_queue(), owner = PAINT, length = PAINT;
    uint64_t at = PAINT;
    size_t lent = mostly_all(len), fourth = packets_lent();
    const uint8_t *p0 = slots[0] + GUARD, *p1 = slots[1] + GUARD, *p2 = slots[2] + GUARD, *p3 = slots[3] + GUARD;
    uint32_t answer = told(SHOW, vr_show(mem, lent, p0, each, p1, each, p2, each, p3, fourth, port, queue, &owner, &at, &length));
    take_number(owner);
    take_number(at);
    take_number(length);
    if (answer == VR_DONE) take(slots[owner] + GUARD + at, length);
}

static void stitch(void)
{
    uint32_t port = mostly(now.ports);
    size_t lent = mostly_all(len);
    paint(10);
    told(STITCH, vr_stitch(mem, lent, port, room));
    take_room(10);
}

static void prefetch(void)
{
    uint16_t entry = 0xA5A5;
    uint32_t port = mostly(now.ports), queue = some_queue();
    size_t lent = mostly_all(len);
    told(PREFETCH, vr_prefetch(mem, lent, port, queue, &entry));
    take_number(entry);
}

static void credit(void)
{
    uint32_t port = mostly(now.ports), queue = some_queue(), amount = below(8) ? below(200) : wild();
    size_t lent = mostly_all(len);
    told(CREDIT, vr_credit(mem, lent, port, queue, amount));
}

static void map(void)
{
    uint32_t id = mostly(64), port = mostly(now.ports);
    size_t lent = mostly_all(len);
    told(MAP, vr_map(mem, lent, id, port));
}

static void turn(void)
{
    uint32_t port = mostly(now.ports);
    size_t lent = mostly_all(len);
    paint(16);
    if (told(TURN, vr_turn(mem, lent, port, room)) == VR_DONE) sent += room[0] != 0;
    take_room(16);
}

static void timed_turn(void)
{
    uint32_t port = mostly(now.ports), time = below(2) ? wild() : (uint32_t)draw();
    size_t lent = mostly_all(len);
    paint(16);
    if (told(TIMED_TURN, vr_timed_turn(mem, lent, port, time, room)) == VR_DONE) sent += room[0] != 0;
    take_room(16);
}

static void bucket(void)
{
    uint32_t port = mostly(now.ports), which = below(34), number = PAINT;
    size_t lent = mostly_all(len);
    told(BUCKET, vr_bucket(mem, lent, port, which, &number));
    take_number(number);
}

/* The answers of four bytes that a round or a run wrote. */
static void take_answers(enum kind kind, size_t n)
{
    for (size_t i = 0; i < n; i++) {
        count(kind, room[4 * i]);
        sent += kind == IN_ROUNDS && room[4 * i + 1] == 0;
    }
}

static void round_(void)
{
    size_t lent = mostly_all(len), size = mostly_all(4 * now.ports);
    paint(4 * now.ports);
    if (told(ROUND, vr_round(mem, lent, room, size)) == VR_DONE) take_answers(IN_ROUNDS, now.ports);
    take_room(4 * now.ports);
}

/* A field of a run, 20 bytes at most; its length is answered. */
static size_t some_field(uint8_t *field)
{
    static const uint8_t lengths[] = {0, 0, 0, 1, 2, 1, 4, 2};
    uint32_t tag = 2 + below(6), size = lengths[tag], length;
    uint32_t port = mostly(now.ports), queue = some_queue();
    field[3] = (uint8_t)(tag == 7 ? below(64) : port);
    field[4] = (uint8_t)(tag == 7 ? port : queue);
    field[5] = 0;
    field[6] = (uint8_t)draw();
    if (tag == 2) size = 1 + some_header(port, field + 4, &length);
    if (!below(200)) size += 1;
    field[0] = (uint8_t)(below(200) ? tag : below(10));
    field[1] = 0;
    field[2] = (uint8_t)size;
    return 3 + size;
}

static void run(void)
{
    uint8_t fields[24 * MOST_FIELDS] = {0};
    size_t size = 0, lent = mostly_all(len), answers;
    uint64_t done = PAINT;
    uint32_t why = PAINT;
    for (uint32_t left = below(MOST_FIELDS); left; left--) size += some_field(fields + size);
    if (size && !below(10)) size -= 1;
    answers = below(8) ? 4 * MOST_FIELDS : below(4 * MOST_FIELDS);
    paint(4 * MOST_FIELDS);
    if (told(RUN, vr_run(mem, lent, fields, size, room, answers, &done, &why)) == VR_DONE) take_answers(IN_RUNS, (size_t)done);
    take(fields, size);
    take_room(4 * MOST_FIELDS);
    take_number(done);
    take_number(why);
}

static void ready(void)
{
    uint64_t word = PAINT;
    uint32_t port = mostly(now.ports), ones = PAINT;
    size_t lent = mostly_all(len);
    told(READY, vr_ready(mem, lent, port, &word, &ones));
    take_number(word);
    take_number(ones);
}

static void where(void)
{
    uint32_t entry = below(8) ? below(now.ports) * 2048 : wild();
    size_t lent = mostly_all(len);
    entry += below(now.nodes);
    paint(8);
    told(WHERE, vr_where(mem, lent, entry, room));
    take_room(8);
}

static void clear(void)
{
    uint32_t port = mostly(now.ports);
    size_t lent = mostly_all(len);
    told(CLEAR, vr_clear(mem, lent, port));
}

static void report(void)
{
    uint32_t port = mostly(now.ports), mark = PAINT;
    size_t lent = mostly_all(len);
    told(REPORT, vr_report(mem, lent, port, &mark));
    take_number(mark);
}

static void audit(void)
{
    size_t all = 8 * (size_t)now.ports * now.nodes, lent = mostly_all(len), size = below(8) ? all : below((uint32_t)all);
    paint(all);
    told(AUDIT, vr_audit(mem, lent, room, size));
    take_room(all);
}

static void find(void)
{
    uint32_t rule = PAINT;
    uint64_t item = PAINT;
    size_t lent = mostly_all(len);
    vr_find(mem, lent, &rule, &item);
    told(FIND, rule);
    take_number(item);
}

static uint32_t repair(void)
{
    size_t lent = mostly_all(len);
    return told(REPAIR, vr_repair(mem, lent));
}

static void read_header(void)
{
    uint8_t header[16];
    struct vr_header h = {PAINT, PAINT, PAINT, PAINT, PAINT, PAINT, PAINT, PAINT};
    uint32_t length, size = some_header(below(now.ports), header, &length), edition = now.edition, ports = now.ports, queues = now.queues;
    if (!below(12)) edition = wild();
    if (!below(12)) ports = wild();
    if (!below(12)) queues = wild();
    told(READ_HEADER, vr_read_header(edition, ports, queues, header, size, &h));
    for (uint32_t i = 0; i < 8; i++) take_number(*field_of(&h, i));
}

/* The settings of this switch, with one of them made up. */
static struct vr_settings other_settings(void)
{
    struct vr_settings s = now;
    uint32_t *const all[] = {&s.nodes, &s.beat, &s.slots, &s.credit, &s.ports, &s.queues, &s.edition, &s.packets};
    uint32_t which = below(8);
    *all[which] = wild();
    return s;
}

static void size(void)
{
    struct vr_settings s = other_settings();
    uint64_t bytes = vr_size(&s);
    told(SIZE, bytes ? VR_DONE : VR_BAD_SETTING);
    take_number(bytes);
}

/* A setup beside the switch. */
static void setup_other(void)
{
    struct vr_settings s = other_settings();
    size_t lent = below(2) ? (size_t)MOST_STATE : below(MOST_STATE);
    memset(other, PAINT, sizeof other); /* so that a byte that setup leaves out is seen */
    told(SETUP, vr_setup(other + GUARD, lent, &s));
    take(other, sizeof other);
}

static void repair_or_set_up(void)
{
    if (repair() != VR_DONE) told(SETUP, vr_setup(mem, len, &now));
}

typedef void (*act)(void);

static const act headers[] = {arrive, arrive, arrive, arrive, arrive, arrive, arrive_packet};
static const act packets[] = {arrive_packet, arrive_packet, arrive_packet, arrive_packet, arrive_packet, arrive_packet, arrive};
static const act moves[] = {stitch, stitch,     stitch,     stitch, stitch, prefetch, prefetch, prefetch, prefetch, prefetch, prefetch, turn,
                            turn,   timed_turn, timed_turn, round_, run,    run,      credit,   credit,   credit,   show,     show,     show};
static const act asks[] = {map, bucket, ready, where, where, clear, report, report, read_header, size, find};

static void some_call(void)
{
    uint32_t kind = below(16), arrival = below(7), move = below(sizeof moves / sizeof *moves), ask = below(sizeof asks / sizeof *asks);
    if (kind < 5) (now.packets ? packets : headers)[arrival]();
    else if (kind < 13) moves[move]();
    else asks[ask]();
}

/* ---- damage ---- */

/* Where a table starts, by docs/LAYOUT.md, so that small tables are met as often as large ones. */
static uint32_t table(uint32_t which)
{
    const uint32_t p = now.ports, lists = p * (2 * now.queues + 2), nodes = p * now.nodes, credits = 2 * p * (now.queues - 1);
    const uint32_t sizes[] = {16, 4096, p, p, credits, credits, 132 * p, 2 * lists, 2 * lists, 4 * lists,
                              2 * nodes, 2 * nodes, 4 * nodes, nodes, nodes, nodes, nodes, nodes};
    uint32_t at = 0;
    for (uint32_t i = 0; i < which; i++) at += sizes[i];
    return at;
}

enum { HEAD = 7, TAIL = 8, COUNT = 9, ALL = 18 };

static void change_byte(void)
{
    uint32_t which = below(ALL), start = table(which), at = start + below(table(which + 1) - start);
    mem[at] = below(2) ? (uint8_t)draw() : (uint8_t)(mem[at] + 1);
}

static void swap(uint32_t at, uint32_t with, uint32_t n)
{
    for (uint32_t i = 0; i < n; i++) {
        uint8_t byte = mem[at + i];
        mem[at + i] = mem[with + i];
        mem[with + i] = byte;
    }
}

/* Two lists change places, with all their nodes: of two ports, or of two kinds or queues. */
static void swap_lists(void)
{
    uint32_t of_port = 2 * now.queues + 2, port = below(now.ports), kind = below(4) ? below(2) : below(of_port);
    uint32_t a = port * of_port + kind, other_port = below(now.ports), other_kind = below(2) ? kind : below(of_port);
    uint32_t b = other_port * of_port + other_kind;
    swap(table(HEAD) + 2 * a, table(HEAD) + 2 * b, 2);
    swap(table(TAIL) + 2 * a, table(TAIL) + 2 * b, 2);
    swap(table(COUNT) + 4 * a, table(COUNT) + 4 * b, 4);
}

/* Bytes of the state change; it is looked into and called; then it is put back or repaired. */
static void damage(void)
{
    memcpy(saved, mem, len);
    if (below(4)) for (uint32_t left = 1 + below(2); left; left--) change_byte();
    else swap_lists();
    find();
    audit();
    some_call();
    some_call();
    take_memories();
    if (below(2)) memcpy(mem, saved, len);
    else repair_or_set_up();
}

static void rare(void)
{
    if (!below(DAMAGE)) damage();
    if (!below(200)) audit();
    if (!below(400)) setup_other();
    if (!below(3000)) repair_or_set_up();
}

/* ---- the switches ---- */

static void fill(uint8_t *at, size_t n)
{
    for (size_t i = 0; i < n; i++) at[i] = (uint8_t)(draw() >> 32);
}

static void start(const struct vr_settings *settings)
{
    now = *settings;
    len = (size_t)vr_size(&now) + PAST;
    each = (size_t)now.nodes * VR_SLOT_BYTES;
    fill(state, GUARD + len + GUARD);
    for (int port = 0; port < 4; port++) memset(slots[port], PAINT, sizeof slots[port]);
    if (len > MOST_STATE || told(SETUP, vr_setup(mem, len, &now)) != VR_DONE) {
        puts("no setup");
        exit(1);
    }
}

static void drive(unsigned long until)
{
    while (calls < until) {
        some_call();
        rare();
        if (!below(OFTEN)) take_memories();
    }
}

static void play(const struct vr_settings *settings)
{
    unsigned long before = calls;
    start(settings);
    printf("%s%s, %" PRIu32 " ports, %" PRIu32 " queues, %" PRIu32 " nodes a port:", now.edition == VR_WIDE ? "wide" : "ten bytes",
           now.packets ? " with packets" : "", now.ports, now.queues, now.nodes);
    for (unsigned long quarter = 1; quarter <= 4; quarter++) {
        drive(before + quarter * EACH / 4);
        take_memories();
        printf(" %016" PRIX64, digest);
    }
    putchar('\n');
}

static void play_shape(struct vr_settings settings)
{
    static const uint32_t nodes[] = {1, 3, MOST_NODES};
    for (size_t i = 0; i < sizeof nodes / sizeof *nodes; i++) {
        settings.nodes = nodes[i];
        play(&settings);
    }
}

static void print_counts(enum kind kind)
{
    printf("%s:", names[kind]);
    for (int answer = 0; answer < NUMBERS; answer++)
        if (counts[kind][answer]) printf(" %lu x %d", counts[kind][answer], answer);
    putchar('\n');
}

int main(void)
{
    static const struct vr_settings shapes[] = {
        {.beat = 64, .slots = 2, .credit = 300, .ports = 4, .queues = 24, .edition = VR_TEN_BYTES},
        {.beat = 128, .slots = 3, .credit = 300, .ports = 4, .queues = 24, .edition = VR_TEN_BYTES, .packets = 1},
        {.beat = 64, .slots = 1, .credit = 400, .ports = 2, .queues = 2, .edition = VR_WIDE},
        {.beat = 256, .slots = 8, .credit = 60, .ports = 5, .queues = 17, .edition = VR_WIDE},
        {.beat = 512, .slots = 4, .credit = 60, .ports = 8, .queues = 16, .edition = VR_WIDE},
        {.beat = 64, .slots = 2, .credit = 65535, .ports = 32, .queues = 64, .edition = VR_WIDE},
    };
    fill(packet, sizeof packet);
    for (size_t i = 0; i < sizeof shapes / sizeof *shapes; i++) play_shape(shapes[i]);
    for (int kind = 0; kind < KINDS; kind++) print_counts((enum kind)kind);
    printf("%lu calls, %lu packets sent by turns and rounds\n", calls, sent);
    return 0;
}
