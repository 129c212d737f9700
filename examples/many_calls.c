/* A port manager in C that makes its calls in runs: what is to be done goes into one buffer, field by field, and one call carries all of it
 * out, on memory that is tested once. The answers are read beside the fields. Each step is printed. */
#include <inttypes.h>
#include <stdio.h>
#include <string.h>

#include "ventorupo.h"

enum { PORTS = 8, QUEUES = 16, NODES = 4, OUT = 6 };

/* The tags of a run's fields. */
enum { ARRIVE = 2, STITCH, PREFETCH, TURN, CREDIT, MAP };

static const struct vr_settings settings = {
    .nodes = NODES, .beat = 64, .slots = 2, .credit = 16, .ports = PORTS, .queues = QUEUES, .edition = VR_WIDE};

static uint8_t mem[VR_SIZE(PORTS, QUEUES, NODES)];

/* What is to be done: fields, one behind the other. */
static uint8_t fields[256];
static size_t used;

/* One field more: tag, length of the value, value. Where the buffer is full it is left out, and that is printed. */
static void put(uint8_t tag, const uint8_t *value, size_t n)
{
    if (sizeof fields - used < 3 + n) {
        puts("put: the buffer is full");
        return;
    }
    uint8_t *at = fields + used;
    at[0] = tag;
    at[1] = (uint8_t)(n >> 8);
    at[2] = (uint8_t)n;
    memcpy(at + 3, value, n);
    used += 3 + n;
}

static void put_arrive(struct vr_header h)
{
    uint8_t value[1 + VR_HEADER_BYTES] = {(uint8_t)h.source};
    uint32_t size;
    uint32_t no = vr_write_header(VR_WIDE, PORTS, QUEUES, &h, value + 1, &size);
    if (no == VR_DONE)
        put(ARRIVE, value, 1 + size);
    else
        printf("header: refused %" PRIu32 ": %s\n", no, vr_text(no));
}

static void put_one(uint8_t tag, uint8_t port) { put(tag, &port, 1); }

static void put_two(uint8_t tag, uint8_t first, uint8_t second)
{
    const uint8_t value[2] = {first, second};
    put(tag, value, sizeof value);
}

static void put_credit(uint8_t port, uint8_t queue, uint16_t amount)
{
    const uint8_t value[4] = {port, queue, (uint8_t)(amount >> 8), (uint8_t)amount};
    put(CREDIT, value, sizeof value);
}

/* A field, and what its call has answered. */
static void show(const uint8_t *field, struct vr_turned t)
{
    static const char *names[] = {"arrive at port", "stitch at port", "prefetch at port", "turn of port", "credit of port", "map of id"};
    printf("  %s %u: ", names[field[0] - ARRIVE], field[3]);
    if (t.answer != VR_DONE)
        printf("refused %" PRIu32 ": %s\n", t.answer, vr_text(t.answer));
    else if (t.idle)
        puts("idle");
    else if (field[0] == CREDIT || field[0] == MAP)
        puts("done");
    else
        printf("entry %" PRIu32 "\n", t.entry);
}

/* Carries out what is in the buffer, and empties it. There is room for five answers, so that more calls take more runs: each goes on with the
 * field at which the one before it stopped. */
static void run(void)
{
    uint8_t answers[5 * VR_TURNED_BYTES];
    uint64_t count;
    uint32_t why;
    size_t at = 0;
    do {
        uint32_t no = vr_run(mem, sizeof mem, fields + at, used - at, answers, sizeof answers, &count, &why);
        if (no != VR_DONE) {
            printf("run: refused %" PRIu32 ": %s\n", no, vr_text(no));
            return;
        }
        printf("run: calls done: %" PRIu64 "\n", count);
        for (uint64_t i = 0; i < count; i++) {
            show(fields + at, vr_turned_of(answers + i * VR_TURNED_BYTES));
            at += 3 + (size_t)(fields[at + 1] << 8 | fields[at + 2]);
        }
    } while (why == VR_NO_ROOM);
    if (why == VR_BAD_FIELD) printf("run: a bad field at byte %zu of %zu\n", at, used);
    used = 0;
}

int main(void)
{
    struct vr_header h = {.destination = 5, .source = 2, .queue = 9, .length = 300};
    put_two(MAP, 5, OUT);
    put_credit(OUT, 9, 5);
    run(); /* zero bytes are no switch state: nothing is done, and the fields stay */
    if (vr_setup(mem, sizeof mem, &settings) != VR_DONE) return 1;
    put_arrive(h);
    h.queue = QUEUES; /* one too many: no header says that */
    put_arrive(h);
    h.queue = 0;
    put_arrive(h);
    put_one(STITCH, 2);
    put_one(STITCH, 2);
    put_one(STITCH, 2); /* refused, and the run goes on */
    put_two(PREFETCH, OUT, 0);
    put_two(PREFETCH, OUT, 9);
    for (int turns = 0; turns < 3; turns++) put_one(TURN, OUT);
    run();

    put_one(TURN, PORTS); /* one too many */
    put_two(TURN, 0, 0);  /* a turn has one number */
    put_one(TURN, 0);     /* so this one is not done */
    run();
    return 0;
}
