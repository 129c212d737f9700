/* The night crew in C: an image of a switch is audited, one of its bytes goes wrong, the finding tells what is broken, and a repair makes
 * a switch state of it again. Each step is printed. */
#include <inttypes.h>
#include <stdio.h>

#include "ventorupo.h"

enum { PORTS = 4, QUEUES = 24, NODES = 2 };

/* Where these stand in an image (docs/LAYOUT.md). */
enum { MAP = 16, LAST_SERVED = 4112 };

static const struct vr_settings settings = {
    .nodes = NODES, .beat = 64, .slots = 1, .credit = 16, .ports = PORTS, .queues = QUEUES, .edition = VR_TEN_BYTES};

static uint8_t image[VR_SIZE(PORTS, QUEUES, NODES)];

/* How many nodes stand in lists of each kind, and every packet's place. */
static void audit(void)
{
    static const char *kinds[] = {"free", "ingress", "egress", "prefetch"};
    uint8_t places[PORTS * NODES * VR_PLACE_BYTES];
    unsigned count[4] = {0};
    uint32_t answer = vr_audit(image, sizeof image, places, sizeof places);
    if (answer != VR_DONE) {
        printf("audit: refused %" PRIu32 ": %s\n", answer, vr_text(answer));
        return;
    }
    for (const uint8_t *at = places; at < places + sizeof places; at += VR_PLACE_BYTES) {
        struct vr_place p = vr_place_of(at);
        count[p.kind]++;
        if (p.kind == VR_FREE) continue;
        printf("audit: entry %" PRIu32 ": %s of port %" PRIu32 ", queue %" PRIu32 ", position %" PRIu32 "\n", p.entry, kinds[p.kind], p.port,
               p.queue, p.position);
    }
    printf("audit: %u free, %u ingress, %u egress, %u prefetch\n", count[VR_FREE], count[VR_INGRESS], count[VR_EGRESS], count[VR_PREFETCH]);
}

static void find(void)
{
    uint32_t rule;
    uint64_t item;
    vr_find(image, sizeof image, &rule, &item);
    if (rule == 0)
        puts("find: a switch state");
    else
        printf("find: rule (%c), item %" PRIu64 "; the rule: %s\n", (int)('a' + rule - 1), item, vr_rule_text(rule));
}

static void repair(void)
{
    uint32_t answer = vr_repair(image, sizeof image);
    if (answer == VR_DONE)
        puts("repair: done");
    else
        printf("repair: refused %" PRIu32 ": %s\n", answer, vr_text(answer));
}

int main(void)
{
    static const struct vr_header fields = {.destination = 0, .source = 0, .queue = 0, .length = 12};
    uint8_t header[VR_HEADER_BYTES], record[VR_RECORD_BYTES];
    uint32_t size;
    uint16_t entry;
    find(); /* zero bytes: rule (a), the number of ports */
    repair();
    if (vr_setup(image, sizeof image, &settings) != VR_DONE) return 1;
    if (vr_map(image, sizeof image, 0, 3) != VR_DONE) return 1;
    if (vr_write_header(VR_TEN_BYTES, PORTS, QUEUES, &fields, header, &size) != VR_DONE) return 1;
    for (int packet = 0; packet < 2; packet++)
        if (vr_arrive(image, sizeof image, 0, header, size, &entry) != VR_DONE) return 1;
    if (vr_stitch(image, sizeof image, 0, record) != VR_DONE) return 1;
    find();
    audit();
    image[LAST_SERVED + 1] = 200; /* port 1 has served none of 24 queues */
    audit();
    find();
    repair();
    find();
    audit();
    printf("map: destination 0 goes to port %u\n", image[MAP]); /* kept */
    return 0;
}
