/* VR_SIZE is vr_size: for every shape that a switch may have, at 1, 256 and 2,048 nodes, and for settings out of their rows. */
#include <inttypes.h>
#include <stdio.h>

#include "ventorupo.h"

/* A constant: the length of an array, and a number in an #if. All of it is reckoned in unsigned long, also where an int has 16 bits. */
static uint8_t most[VR_SIZE(32, 64, 2048)];
#if VR_SIZE(4, 24, 256) != 19928 || VR_SIZE(33, 64, 2048) != 0
#error "VR_SIZE in an #if"
#endif
_Static_assert(_Generic(VR_SIZE(2, 2, 1), unsigned long: 1, default: 0), "an unsigned long");
_Static_assert(_Generic(VR_SIZE(1, 2, 1), unsigned long: 1, default: 0), "an unsigned long out of the rows too");

enum { SHAPES = (31 * 63 + 2) * 3 };

static unsigned compared, wrong;

static void compare(struct vr_settings s)
{
    uint64_t call = vr_size(&s);
    unsigned long macro = VR_SIZE(s.ports, s.queues, s.nodes);
    compared++;
    if (call == macro) return;
    wrong++;
    printf("sizes: %" PRIu32 " ports, %" PRIu32 " queues, %" PRIu32 " nodes: vr_size is %" PRIu64 ", VR_SIZE %lu\n", s.ports, s.queues,
           s.nodes, call, macro);
}

/* In its rows, and so not 0. */
static void compare_nodes(uint32_t ports, uint32_t queues, uint32_t edition, uint32_t packets)
{
    static const uint32_t nodes[] = {1, 256, 2048};
    struct vr_settings s = {.beat = 64, .slots = 1, .ports = ports, .queues = queues, .edition = edition, .packets = packets};
    for (int i = 0; i < 3; i++) {
        s.nodes = nodes[i];
        compare(s);
        wrong += vr_size(&s) == 0;
    }
}

static void compare_queues(uint32_t ports)
{
    for (uint32_t queues = 2; queues <= 64; queues++) compare_nodes(ports, queues, VR_WIDE, 0);
}

/* Out of the rows: 0 both. */
static void compare_outside(void)
{
    static const uint32_t outside[][3] = {{0, 2, 1},  {1, 2, 1},  {33, 2, 1}, {UINT32_MAX, 2, 1}, {2, 0, 1},    {2, 1, 1},
                                          {2, 65, 1}, {2, 90, 1}, {2, 2, 0},  {2, 2, 2049},       {2, 2, 65537}};
    for (size_t i = 0; i < sizeof outside / sizeof *outside; i++) {
        const uint32_t *o = outside[i];
        struct vr_settings s = {.nodes = o[2], .beat = 64, .slots = 1, .ports = o[0], .queues = o[1], .edition = VR_WIDE};
        compare(s);
        wrong += vr_size(&s) != 0;
    }
}

int main(void)
{
    for (uint32_t ports = 2; ports <= 32; ports++) compare_queues(ports);
    compare_nodes(4, 24, VR_TEN_BYTES, 0);
    compare_nodes(4, 24, VR_TEN_BYTES, 1);
    if (compared != SHAPES || sizeof most != 901712) wrong++;
    printf("sizes: %u shapes compared", compared);
    compare_outside();
    printf(", and %u out of their rows: %u wrong\n", compared - SHAPES, wrong);
    return wrong != 0;
}
