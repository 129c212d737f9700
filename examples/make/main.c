/* One packet goes through: it arrives at port 1 for destination 5, which the map takes to port 3, and leaves there by a round. */
#include <stdio.h>

#include "ventorupo.h"

enum { PORTS = 8, QUEUES = 16, NODES = 64 };

static const struct vr_settings settings = {
    .nodes = NODES, .beat = 64, .slots = 4, .credit = 100, .ports = PORTS, .queues = QUEUES, .edition = VR_WIDE};

static uint8_t mem[VR_SIZE(PORTS, QUEUES, NODES)]; /* the whole switch */

/* Whether a call was done; if not, it is said why. */
static int done(const char *call, uint32_t answer)
{
    if (answer != VR_DONE) printf("%s is refused %u: %s\n", call, (unsigned)answer, vr_text(answer));
    return answer == VR_DONE;
}

int main(void)
{
    static const struct vr_header says = {.destination = 5, .source = 1, .queue = 0, .length = 100};
    uint8_t header[VR_HEADER_BYTES], turns[VR_TURNED_BYTES * PORTS];
    uint32_t size;
    uint16_t entry;
    if (!done("setup", vr_setup(mem, sizeof mem, &settings))) return 1;
    if (!done("map", vr_map(mem, sizeof mem, 5, 3))) return 1;
    if (!done("header", vr_write_header(VR_WIDE, PORTS, QUEUES, &says, header, &size))) return 1;
    if (!done("arrive", vr_arrive(mem, sizeof mem, says.source, header, size, &entry))) return 1;
    printf("entry %u has arrived at port %u\n", (unsigned)entry, (unsigned)says.source);
    if (!done("round", vr_round(mem, sizeof mem, turns, sizeof turns))) return 1;
    for (unsigned port = 0; port < PORTS; port++) {
        struct vr_turned turn = vr_turned_of(turns + VR_TURNED_BYTES * port);
        if (!turn.idle) printf("entry %u has left port %u\n", (unsigned)turn.entry, port);
    }
    return 0;
}
