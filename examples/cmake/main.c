/* A port that lies: a header that names another port's source halts the port where it arrives, until it is cleared. Queue 0 goes on. */
#include <stdio.h>

#include "ventorupo.h"

enum { PORTS = 4, QUEUES = 8, NODES = 16 };

static const struct vr_settings settings = {
    .nodes = NODES, .beat = 64, .slots = 4, .credit = 100, .ports = PORTS, .queues = QUEUES, .edition = VR_WIDE};

static uint8_t mem[VR_SIZE(PORTS, QUEUES, NODES)]; /* the whole switch */

/* A packet for that queue comes in at port 2, with a header that names this source. */
static void arrive(uint32_t source, uint32_t queue)
{
    struct vr_header says = {.destination = 0, .source = source, .queue = queue, .length = 100};
    uint8_t header[VR_HEADER_BYTES];
    uint32_t size, answer;
    uint16_t entry;
    if (vr_write_header(VR_WIDE, PORTS, QUEUES, &says, header, &size) != VR_DONE) return;
    answer = vr_arrive(mem, sizeof mem, 2, header, size, &entry);
    printf("source %u, queue %u: ", (unsigned)source, (unsigned)queue);
    if (answer == VR_DONE) printf("entry %u\n", (unsigned)entry);
    else printf("refused %u, %s\n", (unsigned)answer, vr_text(answer));
}

int main(void)
{
    uint32_t mark;
    if (vr_setup(mem, sizeof mem, &settings) != VR_DONE) return 1;
    arrive(2, 1);
    arrive(3, 1);
    arrive(2, 1);
    arrive(2, 0);
    if (vr_report(mem, sizeof mem, 2, &mark) != VR_DONE) return 1;
    printf("port 2 is halted by refusal %u\n", (unsigned)mark);
    if (vr_clear(mem, sizeof mem, 2) != VR_DONE) return 1;
    arrive(2, 1);
    return 0;
}
