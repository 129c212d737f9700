/* A board without an operating system and without a C library:
 *
 *     main.c   what the board does with the switch: nothing here but ventorupo.h, which itself needs <stddef.h> and <stdint.h> alone
 *     mem.c    memset and memcpy, all that libventorupo.a calls from outside
 *     board.h  what main.c and start.c ask of each other
 *     start.c  the board: a stack, the way in, a line for text. This one stands on Linux by bare system calls, so that it can be tried:
 *
 *     cd examples/board
 *     cc -std=c11 -O2 -ffreestanding -nostdlib -static -Wl,--gc-sections -I../../include main.c mem.c start.c \
 *        -L../../target/staticlib -lventorupo -o board && ./board
 *
 * For a board of your own write another start.c, and link with your linker script in place of -static: `-nostdlib -T board.ld`. Before
 * board_main is called
 *
 *     the stack pointer stands at the end of 40,960 bytes or more, and .bss is zeros;
 *     vector registers are switched on (aarch64: CPACR_EL1.FPEN is 3; x86-64: CR4.OSFXSR is 1);
 *     loads and stores may be unaligned (aarch64: the MMU is on, the memory is normal, and SCTLR_EL1.A is 0).
 *
 * The archive has no variables and no constructors. Each of its functions is a section, so that --gc-sections leaves out those not called. */
#include "board.h"
#include "ventorupo.h"

enum { PORTS = 8, QUEUES = 16, NODES = 16 };

static const struct vr_settings settings = {
    .nodes = NODES, .beat = 64, .slots = 2, .credit = 1000, .ports = PORTS, .queues = QUEUES, .edition = VR_WIDE};

/* The state: no heap, and its size is known when this is compiled. */
static uint8_t mem[VR_SIZE(PORTS, QUEUES, NODES)];

/* Whether a call was done; a refusal is told. */
static int done(const char *call, uint32_t answer)
{
    if (answer == VR_DONE) return 1;
    say(call);
    say(": refused: ");
    say(vr_text(answer));
    say("\n");
    return 0;
}

static void arrive(uint32_t port, const struct vr_header *fields)
{
    uint8_t header[VR_HEADER_BYTES];
    uint32_t size;
    uint16_t entry;
    if (!done("header", vr_write_header(VR_WIDE, PORTS, QUEUES, fields, header, &size))) return;
    if (!done("arrive", vr_arrive(mem, sizeof mem, port, header, size, &entry))) return;
    say("arrive: entry ");
    say_number(entry);
    say("\n");
}

/* What a board does again and again: arrivals and credit as they come, and a round. */
static void make_round(void)
{
    uint8_t turns[PORTS * VR_TURNED_BYTES];
    if (!done("round", vr_round(mem, sizeof mem, turns, sizeof turns))) return;
    for (uint32_t port = 0; port < PORTS; port++) {
        struct vr_turned turn = vr_turned_of(turns + port * VR_TURNED_BYTES);
        if (turn.idle) continue;
        say("round: port ");
        say_number(port);
        say(" sends entry ");
        say_number(turn.entry);
        say("\n");
    }
}

/* After a restart memory may hold anything: is it a state? */
static void look(void)
{
    uint32_t rule;
    uint64_t item;
    vr_find(mem, sizeof mem, &rule, &item);
    say(rule == 0 ? "find: " : "find: this rule is broken: ");
    say(vr_rule_text(rule));
    say("\n");
}

int board_main(void)
{
    struct vr_header fields = {.destination = 5, .source = 2, .queue = 9, .length = 300};
    look();
    if (!done("setup", vr_setup(mem, sizeof mem, &settings))) return 1;
    if (!done("map", vr_map(mem, sizeof mem, 5, 6))) return 1;
    if (!done("credit", vr_credit(mem, sizeof mem, 6, 9, 5))) return 1;
    arrive(2, &fields);
    make_round();
    arrive(3, &fields); /* its source is port 2 */
    look();
    return 0;
}
