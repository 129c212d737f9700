/* ventorupo.h: the queue manager of the packet switch. 2 to 32 ports, 2 to 64 queues a port, in memory that the caller lends.
 *
 * A packet's header arrives at a port and takes a node of that port's pool (arrive). The node goes over to the port that the map names for
 * the header's destination (stitch), waits there in the line of its queue, gets one of the queue's slots (prefetch), and leaves when it is
 * the queue's turn and its credit allows (turn). Then the node is free again, at the port where it came from. A round makes one step
 * everywhere.
 *
 * Here stand, in this order: a program to start from; the calls by task; the refusals; what holds of every call; what the archive needs;
 * then the calls one by one. */
#ifndef VENTORUPO_H
#define VENTORUPO_H

#if 0 /* Start from here: cc start.c -Iinclude -Ltarget/staticlib -lventorupo -o start && ./start (a release has lib/x86_64-linux-gnu) */
#include <stdio.h>
#include "ventorupo.h"

enum { PORTS = 8, QUEUES = 16, NODES = 256 };
static uint8_t mem[VR_SIZE(PORTS, QUEUES, NODES)]; /* the whole state */

static int refused(const char *what, uint32_t answer)
{
    if (answer != VR_DONE) printf("%s is refused %u: %s\n", what, (unsigned)answer, vr_text(answer));
    return answer != VR_DONE;
}

int main(void)
{
    struct vr_settings settings = {.nodes = NODES, .beat = 64, .slots = 8, .credit = 5000,
                                   .ports = PORTS, .queues = QUEUES, .edition = VR_WIDE};
    struct vr_header fields = {.destination = 3, .source = 1, .queue = 5, .length = 100};
    uint8_t header[VR_HEADER_BYTES], turns[PORTS * VR_TURNED_BYTES];
    uint32_t size, rule;
    uint64_t item;
    uint16_t entry;

    if (refused("setup", vr_setup(mem, sizeof mem, &settings))) return 1;
    if (refused("map", vr_map(mem, sizeof mem, 3, 6))) return 1;           /* destination 3 is at port 6 */
    if (refused("credit", vr_credit(mem, sizeof mem, 6, 5, 10))) return 1; /* there queue 5 may send ten beats */
    if (refused("header", vr_write_header(VR_WIDE, PORTS, QUEUES, &fields, header, &size))) return 1;
    if (refused("arrival", vr_arrive(mem, sizeof mem, 1, header, size, &entry))) return 1;
    printf("entry %u arrives at port 1\n", (unsigned)entry);

    if (refused("round", vr_round(mem, sizeof mem, turns, sizeof turns))) return 1;
    for (int port = 0; port < PORTS; port++) {
        struct vr_turned turn = vr_turned_of(turns + port * VR_TURNED_BYTES);
        if (!turn.idle) printf("entry %u leaves port %d\n", (unsigned)turn.entry, port);
    }

    /* a port that takes in a header with another port's source is halted: see vr_report */
    refused("the same header at port 2", vr_arrive(mem, sizeof mem, 2, header, size, &entry));

    mem[1] = 33; /* a byte goes wrong: now the memory says that there are 33 ports */
    if (refused("a round", vr_round(mem, sizeof mem, turns, sizeof turns))) {
        vr_find(mem, sizeof mem, &rule, &item);
        printf("it breaks rule (%c), item %u: %s\n", (int)('a' + rule - 1), (unsigned)item, vr_rule_text(rule));
    }
    return 0;
}
/* It prints:
entry 2048 arrives at port 1
entry 2048 leaves port 6
the same header at port 2 is refused 8: header's source isn't the arriving port
a round is refused 3: memory is no switch state
it breaks rule (a), item 0: the settings are in their rows and the memory is long enough
*/
#endif

/* The calls by task. An entry id names a node: the number of the port that it belongs to times 2,048, plus its index there, from 0.
 *
 *     set up          VR_SIZE, vr_size  how many bytes a state takes
 *                     vr_setup          writes the starting state
 *                     vr_map            which port a destination id goes to
 *     headers         vr_write_header   makes a header's bytes
 *                     vr_read_header    what a header says
 *     take in         vr_arrive         a header comes in at a port
 *     move on         vr_stitch         a port's oldest goes over to the port that the map names
 *                     vr_prefetch       a queue's oldest gets a slot
 *     send            vr_credit         a queue may send so much more
 *                     vr_turn           one packet leaves a port
 *                     vr_timed_turn     the same, and how long it waited is counted
 *     many at once    vr_round          the next step of every port
 *                     vr_run            calls of one's own choice, out of a buffer
 *     whole packets   vr_arrive_packet  a packet comes in and is stored
 *                     vr_show           where the packet lies that a queue sends next
 *     ask             vr_ready          which queues of a port could send now
 *                     vr_where          where a node stands
 *                     vr_audit          where every node stands
 *                     vr_bucket         how many packets waited how long
 *     a port lies     vr_report         whether a port is halted, and by what
 *                     vr_clear          lets it go on
 *     night crew      vr_find           why a memory is no state
 *                     vr_repair         makes a state of it again
 *     read answers    vr_text           a refusal in words
 *                     vr_rule_text      a rule that vr_find names, in words
 *                     vr_record_of, vr_sent_of, vr_place_of, vr_turned_of  structs out of the bytes that calls write
 *
 * What stands under "read answers" is static inline, for C99 and later and for C++; under C89 it is left out, and all else is there. */

#include <stddef.h>
#include <stdint.h>

#define VR_VERSION_MAJOR 0
#define VR_VERSION_MINOR 20
#define VR_VERSION_PATCH 0
#define VR_VERSION "0.20.0"

#ifdef __cplusplus
extern "C" {
#endif

/* What a call answers. Beside each refusal: the calls that give it, and its meaning, which vr_text has too. */
enum vr_answer {
    VR_DONE = 0,             /* all but size, find: done */
    VR_SHORT_MEMORY = 1,     /* setup: memory shorter than its settings need */
    VR_BAD_SETTING = 2,      /* setup, read_header, write_header: a setting not in its row */
    VR_NO_STATE = 3,         /* all but setup, find, read_header, write_header, size: memory is no switch state */
    VR_NO_PORT = 4,          /* all with a port: port above the last */
    VR_NO_QUEUE = 5,         /* prefetch, credit, bucket, show: queue above the last; for credit also 0; for bucket, bucket above 32 */
    VR_HEADER_SIZE = 6,      /* arrive, read_header: header not of its edition's size */
    VR_CHECKSUM = 7,         /* arrive, arrive_packet, read_header: checksum differs */
    VR_SOURCE = 8,           /* arrive, arrive_packet: header's source isn't the arriving port */
    VR_TOO_SHORT = 9,        /* arrive, arrive_packet, read_header: length under the header's size plus 2 */
    VR_NO_CREDIT = 10,       /* arrive, arrive_packet: price above arrival credit; at a halted port, queue above 0 */
    VR_NO_FREE_NODE = 11,    /* arrive, arrive_packet: free list empty */
    VR_NOTHING_THERE = 12,   /* stitch, prefetch, show: list to take from is empty; for show, nothing to show */
    VR_SLOTS_IN_USE = 13,    /* prefetch: all slots in use */
    VR_TOO_MUCH_CREDIT = 14, /* credit: sum above 65,535 */
    VR_NO_SUCH_ID = 15,      /* map, where: id above 4,095; no such node */
    VR_PACKET_BYTES = 16,    /* arrive_packet: packet bytes not as many as the length field says, or fewer than ten */
    VR_PACKET_MEMORY = 17,   /* arrive_packet, show: a packet memory not of 8,192 bytes a node */
    VR_HEADER_QUEUE = 19,    /* arrive, arrive_packet, read_header: header's queue above the last */
    VR_RESERVED_BIT = 20,    /* arrive, arrive_packet, read_header: a reserved bit of the header is 1 */
    VR_NO_FIT = 21,          /* write_header: a value doesn't fit its field, length under the header's size plus 2, or queue above the last */
    VR_OTHER_KIND = 24,      /* arrive, arrive_packet, show: a header alone where packets are kept, or a packet or a show where none are */
    VR_SHORT_ROOM = 27       /* round, audit: room of less than four bytes a port; for audit, eight a node */
};

/* What holds of every call.
 *
 * Every call but vr_size and vr_find answers VR_DONE, which is 0, or a refusal's number; a refused call changes no byte that was lent, the
 * room for its answer included, but that an arrival refused 7 or 8 sets its port's mark, one byte of the state, if the port has none.
 * Nothing has to be checked beforehand: any memory and any numbers are taken. Where a call is refused 3, vr_find tells why, and vr_repair
 * makes a state again of every memory that keeps rule (a), whose packets are lost then; where (a) is broken it is refused 3 itself.
 *
 * Each call that works on a state tests first that the memory is one, which takes the longer the more nodes there are. Many calls pay for
 * one test in a round (vr_round), the next step of every port, and in a run (vr_run), arrivals, stitches, prefetches, turns, credits and map
 * entries in any order, written into one buffer.
 *
 * Setup tests 2, then 1; vr_read_header 2, 6, 7, 20, 9, 19; vr_write_header 2, then 21. The others test 3 first, then in the order of
 * their numbers, but map tests 15 before 4, and these have orders of their own:
 *
 *     vr_arrive         3, 24, 4, 6, 7, 20, 8, 9, 19, 10, 11
 *     vr_arrive_packet  3, 24, 17, 4, 16 (under ten bytes), 7, 20, 8, 9, 16 (not as many as the length field says), 19, 10, 11
 *     vr_show           3, 24, 17, 4, 5, 12
 *
 * A run itself is refused 3 alone; what its calls are refused stands in their answers.
 *
 * What C asks remains the caller's: each pointer is valid, and not null, for the length given (a room for its whole size); pointers to
 * uint16_t, uint32_t, uint64_t and the structs are aligned; a memory that a call may change overlaps no other that is lent to it; and no two
 * calls run at once on a memory that one of them may change. And each port's packet memory is the same one at every call: that another
 * port's is lent, or other bytes of the same size, can't be noticed, and then a packet is stored and shown where it isn't looked for.
 *
 * Numbers, and structs of numbers, are the machine's own; the rooms of bytes and the fields of a run are big-endian. So is a state, which
 * holds no pointers: it may be copied, moved and stored as bytes, and is the same on every machine.
 *
 * Numbers are wide on purpose: port 70,000 is refused 4, an amount above 65,535 is a sum above 65,535, an entry above 65,535 is no node. */

/* What the archive needs from its surroundings. libventorupo.a has code and constants alone, no variables. It allocates nothing, asks the
 * system for nothing and calls nothing from outside but
 *
 *     memcpy memset
 *
 * So calls on memories that have nothing in common may run at once.
 *
 * A call takes up to 25,600 bytes of stack, a finding up to 33,600, whatever the settings (measured on x86-64, rounded up, and not proved;
 * on aarch64 both were less): the test for a state keeps a bit for each of up to 65,536 nodes there, and a sum for each port and queue but
 * 0.
 *
 * On a board without a C library: link libventorupo.a with a memset and a memcpy of your own, behind the objects that use it, with
 * -nostdlib; examples/board is such a program. The code uses vector registers (SSE2 on x86-64, NEON on aarch64) and loads and stores that
 * are not aligned: the startup code switches the former on and allows the latter, and an interrupt handler that calls it saves the vector
 * registers. */

/* The header's editions. */
enum vr_edition {
    VR_TEN_BYTES = 0, /* 4 ports, 24 queues */
    VR_WIDE = 1       /* 2 to 32 ports, 2 to 64 queues */
};

/* The bytes of the rooms that calls write their answers to, and of the longest header. */
#define VR_RECORD_BYTES 10 /* of a stitch: struct vr_record */
#define VR_SENT_BYTES 16   /* of a turn: struct vr_sent */
#define VR_PLACE_BYTES 8   /* of vr_where, and of an audit for each node: struct vr_place */
#define VR_TURNED_BYTES 4  /* of a round for each port, of a run for each field: struct vr_turned */
#define VR_HEADER_BYTES 12

/* Set up ------------------------------------------------------------------------------------------------------------------------------- */

/* What a switch is set up with; any numbers may stand here. One that is not in its row, the range beside it, is refused 2. */
struct vr_settings {
    uint32_t nodes;   /* nodes a port: 1 to 2,048 */
    uint32_t beat;    /* bytes: 64, 128, 256 or 512 */
    uint32_t slots;   /* of a prefetch list: 1 to 8 */
    uint32_t credit;  /* the arrival credit of each port and queue above 0, in beats: 0 to 65,535 */
    uint32_t ports;   /* 2 to 32; in edition 0, with ten-byte headers, it is 4 */
    uint32_t queues;  /* queues a port: 2 to 64; in edition 0 it is 24 */
    uint32_t edition; /* of the header, enum vr_edition: 0, VR_TEN_BYTES, or 1, VR_WIDE */
    uint32_t packets; /* 1 if packets are kept, else 0; in edition 1 it is 0 */
};

/* The bytes that a state of these settings takes; 0 if one of them is not in its row. As many are lent at each call, or more:
 *
 *     size_t len = (size_t)vr_size(&settings);
 *     uint8_t *mem = malloc(len);
 *     if (vr_setup(mem, len, &settings) != VR_DONE) ... */
uint64_t vr_size(const struct vr_settings *settings);

/* The same as a constant, for the length of an array or in an #if; an unsigned long. 0 if ports, queues or nodes are not in the rows of
 * edition 1; the other settings have no part in it. Arguments are read more than once. */
#define VR_SIZE(ports, queues, nodes) \
    ((ports) < 2 || (ports) > 32 || (queues) < 2 || (queues) > 64 || (nodes) < 1 || (nodes) > 2048 \
         ? 0ul : 4112ul + (ports) * (146ul + (queues) * 20ul + (nodes) * 13ul))

/* Writes the starting state for these settings, also over an older one: all nodes are free, arrival credit is the setting credit at every
 * port and queue above 0, outward credit 0, every destination id is mapped to port 0, the last queue counts as the one served last, no port
 * is halted and nothing is counted. So give map entries and outward credit next. Bytes past vr_size(settings) are never changed, by this
 * call or another. The settings stand in the first 16 bytes of a state, two bytes each: ports, queues, nodes, beat, slots, credit, edition,
 * packets; docs/LAYOUT.md has the rest. */
uint32_t vr_setup(uint8_t *mem, size_t len, const struct vr_settings *settings);

/* Sets the port of one destination id, 0 to 4,095. An id that was never set goes to port 0. A header's destination is as wide as ports - 1
 * needs, so with 8 ports ids 0 to 7 are met; the others are there and never asked for. The map is read when a packet is stitched. */
uint32_t vr_map(uint8_t *mem, size_t len, uint32_t id, uint32_t port);

/* Headers ------------------------------------------------------------------------------------------------------------------------------ */

/* What a header says; any numbers may stand here. */
struct vr_header {
    uint32_t destination; /* the destination id, which the map takes to a port */
    uint32_t source;      /* the port where the packet arrives */
    uint32_t queue;
    uint32_t length;      /* header, data and footer, in bytes: from the header's size plus 2 to 8,191 */
    uint32_t poisoned;    /* 1 for a poisoned packet, else 0; handed on with the packet, which is treated as any other */
    uint32_t timestamp;   /* of a clock of yours; handed on, and vr_timed_turn counts from it */
    uint32_t credit;      /* on offer (not used yet) */
    uint32_t transaction; /* the transaction id */
};

/* A header's bits. Its fields stand one behind the other, each from its most significant bit on; bit 7 is the most significant of a byte.
 *
 *     field        bits, wide          of ten bytes   where in ten bytes
 *     destination  as ports - 1 needs  2              byte 0, bits 7 to 6
 *     source       the same            2              byte 0, bits 5 to 4
 *     queue        as queues - 1 needs 5              byte 0, bits 3 to 0, then byte 1, bit 7
 *     length       13                  13             byte 1, bits 6 to 0, then byte 2, bits 7 to 2
 *     poisoned     1                   1              byte 2, bit 1
 *     reserved     up to a byte's end  1              byte 2, bit 0; zeros
 *     timestamp    32                  32             bytes 3 to 6
 *     credit       16                  8              byte 7
 *     transaction  8                   8              byte 8
 *     checksum     8                   8              byte 9
 *
 * 2, 4, 8, 16 and 32 ports need 1, 2, 3, 4 and 5 bits, and so on for queues; numbers between need as many as the next of these. So what
 * stands before the timestamp of a wide header has three bytes or four, and the whole has 11 or 12: 11, 11, 12 and 12 for 4 ports and 24
 * queues, 8 and 16, 16 and 32, 32 and 64. With 8 ports and 16 queues nothing is reserved:
 *
 *     byte 0  bits 7 to 5 destination, 4 to 2 source, 1 to 0 queue (its upper two)
 *     byte 1  bits 7 to 6 queue (its lower two), 5 to 0 length (its upper six)
 *     byte 2  bits 7 to 1 length (its lower seven), bit 0 poisoned
 *     bytes 3 to 6 timestamp, 7 to 8 credit, 9 transaction, 10 checksum
 *
 * The checksum is the CRC-8 of all bytes before it: polynomial x^8 + x^2 + x + 1, start 0, no reflection.
 *
 * Destination 3, source 1, queue 5, length 100, credit 200 and zeros are, in ten bytes, and with 8 ports and 16 queues:
 *
 *     D2 81 90 00 00 00 00 C8 00 E9
 *     65 40 C8 00 00 00 00 00 C8 00 0E
 *
 * A packet's price is its length divided by the beat, rounded up; packets of queue 0 are free. */

/* Writes the header that says this, its checksum made, and its size in bytes, 10 to 12; the room past the size stays. Refused 21 exactly if
 * a value doesn't fit its field, the length is under the size plus 2, or the queue is above the last. vr_read_header reads of it what was
 * written; and of what vr_read_header has read, this call makes the same bytes again. */
uint32_t vr_write_header(uint32_t edition, uint32_t ports, uint32_t queues, const struct vr_header *fields, uint8_t header[VR_HEADER_BYTES],
                         uint32_t *size);

/* Reads a header of a switch of this edition and so many ports and queues, and writes what it says. Source and destination are judged by
 * their fields' width alone: with 5 ports a source of 7 is read, which vr_arrive refuses 8. */
uint32_t vr_read_header(uint32_t edition, uint32_t ports, uint32_t queues, const uint8_t *header, size_t header_len,
                        struct vr_header *fields);

/* Take in, move on --------------------------------------------------------------------------------------------------------------------- */

/* Takes the front of the port's free list, records the header and appends the node to ingress. Writes the entry id. For a queue above 0 the
 * port's arrival credit for the queue falls by the packet's price, and rises by it again when the packet leaves; refused 10 where it is less
 * than the price, or the port is halted (vr_report tells whether it is; its credit may be short as well). Refused 7 or 8, it halts the port:
 * its mark becomes that number if it was 0, and no other byte changes (see vr_report). Refused 24 where packets are kept. */
uint32_t vr_arrive(uint8_t *mem, size_t len, uint32_t port, const uint8_t *header, size_t header_len, uint16_t *entry);

/* Takes the oldest ingress node to the egress list of the port that the map names now. Writes ten bytes, big-endian:
 * entry id (2), length (2), queue (1), mapped port (1), timestamp (4); vr_record_of reads them. */
uint32_t vr_stitch(uint8_t *mem, size_t len, uint32_t port, uint8_t record[VR_RECORD_BYTES]);

struct vr_record {
    uint32_t entry, length, queue, port, timestamp; /* port: the mapped one */
};

/* Takes the oldest egress node of the queue to the end of its prefetch list. Writes the entry id. */
uint32_t vr_prefetch(uint8_t *mem, size_t len, uint32_t port, uint32_t queue, uint16_t *entry);

/* Send --------------------------------------------------------------------------------------------------------------------------------- */

/* Adds the amount, in beats, to the queue's outward credit at this port, from which the prices of what leaves are taken. It is 0 after
 * setup, and no queue above 0 sends without it. Queue 0 is free and has none. */
uint32_t vr_credit(uint8_t *mem, size_t len, uint32_t port, uint32_t queue, uint32_t amount);

/* Lets one packet leave the port, or none if nothing is ready. A queue is ready if a packet is in its slots and, above queue 0, its outward
 * credit is at least the price of the oldest of them. The turn goes to the lowest ready queue above the one that was served last or, if
 * there is none, to the lowest of all: every queue in its turn, queue 0 like any other. Its oldest packet leaves; the price is taken from
 * the outward credit and goes back to the arrival credit of the port where the packet came in; the node goes to the end of that port's free
 * list. Writes sixteen bytes, big-endian: kind (1: 0 idle, 1 inside, 2 outside), queue (1), entry id (2), length (2), destination id (2),
 * timestamp (4), poisoned (1), transaction id (1), price (2); vr_sent_of reads them. An idle turn writes the kind alone; the other 15 bytes
 * stay. */
uint32_t vr_turn(uint8_t *mem, size_t len, uint32_t port, uint8_t sent[VR_SENT_BYTES]);

/* What kind of turn it was. */
enum vr_sent_kind {
    VR_IDLE = 0,   /* nothing was ready */
    VR_INSIDE = 1, /* a packet of queue 0 left */
    VR_OUTSIDE = 2 /* one of another queue left */
};

struct vr_sent {
    uint32_t kind, queue, entry, length, destination, timestamp, poisoned, transaction, price; /* kind: enum vr_sent_kind */
};

/* A turn that is given the time, on the clock of the headers' timestamps: vr_turn, and if a packet leaves, its wait is counted in the
 * buckets of the port whose turn it is. The wait is now less the timestamp on 32 bits, so a clock that has passed its end still gives it. A
 * wait of 0 counts in bucket 0, any other in the bucket of its highest set bit, counted from 1: of 1 in bucket 1, of 2 and 3 in bucket 2, of
 * 2^31 and more in bucket 32. A bucket at 4,294,967,295 stays there. An idle turn counts nothing, nor does vr_turn or a round. Writes and
 * answers as vr_turn does. */
uint32_t vr_timed_turn(uint8_t *mem, size_t len, uint32_t port, uint32_t now, uint8_t sent[VR_SENT_BYTES]);

/* Many at once ------------------------------------------------------------------------------------------------------------------------- */

/* A round: one stitch at each port, from 0 on; then one prefetch for each port and queue, port by port and queue by queue from 0; then one
 * turn at each port, from 0 on. Memory and turns are as of the same calls one by one, but the memory is tested once. A refusal inside
 * (12, 13) changes nothing and is passed over.
 * Writes four bytes for each port's turn, port by port: refusal number (1), 1 if idle (1), entry id (2, big-endian) or 0; vr_turned_of reads
 * them. So 32 ports have 128, and these are always enough; what is lent past the last port's stays. Refused 3, then 27 if less is lent; then
 * neither the memory nor the room changes. So look at the answer first: in a room that was lent as zeros a refused round reads as turns that
 * sent node 0, whose bytes are 0 0 0 0. A round tells no queue and no wait of what leaves: who counts by queue remembers it by the entry id,
 * or makes vr_turn's calls; who counts waits makes vr_timed_turn's. */
uint32_t vr_round(uint8_t *mem, size_t len, uint8_t *turns, size_t turns_len);

/* A turn of a round, or what a field of a run was answered. */
struct vr_turned {
    uint32_t answer, idle, entry; /* answer: enum vr_answer; idle: 1 if idle, else 0; entry: the entry id, or 0 */
};

/* A run: many calls, each a field of the memory `fields`, one behind the other. A field is tag (1), length of its value (2), value:
 *
 *     tag 2  arrive    port (1), header (10, or as many bytes as the switch's own have)
 *     tag 3  stitch    port (1)
 *     tag 4  prefetch  port (1), queue (1)
 *     tag 5  turn      port (1)
 *     tag 6  credit    port (1), queue (1), amount (2)
 *     tag 7  map       id (1), port (1)
 *
 * (enum vr_tag). So a turn of port 3 is 5, 0, 1, 3. Destination ids above 255 are mapped by vr_map alone, and timed turns have no field.
 * Memory and answers are as of the same calls one by one, but the memory is tested once. These are the bench program's fields, so a header
 * of ten bytes is a good field on a wide switch too, where it is refused 6, and where packets are kept, where it is refused 24.
 * Writes four bytes for each field's answer, one behind the other: refusal number (1), 1 if idle (1), entry id (2, big-endian) or 0. The
 * entry id is that of arrive, prefetch and turn, and of stitch the one in its record; credit and map have none. A field that is refused
 * leaves what its call leaves when it is refused, and the run goes on with the next.
 * The run stops where the fields end (VR_ENDED); at a bad field, which is one of another tag or length or one that is cut off
 * (VR_BAD_FIELD); or at a good field where less than four bytes of room are left (VR_NO_ROOM). A bad field is bad also where no room is
 * left. A setup has no place in a run: tag 1 is bad, whatever its length. Writes to `count` how many fields were done, refused ones among
 * them, and the enum vr_stop to `why`; the field at which it stopped is not done and not counted, so a run may go on from there. The room
 * past the last answer stays. As many bytes of room as of fields are always enough. Refused 3 alone; then nothing is written, count and why
 * neither. So look at the answer first. */
uint32_t vr_run(uint8_t *mem, size_t len, const uint8_t *fields, size_t fields_len, uint8_t *answers, size_t answers_len, uint64_t *count,
                uint32_t *why);

/* The tags of a run's fields. */
enum vr_tag {
    VR_TAG_ARRIVE = 2,
    VR_TAG_STITCH = 3,
    VR_TAG_PREFETCH = 4,
    VR_TAG_TURN = 5,
    VR_TAG_CREDIT = 6,
    VR_TAG_MAP = 7
};

/* Why a run stopped. */
enum vr_stop {
    VR_ENDED = 0,     /* the fields ended */
    VR_BAD_FIELD = 1, /* a bad field */
    VR_NO_ROOM = 2    /* no room for a good field's answer */
};

/* Whole packets ------------------------------------------------------------------------------------------------------------------------ */

/* With ten-byte headers a state may keep whole packets, in memory lent beside it, and show them where they lie:
 *
 *     struct vr_settings s = {.nodes = 256, .beat = 64, .slots = 8, .credit = 5000, .ports = 4, .queues = 24, .packets = 1};
 *     uint8_t *packets[4];                                 a packet memory for each port, of s.nodes * VR_SLOT_BYTES bytes each
 *     vr_arrive_packet(mem, len, packets[port], s.nodes * VR_SLOT_BYTES, port, packet, packet_len, &entry)
 *     vr_show(mem, len, packets[0], ..., port, queue, &owner, &at, &length)    once prefetched: length bytes of packets[owner] from at on
 *
 * Each port has a packet memory outside of the state: a slot of 8,192 bytes (VR_SLOT_BYTES) for each of its nodes, node 0's first. They are
 * lent to vr_arrive_packet and vr_show, and no other call has anything to do with them. A packet lies in its slot from its arrival on, after
 * its turn too, until its node takes another. Headers that arrive alone are refused 24 there, in a run too; whole packets, and vr_show, are
 * refused 24 where none are kept. All other calls, and the state but for this setting, are the same. */

/* The bytes of a slot, of which a packet memory has one for each node. */
enum { VR_SLOT_BYTES = 8192 };

/* A whole packet arrives, whose first ten bytes are its header, on a state that keeps packets. Does to the state what vr_arrive does with
 * that header where none are kept, and copies the packet to the start of its node's slot in `packets`, the packet memory of the port where
 * it arrives: byte `entry % 2048 * VR_SLOT_BYTES`. The rest of that slot and all other slots stay. The packet's bytes are header, data and
 * footer, as many as the header's length field says, else it is refused 16; packets_len is nodes * VR_SLOT_BYTES, else 17. */
uint32_t vr_arrive_packet(uint8_t *mem, size_t len, uint8_t *packets, size_t packets_len, uint32_t port, const uint8_t *packet,
                          size_t packet_len, uint16_t *entry);

/* Shows the oldest packet in the queue's prefetch slots, the one that the port sends next of that queue: it is `length` bytes, as many as
 * its header says, of the packet memory of port `owner`, from byte `at` on. p0 to p3 are the packet memories of ports 0 to 3; refused 17
 * unless each of them has nodes * VR_SLOT_BYTES. Refused 12 where the slots are empty, also if egress has packets. Changes nothing, and a
 * refusal leaves owner, at and length as they were. */
uint32_t vr_show(const uint8_t *mem, size_t len, const uint8_t *p0, size_t len0, const uint8_t *p1, size_t len1, const uint8_t *p2,
                 size_t len2, const uint8_t *p3, size_t len3, uint32_t port, uint32_t queue, uint32_t *owner, uint64_t *at,
                 uint32_t *length);

/* Ask ---------------------------------------------------------------------------------------------------------------------------------- */

/* Writes the port's ready word, bit q for queue q, and the number of ones in it. */
uint32_t vr_ready(const uint8_t *mem, size_t len, uint32_t port, uint64_t *word, uint32_t *count);

/* Writes where the node stands, eight bytes, big-endian: entry id (2), list kind (1: 0 free, 1 ingress, 2 egress, 3 prefetch), port (1),
 * queue or 0 (1), zero (1), position in the list from 0 (2); vr_place_of reads them. */
uint32_t vr_where(const uint8_t *mem, size_t len, uint32_t entry, uint8_t place[VR_PLACE_BYTES]);

/* The kinds of lists. */
enum vr_list_kind {
    VR_FREE = 0,
    VR_INGRESS = 1,
    VR_EGRESS = 2,
    VR_PREFETCH = 3
};

struct vr_place {
    uint32_t entry, kind, port, queue, position; /* kind: enum vr_list_kind */
};

/* Writes where every node stands, port by port and index by index, eight bytes each as vr_where's: 8 * ports * nodes in all, so 524,288 are
 * always enough; what is lent past them stays. Refused 3, then 27 if less is lent. */
uint32_t vr_audit(const uint8_t *mem, size_t len, uint8_t *places, size_t places_len);

/* Writes how many packets the port's timed turns sent, since setup or repair, whose wait counts in this bucket, 0 to 32; 4,294,967,295
 * stands for as many or more. Refused 3, then 4, then 5. Below that stop, the sum of a port's 33 buckets is the number of packets that its
 * timed turns sent. */
uint32_t vr_bucket(const uint8_t *mem, size_t len, uint32_t port, uint32_t bucket, uint32_t *count);

/* A port lies -------------------------------------------------------------------------------------------------------------------------- */

/* A port that lies is halted: the first arrival there that is refused 7 or 8 marks the port with that number, whatever source the header
 * names, and later ones leave the mark. While the port has a mark, headers and packets that arrive there for a queue above 0 and are right
 * are refused 10, whatever price and credit are (so a 10 has two meanings; vr_report tells whether the port is halted); queue 0 goes on, and
 * so do credits, stitches, prefetches and turns. vr_report reads a mark; vr_clear lifts it, and so do vr_setup and vr_repair. */

/* Writes the port's mark: 0 if it isn't halted, else the first refusal that halted it since setup, repair or clear: VR_CHECKSUM or
 * VR_SOURCE, or 18, which no call gives yet. Refused 3, then 4. */
uint32_t vr_report(const uint8_t *mem, size_t len, uint32_t port, uint32_t *mark);

/* Lifts the port's mark, so that it takes in queues above 0 again; of a port that has none it is done too. Refused 3, then 4. */
uint32_t vr_clear(uint8_t *mem, size_t len, uint32_t port);

/* Night crew --------------------------------------------------------------------------------------------------------------------------- */

/* What is wrong with a memory, whatever it holds; never refused. Writes the first rule of soundness that it breaks, 1 to 7 for (a) to (g)
 * and 9 for (i) (rule 8, (h), is one to come), and the first item that shows it, in the order of docs/FINDINGS.md; 0 and 0 where it is a
 * switch state. That says that every call goes on with it, not that no byte was changed: any number is an outward credit or a bucket.
 * The tool (vr explain) says items in words. So rule 2, item 1 is port 1's last served queue out of range, and rule 9, item 1 port 1's mark,
 * if it is none of 0, 7, 8 and 18. For P ports, Q queues, N nodes a port and L lists, P * (2 * Q + 2), which port by port are the free one,
 * ingress, egress by queue and prefetch by queue:
 *
 *     rule   what it asks, and its items
 *     1 (a)  the settings are in their rows and the memory is long enough
 *            0 to 7: ports, queues, nodes, beat, slots, credit, edition, packets; 8: too short
 *     2 (b)  last served queues, map entries and credits are in range and no prefetch list exceeds its slots
 *            below P: a port's last served queue; P + d: the map's entry of id d; P + 4096 + p * Q + q: the prefetch list of port p, queue q
 *     3 (c)  every node of every port stands once in one list
 *            below L: a list that doesn't hold together; L + p * N + i: node i of port p, which stands in none
 *     4 (d)  free and ingress lists hold only their own port's nodes
 *            the entry id
 *     5 (e)  a node in an egress or prefetch list has that list's queue
 *            the entry id
 *     6 (f)  every field recorded for a node that isn't free is in range, its price that of queue, length and beat
 *            the entry id
 *     7 (g)  for each port and queue above 0, arrival credit and prices outstanding are together the setting credit
 *            p * (Q - 1) + q - 1: that of port p, queue q
 *     9 (i)  every port's mark is 0, 7, 8 or 18
 *            the port */
void vr_find(const uint8_t *mem, size_t len, uint32_t *rule, uint64_t *item);

/* Writes the starting state for the settings that the memory has, and keeps its map, but for entries above the last port, which become 0:
 * also over a sound state. Packets, outward credits, marks and buckets are lost. Refused 3 exactly where rule (a) is broken: a setting not
 * in its row, or memory too short for its settings. Not for an image of before version 0.15 (the wide headers): set that up afresh, since
 * its older tables could pass for a map. One of 0.15 or 0.16 (before the buckets) is no state either; in a memory long enough a repair keeps
 * its settings and map. */
uint32_t vr_repair(uint8_t *mem, size_t len);

#if defined(__cplusplus) || (defined(__STDC_VERSION__) && __STDC_VERSION__ >= 199901L)

/* Read answers ------------------------------------------------------------------------------------------------------------------------- */

/* What VR_DONE or a refusal says, in words; of a number that no call answers it says so. */
static inline const char *vr_text(uint32_t answer)
{
    switch (answer) {
    case VR_DONE: return "done";
    case VR_SHORT_MEMORY: return "memory shorter than its settings need";
    case VR_BAD_SETTING: return "a setting not in its row";
    case VR_NO_STATE: return "memory is no switch state";
    case VR_NO_PORT: return "port above the last";
    case VR_NO_QUEUE: return "queue above the last; for credit also 0; for bucket, bucket above 32";
    case VR_HEADER_SIZE: return "header not of its edition's size";
    case VR_CHECKSUM: return "checksum differs";
    case VR_SOURCE: return "header's source isn't the arriving port";
    case VR_TOO_SHORT: return "length under the header's size plus 2";
    case VR_NO_CREDIT: return "price above arrival credit; at a halted port, queue above 0";
    case VR_NO_FREE_NODE: return "free list empty";
    case VR_NOTHING_THERE: return "list to take from is empty; for show, nothing to show";
    case VR_SLOTS_IN_USE: return "all slots in use";
    case VR_TOO_MUCH_CREDIT: return "sum above 65,535";
    case VR_NO_SUCH_ID: return "id above 4,095; no such node";
    case VR_PACKET_BYTES: return "packet bytes not as many as the length field says, or fewer than ten";
    case VR_PACKET_MEMORY: return "a packet memory not of 8,192 bytes a node";
    case VR_HEADER_QUEUE: return "header's queue above the last";
    case VR_RESERVED_BIT: return "a reserved bit of the header is 1";
    case VR_NO_FIT: return "a value doesn't fit its field, length under the header's size plus 2, or queue above the last";
    case VR_OTHER_KIND: return "a header alone where packets are kept, or a packet or a show where none are";
    case VR_SHORT_ROOM: return "room of less than four bytes a port; for audit, eight a node";
    default: return "no call answers this number";
    }
}

/* What a rule that vr_find names asks, in words. */
static inline const char *vr_rule_text(uint32_t rule)
{
    switch (rule) {
    case 0: return "a switch state: no rule is broken";
    case 1: return "the settings are in their rows and the memory is long enough";
    case 2: return "last served queues, map entries and credits are in range and no prefetch list exceeds its slots";
    case 3: return "every node of every port stands once in one list";
    case 4: return "free and ingress lists hold only their own port's nodes";
    case 5: return "a node in an egress or prefetch list has that list's queue";
    case 6: return "every field recorded for a node that isn't free is in range, its price that of queue, length and beat";
    case 7: return "for each port and queue above 0, arrival credit and prices outstanding are together the setting credit";
    case 9: return "every port's mark is 0, 7, 8 or 18";
    default: return "there is no such rule";
    }
}

/* The number in n bytes, big-endian. */
static inline uint32_t vr_number_of(const uint8_t *at, int n)
{
    uint32_t number = 0;
    while (n-- > 0) number = number << 8 | *at++;
    return number;
}

/* What a stitch wrote. */
static inline struct vr_record vr_record_of(const uint8_t room[VR_RECORD_BYTES])
{
    struct vr_record record;
    record.entry = vr_number_of(room, 2);
    record.length = vr_number_of(room + 2, 2);
    record.queue = room[4];
    record.port = room[5];
    record.timestamp = vr_number_of(room + 6, 4);
    return record;
}

/* What a turn wrote. Of an idle one the other bytes are not read, and the other fields are 0. */
static inline struct vr_sent vr_sent_of(const uint8_t room[VR_SENT_BYTES])
{
    struct vr_sent sent = {VR_IDLE, 0, 0, 0, 0, 0, 0, 0, 0};
    if (room[0] == VR_IDLE) return sent;
    sent.kind = room[0];
    sent.queue = room[1];
    sent.entry = vr_number_of(room + 2, 2);
    sent.length = vr_number_of(room + 4, 2);
    sent.destination = vr_number_of(room + 6, 2);
    sent.timestamp = vr_number_of(room + 8, 4);
    sent.poisoned = room[12];
    sent.transaction = room[13];
    sent.price = vr_number_of(room + 14, 2);
    return sent;
}

/* What vr_where wrote, or an audit for one node: places + VR_PLACE_BYTES * (port * nodes + index). */
static inline struct vr_place vr_place_of(const uint8_t room[VR_PLACE_BYTES])
{
    struct vr_place place;
    place.entry = vr_number_of(room, 2);
    place.kind = room[2];
    place.port = room[3];
    place.queue = room[4];
    place.position = vr_number_of(room + 6, 2);
    return place;
}

/* What a round wrote for one port, turns + VR_TURNED_BYTES * port, or a run for one field. */
static inline struct vr_turned vr_turned_of(const uint8_t room[VR_TURNED_BYTES])
{
    struct vr_turned turned;
    turned.answer = room[0];
    turned.idle = room[1];
    turned.entry = vr_number_of(room + 2, 2);
    return turned;
}

#endif

#ifdef __cplusplus
}
#endif

#endif
