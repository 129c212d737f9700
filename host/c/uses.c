/* All that the header has but most calls, in what C89, C99 to C17 and C++ have in common; the readers where they are there. */
#include <stdio.h>

#include "ventorupo.h"

static uint8_t mem[VR_SIZE(2, 2, 1)];

#if defined(__cplusplus) || (defined(__STDC_VERSION__) && __STDC_VERSION__ >= 199901L)
static void readers(void)
{
    static const uint8_t room[VR_SENT_BYTES] = {VR_OUTSIDE, 1, 2, 3, 4, 5, 6, 7, 8, 9, 10, 11, 12, 13, 14, 15};
    struct vr_record record = vr_record_of(room);
    struct vr_sent sent = vr_sent_of(room);
    struct vr_place place = vr_place_of(room);
    struct vr_turned turned = vr_turned_of(room);
    printf("readers: %lu %lu %lu %lu\n", (unsigned long)record.entry, (unsigned long)sent.entry, (unsigned long)place.entry,
           (unsigned long)turned.entry);
    printf("texts: %s; %s\n", vr_text(VR_DONE), vr_rule_text(0));
}
#else
static void readers(void) { puts("readers: left out"); }
#endif

int main(void)
{
    struct vr_settings settings = {1, 64, 1, 16, 2, 2, VR_WIDE, 0};
    struct vr_header fields = {1, 0, 1, 100, 0, 7, 0, 9};
    uint8_t header[VR_HEADER_BYTES];
    uint32_t size;
    uint16_t entry;
    if (VR_VERSION[0] != '0' + VR_VERSION_MAJOR || VR_VERSION_MINOR < 0 || VR_VERSION_PATCH < 0) return 1;
    if (vr_setup(mem, sizeof mem, &settings) != VR_DONE) return 1;
    if (vr_write_header(VR_WIDE, 2, 2, &fields, header, &size) != VR_DONE) return 1;
    if (vr_arrive(mem, sizeof mem, 0, header, size, &entry) != VR_DONE) return 1;
    printf("kinds: %d %d %d, %d %d %d %d, %d %d %d, %d\n", VR_IDLE, VR_INSIDE, VR_OUTSIDE, VR_FREE, VR_INGRESS, VR_EGRESS, VR_PREFETCH,
           VR_ENDED, VR_BAD_FIELD, VR_NO_ROOM, VR_SLOT_BYTES);
    printf("tags: %d %d %d %d %d %d\n", VR_TAG_ARRIVE, VR_TAG_STITCH, VR_TAG_PREFETCH, VR_TAG_TURN, VR_TAG_CREDIT, VR_TAG_MAP);
    readers();
    return 0;
}
