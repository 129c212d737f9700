/* On a machine whose int has 16 bits: sizes are right, and all of the header is taken. It is compiled alone, not run. */
#include "ventorupo.h"

_Static_assert(sizeof(int) == 2, "a 16-bit int");
_Static_assert(VR_SIZE(32, 64, 2048) == 901712ul && VR_SIZE(4, 24, 256) == 19928, "VR_SIZE");
#if VR_SIZE(32, 64, 2048) != 901712
#error "VR_SIZE in an #if"
#endif

struct vr_sent leaves(const uint8_t *room);

struct vr_sent leaves(const uint8_t *room) { return vr_sent_of(room); }
