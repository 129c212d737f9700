/* memset and memcpy for a board that has no C library. */
#include <stddef.h>

void *memset(void *to, int value, size_t n);
void *memcpy(void *restrict to, const void *restrict from, size_t n);

/* A compiler may see what these loops do and call memset and memcpy in their place, which would be themselves. gcc is told here not to; for
 * clang -ffreestanding is enough. */
#if defined(__GNUC__) && !defined(__clang__)
#pragma GCC optimize("no-tree-loop-distribute-patterns")
#endif

void *memset(void *to, int value, size_t n)
{
    for (unsigned char *at = to; n > 0; n--) *at++ = (unsigned char)value;
    return to;
}

void *memcpy(void *restrict to, const void *restrict from, size_t n)
{
    const unsigned char *next = from;
    for (unsigned char *at = to; n > 0; n--) *at++ = *next++;
    return to;
}
