/* Every number below 100 that has a text: the refusals', or with an argument the rules'. The gate compares them with the header's comments.
 * What has none, also far above, gets the same words. */
#include <stdio.h>
#include <string.h>

#include "ventorupo.h"

int main(int argc, char **argv)
{
    const char *(*text)(uint32_t) = argc > 1 ? vr_rule_text : vr_text;
    const char *none = text(UINT32_MAX);
    (void)argv;
    if (none == NULL || none[0] == '\0') return 1;
    for (uint32_t number = 0; number < 100; number++)
        if (strcmp(text(number), none) != 0) printf("%u %s\n", (unsigned)number, text(number));
    return 0;
}
