/* The version as a text, and as numbers. */
#include <stdio.h>

#include "ventorupo.h"

int main(void)
{
    printf("%s\n%d.%d.%d\n", VR_VERSION, VR_VERSION_MAJOR, VR_VERSION_MINOR, VR_VERSION_PATCH);
    return 0;
}
