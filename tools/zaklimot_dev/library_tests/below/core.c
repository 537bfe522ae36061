/* A shared object that has the whole library in it. */
#include "zaklimot.h"

__attribute__((visibility("default"))) uint32_t core_version(void);

uint32_t core_version(void)
{
    return zak_version();
}
