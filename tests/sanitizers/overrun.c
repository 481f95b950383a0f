/* Lends a spec as one byte longer than it is. The archive reads that byte, and a memory
 * checker must notice. */
#include "vasigmon.h"

#include <stdlib.h>
#include <string.h>

int main(void)
{
    uint8_t *spec = malloc(4);
    memcpy(spec, "+a:b", 4);
    return vasigmon_parse(VASIGMON_FETCH, spec, 5).refusal == VASIGMON_SPEC_TOO_LONG;
}
