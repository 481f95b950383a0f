/* Random specs with full names on both sides, and random names beside them. */
#ifndef GROWN_H
#define GROWN_H

#include "sides.h"

#include <stdint.h>

/* A sequence of numbers that its start fixes. */
typedef struct {
    uint64_t state;
} random_numbers;

/* A fetch spec of two full names or of two full patterns, forced or not. It may break the name rules. */
void grown_spec(random_numbers *random, char spec[TEXT_LIMIT]);

/* A name: a side of the spec with something in place of its star, perhaps with a byte changed; or any. */
void grown_name(random_numbers *random, const char *spec, char name[TEXT_LIMIT]);

#endif
