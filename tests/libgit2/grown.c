#include "grown.h"

#include <string.h>

/* Pieces of names. Some break the name rules, alone or beside others; those of PLAIN come up most. */
static const char *const PLAIN[] = {
    "a", "b", "ab", "heads/", "x/", "tags/a", "/a", "-", "A", "HEAD", "\xC3\xA9", "a.b", "1",
};
static const char *const ODD[] = {
    ".", "..", "/", "//", "@", "@{", "{", ".lock", "~", "^", "\\", "?", "[", " ", "\x01", ":", "+", "*",
};

/* What is put in place of a star, and is changed into. Names are not held to the name rules. */
static const char *const CAPTURES[] = {
    "", "", "a", "b", "/", "a/b", "*", "**", "?", "[a]", "\\", " ", "\x7F", "\xFF", "\n", "heads/a",
};

#define COUNT(array) (sizeof(array) / sizeof((array)[0]))

/* The next number below a limit (splitmix64). */
static size_t below(random_numbers *random, size_t limit)
{
    random->state += 0x9E3779B97F4A7C15u;
    uint64_t z = random->state;
    z = (z ^ (z >> 30)) * 0xBF58476D1CE4E5B9u;
    z = (z ^ (z >> 27)) * 0x94D049BB133111EBu;
    return (size_t)((z ^ (z >> 31)) % limit);
}

static const char *piece(random_numbers *random)
{
    return below(random, 40) == 0 ? ODD[below(random, COUNT(ODD))] : PLAIN[below(random, COUNT(PLAIN))];
}

/* Appends a full name of up to three pieces, with a star between two of them or not. */
static void put_side(random_numbers *random, int star, char *out)
{
    size_t pieces = 1 + below(random, 3), at = star ? below(random, pieces + 1) : pieces + 1;
    strcat(out, "refs/");
    for (size_t n = 0; n <= pieces; n++) {
        if (n == at) {
            strcat(out, "*");
        }
        if (n < pieces) {
            strcat(out, piece(random));
        }
    }
}

void grown_spec(random_numbers *random, char spec[TEXT_LIMIT])
{
    int star = below(random, 4) > 0;
    strcpy(spec, below(random, 3) == 0 ? "+" : "");
    put_side(random, star, spec);
    strcat(spec, ":");
    put_side(random, star, spec);
}

/* Changes a byte, takes one away, or puts some behind. */
static void change(random_numbers *random, char *name)
{
    size_t length = strlen(name), at = below(random, length);
    switch (below(random, 3)) {
    case 0:
        name[at] = "ab/*.?"[below(random, 6)];
        break;
    case 1:
        memmove(name + at, name + at + 1, length - at);
        break;
    default:
        strcat(name, CAPTURES[below(random, COUNT(CAPTURES))]);
    }
}

void grown_name(random_numbers *random, const char *spec, char name[TEXT_LIMIT])
{
    const char *source = spec + (spec[0] == '+');
    const char *colon = strrchr(source, ':');
    name[0] = '\0';
    switch (below(random, 8)) {
    case 0:
        put_side(random, (int)below(random, 2), name);
        return;
    case 1:
    case 2:
    case 3:
        strcpy(name, colon + 1);
        break;
    default:
        strncat(name, source, (size_t)(colon - source));
    }
    char *star = strchr(name, '*');
    if (star != NULL) {
        char end[TEXT_LIMIT];
        strcpy(end, star + 1);
        strcpy(star, CAPTURES[below(random, COUNT(CAPTURES))]);
        strcat(name, below(random, 3) == 0 ? piece(random) : "");
        strcat(name, end);
    }
    if (below(random, 3) == 0) {
        change(random, name);
    }
}
