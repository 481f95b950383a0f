/* What libgit2 and we say of one spec, and of one spec and one name, in one form. */
#ifndef SIDES_H
#define SIDES_H

#include <git2.h>
#include <stddef.h>

/* Specs and names have fewer bytes, so that a length in a list is one byte. What a name becomes has less than twice as
 * many. */
#define TEXT_LIMIT 128

/* Some bytes, or none at all. */
typedef struct {
    int there;
    size_t length;
    char bytes[2 * TEXT_LIMIT];
} text;

/* How a spec is read. */
typedef struct {
    int refusal; /* 0, or our number, or 1 for libgit2, which has none */
    int force;
    int negative;
    text source;
    text destination;
} reading;

/* What a name becomes: on the other side of the spec, forward from source to destination or back. */
typedef struct {
    int matches;
    text other;
} mapping;

enum direction { FORWARD, BACK };

void our_reading(int op, const char *spec, reading *out);
void our_mapping(int op, const char *spec, const char *name, enum direction direction, mapping *out);

/* The spec, or NULL where it is refused; git_refspec_free is the caller's. */
git_refspec *their_spec(int op, const char *spec);
void their_reading(const git_refspec *spec, reading *out);
void their_mapping(const git_refspec *spec, const char *name, enum direction direction, mapping *out);

int same_text(const text *one, const text *other);
int same_mapping(const mapping *one, const mapping *other);

#endif
