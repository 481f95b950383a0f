#include "sides.h"

#include "vasigmon.h"

#include <stdio.h>
#include <stdlib.h>
#include <string.h>

/* Ends the program where something holds that cannot. */
static void never(int holds, const char *what)
{
    if (holds) {
        printf("libgit2: %s\n", what);
        exit(2);
    }
}

static void set(text *out, const char *bytes, size_t length)
{
    never(length >= sizeof out->bytes, "a text is too long");
    out->there = 1;
    out->length = length;
    memcpy(out->bytes, bytes, length);
}

/* A side of a spec: absent, a place, or the supplied HEAD. */
static void set_side(text *out, const char *spec, uint64_t kind, uint64_t start, uint64_t length)
{
    out->there = 0;
    if (kind == VASIGMON_SUPPLIED_HEAD) {
        set(out, "HEAD", 4);
    } else if (kind == VASIGMON_PLACE) {
        set(out, spec + start, (size_t)length);
    }
}

void our_reading(int op, const char *spec, reading *out)
{
    const uint8_t *bytes = (const uint8_t *)spec;
    vasigmon_instruction_t it = vasigmon_instruction((uint64_t)op, bytes, strlen(spec));
    out->refusal = (int)it.refusal;
    out->force = vasigmon_parse((uint64_t)op, bytes, strlen(spec)).mode == VASIGMON_FORCE;
    out->negative = it.kind == VASIGMON_FETCH_EXCLUDE || it.kind == VASIGMON_PUSH_EXCLUDE;
    set_side(&out->source, spec, it.source, it.source_start, it.source_length);
    set_side(&out->destination, spec, it.destination, it.destination_start, it.destination_length);
}

/* The list of one text; answers its length. */
static size_t list_of(const char *bytes, uint8_t *out)
{
    size_t length = strlen(bytes);
    never(length >= TEXT_LIMIT, "a text is too long for a list");
    out[0] = (uint8_t)length;
    memcpy(out + 1, bytes, length);
    return 1 + length;
}

/* The number at a place, of one or two groups of seven bits; moves beyond it. */
static size_t number(const uint8_t **at)
{
    size_t low = *(*at)++;
    if (low < 128) {
        return low;
    }
    return low - 128 + 128 * (size_t)*(*at)++;
}

/* Forward the row's source is the name, and back its destination is. */
void our_mapping(int op, const char *spec, const char *name, enum direction direction, mapping *out)
{
    uint8_t specs[TEXT_LIMIT], items[TEXT_LIMIT], rows[5 * TEXT_LIMIT];
    size_t specs_length = list_of(spec, specs), items_length = list_of(name, items);
    vasigmon_written answer = (direction == FORWARD ? vasigmon_match_lhs : vasigmon_match_rhs)(
        (uint64_t)op, specs, specs_length, items, items_length, rows, sizeof rows);
    never(answer.refusal != VASIGMON_ACCEPTED, "we refuse a list");
    /* The first three bytes are the numbers of item and spec, and the kind; a row of an object id has no item. */
    const uint8_t *at = rows + 3;
    out->matches = answer.length > 0 && rows[0] > 0;
    out->other.there = 0;
    if (!out->matches) {
        return;
    }
    size_t source_length = number(&at);
    const uint8_t *source = at;
    at += source_length;
    size_t destination_field = number(&at);
    if (direction == BACK) {
        set(&out->other, (const char *)source, source_length);
    } else if (destination_field > 0) {
        set(&out->other, (const char *)at, destination_field - 1);
    }
}

git_refspec *their_spec(int op, const char *spec)
{
    git_refspec *read = NULL;
    return git_refspec_parse(&read, spec, op == VASIGMON_FETCH) == 0 ? read : NULL;
}

static void set_string(text *out, const char *string)
{
    out->there = 0;
    if (string != NULL) {
        set(out, string, strlen(string));
    }
}

void their_reading(const git_refspec *spec, reading *out)
{
    memset(out, 0, sizeof *out);
    if (spec == NULL) {
        out->refusal = 1;
        return;
    }
    out->force = git_refspec_force(spec);
    set_string(&out->source, git_refspec_src(spec));
    set_string(&out->destination, git_refspec_dst(spec));
}

/* A spec without destination turns every name into an empty one, which is none. */
void their_mapping(const git_refspec *spec, const char *name, enum direction direction, mapping *out)
{
    git_buf other = { NULL, 0, 0 };
    out->matches =
        direction == FORWARD ? git_refspec_src_matches(spec, name) : git_refspec_dst_matches(spec, name);
    out->other.there = 0;
    int failed = (direction == FORWARD ? git_refspec_transform : git_refspec_rtransform)(&other, spec, name);
    never(out->matches != !failed, "libgit2 says that a name matches, and does not transform it, or the reverse");
    if (!failed && git_refspec_dst(spec) != NULL) {
        set(&out->other, other.ptr, other.size);
    }
    git_buf_dispose(&other);
}

int same_text(const text *one, const text *other)
{
    return one->there == other->there
        && (!one->there || (one->length == other->length && memcmp(one->bytes, other->bytes, one->length) == 0));
}

int same_mapping(const mapping *one, const mapping *other)
{
    return one->matches == other->matches && same_text(&one->other, &other->other);
}
