/* Reads all texts of up to LONGEST telling bytes as specs of fetch and of push, by
 * libgit2 and by us. Where they differ, in whether the spec is accepted or in its mode
 * and sides, there must be a reason, which differences.txt has an example of.
 *
 *     specs [--fault libgit2|ours] */
#include "words.h"

#include "vasigmon.h"

#include <stdio.h>
#include <stdlib.h>
#include <string.h>

#define LONGEST 5

static const char TELLING[] = "ab/*:^+@AB_?.\x7F~[-{\\ ";

static const char *const REASONS[] = {
    "with a negative", "with byte 127", "with a side @", "with capitals before a slash", "with an empty source",
    "push +",
};

#define COUNT(array) (sizeof(array) / sizeof((array)[0]))

/* Whether what stands before the first slash is capitals, with underscores between them. */
static int capitals(const char *side, size_t length)
{
    const char *slash = memchr(side, '/', length);
    size_t first = slash == NULL ? 0 : (size_t)(slash - side);
    size_t same = strspn(side, "ABCDEFGHIJKLMNOPQRSTUVWXYZ_");
    return first > 0 && same == first && side[0] != '_' && side[first - 1] != '_';
}

/* The number of the reason for which a spec may differ, or COUNT(REASONS). */
static size_t reason(int op, const char *spec)
{
    if (spec[0] == '^') {
        return 0;
    }
    if (strchr(spec, '\x7F') != NULL) {
        return 1;
    }
    if (op == VASIGMON_PUSH && strcmp(spec, "+") == 0) {
        return 5;
    }
    const char *source = spec + (spec[0] == '+');
    const char *colon = strrchr(source, ':');
    size_t length = colon == NULL ? strlen(source) : (size_t)(colon - source);
    const char *destination = colon == NULL ? "" : colon + 1;
    if ((length == 1 && source[0] == '@') || strcmp(destination, "@") == 0) {
        return 2;
    }
    if (capitals(source, length) || capitals(destination, strlen(destination))) {
        return 3;
    }
    return length == 0 ? 4 : COUNT(REASONS);
}

/* Whether both sides read a spec alike. A fault takes each force for none. */
static int alike(int op, const char *spec, enum fault fault)
{
    reading ours, theirs;
    git_refspec *read = their_spec(op, spec);
    our_reading(op, spec, &ours);
    their_reading(read, &theirs);
    git_refspec_free(read);
    ours.force = ours.force && fault != FAULT_OURS;
    theirs.force = theirs.force && fault != FAULT_LIBGIT2;
    if (ours.refusal || theirs.refusal) {
        return ours.refusal && theirs.refusal;
    }
    return ours.force == theirs.force && ours.negative == theirs.negative && same_text(&ours.source, &theirs.source)
        && same_text(&ours.destination, &theirs.destination);
}

/* The text of some length that a number stands for, in the digits TELLING. */
static void text_of(size_t number, size_t length, char *out)
{
    for (size_t n = 0; n < length; n++) {
        out[n] = TELLING[number % (sizeof TELLING - 1)];
        number /= sizeof TELLING - 1;
    }
    out[length] = '\0';
}

/* Reads all texts of some length. Answers whether each difference has its reason, and counts them. */
static int all_of(size_t length, enum fault fault, size_t counts[])
{
    size_t texts = 1;
    for (size_t n = 0; n < length; n++) {
        texts *= sizeof TELLING - 1;
    }
    for (size_t number = 0; number < 2 * texts; number++) {
        char spec[LONGEST + 1];
        int op = (int)(number % 2);
        text_of(number / 2, length, spec);
        if (alike(op, spec, fault)) {
            continue;
        }
        if (reason(op, spec) == COUNT(REASONS)) {
            printf("difference: %s ", op == VASIGMON_FETCH ? "fetch" : "push");
            print_bytes(spec, length);
            printf("\n");
            return 0;
        }
        counts[reason(op, spec)] += 1;
    }
    counts[COUNT(REASONS)] += 2 * texts;
    return 1;
}

int main(int words, char **word)
{
    enum fault fault = words == 1 ? NO_FAULT : fault_of(words - 1, word + 1);
    size_t counts[COUNT(REASONS) + 1] = { 0 };
    git_libgit2_init();
    for (size_t length = 0; length <= LONGEST; length++) {
        if (!all_of(length, fault, counts)) {
            return 1;
        }
    }
    printf("libgit2: %zu specs read; those that differ:", counts[COUNT(REASONS)]);
    int everything = 1;
    for (size_t n = 0; n < COUNT(REASONS); n++) {
        printf("%s %zu %s", n == 0 ? "" : ",", counts[n], REASONS[n]);
        everything = everything && counts[n] > 0;
    }
    printf("\n");
    git_libgit2_shutdown();
    return !everything;
}
