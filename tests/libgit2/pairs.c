/* Maps names by fetch specs whose sides are both full names or both full patterns, by
 * libgit2 and by us, forward and back. Both must accept the same specs, and make the
 * same of each name. First come all short specs and names, then grown ones, until so
 * many pairs of a spec and a name are compared.
 *
 *     pairs COUNT [--fault libgit2|ours] */
#include "grown.h"
#include "words.h"

#include "vasigmon.h"

#include <stdio.h>
#include <stdlib.h>
#include <string.h>

/* A grown spec has so many names. */
#define NAMES 48

/* What came up. */
static struct {
    unsigned long long specs, refused, pairs, full_names, patterns, back, misses;
} seen;

/* Compares a pair in one direction. A fault loses the last byte of what a name becomes. */
static int one_way(const git_refspec *read, const char *spec, const char *name, enum direction way, enum fault fault)
{
    mapping ours, theirs;
    our_mapping(VASIGMON_FETCH, spec, name, way, &ours);
    their_mapping(read, name, way, &theirs);
    ours.other.length -= fault == FAULT_OURS && ours.other.there;
    theirs.other.length -= fault == FAULT_LIBGIT2 && theirs.other.there;
    if (!same_mapping(&ours, &theirs)) {
        printf("difference: fetch ");
        print_bytes(spec, strlen(spec));
        printf(way == FORWARD ? " on " : " back on ");
        print_bytes(name, strlen(name));
        printf("\n  libgit2: ");
        print_mapping(&theirs);
        printf("\n  ours:    ");
        print_mapping(&ours);
        printf("\n");
        return 0;
    }
    unsigned long long *forward = strchr(spec, '*') == NULL ? &seen.full_names : &seen.patterns;
    *(!ours.matches ? &seen.misses : way == BACK ? &seen.back : forward) += 1;
    return 1;
}

/* Compares a spec and a name in both directions. */
static int pair(const git_refspec *read, const char *spec, const char *name, enum fault fault)
{
    seen.pairs += 1;
    return one_way(read, spec, name, FORWARD, fault) && one_way(read, spec, name, BACK, fault);
}

/* The spec as libgit2 reads it, or NULL where both refuse it. Ends the program where one does. */
static git_refspec *read_by_both(const char *spec)
{
    git_refspec *read = their_spec(VASIGMON_FETCH, spec);
    int refusal = (int)vasigmon_parse(VASIGMON_FETCH, (const uint8_t *)spec, strlen(spec)).refusal;
    if ((read == NULL) != (refusal != 0)) {
        printf("difference: fetch ");
        print_bytes(spec, strlen(spec));
        printf(": libgit2 %s, ours %d\n", read == NULL ? "refuses it" : "accepts it", refusal);
        exit(1);
    }
    *(read == NULL ? &seen.refused : &seen.specs) += 1;
    return read;
}

/* Writes the text that a number stands for: all texts over some bytes, the shorter ones first. */
static void put_text(size_t number, const char *digits, char *out)
{
    for (; number > 0; number = (number - 1) / strlen(digits)) {
        *out++ = digits[(number - 1) % strlen(digits)];
    }
    *out = '\0';
}

/* How many texts over so many bytes have at most some length. */
static size_t texts(size_t digits, size_t length)
{
    return length == 0 ? 1 : 1 + digits * texts(digits, length - 1);
}

/* Compares a spec on all short full names. */
static int on_short_names(const char *spec, enum fault fault)
{
    git_refspec *read = read_by_both(spec);
    int same = 1;
    for (size_t n = 0; read != NULL && same && n < texts(3, 4); n++) {
        char name[TEXT_LIMIT] = "refs/";
        put_text(n, "a/b", name + 5);
        same = pair(read, spec, name, fault);
    }
    git_refspec_free(read);
    return same;
}

/* Compares all short specs. */
static int short_specs(enum fault fault)
{
    size_t sides = texts(5, 3);
    for (size_t n = 0; n < sides * sides; n++) {
        char spec[TEXT_LIMIT] = "refs/";
        put_text(n / sides, "a/*b.", spec + 5);
        strcat(spec, ":refs/");
        put_text(n % sides, "a/*b.", spec + strlen(spec));
        if (!on_short_names(spec, fault)) {
            return 0;
        }
    }
    return 1;
}

/* Compares a grown spec on grown names. */
static int grown(random_numbers *random, enum fault fault)
{
    char spec[TEXT_LIMIT], name[TEXT_LIMIT];
    grown_spec(random, spec);
    git_refspec *read = read_by_both(spec);
    int same = 1;
    for (size_t n = 0; read != NULL && same && n < NAMES; n++) {
        grown_name(random, spec, name);
        same = pair(read, spec, name, fault);
    }
    git_refspec_free(read);
    return same;
}

int main(int words, char **word)
{
    unsigned long long count = words > 1 ? strtoull(word[1], NULL, 10) : 0;
    enum fault fault = words == 2 ? NO_FAULT : fault_of(words - 2, word + 2);
    random_numbers random = { 1 };
    git_libgit2_init();
    int same = short_specs(fault);
    unsigned long long short_pairs = seen.pairs;
    while (same && seen.pairs < count) {
        same = grown(&random, fault);
    }
    if (!same) {
        return 1;
    }
    printf("libgit2: %llu specs accepted by both and %llu refused by both\n", seen.specs, seen.refused);
    printf("libgit2: %llu names mapped by full names, %llu by patterns, %llu mapped back, %llu misses\n",
           seen.full_names, seen.patterns, seen.back, seen.misses);
    printf("libgit2: %llu pairs, %llu of them short, no difference\n", seen.pairs, short_pairs);
    git_libgit2_shutdown();
    return !(seen.refused > 0 && seen.full_names > 0 && seen.patterns > 0 && seen.back > 0 && seen.misses > 0);
}
