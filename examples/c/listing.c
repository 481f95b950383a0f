/* Prints what specs fetch and where it goes, a row to a line. From the repository's top:
 *
 *     tools/archive && mkdir -p target
 *     gcc -std=c99 -Iinclude examples/c/listing.c crates/vasigmon/out/libvasigmon.a -o target/listing
 *     target/listing
 *
 * listing.out is what it prints. */
#include "vasigmon.h"

#include <stdio.h>
#include <stdlib.h>
#include <string.h>

/* All branches of the hub but the temporary ones, a tag that goes nowhere, and one commit. */
static const char *const SPECS[] = {
    "+refs/heads/*:refs/remotes/hub/*",
    "^refs/heads/tmp*",
    "v1",
    "0123456789ABCDEF0123456789abcdef01234567:found",
};
static const char *const NAMES[] = { "HEAD", "refs/heads/main", "refs/heads/tmp1", "refs/tags/v1" };

#define COUNT(array) (sizeof(array) / sizeof((array)[0]))

/* Bytes on the heap. */
typedef struct {
    uint8_t *bytes;
    size_t length;
} buffer;

/* A buffer of some length. Even where that is 0 its pointer may be lent. */
static buffer new_buffer(size_t length)
{
    buffer made = { malloc(length + 1), length };
    if (made.bytes == NULL) {
        perror("listing");
        exit(EXIT_FAILURE);
    }
    return made;
}

/* Writes a number in groups of seven bits, lowest first, the top bit set while more follow; answers where it ends. */
static uint8_t *put_number(uint8_t *out, size_t number)
{
    for (; number >= 128; number /= 128) {
        *out++ = (uint8_t)(number % 128 + 128);
    }
    *out++ = (uint8_t)number;
    return out;
}

/* The list of some texts: of each its length, in three bytes at most, then its bytes. */
static buffer list_of(const char *const texts[], size_t count)
{
    size_t most = 0;
    for (size_t n = 0; n < count; n++) {
        most += 3 + strlen(texts[n]);
    }
    buffer list = new_buffer(most);
    uint8_t *end = list.bytes;
    for (size_t n = 0; n < count; n++) {
        size_t length = strlen(texts[n]);
        end = put_number(end, length);
        memcpy(end, texts[n], length);
        end += length;
    }
    list.length = (size_t)(end - list.bytes);
    return list;
}

/* Writes the listing to a buffer, and if that is too short to one of the length that stands beside the refusal. */
static vasigmon_written match_lhs(buffer specs, buffer items, buffer *out)
{
    vasigmon_written answer = vasigmon_match_lhs(VASIGMON_FETCH, specs.bytes, specs.length,
                                                 items.bytes, items.length, out->bytes, out->length);
    if (answer.refusal != VASIGMON_BUFFER_TOO_SHORT) {
        return answer;
    }
    free(out->bytes);
    *out = new_buffer(answer.length);
    return vasigmon_match_lhs(VASIGMON_FETCH, specs.bytes, specs.length,
                              items.bytes, items.length, out->bytes, out->length);
}

/* Reads the number at a place, which moves on behind it. What the library wrote is well formed. */
static size_t take_number(const uint8_t **place)
{
    size_t number = 0;
    unsigned shift = 0;
    for (; **place >= 128; *place += 1) {
        number += (size_t)(**place - 128) << shift;
        shift += 7;
    }
    number += (size_t)**place << shift;
    *place += 1;
    return number;
}

/* Prints the text at a place, which moves on behind it. */
static void print_text(const uint8_t **place, size_t length)
{
    fwrite(*place, 1, length, stdout);
    *place += length;
}

/* Prints the row at a place, which moves on behind it. */
static void print_row(const uint8_t **place)
{
    take_number(place); /* the item's number plus 1, or 0 for none: the source says it too */
    size_t spec = take_number(place);
    if (take_number(place) == 1) {
        printf("object ");
    }
    print_text(place, take_number(place));
    printf(" -> ");
    size_t destination = take_number(place);
    if (destination == 0) {
        printf("nothing");
    } else {
        print_text(place, destination - 1);
    }
    printf(" (by %s)\n", SPECS[spec]);
}

int main(void)
{
    buffer specs = list_of(SPECS, COUNT(SPECS));
    buffer items = list_of(NAMES, COUNT(NAMES));
    buffer out = new_buffer(64);
    vasigmon_written answer = match_lhs(specs, items, &out);
    const uint8_t *place = out.bytes;

    while (place != out.bytes + answer.length) {
        print_row(&place);
    }
    if (answer.refusal != VASIGMON_ACCEPTED) {
        fprintf(stderr, "record %d: refusal %d\n", (int)answer.record, (int)answer.refusal);
    }
    free(specs.bytes);
    free(items.bytes);
    free(out.bytes);
    return answer.refusal == VASIGMON_ACCEPTED ? EXIT_SUCCESS : EXIT_FAILURE;
}
