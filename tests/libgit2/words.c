#include "words.h"

#include <stdio.h>
#include <stdlib.h>
#include <string.h>

void print_bytes(const char *bytes, size_t length)
{
    if (length == 0) {
        printf("\"\"");
    }
    for (size_t n = 0; n < length; n++) {
        unsigned char byte = (unsigned char)bytes[n];
        if (byte > ' ' && byte < 0x7F && byte != '\\') {
            putchar(byte);
        } else {
            printf("\\x%02X", byte);
        }
    }
}

static void print_side(const char *what, const text *side)
{
    if (!side->there) {
        printf("no %s", what);
        return;
    }
    printf("%s ", what);
    print_bytes(side->bytes, side->length);
}

void print_reading(const reading *read)
{
    if (read->refusal == 1) {
        printf("refused");
    } else if (read->refusal > 1) {
        printf("refused with %d", read->refusal);
    } else {
        printf("%s", read->force ? "force, " : read->negative ? "negative, " : "");
        print_side("source", &read->source);
        printf(", ");
        print_side("destination", &read->destination);
    }
}

void print_mapping(const mapping *mapped)
{
    if (!mapped->matches) {
        printf("no match");
    } else if (!mapped->other.there) {
        printf("a match without destination");
    } else {
        printf("becomes ");
        print_bytes(mapped->other.bytes, mapped->other.length);
    }
}

enum fault fault_of(int words, char **word)
{
    if (words == 2 && strcmp(word[0], "--fault") == 0 && strcmp(word[1], "libgit2") == 0) {
        return FAULT_LIBGIT2;
    }
    if (words == 2 && strcmp(word[0], "--fault") == 0 && strcmp(word[1], "ours") == 0) {
        return FAULT_OURS;
    }
    fprintf(stderr, "the last words may be: --fault libgit2|ours\n");
    exit(2);
}
