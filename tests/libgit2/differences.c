/* Prints the file of differences on standard input with the indented lines made anew:
 * what libgit2 and we say of a spec, and of the name beside it. Ends with 1 where they
 * say the same. */
#include "words.h"

#include "vasigmon.h"

#include <stdio.h>
#include <stdlib.h>
#include <string.h>

#define LINE_LIMIT 400

/* The bytes that a word of the file stands for, put in its place: what print_bytes prints. */
static void spell(char *word)
{
    char *to = word;
    if (strcmp(word, "\"\"") == 0) {
        word += 2;
    }
    while (*word != '\0') {
        unsigned int byte;
        if (sscanf(word, "\\x%2X", &byte) == 1) {
            *to++ = (char)byte;
            word += 4;
        } else {
            *to++ = *word++;
        }
    }
    *to = '\0';
}

static int same_reading(const reading *one, const reading *other)
{
    return !one->refusal == !other->refusal && one->force == other->force && one->negative == other->negative
        && same_text(&one->source, &other->source) && same_text(&one->destination, &other->destination);
}

static void print_side(const char *who, const reading *read, const mapping *mapped)
{
    printf("    %-8s ", who);
    print_reading(read);
    if (mapped != NULL) {
        printf("; ");
        print_mapping(mapped);
    }
    printf("\n");
}

/* Prints what both sides say of a spec, and of a name if there is one. Answers whether that differs. */
static int example(int op, const char *spec, const char *name)
{
    reading ours, theirs;
    mapping our_name, their_name;
    git_refspec *read = their_spec(op, spec);
    our_reading(op, spec, &ours);
    their_reading(read, &theirs);
    int both = name != NULL && read != NULL && ours.refusal == 0;
    if (both) {
        our_mapping(op, spec, name, FORWARD, &our_name);
        their_mapping(read, name, FORWARD, &their_name);
    }
    print_side("libgit2:", &theirs, both ? &their_name : NULL);
    print_side("ours:", &ours, both ? &our_name : NULL);
    git_refspec_free(read);
    return !same_reading(&ours, &theirs) || (both && !same_mapping(&our_name, &their_name));
}

int main(void)
{
    char line[LINE_LIMIT];
    git_libgit2_init();
    while (fgets(line, sizeof line, stdin) != NULL) {
        char words[LINE_LIMIT];
        if (strncmp(line, "    ", 4) == 0) {
            continue;
        }
        fputs(line, stdout);
        strcpy(words, line);
        char *operation = strtok(words, " \n"), *spec = strtok(NULL, " \n");
        char *on = strtok(NULL, " \n"), *name = strtok(NULL, " \n");
        if (operation == NULL || operation[0] == '#') {
            continue;
        }
        int fetch = strcmp(operation, "fetch") == 0;
        if (spec == NULL || (!fetch && strcmp(operation, "push") != 0) || (on != NULL && name == NULL)) {
            fprintf(stderr, "neither a comment nor `fetch SPEC on NAME` nor `push SPEC on NAME`: %s", line);
            return 2;
        }
        spell(spec);
        if (name != NULL) {
            spell(name);
        }
        if (!example(fetch ? VASIGMON_FETCH : VASIGMON_PUSH, spec, name)) {
            fprintf(stderr, "no difference: %s", line);
            return 1;
        }
    }
    git_libgit2_shutdown();
    return 0;
}
