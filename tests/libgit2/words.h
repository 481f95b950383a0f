/* What both sides say, in print. */
#ifndef WORDS_H
#define WORDS_H

#include "sides.h"

/* A wrong answer that is put in on purpose, to show that the comparison sees it. */
enum fault { NO_FAULT, FAULT_LIBGIT2, FAULT_OURS };

/* Prints bytes: a backslash and all that is not printable ASCII as \xNN, and no bytes as "". */
void print_bytes(const char *bytes, size_t length);

/* Prints a reading: "refused", ours with its number; or the mode and both sides. */
void print_reading(const reading *read);

/* Prints a mapping: "no match", "a match without destination", or what the name becomes. */
void print_mapping(const mapping *mapped);

/* The fault that the last words of a command line name; ends the program where they are others. */
enum fault fault_of(int words, char **word);

#endif
