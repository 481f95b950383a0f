/* Vasigmon: Git's refspecs, read, mapped and validated by code that is proved.
 *
 * A spec is a byte string that names a source and a destination of references. It
 * is read for fetch (operation 0) or for push (operation 1). A call is on one spec,
 * on two, or on a list of specs and a list of names, which are called items. Each
 * call reads what it is lent. No call allocates. There is nothing to keep between
 * two calls, and nothing to release.
 *
 * Lending bytes. Every pointer is lent for the duration of the call together
 * with a length. A pointer must never be null, not even beside length 0: where
 * there is nothing to lend, pass the address of any byte. An output buffer must
 * not overlap anything else that is lent.
 *
 * Answers. Each answer is a struct that is returned by value. Its field `refusal`
 * is 0 for a result, else one of the numbers of `enum vasigmon_refusal`. A field
 * without a meaning in an answer is 0. So in a refusal every other field is 0, with
 * three exceptions: with refusal 17, the length and the number of the short buffer;
 * where a list is refused, the number of the record that it is refused for; and
 * where one of two specs is refused, which of them it is.
 *
 * Places. A side of a spec is answered as a kind (`enum vasigmon_side`) with a
 * start and a length: the bytes spec[start] to spec[start + length - 1] of the
 * spec that was lent. No answer holds a pointer.
 *
 * Lists. A number is written in groups of seven bits, lowest first, the top bit set
 * while more follow, in its shortest form and in at most three groups (unsigned
 * LEB128). A list of specs, items or prefixes holds for each record its length,
 * then its bytes. Records count from 0. A spec list has at most 256 records, and an
 * item list at most 1,024. Each of them has at most 65,535 bytes. A name has at
 * most 4,096 bytes. A list of rows, which vasigmon_match_lhs describes, has at most
 * 1,048,576 bytes.
 *
 * Stack. `enum vasigmon_stack` states how much each entry needs. The main thread
 * and a thread of the usual size, 2 MB or more, have enough for every call.
 *
 * Link with libvasigmon.a, which `tools/archive` writes to
 * crates/vasigmon/out/. It needs nothing beyond the C library.
 */
#ifndef VASIGMON_H
#define VASIGMON_H

#include <stddef.h>
#include <stdint.h>

#ifdef __cplusplus
extern "C" {
#endif

/* What a spec is read for. */
enum vasigmon_operation {
    VASIGMON_FETCH = 0,
    VASIGMON_PUSH = 1
};

/* Why a call was refused. A call asks questions in a fixed order, and the first
 * question whose answer is no gives the number. 18 comes before all others, in a call
 * that is told an operation. Of one spec, the questions are asked in the order of
 * these numbers. Of two specs, all those of the first come before those of the
 * second. Of a list, 12 comes first. Then each record is asked in turn: a spec 14,
 * then 13, then its own questions; an item 14, then 13, then 15; a row 13, then 16.
 * The spec list is read as a whole before the items or the rows are looked at. 17
 * comes last. */
enum vasigmon_refusal {
    VASIGMON_ACCEPTED = 0,               /* no refusal: the answer is a result */
    VASIGMON_SPEC_TOO_LONG = 1,          /* the spec is above 4,096 bytes */
    VASIGMON_EMPTY_PUSH = 2,             /* a push spec is empty */
    VASIGMON_NEGATIVE_COLON = 3,         /* a spec with `^` has a colon */
    VASIGMON_PUSH_INTO_NOTHING = 4,      /* a push has a colon and a source, and no destination */
    VASIGMON_SOURCE_STARS = 5,           /* the source has more than one star */
    VASIGMON_SOURCE_NAME = 6,            /* the source does not pass the name rules */
    VASIGMON_DESTINATION_STARS = 7,      /* the destination has more than one star */
    VASIGMON_DESTINATION_NAME = 8,       /* the destination does not pass the name rules */
    VASIGMON_ONE_STAR_OF_TWO = 9,        /* one side has a star and the other has none */
    VASIGMON_NEGATIVE_EMPTY = 10,        /* no source follows `^` */
    VASIGMON_NEGATIVE_OBJECT = 11,       /* the source after `^` is forty or more bytes, all hexadecimal digits */
    VASIGMON_LIST_TOO_LONG = 12,         /* a spec list or an item list is above 65,535 bytes, or a row list above 1,048,576 */
    VASIGMON_MALFORMED = 13,             /* the record is not well formed within its list */
    VASIGMON_TOO_MANY_RECORDS = 14,      /* the record is beyond 256 specs or 1,024 items */
    VASIGMON_NAME_TOO_LONG = 15,         /* the item's name is above 4,096 bytes */
    VASIGMON_OUTSIDE_THE_LISTS = 16,     /* a number is outside the lists, or no object id stands where one must */
    VASIGMON_BUFFER_TOO_SHORT = 17,      /* an output buffer is not long enough for the whole answer */
    VASIGMON_NO_SUCH_OPERATION = 18      /* the operation is neither 0 nor 1 */
};

/* How a spec is meant. */
enum vasigmon_mode {
    VASIGMON_NORMAL = 0,
    VASIGMON_FORCE = 1,                  /* it begins with `+` */
    VASIGMON_NEGATIVE = 2                /* it begins with `^` */
};

/* What stands on a side of a spec. */
enum vasigmon_side {
    VASIGMON_ABSENT = 0,                 /* nothing; start and length are 0 */
    VASIGMON_PLACE = 1,                  /* the bytes of the spec at start, of that length */
    VASIGMON_SUPPLIED_HEAD = 2           /* the text `HEAD`, which the spec does not spell; start and length are 0 */
};

/* What a spec asks for. */
enum vasigmon_instruction_kind {
    VASIGMON_FETCH_ONLY = 0,             /* fetch the source and update nothing */
    VASIGMON_FETCH_EXCLUDE = 1,          /* leave the source out of what other specs fetch */
    VASIGMON_FETCH_AND_UPDATE = 2,       /* fetch the source and update the destination */
    VASIGMON_PUSH_ALL_MATCHING = 3,      /* push every branch that the other side has too; no side is present */
    VASIGMON_PUSH_DELETE = 4,            /* delete the destination; no source is present */
    VASIGMON_PUSH_MATCHING = 5,          /* push the source to the destination */
    VASIGMON_PUSH_EXCLUDE = 6            /* leave the source out of what other specs push */
};

/* How many bytes of stack a thread must have to make a call, in addition to what
 * the caller itself keeps there. What the C library keeps on the stack of a thread
 * is counted in. On a smaller stack the call may touch the thread's guard page,
 * which ends the program; no call steps over that page. */
enum vasigmon_stack {
    VASIGMON_STACK_SPEC = 16384,         /* 16 KB: the five entries on one spec, vasigmon_collide, vasigmon_source */
    VASIGMON_STACK_LISTS = 163840,       /* 160 KB: vasigmon_group_prefixes, vasigmon_match_lhs, vasigmon_match_rhs */
    VASIGMON_STACK_1024_ROWS = 65536,    /* 64 KB: vasigmon_validated, with at most 1,024 rows */
    VASIGMON_STACK_16384_ROWS = 262144,  /* 256 KB: vasigmon_validated, with at most 16,384 rows */
    VASIGMON_STACK_ROWS = 1331200        /* 1,300 KB: vasigmon_validated, with any row list */
};

/* A spec that was read. */
typedef struct vasigmon_spec {
    uint64_t refusal;
    uint64_t mode;                       /* enum vasigmon_mode */
    uint64_t source;                     /* enum vasigmon_side */
    uint64_t source_start;
    uint64_t source_length;
    uint64_t destination;                /* enum vasigmon_side; never VASIGMON_SUPPLIED_HEAD */
    uint64_t destination_start;
    uint64_t destination_length;
} vasigmon_spec;

/* Reads a spec. In fetch, an absent source that is not negative is the supplied
 * `HEAD`; a source `@` is the supplied `HEAD` in both operations. */
vasigmon_spec vasigmon_parse(uint64_t op, const uint8_t *spec, size_t spec_len);

/* What a spec asks for. */
typedef struct vasigmon_instruction_t {
    uint64_t refusal;
    uint64_t kind;                       /* enum vasigmon_instruction_kind */
    uint64_t force;                      /* 1 if a non-fast-forward is allowed; kinds 2, 3 and 5 alone can have it */
    uint64_t source;                     /* enum vasigmon_side */
    uint64_t source_start;
    uint64_t source_length;
    uint64_t destination;                /* enum vasigmon_side */
    uint64_t destination_start;
    uint64_t destination_length;
} vasigmon_instruction_t;

/* Answers what a spec asks for. A push with a source alone has that source as
 * its destination too (perhaps the supplied `HEAD`). */
vasigmon_instruction_t vasigmon_instruction(uint64_t op, const uint8_t *spec, size_t spec_len);

/* The start that every name on the remote's side of a spec has. */
typedef struct vasigmon_prefix_t {
    uint64_t refusal;
    uint64_t prefix;                     /* enum vasigmon_side: VASIGMON_ABSENT if there is none */
    uint64_t start;
    uint64_t length;
} vasigmon_prefix_t;

/* Answers the prefix of a spec: in fetch the prefix of its source, in push that of
 * its destination. The prefix of `HEAD`, and of a name that begins with `refs/`, is
 * the whole name. The prefix of a pattern that begins with `refs/` is what stands
 * before the star. There is none if the star comes right after `refs/`, or if a `]`
 * is among the rest. All other names, and negative specs, have no prefix. */
vasigmon_prefix_t vasigmon_prefix(uint64_t op, const uint8_t *spec, size_t spec_len);

/* What a call did with the output buffer it was lent.
 *
 * With refusal 0, `length` bytes of the answer stand at the buffer's start, and
 * the bytes beyond them are as they were. With any refusal the whole buffer is
 * as it was. With VASIGMON_BUFFER_TOO_SHORT, `length` is the length of a buffer
 * that is long enough: at least what is needed and at most twice that. */
typedef struct vasigmon_written {
    uint64_t refusal;
    uint64_t record;                     /* the number of the refused record of a list; 0 in a call on one spec,
                                            and with 12, 17 and 18, which are about no record */
    uint64_t length;
} vasigmon_written;

/* Writes the canonical text of a spec's instruction, in at most 8,193 bytes.
 *
 * The text, with the operation beside it, is a key for a price list: two accepted specs
 * of one operation have equal texts exactly if their instructions are equal, that is
 * kind, force and the bytes of both sides (a supplied HEAD counts as these four letters,
 * and places do not matter). Handed in again as a spec, a text of at most 4,096 bytes
 * gives an equal instruction, except for that of a fetch-only source that begins with
 * `+`: it still tells specs apart, but `++a` has the text `+a`, and `+a` fetches `a`. */
vasigmon_written vasigmon_to_bstring(uint64_t op, const uint8_t *spec, size_t spec_len,
                                     uint8_t *out, size_t out_len);

/* Writes the prefixes of the names that a spec asks the remote for, as a list. A
 * partial name such as `main` gives six: `main`, `refs/main`, `refs/tags/main`,
 * `refs/heads/main`, `refs/remotes/main`, `refs/remotes/main/HEAD`. The list
 * may be empty. */
vasigmon_written vasigmon_expand_prefixes(uint64_t op, const uint8_t *spec, size_t spec_len,
                                          uint8_t *out, size_t out_len);

/* Whether two specs can ever collide, and what the call did with the output buffer it
 * was lent.
 *
 * Where `collides` is 1, `length` bytes of a destination stand at the buffer's start,
 * and the bytes beyond them are as they were. The destination may have no bytes at
 * all, so that `length` is 0 there too. Where `collides` is 0 the whole buffer is as it
 * was. With VASIGMON_BUFFER_TOO_SHORT, which only two specs that collide can give,
 * `length` is the length of a buffer that is long enough: at least what is needed and
 * at most twice that. */
typedef struct vasigmon_collision {
    uint64_t refusal;
    uint64_t which;                      /* with a spec's own number, 1 to 11: the refused spec, 1 or 2; else 0 */
    uint64_t collides;                   /* 1 where some destination is reached from both specs; 0 where none is, and with every refusal */
    uint64_t length;
} vasigmon_collision;

/* Answers whether some name under the first spec and some name under the second, which
 * may be the same name, can be written to one destination, and writes such a
 * destination. Both specs are read for fetch. The names may be any bytes of any
 * length, also names that no item list may have, and an object id counts as a name
 * does. So where the answer is no, vasigmon_match_lhs puts no row of the one and row
 * of the other on one destination, in no group that holds both specs and whatever the
 * items. (vasigmon_match_rhs takes a destination without a star as it is spelt, so of
 * its rows a no says nothing.)
 *
 * Two patterns collide if one start begins the other and one end closes the other; the
 * destination is then the longer start followed by the longer end. A destination
 * without a star counts as vasigmon_match_lhs writes it (`main` is `refs/heads/main`), and is
 * itself the destination that is told. A spec that is negative or has no destination
 * collides with nothing. The answer does not depend on the order of the two. */
vasigmon_collision vasigmon_collide(const uint8_t *first, size_t first_len,
                                    const uint8_t *second, size_t second_len,
                                    uint8_t *out, size_t out_len);

/* Writes the prefixes of the names that a list of specs asks the remote for. Each
 * prefix that vasigmon_expand_prefixes writes for some spec is written exactly
 * once. The order is unspecified. */
vasigmon_written vasigmon_group_prefixes(uint64_t op, const uint8_t *specs, size_t specs_len,
                                         uint8_t *out, size_t out_len);

/* Writes the forward mapping of a list of items under a list of specs, as rows. A
 * row has, in this order: the item's number plus 1, or 0 for none; the spec's
 * number; the kind of the source, 0 for a name and 1 for an object id; the source's
 * length and bytes, of an object id its forty digits in lower case; then 0 for no
 * destination, else its length plus 1 and its bytes.
 *
 * First comes a row for each spec whose source is an object id, in the order of the
 * specs, whatever the items. Then come the rows of items, by spec and then by item;
 * their source is the item's name. Negative specs give no rows, and remove the rows
 * of names that they match. Rows may repeat others. */
vasigmon_written vasigmon_match_lhs(uint64_t op, const uint8_t *specs, size_t specs_len,
                                    const uint8_t *items, size_t items_len,
                                    uint8_t *out, size_t out_len);

/* Writes the reverse mapping of a list of items under a list of specs, as rows, by
 * spec and then by item. A spec's destination is matched literally or as a pattern.
 * The row's source is the spec's source as the spec has it, with what the star
 * stands for in place of the star. The row's kind is always 0, and its destination
 * is the item's name. Negative specs remove rows by their source. */
vasigmon_written vasigmon_match_rhs(uint64_t op, const uint8_t *specs, size_t specs_len,
                                    const uint8_t *items, size_t items_len,
                                    uint8_t *out, size_t out_len);

/* What the validation of rows did with the two output buffers it was lent: one
 * for rows or conflicts, and one for fixes.
 *
 * With refusal 0, `length` bytes stand at the start of `out` and `fixes_length`
 * bytes at the start of `fixes`; the bytes beyond them are as they were. Where
 * `conflicts` is 1 the whole of `fixes` is as it was. With any refusal both buffers
 * are as they were. With VASIGMON_BUFFER_TOO_SHORT, `buffer` tells which is short,
 * and `length` is the length of one that is long enough in its place: at least what
 * is needed and at most twice that. */
typedef struct vasigmon_validation {
    uint64_t refusal;
    uint64_t record;                     /* as in vasigmon_written */
    uint64_t conflicts;                  /* 1 where out holds conflicts, 0 where it holds kept rows and fixes holds fixes */
    uint64_t length;
    uint64_t fixes_length;
    uint64_t buffer;                     /* with 17, the short buffer: 1 out, 2 fixes */
} vasigmon_validation;

/* Validates a list of rows, as vasigmon_match_lhs and vasigmon_match_rhs write
 * them. The spec numbers in the rows are numbers of the list `specs`. A row list
 * has at most 1,048,576 bytes. A row gives 16 if its spec number is not in the
 * list, if its kind is not 0 or 1, or if its object id is not forty digits in lower
 * case.
 *
 * A destination is in conflict if two rows put different sources on it. If some
 * destination is, `out` holds the conflicts, in byte order of destination. A
 * conflict is: the destination's length and bytes; how many sources it has; and for
 * each source, in the order in which the rows first have it, the spec number of
 * that row, the source's kind, its length and its bytes. `fixes` is then not used,
 * and may be of length 0.
 *
 * If no destination is in conflict, `out` holds the rows that are kept, in their
 * order. A row is not kept if it has a destination that neither begins with `refs/`
 * nor is `HEAD`. For each row that is not kept, in the order of the rows, `fixes`
 * holds the destination's length, its bytes and the spec's number. `out` is asked
 * first whether it is long enough, then `fixes`. Nothing is written unless both are
 * long enough.
 *
 * The number of rows decides how much stack a call needs: see enum vasigmon_stack. */
vasigmon_validation vasigmon_validated(uint64_t op, const uint8_t *specs, size_t specs_len,
                                       const uint8_t *rows, size_t rows_len,
                                       uint8_t *out, size_t out_len,
                                       uint8_t *fixes, size_t fixes_len);

/* The lists that a part may be of. */
enum vasigmon_list {
    VASIGMON_ITEM_LIST = 0,
    VASIGMON_SPEC_LIST = 1
};

/* A part of one of two lists: `length` bytes from `start` on. */
typedef struct vasigmon_part {
    uint64_t refusal;
    uint64_t record;                     /* as in vasigmon_written; 0 with 16 too */
    uint64_t list;                       /* enum vasigmon_list */
    uint64_t start;
    uint64_t length;
} vasigmon_part;

/* Answers where the source of a forward row stands. `item_field` and `spec` are the
 * row's first two numbers. With `item_field` 0 the source is that of the spec, an
 * object id as the spec spells it. With a higher field it is that item's name,
 * whichever spec of the list is given. Numbers outside the lists give 16. So does
 * field 0 if that spec's source is no object id. */
vasigmon_part vasigmon_source(uint64_t op, const uint8_t *specs, size_t specs_len,
                              const uint8_t *items, size_t items_len,
                              uint64_t item_field, uint64_t spec);

#ifdef __cplusplus
}
#endif

#endif
