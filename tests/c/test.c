/* A C program's view of the archive: compiled as C99 and as C++, it checks a
 * few answers of each entry and prints one line. */
#include "vasigmon.h"

#include <stdio.h>
#include <string.h>

static int failures = 0;

/* Counts and prints a check that did not hold. */
static void expect(int holds, const char *what)
{
    if (!holds) {
        failures += 1;
        printf("c test: %s\n", what);
    }
}

static const uint8_t *bytes(const char *text)
{
    return (const uint8_t *)text;
}

/* Whether a side is the place of `text` in `spec`. */
static int stands(const char *spec, uint64_t kind, uint64_t start, uint64_t length, const char *text)
{
    return kind == VASIGMON_PLACE && length == strlen(text) && memcmp(spec + start, text, strlen(text)) == 0;
}

static void reading(void)
{
    const char *text = "+refs/heads/*:refs/remotes/hub/*";
    vasigmon_spec spec = vasigmon_parse(VASIGMON_FETCH, bytes(text), strlen(text));
    expect(spec.refusal == VASIGMON_ACCEPTED, "a spec of two patterns is accepted");
    expect(spec.mode == VASIGMON_FORCE, "a leading + is force");
    expect(stands(text, spec.source, spec.source_start, spec.source_length, "refs/heads/*"), "its source");
    expect(stands(text, spec.destination, spec.destination_start, spec.destination_length, "refs/remotes/hub/*"),
           "its destination");

    spec = vasigmon_parse(VASIGMON_FETCH, bytes(""), 0);
    expect(spec.refusal == VASIGMON_ACCEPTED && spec.source == VASIGMON_SUPPLIED_HEAD, "an empty fetch is HEAD");
    expect(spec.source_start == 0 && spec.source_length == 0, "the supplied HEAD has no place");
    expect(spec.destination == VASIGMON_ABSENT, "an empty fetch has no destination");

    expect(vasigmon_parse(VASIGMON_PUSH, bytes(""), 0).refusal == VASIGMON_EMPTY_PUSH, "an empty push");
    expect(vasigmon_parse(VASIGMON_FETCH, bytes("^a:b"), 4).refusal == VASIGMON_NEGATIVE_COLON, "^a:b");
    expect(vasigmon_parse(VASIGMON_PUSH, bytes("a:"), 2).refusal == VASIGMON_PUSH_INTO_NOTHING, "push a:");
    expect(vasigmon_parse(VASIGMON_FETCH, bytes("a**:b*"), 6).refusal == VASIGMON_SOURCE_STARS, "a**:b*");
    expect(vasigmon_parse(VASIGMON_FETCH, bytes("a..b"), 4).refusal == VASIGMON_SOURCE_NAME, "a..b");
    expect(vasigmon_parse(VASIGMON_FETCH, bytes("a*:b**"), 6).refusal == VASIGMON_DESTINATION_STARS, "a*:b**");
    expect(vasigmon_parse(VASIGMON_FETCH, bytes("a:@"), 3).refusal == VASIGMON_DESTINATION_NAME, "a:@");
    expect(vasigmon_parse(VASIGMON_FETCH, bytes("a*:b"), 4).refusal == VASIGMON_ONE_STAR_OF_TWO, "a*:b");
    expect(vasigmon_parse(VASIGMON_FETCH, bytes("^"), 1).refusal == VASIGMON_NEGATIVE_EMPTY, "^");
    expect(vasigmon_parse(2, bytes("a"), 1).refusal == VASIGMON_NO_SUCH_OPERATION, "operation 2");
}

/* The two limits of one spec: its bytes, and the digits after ^. */
static void limits(void)
{
    char text[4098];
    memset(text, 'a', sizeof text);
    expect(vasigmon_parse(VASIGMON_FETCH, bytes(text), 4096).refusal == VASIGMON_ACCEPTED, "4,096 bytes");
    expect(vasigmon_parse(VASIGMON_FETCH, bytes(text), 4097).refusal == VASIGMON_SPEC_TOO_LONG, "4,097 bytes");
    text[0] = '^';
    expect(vasigmon_parse(VASIGMON_FETCH, bytes(text), 40).refusal == VASIGMON_ACCEPTED, "^ and 39 digits");
    expect(vasigmon_parse(VASIGMON_FETCH, bytes(text), 41).refusal == VASIGMON_NEGATIVE_OBJECT, "^ and 40 digits");
}

static void instructions(void)
{
    const char *text = "+main";
    vasigmon_instruction_t it = vasigmon_instruction(VASIGMON_PUSH, bytes(text), strlen(text));
    expect(it.refusal == VASIGMON_ACCEPTED && it.kind == VASIGMON_PUSH_MATCHING && it.force == 1, "push +main");
    expect(stands(text, it.source, it.source_start, it.source_length, "main"), "push +main: its source");
    expect(stands(text, it.destination, it.destination_start, it.destination_length, "main"),
           "push +main: its destination");

    it = vasigmon_instruction(VASIGMON_PUSH, bytes(":"), 1);
    expect(it.kind == VASIGMON_PUSH_ALL_MATCHING && it.source == VASIGMON_ABSENT, "push :");

    expect(vasigmon_instruction(VASIGMON_FETCH, bytes("^a"), 2).kind == VASIGMON_FETCH_EXCLUDE, "fetch ^a");
}

static void prefixes(void)
{
    const char *text = "refs/heads/*:refs/remotes/hub/*";
    vasigmon_prefix_t prefix = vasigmon_prefix(VASIGMON_FETCH, bytes(text), strlen(text));
    expect(prefix.refusal == VASIGMON_ACCEPTED, "the prefix of two patterns");
    expect(stands(text, prefix.prefix, prefix.start, prefix.length, "refs/heads/"), "it is refs/heads/");
    expect(vasigmon_prefix(VASIGMON_FETCH, bytes("main"), 4).prefix == VASIGMON_ABSENT, "main has no prefix");
}

static void writing(void)
{
    const char *list = "\1a\6refs/a\13refs/tags/a\14refs/heads/a\16refs/remotes/a\23refs/remotes/a/HEAD";
    uint8_t out[128];
    vasigmon_written written;

    memset(out, '#', sizeof out);
    written = vasigmon_to_bstring(VASIGMON_PUSH, bytes("+:d"), 3, out, 1);
    expect(written.refusal == VASIGMON_BUFFER_TOO_SHORT, "a buffer of 1 is short for :d");
    expect(written.length >= 2 && written.length <= 4, "the length beside 17");
    expect(out[0] == '#', "nothing is written on refusal");

    written = vasigmon_to_bstring(VASIGMON_PUSH, bytes("+:d"), 3, out, sizeof out);
    expect(written.refusal == VASIGMON_ACCEPTED && written.length == 2, "the text of push +:d");
    expect(memcmp(out, ":d#", 3) == 0, "it is :d and nothing beyond");

    written = vasigmon_expand_prefixes(VASIGMON_FETCH, bytes("a"), 1, out, sizeof out);
    expect(written.refusal == VASIGMON_ACCEPTED && written.length == strlen(list), "six candidates of a");
    expect(memcmp(out, list, strlen(list)) == 0, "the list of the six");
}

/* A spec of an operation, and its key. */
struct keyed {
    uint64_t op;
    const char *spec;
    const char *key;
};

static const struct keyed KEYED[] = {
    { VASIGMON_FETCH, "", "HEAD" },
    { VASIGMON_FETCH, "+", "HEAD" },
    { VASIGMON_FETCH, ":", "HEAD" },
    { VASIGMON_FETCH, "+:", "HEAD" },
    { VASIGMON_FETCH, "@", "HEAD" },
    { VASIGMON_FETCH, "HEAD", "HEAD" },
    { VASIGMON_FETCH, "a", "a" },
    { VASIGMON_FETCH, "+a", "a" },
    { VASIGMON_FETCH, "+a:", "a" },
    { VASIGMON_FETCH, "A", "A" },
    { VASIGMON_FETCH, "++", "+" },
    { VASIGMON_FETCH, "++a", "+a" },
    { VASIGMON_FETCH, "++a:", "+a" },
    { VASIGMON_FETCH, "+++a", "++a" },
    { VASIGMON_FETCH, "++.a", "+.a" },
    { VASIGMON_FETCH, "++@", "+@" },
    { VASIGMON_FETCH, "++HEAD", "+HEAD" },
    { VASIGMON_FETCH, "a:b", "a:b" },
    { VASIGMON_FETCH, "a:+b", "a:+b" },
    { VASIGMON_FETCH, "+a:b", "+a:b" },
    { VASIGMON_FETCH, "++a:b", "++a:b" },
    { VASIGMON_FETCH, "++:b", "++:b" },
    { VASIGMON_FETCH, ":b", "HEAD:b" },
    { VASIGMON_FETCH, "@:b", "HEAD:b" },
    { VASIGMON_FETCH, "HEAD:b", "HEAD:b" },
    { VASIGMON_FETCH, "+:b", "+HEAD:b" },
    { VASIGMON_FETCH, "a*:b*", "a*:b*" },
    { VASIGMON_FETCH, "^a", "^a" },
    { VASIGMON_FETCH, "^+a", "^+a" },
    { VASIGMON_FETCH, "^a*", "^a*" },
    { VASIGMON_FETCH, "^@", "^HEAD" },
    { VASIGMON_FETCH, "^HEAD", "^HEAD" },
    { VASIGMON_PUSH, "main", "main:main" },
    { VASIGMON_PUSH, "main:main", "main:main" },
    { VASIGMON_PUSH, ":", ":" },
    { VASIGMON_PUSH, "+", "+:" },
    { VASIGMON_PUSH, "+:", "+:" },
    { VASIGMON_PUSH, "a", "a:a" },
    { VASIGMON_PUSH, "a:a", "a:a" },
    { VASIGMON_PUSH, "+a", "+a:a" },
    { VASIGMON_PUSH, "+a:a", "+a:a" },
    { VASIGMON_PUSH, "++", "++:+" },
    { VASIGMON_PUSH, "++a", "++a:+a" },
    { VASIGMON_PUSH, "++a:+a", "++a:+a" },
    { VASIGMON_PUSH, "++a:a", "++a:a" },
    { VASIGMON_PUSH, "++.a", "++.a:+.a" },
    { VASIGMON_PUSH, "@", "HEAD:HEAD" },
    { VASIGMON_PUSH, "HEAD", "HEAD:HEAD" },
    { VASIGMON_PUSH, "@:HEAD", "HEAD:HEAD" },
    { VASIGMON_PUSH, "+@", "+HEAD:HEAD" },
    { VASIGMON_PUSH, "a:b", "a:b" },
    { VASIGMON_PUSH, "b:a", "b:a" },
    { VASIGMON_PUSH, "::b", "::b" },
    { VASIGMON_PUSH, "+::b", "+::b" },
    { VASIGMON_PUSH, ":/fix:b", ":/fix:b" },
    { VASIGMON_PUSH, "a:b:b", "a:b:b" },
    { VASIGMON_PUSH, "+^a:b", "+^a:b" },
    { VASIGMON_PUSH, "++:b", "++:b" },
    { VASIGMON_PUSH, ":b", ":b" },
    { VASIGMON_PUSH, "+:b", ":b" },
    { VASIGMON_PUSH, "a*", "a*:a*" },
    { VASIGMON_PUSH, "a*:a*", "a*:a*" },
    { VASIGMON_PUSH, "^a", "^a" },
    { VASIGMON_PUSH, "^+a", "^+a" },
    { VASIGMON_PUSH, "^@", "^HEAD" },
    { VASIGMON_PUSH, "^HEAD", "^HEAD" }
};
#define KEYED_COUNT (sizeof KEYED / sizeof KEYED[0])

/* The bytes of a side; null where it is absent. */
struct side {
    const char *bytes;
    size_t length;
};

/* A side as an answer has it, of which a supplied HEAD is not in the spec. */
static struct side side_of(const char *spec, uint64_t kind, uint64_t start, uint64_t length)
{
    struct side side = { NULL, 0 };
    if (kind == VASIGMON_PLACE) {
        side.bytes = spec + start;
        side.length = (size_t)length;
    } else if (kind == VASIGMON_SUPPLIED_HEAD) {
        side.bytes = "HEAD";
        side.length = 4;
    }
    return side;
}

static int same_side(struct side one, struct side other)
{
    return (one.bytes == NULL) == (other.bytes == NULL) && one.length == other.length
        && (one.length == 0 || memcmp(one.bytes, other.bytes, one.length) == 0);
}

/* What a spec asks for, or why it is refused. */
struct asked {
    uint64_t refusal;
    uint64_t kind;
    uint64_t force;
    struct side source;
    struct side destination;
};

static struct asked asked_by(uint64_t op, const char *spec, size_t length)
{
    vasigmon_instruction_t it = vasigmon_instruction(op, bytes(spec), length);
    struct asked asked;
    asked.refusal = it.refusal;
    asked.kind = it.kind;
    asked.force = it.force;
    asked.source = side_of(spec, it.source, it.source_start, it.source_length);
    asked.destination = side_of(spec, it.destination, it.destination_start, it.destination_length);
    return asked;
}

/* Whether two specs of one operation are accepted and ask for the same. */
static int ask_the_same(struct asked one, struct asked other)
{
    return one.refusal == VASIGMON_ACCEPTED && other.refusal == VASIGMON_ACCEPTED && one.kind == other.kind
        && one.force == other.force && same_side(one.source, other.source)
        && same_side(one.destination, other.destination);
}

/* Whether a call on a spec writes just this text. */
static int has_key(uint64_t op, const char *spec, const char *key)
{
    uint8_t out[32];
    vasigmon_written written = vasigmon_to_bstring(op, bytes(spec), strlen(spec), out, sizeof out);
    return written.refusal == VASIGMON_ACCEPTED && written.length == strlen(key) && memcmp(out, key, strlen(key)) == 0;
}

/* Counts and prints a check that did not hold, of a spec beside a text. */
static void expect_of(const struct keyed *keyed, const char *beside, int holds, const char *what)
{
    if (!holds) {
        failures += 1;
        printf("c test: %s %s: %s %s\n", keyed->op == VASIGMON_FETCH ? "fetch" : "push", keyed->spec, what, beside);
    }
}

/* Two specs of one operation have one key exactly if they ask for the same. */
static void keys(void)
{
    size_t n, m;

    for (n = 0; n < KEYED_COUNT; n++) {
        struct asked one = asked_by(KEYED[n].op, KEYED[n].spec, strlen(KEYED[n].spec));
        expect_of(&KEYED[n], KEYED[n].key, has_key(KEYED[n].op, KEYED[n].spec, KEYED[n].key), "its key is");
        for (m = 0; m < KEYED_COUNT; m++) {
            struct asked other = asked_by(KEYED[m].op, KEYED[m].spec, strlen(KEYED[m].spec));
            if (KEYED[n].op == KEYED[m].op) {
                expect_of(&KEYED[n], KEYED[m].spec,
                          (strcmp(KEYED[n].key, KEYED[m].key) == 0) == ask_the_same(one, other),
                          "one key exactly if it asks for the same as");
            }
        }
    }
    expect(vasigmon_instruction(VASIGMON_FETCH, bytes("a:b"), 3).kind == VASIGMON_FETCH_AND_UPDATE
           && vasigmon_instruction(VASIGMON_PUSH, bytes("a:b"), 3).kind == VASIGMON_PUSH_MATCHING,
           "a:b is the key of a fetch and of a push");
}

/* A key asks for what its spec does, but for a fetch-only source that begins with +. */
static void keys_read_back(void)
{
    size_t n;

    for (n = 0; n < KEYED_COUNT; n++) {
        struct asked spec = asked_by(KEYED[n].op, KEYED[n].spec, strlen(KEYED[n].spec));
        struct asked key = asked_by(KEYED[n].op, KEYED[n].key, strlen(KEYED[n].key));
        if (spec.kind == VASIGMON_FETCH_ONLY && KEYED[n].key[0] == '+') {
            expect_of(&KEYED[n], KEYED[n].key, !ask_the_same(spec, key), "something else is asked for by its key");
        } else {
            expect_of(&KEYED[n], KEYED[n].key, ask_the_same(spec, key), "the same is asked for by its key");
            expect_of(&KEYED[n], KEYED[n].key, has_key(KEYED[n].op, KEYED[n].key, KEYED[n].key),
                      "its key has the key");
        }
    }
    expect(ask_the_same(asked_by(VASIGMON_FETCH, "+a", 2), asked_by(VASIGMON_FETCH, "a", 1)), "fetch +a is only a");
    expect(ask_the_same(asked_by(VASIGMON_FETCH, "+", 1), asked_by(VASIGMON_FETCH, "HEAD", 4)), "fetch + is HEAD");
    expect(asked_by(VASIGMON_FETCH, "+.a", 3).refusal == VASIGMON_SOURCE_NAME, "fetch +.a is refused");
}

/* The key of the first `length` bytes of `spec` has `expected` bytes; within the limit of a
 * spec it asks for the same, and above it is refused. */
static void long_key(uint64_t op, const char *spec, size_t length, size_t expected, const char *what)
{
    static uint8_t out[8193];
    vasigmon_written written = vasigmon_to_bstring(op, bytes(spec), length, out, sizeof out);
    struct asked key = asked_by(op, (const char *)out, (size_t)written.length);
    expect(written.refusal == VASIGMON_ACCEPTED && written.length == expected, what);
    expect(expected > 4096 ? key.refusal == VASIGMON_SPEC_TOO_LONG
                           : ask_the_same(asked_by(op, spec, length), key), what);
}

static void long_keys(void)
{
    char text[4096];

    memset(text, 'a', sizeof text);
    long_key(VASIGMON_PUSH, text, 2047, 4095, "the key of a push of 2,047 letters");
    long_key(VASIGMON_PUSH, text, 2048, 4097, "the key of a push of 2,048 letters");
    long_key(VASIGMON_PUSH, text, 4096, 8193, "the key of a push of 4,096 letters");
    long_key(VASIGMON_FETCH, text, 4096, 4096, "the key of a fetch of 4,096 letters");
    text[0] = ':';
    long_key(VASIGMON_FETCH, text, 4092, 4096, "the key of a fetch of : and 4,091 letters");
    long_key(VASIGMON_FETCH, text, 4093, 4097, "the key of a fetch of : and 4,092 letters");
}

/* Whether the report on two specs is this one. */
static int reports(vasigmon_collision answer, uint64_t refusal, uint64_t which, uint64_t collides, uint64_t length)
{
    return answer.refusal == refusal && answer.which == which && answer.collides == collides && answer.length == length;
}

static void collisions(void)
{
    const char *start = "refs/heads/*:refs/ab*", *end = "refs/tags/*:refs/a*bc", *apart = "*:refs/b*";
    const char *north = "refs/heads/*:refs/carriers/north/*", *pins = "refs/tags/*:refs/carriers/*pin";
    uint8_t out[64];
    vasigmon_collision answer;

    memset(out, '#', sizeof out);
    answer = vasigmon_collide(bytes(start), strlen(start), bytes(end), strlen(end), out, 8);
    expect(answer.refusal == VASIGMON_BUFFER_TOO_SHORT && answer.which == 0 && answer.collides == 0,
           "a collision's short buffer");
    expect(answer.length >= 9 && answer.length <= 18, "a collision's length beside 17");
    answer = vasigmon_collide(bytes(start), strlen(start), bytes(apart), strlen(apart), out, sizeof out);
    expect(reports(answer, VASIGMON_ACCEPTED, 0, 0, 0), "two specs that do not collide");
    answer = vasigmon_collide(bytes("a:@"), 3, bytes("^"), 1, out, sizeof out);
    expect(reports(answer, VASIGMON_DESTINATION_NAME, 1, 0, 0), "the first spec is refused first");
    answer = vasigmon_collide(bytes("a"), 1, bytes("^"), 1, out, sizeof out);
    expect(reports(answer, VASIGMON_NEGATIVE_EMPTY, 2, 0, 0), "the second spec is refused");
    answer = vasigmon_collide(bytes("*:*"), 3, bytes("*:*"), 3, out, 0);
    expect(reports(answer, VASIGMON_ACCEPTED, 0, 1, 0), "a destination of no bytes");
    expect(out[0] == '#' && out[8] == '#', "nothing is written unless there is a destination");

    answer = vasigmon_collide(bytes(start), strlen(start), bytes(end), strlen(end), out, sizeof out);
    expect(reports(answer, VASIGMON_ACCEPTED, 0, 1, 9), "two specs that collide");
    expect(memcmp(out, "refs/abbc#", 10) == 0, "the longer start and the longer end, and nothing beyond");
    answer = vasigmon_collide(bytes("a:b"), 3, bytes("c:refs/heads/b"), 14, out, sizeof out);
    expect(reports(answer, VASIGMON_ACCEPTED, 0, 1, 12), "a literal collides in its completed form");
    expect(memcmp(out, "refs/heads/b", 12) == 0, "it is told in that form");
    answer = vasigmon_collide(bytes(north), strlen(north), bytes(pins), strlen(pins), out, sizeof out);
    expect(reports(answer, VASIGMON_ACCEPTED, 0, 1, 23), "the example of README.md");
    expect(memcmp(out, "refs/carriers/north/pin", 23) == 0, "its destination");
}

/* Whether a call wrote just these bytes to `out`. */
static int wrote(vasigmon_written written, const uint8_t *out, const char *text, size_t length)
{
    return written.refusal == VASIGMON_ACCEPTED && written.record == 0 && written.length == length
        && memcmp(out, text, length) == 0;
}

/* Whether a call was refused like this. */
static int refused(vasigmon_written written, uint64_t refusal, uint64_t record)
{
    return written.refusal == refusal && written.record == record && written.length == 0;
}

/* Three specs, the second negative, the third an object id; two items. */
static const char SPECS[] = "\40+refs/heads/*:refs/remotes/hub/*"
                            "\20^refs/heads/tmp*"
                            "\53+0123456789ABCDEF0123456789abcdef01234567:x";
static const char ITEMS[] = "\20refs/heads/codes\17refs/heads/tmp1";
#define SPECS_LEN (sizeof SPECS - 1)
#define ITEMS_LEN (sizeof ITEMS - 1)

static void listings(void)
{
    static const char rows[] = "\0\2\1\50" "0123456789abcdef0123456789abcdef01234567" "\15refs/heads/x"
                               "\1\0\0\20refs/heads/codes\27refs/remotes/hub/codes";
    static const char back[] = "\1\0\0\14refs/heads/a\23refs/remotes/hub/a";
    static const char names[] = "\22refs/remotes/hub/a\25refs/remotes/hub/tmp1";
    size_t need = sizeof rows - 1;
    uint8_t out[256];
    vasigmon_written written;

    memset(out, '#', sizeof out);
    written = vasigmon_match_lhs(VASIGMON_FETCH, bytes(SPECS), SPECS_LEN, bytes(ITEMS), ITEMS_LEN, out, need - 1);
    expect(written.refusal == VASIGMON_BUFFER_TOO_SHORT && written.record == 0, "a listing's short buffer");
    expect(written.length >= need && written.length <= 2 * need, "its length beside 17");
    expect(out[0] == '#' && out[need - 2] == '#', "no row is written on refusal");

    written = vasigmon_match_lhs(VASIGMON_FETCH, bytes(SPECS), SPECS_LEN, bytes(ITEMS), ITEMS_LEN, out, sizeof out);
    expect(wrote(written, out, rows, need), "the forward listing");
    expect(out[need] == '#', "no byte beyond the forward listing");

    written = vasigmon_match_rhs(VASIGMON_FETCH, bytes(SPECS), SPECS_LEN, bytes(names), sizeof names - 1,
                                 out, sizeof out);
    expect(wrote(written, out, back, sizeof back - 1), "the reverse listing");

    written = vasigmon_match_lhs(VASIGMON_FETCH, bytes(""), 0, bytes(""), 0, out, 0);
    expect(wrote(written, out, "", 0), "no specs, no items, no buffer");
}

static void group_prefixes(void)
{
    uint8_t out[64];
    vasigmon_written written;

    written = vasigmon_group_prefixes(VASIGMON_FETCH, bytes(SPECS), SPECS_LEN, out, sizeof out);
    expect(wrote(written, out, "\13refs/heads/", 12), "the prefixes of a group");
    written = vasigmon_group_prefixes(VASIGMON_FETCH, bytes("\4HEAD\0\1@"), 8, out, sizeof out);
    expect(wrote(written, out, "\4HEAD", 5), "a prefix that three specs yield comes once");
}

/* The first refusal wins, and names its record. */
static void list_refusals(void)
{
    static uint8_t zeros[65536];
    uint8_t out[16];

    expect(refused(vasigmon_match_lhs(2, bytes("\5"), 1, bytes("\5"), 1, out, sizeof out),
                   VASIGMON_NO_SUCH_OPERATION, 0), "operation 2 before the lists");
    expect(refused(vasigmon_match_lhs(VASIGMON_FETCH, bytes("\1a\2a*"), 5, zeros, 65536, out, sizeof out),
                   VASIGMON_ONE_STAR_OF_TWO, 1), "a bad spec before an item list that is too long");
    expect(refused(vasigmon_match_rhs(VASIGMON_FETCH, bytes("\1a"), 2, zeros, 65536, out, sizeof out),
                   VASIGMON_LIST_TOO_LONG, 0), "an item list of 65,536 bytes");
    expect(refused(vasigmon_match_rhs(VASIGMON_FETCH, bytes("\1a"), 2, zeros, 65535, out, sizeof out),
                   VASIGMON_TOO_MANY_RECORDS, 1024), "1,025 items");
    expect(refused(vasigmon_group_prefixes(VASIGMON_FETCH, zeros, 257, out, sizeof out),
                   VASIGMON_TOO_MANY_RECORDS, 256), "257 specs");
    expect(refused(vasigmon_group_prefixes(VASIGMON_FETCH, bytes("\1a\200\0"), 4, out, sizeof out),
                   VASIGMON_MALFORMED, 1), "a length that is not in its shortest form");
}

static void views(void)
{
    static const vasigmon_part outside = { VASIGMON_OUTSIDE_THE_LISTS, 0, 0, 0, 0 };
    vasigmon_part part;

    part = vasigmon_source(VASIGMON_FETCH, bytes(SPECS), SPECS_LEN, bytes(ITEMS), ITEMS_LEN, 2, 0);
    expect(part.refusal == VASIGMON_ACCEPTED && part.list == VASIGMON_ITEM_LIST, "the view of an item");
    expect(part.length == 15 && memcmp(ITEMS + part.start, "refs/heads/tmp1", 15) == 0, "it is the item's name");

    part = vasigmon_source(VASIGMON_FETCH, bytes(SPECS), SPECS_LEN, bytes(ITEMS), ITEMS_LEN, 0, 2);
    expect(part.refusal == VASIGMON_ACCEPTED && part.list == VASIGMON_SPEC_LIST, "the view of an object id");
    expect(part.length == 40 && memcmp(SPECS + part.start, "0123456789ABCDEF", 16) == 0,
           "it is as the spec spells it");

    part = vasigmon_source(VASIGMON_FETCH, bytes(SPECS), SPECS_LEN, bytes(ITEMS), ITEMS_LEN, 0, 0);
    expect(memcmp(&part, &outside, sizeof part) == 0, "field 0 of a spec whose source is no object id");
    part = vasigmon_source(VASIGMON_FETCH, bytes(SPECS), SPECS_LEN, bytes(ITEMS), ITEMS_LEN, 3, 0);
    expect(memcmp(&part, &outside, sizeof part) == 0, "a field above the items");
    part = vasigmon_source(VASIGMON_FETCH, bytes(SPECS), SPECS_LEN, bytes(ITEMS), ITEMS_LEN, 1, 3);
    expect(memcmp(&part, &outside, sizeof part) == 0, "a spec that is not in the list");
}

/* Whether validation was refused like this. */
static int turned_down(vasigmon_validation answer, uint64_t refusal, uint64_t record)
{
    return answer.refusal == refusal && answer.record == record && answer.conflicts == 0 && answer.length == 0
        && answer.fixes_length == 0 && answer.buffer == 0;
}

static void validation(void)
{
    /* Row 0 has no destination, row 1 a partial one, row 2 a full one. */
    static const char rows[] = "\1\0\0\1a\0" "\1\1\0\1a\2b" "\1\0\0\1a\7refs/b";
    static const char kept[] = "\1\0\0\1a\0" "\1\0\0\1a\7refs/b";
    static const char fixed[] = "\1b\1";
    size_t need = sizeof kept - 1, need_fixes = sizeof fixed - 1;
    uint8_t out[64], fixes[64];
    vasigmon_validation answer;

    memset(out, '#', sizeof out);
    memset(fixes, '#', sizeof fixes);
    answer = vasigmon_validated(VASIGMON_FETCH, bytes(SPECS), SPECS_LEN, bytes(rows), sizeof rows - 1,
                                out, need - 1, fixes, need_fixes - 1);
    expect(answer.refusal == VASIGMON_BUFFER_TOO_SHORT && answer.buffer == 1, "two short buffers: the first is told");
    expect(answer.length >= need && answer.length <= 2 * need, "a length for the rows");
    answer = vasigmon_validated(VASIGMON_FETCH, bytes(SPECS), SPECS_LEN, bytes(rows), sizeof rows - 1,
                                out, need, fixes, need_fixes - 1);
    expect(answer.refusal == VASIGMON_BUFFER_TOO_SHORT && answer.buffer == 2, "a short buffer for the fixes");
    expect(answer.length >= need_fixes && answer.length <= 2 * need_fixes, "a length for the fixes");
    expect(out[0] == '#' && fixes[0] == '#', "no row and no fix is written on refusal");

    answer = vasigmon_validated(VASIGMON_FETCH, bytes(SPECS), SPECS_LEN, bytes(rows), sizeof rows - 1,
                                out, sizeof out, fixes, sizeof fixes);
    expect(answer.refusal == VASIGMON_ACCEPTED && answer.conflicts == 0, "rows that pass");
    expect(answer.record == 0 && answer.buffer == 0, "no record and no short buffer");
    expect(answer.length == need && memcmp(out, kept, need) == 0, "the kept rows");
    expect(answer.fixes_length == need_fixes && memcmp(fixes, fixed, need_fixes) == 0, "the fixes");
    expect(out[need] == '#' && fixes[need_fixes] == '#', "no byte beyond rows and fixes");
}

static void conflicts(void)
{
    static const char rows[] = "\0\1\0\1b\2x" "\0\0\0\1a\2x" "\0\2\0\1b\2x";
    static const char found[] = "\1x\2" "\1\0\1b" "\0\0\1a";
    size_t need = sizeof found - 1;
    uint8_t out[64], fixes[1] = { '#' };
    vasigmon_validation answer;

    memset(out, '#', sizeof out);
    answer = vasigmon_validated(VASIGMON_FETCH, bytes(SPECS), SPECS_LEN, bytes(rows), sizeof rows - 1,
                                out, need, fixes, 0);
    expect(answer.refusal == VASIGMON_ACCEPTED && answer.conflicts == 1, "a conflict, and no buffer for fixes");
    expect(answer.length == need && memcmp(out, found, need) == 0, "its sources, first seen first");
    expect(answer.fixes_length == 0 && fixes[0] == '#' && out[need] == '#', "nothing else is written");
    answer = vasigmon_validated(VASIGMON_FETCH, bytes(SPECS), SPECS_LEN, bytes(rows), sizeof rows - 1,
                                out, need - 1, fixes, 1);
    expect(answer.refusal == VASIGMON_BUFFER_TOO_SHORT && answer.buffer == 1, "a short buffer for conflicts");
}

static void row_refusals(void)
{
    static uint8_t zeros[1048577];
    uint8_t out[16], fixes[16];

    expect(turned_down(vasigmon_validated(2, bytes("\5"), 1, zeros, 1048577, out, 0, fixes, 0),
                       VASIGMON_NO_SUCH_OPERATION, 0), "operation 2 before the lists, with rows");
    expect(turned_down(vasigmon_validated(VASIGMON_FETCH, bytes("\2a*"), 3, zeros, 1048577, out, 0, fixes, 0),
                       VASIGMON_ONE_STAR_OF_TWO, 0), "a bad spec before a row list that is too long");
    expect(turned_down(vasigmon_validated(VASIGMON_FETCH, bytes("\1a"), 2, zeros, 1048577, out, 0, fixes, 0),
                       VASIGMON_LIST_TOO_LONG, 0), "a row list of 1,048,577 bytes");
    expect(turned_down(vasigmon_validated(VASIGMON_FETCH, bytes("\1a"), 2, zeros, 1048576, out, 0, fixes, 0),
                       VASIGMON_MALFORMED, 209715), "a row list of 1,048,576 bytes, whose last row is cut");
    expect(turned_down(vasigmon_validated(VASIGMON_FETCH, bytes("\1a"), 2, bytes("\0\1\0\0\0"), 5,
                                          out, 0, fixes, 0),
                       VASIGMON_OUTSIDE_THE_LISTS, 0), "a row with a spec that is not in the list");
}

int main(void)
{
    reading();
    limits();
    instructions();
    prefixes();
    writing();
    keys();
    keys_read_back();
    long_keys();
    collisions();
    listings();
    group_prefixes();
    list_refusals();
    views();
    validation();
    conflicts();
    row_refusals();
    if (failures == 0) {
        printf("c test: passed\n");
    }
    return failures != 0;
}
