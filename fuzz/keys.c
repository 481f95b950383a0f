/* Reads arbitrary bytes as a spec, and holds its canonical text and those of specs near it to
 * what include/vasigmon.h promises of keys. Answers of the archive are compared with one
 * another alone; what each must be, reading.c looks at. The first byte of an input is the
 * operation, the rest the spec. */
#include "harness.h"

/* The bytes of the longest spec, and of the longest key, that of a push of so many bytes. */
enum { SPEC = 4096, KEY = 2 * SPEC + 1 };

/* ---- What a spec asks for. */

/* An instruction in texts, or a refusal. */
struct asked {
    uint64_t refusal;
    uint64_t kind;
    uint64_t force;
    struct text source;
    struct text destination;
};

/* A spec that ends before a page without access. */
static struct text lent(struct text spec)
{
    static struct pages pages;
    return lend(&pages, spec, false);
}

static struct text side_of(struct text spec, uint64_t kind, uint64_t start, uint64_t length)
{
    static const struct text absent = {NULL, 0};
    EXPECT(kind != VASIGMON_PLACE || (start <= spec.length && length <= spec.length - start));
    return kind == VASIGMON_ABSENT ? absent : kind == VASIGMON_PLACE ? part(spec, start, length) : word("HEAD");
}

static struct asked asked_by(uint64_t op, struct text spec)
{
    vasigmon_instruction_t it = vasigmon_instruction(op, lent(spec).bytes, spec.length);
    return (struct asked){it.refusal, it.kind, it.force,
                          side_of(spec, it.source, it.source_start, it.source_length),
                          side_of(spec, it.destination, it.destination_start, it.destination_length)};
}

static bool same_side(struct text one, struct text other)
{
    return !one.bytes == !other.bytes && same(one, other);
}

static bool ask_the_same(struct asked one, struct asked other)
{
    return one.refusal == other.refusal && one.kind == other.kind && one.force == other.force
           && same_side(one.source, other.source) && same_side(one.destination, other.destination);
}

/* ---- Its key. */

/* The key of an accepted spec, in a room for KEY bytes. */
static struct text key_of(uint64_t op, struct text spec, uint8_t *room)
{
    vasigmon_written it = vasigmon_to_bstring(op, lent(spec).bytes, spec.length, room, KEY);
    EXPECT(it.refusal == VASIGMON_ACCEPTED && it.length <= KEY);
    return (struct text){room, it.length};
}

/* A key must ask for the same as its spec, and be its own key. One that is too long is
 * refused. That of a fetch-only source that begins with `+` is refused or asks for
 * something else. */
static void reads_back(uint64_t op, struct asked spec, struct text key)
{
    static uint8_t room[KEY];
    struct asked again = asked_by(op, key);
    if (key.length > SPEC) {
        EXPECT(again.refusal == VASIGMON_SPEC_TOO_LONG);
    } else if (spec.kind == VASIGMON_FETCH_ONLY && begins(spec.source, word("+"))) {
        EXPECT(!ask_the_same(again, spec));
    } else {
        EXPECT(ask_the_same(again, spec));
        EXPECT(same(key, key_of(op, key, room)));
    }
}

/* ---- Specs near a spec. */

/* Puts a spec, unless it is too long. One whose destination has null bytes has no colon. */
static bool put_spec(struct bytes *out, struct text sign, struct text source, struct text destination)
{
    size_t colon = destination.bytes ? 1 : 0;
    if (sign.length + source.length + colon + destination.length > SPEC) {
        return false;
    }
    put(out, sign);
    put(out, source);
    if (colon) {
        put_byte(out, ':');
    }
    put(out, destination);
    return true;
}

/* The spec itself, and specs with another sign or with its sides in other places, must read
 * back, and each two must have one key exactly if they ask for the same. */
static void near(uint64_t op, struct asked spec)
{
    enum { SIGNS = 5, SIDES = 4, ALL = SIGNS * SIDES * SIDES };
    static uint8_t specs[ALL][SPEC], rooms[ALL][KEY];
    const struct text signs[SIGNS] = {word(""), word("+"), word("++"), word("^"), word("+^")};
    const struct text sources[SIDES] = {spec.source, spec.destination, word("@"), word("")};
    const struct text destinations[SIDES] = {spec.source, spec.destination, word(""), {NULL, 0}};
    struct asked asked[ALL];
    struct text keys[ALL];
    size_t count = 0;
    for (size_t n = 0; n < ALL; n++) {
        struct bytes out = {specs[count], 0};
        if (!put_spec(&out, signs[n / SIDES / SIDES], sources[n / SIDES % SIDES], destinations[n % SIDES])) {
            continue;
        }
        asked[count] = asked_by(op, text_of(out));
        if (asked[count].refusal != VASIGMON_ACCEPTED) {
            continue;
        }
        keys[count] = key_of(op, text_of(out), rooms[count]);
        reads_back(op, asked[count], keys[count]);
        for (size_t other = 0; other < count; other++) {
            EXPECT(same(keys[other], keys[count]) == ask_the_same(asked[other], asked[count]));
        }
        count += 1;
    }
}

int LLVMFuzzerTestOneInput(const uint8_t *data, size_t size)
{
    if (size == 0 || size > ROOM) {
        return 0;
    }
    uint64_t op = operation(data[0]);
    struct asked spec = asked_by(op, (struct text){data + 1, size - 1});
    if (spec.refusal == VASIGMON_ACCEPTED) {
        near(op, spec);
    }
    return 0;
}
