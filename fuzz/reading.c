/* Reads arbitrary bytes as one spec, by the five entries on one spec. Their answers are
 * held to the plainest reading of include/vasigmon.h; of the name rules only that plain
 * letters pass. The first byte of an input is the operation and a flag, the rest the spec. */
#include "harness.h"

/* ---- The plain reading. */

/* A spec cut at its sign and at its last colon. */
struct cut {
    bool force;
    bool negative;
    bool colon;
    size_t source_start;
    size_t destination_start;
    struct text source;
    struct text destination;
};

static struct cut cut_of(struct text spec)
{
    struct cut it = {0};
    it.force = spec.length > 0 && spec.bytes[0] == '+';
    it.negative = spec.length > 0 && spec.bytes[0] == '^';
    it.source_start = it.force || it.negative;
    size_t end = spec.length;
    for (size_t at = it.source_start; at < spec.length; at++) {
        if (spec.bytes[at] == ':') {
            it.colon = true;
            end = at;
        }
    }
    it.destination_start = it.colon ? end + 1 : spec.length;
    it.source = part(spec, it.source_start, end - it.source_start);
    it.destination = part(spec, it.destination_start, spec.length - it.destination_start);
    return it;
}

static size_t stars(struct text text)
{
    size_t count = 0;
    for (size_t at = 0; at < text.length; at++) {
        count += text.bytes[at] == '*';
    }
    return count;
}

/* Whether the name rules have nothing to look at. */
static bool plain(struct text text)
{
    for (size_t at = 0; at < text.length; at++) {
        if (text.bytes[at] < 'a' || text.bytes[at] > 'z') {
            return false;
        }
    }
    return true;
}

/* Whether the number can be that of the first question that is answered by no. */
static bool may_refuse(uint64_t op, struct text spec, struct cut it, uint64_t number)
{
    bool push = op == VASIGMON_PUSH;
    bool source = it.source.length > 0;
    bool destination = it.destination.length > 0;
    if (op > 1) {
        return number == VASIGMON_NO_SUCH_OPERATION;
    }
    if (spec.length > 4096) {
        return number == VASIGMON_SPEC_TOO_LONG;
    }
    if (push && spec.length == 0) {
        return number == VASIGMON_EMPTY_PUSH;
    }
    if (it.negative && it.colon) {
        return number == VASIGMON_NEGATIVE_COLON;
    }
    if (push && it.colon && source && !destination) {
        return number == VASIGMON_PUSH_INTO_NOTHING;
    }
    if (stars(it.source) > 1) {
        return number == VASIGMON_SOURCE_STARS;
    }
    if (number == VASIGMON_SOURCE_NAME) {
        bool exempt = push && destination && stars(it.source) == 0;
        return !plain(it.source) && !same(it.source, word("@")) && !exempt;
    }
    if (stars(it.destination) > 1) {
        return number == VASIGMON_DESTINATION_STARS;
    }
    if (number == VASIGMON_DESTINATION_NAME) {
        return !plain(it.destination);
    }
    if (!it.negative && (destination || !push) && stars(it.source) != stars(it.destination)) {
        return number == VASIGMON_ONE_STAR_OF_TWO;
    }
    if (it.negative && !source) {
        return number == VASIGMON_NEGATIVE_EMPTY;
    }
    if (it.negative && it.source.length >= 40 && all_hex(it.source)) {
        return number == VASIGMON_NEGATIVE_OBJECT;
    }
    return number == VASIGMON_ACCEPTED;
}

/* A side as an answer has it, and its text. */
struct side {
    uint64_t kind;
    uint64_t start;
    uint64_t length;
    struct text text;
};

static const struct side NO_SIDE = {VASIGMON_ABSENT, 0, 0, {NULL, 0}};

static struct side place_of(struct text text, size_t start)
{
    return text.length == 0 ? NO_SIDE : (struct side){VASIGMON_PLACE, start, text.length, text};
}

static struct side source_of(uint64_t op, struct cut it)
{
    bool supplied = it.source.length == 0 && op == VASIGMON_FETCH && !it.negative;
    if (supplied || same(it.source, word("@"))) {
        return (struct side){VASIGMON_SUPPLIED_HEAD, 0, 0, word("HEAD")};
    }
    return place_of(it.source, it.source_start);
}

static bool is_side(struct side side, uint64_t kind, uint64_t start, uint64_t length)
{
    return side.kind == kind && side.start == start && side.length == length;
}

/* What an accepted spec is. */
struct meant {
    uint64_t kind;
    bool force;
    struct side source;
    struct side destination;
    struct side remote;  /* the side that prefixes are taken from */
};

static struct meant meant_by(uint64_t op, struct cut it)
{
    struct meant spec = {0};
    spec.source = source_of(op, it);
    spec.destination = place_of(it.destination, it.destination_start);
    bool source = spec.source.kind != VASIGMON_ABSENT;
    bool destination = spec.destination.kind != VASIGMON_ABSENT;
    if (!it.negative) {
        spec.remote = op == VASIGMON_FETCH ? spec.source : spec.destination;
    }
    if (op == VASIGMON_FETCH) {
        spec.kind = destination ? VASIGMON_FETCH_AND_UPDATE : VASIGMON_FETCH_ONLY;
        spec.kind = it.negative ? VASIGMON_FETCH_EXCLUDE : spec.kind;
        spec.force = it.force && destination;
        return spec;
    }
    if (it.negative) {
        spec.kind = VASIGMON_PUSH_EXCLUDE;
        return spec;
    }
    if (!source) {
        spec.kind = destination ? VASIGMON_PUSH_DELETE : VASIGMON_PUSH_ALL_MATCHING;
        spec.force = it.force && !destination;
        return spec;
    }
    spec.kind = VASIGMON_PUSH_MATCHING;
    spec.force = it.force;
    spec.destination = destination ? spec.destination : spec.source;
    return spec;
}

/* The part of the remote's side that is its prefix, as a side. */
static struct side prefix_of(struct side remote)
{
    struct text name = remote.text;
    if (!name.bytes || same(name, word("HEAD"))) {
        return remote;
    }
    if (!begins(name, word("refs/"))) {
        return NO_SIDE;
    }
    if (!has(name, '*')) {
        return remote;
    }
    if (begins(name, word("refs/*")) || has(name, ']')) {
        return NO_SIDE;
    }
    return place_of(part(name, 0, before(name, '*')), remote.start);
}

/* Puts the prefixes that a spec asks the remote for. */
static void put_prefixes(struct bytes *out, struct side remote)
{
    struct text name = remote.text;
    struct side prefix = prefix_of(remote);
    if (prefix.kind != VASIGMON_ABSENT) {
        put_record(out, prefix.text);
        return;
    }
    if (!name.bytes || object_id(name)) {
        return;
    }
    if (begins(name, word("refs/"))) {
        if (!has(part(name, 5, name.length - 5), '/')) {
            put_record(out, name);
        }
        return;
    }
    for (size_t n = 0; n < 6; n++) {
        put_number(out, strlen(FRAMES[n][0]) + name.length + strlen(FRAMES[n][1]));
        put(out, word(FRAMES[n][0]));
        put(out, name);
        put(out, word(FRAMES[n][1]));
    }
}

/* Puts the canonical text. */
static void put_canonical(struct bytes *out, struct meant spec)
{
    if (spec.kind == VASIGMON_FETCH_EXCLUDE || spec.kind == VASIGMON_PUSH_EXCLUDE) {
        put_byte(out, '^');
    }
    if (spec.force) {
        put_byte(out, '+');
    }
    put(out, spec.source.text);
    if (spec.destination.text.bytes || spec.kind == VASIGMON_PUSH_ALL_MATCHING) {
        put_byte(out, ':');
        put(out, spec.destination.text);
    }
}

/* ---- The entries, held to it. */

static vasigmon_written to_bstring(const struct call *call, uint8_t *out, size_t out_len)
{
    return vasigmon_to_bstring(call->op, call->first.bytes, call->first.length, out, out_len);
}

static vasigmon_written expand_prefixes(const struct call *call, uint8_t *out, size_t out_len)
{
    return vasigmon_expand_prefixes(call->op, call->first.bytes, call->first.length, out, out_len);
}

/* All five entries must refuse with this number, and say no more. */
static void all_refuse(const struct call *call, uint64_t number)
{
    struct text spec = call->first;
    vasigmon_spec read = vasigmon_parse(call->op, spec.bytes, spec.length);
    EXPECT(memcmp(&read, &(vasigmon_spec){.refusal = number}, sizeof read) == 0);
    vasigmon_instruction_t asks = vasigmon_instruction(call->op, spec.bytes, spec.length);
    EXPECT(memcmp(&asks, &(vasigmon_instruction_t){.refusal = number}, sizeof asks) == 0);
    vasigmon_prefix_t prefix = vasigmon_prefix(call->op, spec.bytes, spec.length);
    EXPECT(memcmp(&prefix, &(vasigmon_prefix_t){.refusal = number}, sizeof prefix) == 0);
    refuses(to_bstring, call, (struct refused){number, 0});
    refuses(expand_prefixes, call, (struct refused){number, 0});
}

static void answers_places(const struct call *call, struct cut it, struct meant spec)
{
    struct text text = call->first;
    vasigmon_spec read = vasigmon_parse(call->op, text.bytes, text.length);
    EXPECT(read.mode == (it.force ? VASIGMON_FORCE : it.negative ? VASIGMON_NEGATIVE : VASIGMON_NORMAL));
    EXPECT(is_side(spec.source, read.source, read.source_start, read.source_length));
    EXPECT(is_side(place_of(it.destination, it.destination_start), read.destination, read.destination_start,
                   read.destination_length));

    vasigmon_instruction_t asks = vasigmon_instruction(call->op, text.bytes, text.length);
    EXPECT(asks.refusal == VASIGMON_ACCEPTED && asks.kind == spec.kind && asks.force == spec.force);
    EXPECT(is_side(spec.source, asks.source, asks.source_start, asks.source_length));
    EXPECT(is_side(spec.destination, asks.destination, asks.destination_start, asks.destination_length));

    vasigmon_prefix_t prefix = vasigmon_prefix(call->op, text.bytes, text.length);
    EXPECT(prefix.refusal == VASIGMON_ACCEPTED);
    EXPECT(is_side(prefix_of(spec.remote), prefix.prefix, prefix.start, prefix.length));
}

int LLVMFuzzerTestOneInput(const uint8_t *data, size_t size)
{
    static struct pages spec_pages;
    static uint8_t room[ROOM];
    if (size == 0 || size > ROOM) {
        return 0;
    }
    struct text given = {data + 1, size - 1};
    struct call call = {.op = operation(data[0]), .at_start = data[0] & AT_START};
    call.first = lend(&spec_pages, given, call.at_start);

    struct cut it = cut_of(call.first);
    uint64_t refusal = vasigmon_parse(call.op, call.first.bytes, call.first.length).refusal;
    EXPECT(may_refuse(call.op, call.first, it, refusal));
    if (refusal != VASIGMON_ACCEPTED) {
        all_refuse(&call, refusal);
        EXPECT(same(call.first, given));
        return 0;
    }
    struct meant spec = meant_by(call.op, it);
    answers_places(&call, it, spec);

    struct text answer;
    struct bytes prefixes = {room, 0};
    put_prefixes(&prefixes, spec.remote);
    EXPECT(writes(expand_prefixes, &call, &answer) && same(answer, text_of(prefixes)));
    struct bytes canonical = {room, 0};
    put_canonical(&canonical, spec);
    EXPECT(writes(to_bstring, &call, &answer) && same(answer, text_of(canonical)));
    EXPECT(same(call.first, given));
    return 0;
}
