/* Reads arbitrary bytes as two specs, and asks whether they can ever collide. The answer is
 * held to the plainest reading of include/vasigmon.h; each spec's own questions are the
 * archive's, which reading.c looks at. An input is that of a harness on lists, with a spec in
 * place of each list. */
#include "harness.h"

/* ---- The plain reading. */

/* Where a spec writes: a pattern, or a literal as a full name; absent where it writes nowhere. */
static struct text target_of(uint8_t *room, struct text spec, vasigmon_spec read)
{
    if (read.mode == VASIGMON_NEGATIVE || read.destination == VASIGMON_ABSENT) {
        return (struct text){NULL, 0};
    }
    struct text destination = part(spec, read.destination_start, read.destination_length);
    return has(destination, '*') ? destination : completed(room, destination);
}

static struct text start_of_pattern(struct text pattern)
{
    return part(pattern, 0, before(pattern, '*'));
}

static struct text end_of_pattern(struct text pattern)
{
    size_t star = before(pattern, '*');
    return part(pattern, star + 1, pattern.length - star - 1);
}

static struct text longer(struct text one, struct text other)
{
    return one.length > other.length ? one : other;
}

/* Puts a destination that two targets share, if they share one. */
static bool put_shared(struct bytes *out, struct text one, struct text other)
{
    struct text capture;
    if (!one.bytes || !other.bytes) {
        return false;
    }
    if (!has(one, '*') || !has(other, '*')) {
        struct text literal = has(one, '*') ? other : one;
        put(out, literal);
        return matches(has(one, '*') ? one : other, literal, &capture);
    }
    struct text start = longer(start_of_pattern(one), start_of_pattern(other));
    struct text end = longer(end_of_pattern(one), end_of_pattern(other));
    put(out, start);
    put(out, end);
    return begins(start, start_of_pattern(one)) && begins(start, start_of_pattern(other))
           && ends(end, end_of_pattern(one)) && ends(end, end_of_pattern(other));
}

/* ---- The entry, held to it. */

static vasigmon_collision collide(const struct call *call, uint8_t *out, size_t out_len)
{
    return vasigmon_collide(call->first.bytes, call->first.length, call->second.bytes, call->second.length, out,
                            out_len);
}

/* The call on two specs that collide: the mark stands where a destination is written. */
static vasigmon_written collides(const struct call *call, uint8_t *out, size_t out_len)
{
    vasigmon_collision answer = collide(call, out, out_len);
    EXPECT(answer.collides == (answer.refusal == VASIGMON_ACCEPTED));
    return (vasigmon_written){answer.refusal, answer.which, answer.length};
}

/* The call on two that do not, or of which one is refused. */
static vasigmon_written does_not(const struct call *call, uint8_t *out, size_t out_len)
{
    vasigmon_collision answer = collide(call, out, out_len);
    EXPECT(answer.collides == 0);
    return (vasigmon_written){answer.refusal, answer.which, answer.length};
}

/* The number of the first question that is answered by no, and whose it is. */
static struct refused refusal_of(vasigmon_spec first, vasigmon_spec second)
{
    if (first.refusal != VASIGMON_ACCEPTED) {
        return (struct refused){first.refusal, 1};
    }
    return second.refusal != VASIGMON_ACCEPTED ? (struct refused){second.refusal, 2} : ACCEPTED;
}

static void answers(const struct call *call)
{
    static uint8_t names[2][ROOM], room[ROOM];
    struct text answer;
    struct bytes shared = {room, 0};
    vasigmon_spec first = vasigmon_parse(VASIGMON_FETCH, call->first.bytes, call->first.length);
    vasigmon_spec second = vasigmon_parse(VASIGMON_FETCH, call->second.bytes, call->second.length);
    struct refused why = refusal_of(first, second);
    if (why.number != VASIGMON_ACCEPTED) {
        refuses(does_not, call, why);
        return;
    }
    if (!put_shared(&shared, target_of(names[0], call->first, first), target_of(names[1], call->second, second))) {
        refuses(does_not, call, ACCEPTED);
        return;
    }
    EXPECT(writes(collides, call, &answer) && same(answer, text_of(shared)));
}

/* A spec as it is given; or, rarely, made long, as long as a spec may be or one byte more, by
 * repeating its last byte or the first of its destination. */
static struct text spec_of(uint8_t *room, struct text given, unsigned how)
{
    size_t at = given.length - 1;
    for (size_t n = 0; how % 2 == 1 && n + 1 < given.length; n++) {
        at = given.bytes[n] == ':' ? n + 1 : at;
    }
    if (how < 12 || given.length == 0) {
        return given;
    }
    struct bytes spec = {room, 0};
    put(&spec, part(given, 0, at));
    while (spec.length + given.length - at < (how < 14 ? 4096 : 4097)) {
        put_byte(&spec, given.bytes[at]);
    }
    put(&spec, part(given, at, given.length - at));
    return text_of(spec);
}

int LLVMFuzzerTestOneInput(const uint8_t *data, size_t size)
{
    static struct pages first_pages, second_pages;
    static uint8_t rooms[2][ROOM];
    struct input input;
    if (size > ROOM || !read_input(data, size, &input)) {
        return 0;
    }
    struct text first = spec_of(rooms[0], input.first, input.times % 16);
    struct text second = spec_of(rooms[1], input.second, input.times / 16);
    struct call call = {.at_start = input.flags & AT_START};
    call.first = lend(&first_pages, first, call.at_start);
    call.second = lend(&second_pages, second, call.at_start);
    struct call turned = {.first = call.second, .second = call.first, .at_start = call.at_start};
    answers(&call);
    answers(&turned);
    EXPECT(same(call.first, first) && same(call.second, second));
    return 0;
}
