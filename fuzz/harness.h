/* What the harnesses share: texts, lists and their plainest reader and writer,
 * buffers that end or begin at a page without access, and the rules of lent buffers. A
 * promise of include/vasigmon.h that is broken ends the process. */
#ifndef HARNESS_H
#define HARNESS_H

#include "vasigmon.h"

#include <stdbool.h>
#include <stdio.h>
#include <stdlib.h>
#include <string.h>
#include <sys/mman.h>

#define EXPECT(promise)                                                           \
    do {                                                                          \
        if (!(promise)) {                                                         \
            fprintf(stderr, "%s:%d: not so: %s\n", __FILE__, __LINE__, #promise); \
            abort();                                                              \
        }                                                                         \
    } while (0)

/* The most bytes that an answer may have here; a longer one is not asked for. */
enum { ROOM = 4 << 20 };

/* ---- Texts. One whose bytes are null is absent. */

struct text {
    const uint8_t *bytes;
    size_t length;
};

static inline struct text word(const char *letters)
{
    return (struct text){(const uint8_t *)letters, strlen(letters)};
}

static inline struct text part(struct text text, size_t start, size_t length)
{
    return (struct text){text.bytes + start, length};
}

static inline bool same(struct text one, struct text other)
{
    return one.length == other.length && (one.length == 0 || memcmp(one.bytes, other.bytes, one.length) == 0);
}

static inline bool begins(struct text text, struct text start)
{
    return text.length >= start.length && same(part(text, 0, start.length), start);
}

static inline bool ends(struct text text, struct text end)
{
    return text.length >= end.length && same(part(text, text.length - end.length, end.length), end);
}

/* How many bytes stand before the first `byte`: all, where there is none. */
static inline size_t before(struct text text, uint8_t byte)
{
    const uint8_t *found = text.length > 0 ? memchr(text.bytes, byte, text.length) : NULL;
    return found ? (size_t)(found - text.bytes) : text.length;
}

static inline bool has(struct text text, uint8_t byte)
{
    return before(text, byte) < text.length;
}

static inline bool hex_digit(uint8_t byte)
{
    return (byte >= '0' && byte <= '9') || (byte >= 'a' && byte <= 'f') || (byte >= 'A' && byte <= 'F');
}

static inline uint8_t lower(uint8_t byte)
{
    return byte >= 'A' && byte <= 'Z' ? byte - 'A' + 'a' : byte;
}

static inline bool all_hex(struct text text)
{
    for (size_t at = 0; at < text.length; at++) {
        if (!hex_digit(text.bytes[at])) {
            return false;
        }
    }
    return true;
}

static inline bool object_id(struct text text)
{
    return text.length == 40 && all_hex(text);
}

/* ---- Writing. What does not fit into ROOM is counted and not written. */

struct bytes {
    uint8_t *bytes;
    size_t length;
};

/* What was written. */
static inline struct text text_of(struct bytes out)
{
    return (struct text){out.bytes, out.length};
}

static inline void put_byte(struct bytes *out, uint8_t byte)
{
    if (out->length < ROOM) {
        out->bytes[out->length] = byte;
    }
    out->length += 1;
}

static inline void put(struct bytes *out, struct text text)
{
    if (text.length > 0 && out->length + text.length <= ROOM) {
        memmove(out->bytes + out->length, text.bytes, text.length);
    }
    out->length += text.length;
}

static inline void put_lower(struct bytes *out, struct text text)
{
    for (size_t at = 0; at < text.length; at++) {
        put_byte(out, lower(text.bytes[at]));
    }
}

static inline void put_number(struct bytes *out, size_t number)
{
    for (; number >= 128; number /= 128) {
        put_byte(out, 128 + number % 128);
    }
    put_byte(out, number);
}

static inline void put_record(struct bytes *out, struct text text)
{
    put_number(out, text.length);
    put(out, text);
}

static inline void put_row(struct bytes *out, size_t item, size_t spec, size_t kind, struct text source,
                           struct text destination)
{
    put_number(out, item);
    put_number(out, spec);
    put_number(out, kind);
    put_record(out, source);
    if (!destination.bytes) {
        put_number(out, 0);
        return;
    }
    put_number(out, destination.length + 1);
    put(out, destination);
}

/* The candidates of a partial name: what stands before it, and after it. */
static const char *const FRAMES[6][2] = {{"", ""},
                                         {"refs/", ""},
                                         {"refs/tags/", ""},
                                         {"refs/heads/", ""},
                                         {"refs/remotes/", ""},
                                         {"refs/remotes/", "/HEAD"}};

/* ---- Sides of specs. */

/* Whether a side, a pattern or literal, is that of a name; and what the star stands for. */
static inline bool matches(struct text side, struct text name, struct text *capture)
{
    *capture = part(name, 0, 0);
    if (!has(side, '*')) {
        return same(side, name);
    }
    size_t star = before(side, '*');
    struct text start = part(side, 0, star);
    struct text end = part(side, star + 1, side.length - star - 1);
    if (name.length < start.length + end.length || !begins(name, start) || !ends(name, end)) {
        return false;
    }
    *capture = part(name, start.length, name.length - start.length - end.length);
    return true;
}

/* A destination without star, as a full name. */
static inline struct text completed(uint8_t *room, struct text destination)
{
    struct bytes out = {room, 0};
    bool below_refs = begins(destination, word("tags/")) || begins(destination, word("remotes/"));
    if (!begins(destination, word("refs/"))) {
        put(&out, word(below_refs ? "refs/" : "refs/heads/"));
    }
    if (object_id(destination)) {
        put_lower(&out, destination);
    } else {
        put(&out, destination);
    }
    return text_of(out);
}

/* ---- Reading lists. Each takes something off the front, or answers false. */

static inline bool take_number(struct text *rest, size_t *number)
{
    size_t groups = 0;
    *number = 0;
    for (;;) {
        if (groups == 3 || groups == rest->length) {
            return false;
        }
        uint8_t group = rest->bytes[groups];
        *number += (size_t)(group % 128) << 7 * groups;
        groups += 1;
        if (group < 128) {
            *rest = part(*rest, groups, rest->length - groups);
            return group > 0 || groups == 1;
        }
    }
}

static inline bool take_bytes(struct text *rest, size_t length, struct text *text)
{
    if (length > rest->length) {
        return false;
    }
    *text = part(*rest, 0, length);
    *rest = part(*rest, length, rest->length - length);
    return true;
}

static inline bool take_record(struct text *rest, struct text *text)
{
    size_t length;
    return take_number(rest, &length) && take_bytes(rest, length, text);
}

/* A refusal's number with its record's, or 0 and 0. */
struct refused {
    uint64_t number;
    uint64_t record;
};

static const struct refused ACCEPTED = {0, 0};

/* A spec list that was read. */
struct group {
    size_t count;
    struct text texts[256];
    vasigmon_spec specs[256];
};

/* Reads a spec list; each spec's own questions are the archive's, which reading.c looks at. */
static inline struct refused read_specs(uint64_t op, struct text list, struct group *group)
{
    group->count = 0;
    if (op > 1) {
        return (struct refused){VASIGMON_NO_SUCH_OPERATION, 0};
    }
    if (list.length > 65535) {
        return (struct refused){VASIGMON_LIST_TOO_LONG, 0};
    }
    while (list.length > 0) {
        size_t here = group->count;
        if (here == 256) {
            return (struct refused){VASIGMON_TOO_MANY_RECORDS, here};
        }
        if (!take_record(&list, &group->texts[here])) {
            return (struct refused){VASIGMON_MALFORMED, here};
        }
        group->specs[here] = vasigmon_parse(op, group->texts[here].bytes, group->texts[here].length);
        if (group->specs[here].refusal != VASIGMON_ACCEPTED) {
            return (struct refused){group->specs[here].refusal, here};
        }
        group->count += 1;
    }
    return ACCEPTED;
}

/* ---- Lent bytes. */

enum {
    GUARD = 4096,              /* the bytes of a page without access */
    PAGES = ROOM + 2 * GUARD,  /* those between two such pages */
    MARGIN = 64                /* those on the open side of a buffer that are looked at too */
};

/* Pages between two without access, which are there once they are asked for. */
struct pages {
    uint8_t *start;
};

static inline uint8_t *start_of(struct pages *pages)
{
    if (!pages->start) {
        uint8_t *all = mmap(NULL, PAGES + 2 * GUARD, PROT_NONE, MAP_PRIVATE | MAP_ANONYMOUS, -1, 0);
        EXPECT(all != MAP_FAILED);
        pages->start = all + GUARD;
        EXPECT(mprotect(pages->start, PAGES, PROT_READ | PROT_WRITE) == 0);
    }
    return pages->start;
}

/* Room for so many bytes right behind the first guard page, or right before the last. */
static inline uint8_t *place(struct pages *pages, size_t length, bool at_start)
{
    return start_of(pages) + (at_start ? 0 : PAGES - length);
}

static inline struct text lend(struct pages *pages, struct text text, bool at_start)
{
    uint8_t *bytes = place(pages, text.length, at_start);
    if (text.length > 0) {
        memcpy(bytes, text.bytes, text.length);
    }
    return (struct text){bytes, text.length};
}

/* Two noises that differ in every byte. */
static inline const uint8_t *noise(bool other)
{
    static uint8_t noises[2][ROOM + MARGIN];
    static bool made = false;
    for (size_t at = 0; !made && at < sizeof noises[0]; at++) {
        noises[0][at] = (uint8_t)(at * 167 + at / 251);
        noises[1][at] = (uint8_t)~noises[0][at];
    }
    made = true;
    return noises[other];
}

/* An output buffer, and all that is looked at around it, filled with noise. */
struct buffer {
    uint8_t *bytes;
    size_t length;
    const uint8_t *noise;
    bool at_start;
};

static inline struct buffer buffer_of(struct pages *pages, size_t length, bool at_start, bool other)
{
    struct buffer buffer = {place(pages, length, at_start), length, noise(other), at_start};
    memcpy(buffer.bytes - (at_start ? 0 : MARGIN), buffer.noise, length + MARGIN);
    return buffer;
}

/* Whether the noise is as it was, but for so many bytes at the start of the buffer. */
static inline bool keeps_noise(const struct buffer *buffer, size_t answer)
{
    size_t front = buffer->at_start ? 0 : MARGIN;
    size_t behind = buffer->length - answer + MARGIN - front;
    return memcmp(buffer->bytes - front, buffer->noise, front) == 0
           && memcmp(buffer->bytes + answer, buffer->noise + front + answer, behind) == 0;
}

/* ---- The rules of one lent buffer. */

/* What a call is lent but for its buffer. */
struct call {
    uint64_t op;
    struct text first;
    struct text second;
    bool at_start;
};

typedef vasigmon_written writer(const struct call *call, uint8_t *out, size_t out_len);

static struct pages out_pages;

/* A call with so long a buffer of noise: refused, it must leave the buffer alone. */
static inline vasigmon_written ask(writer *write, const struct call *call, size_t length, bool other)
{
    struct buffer buffer = buffer_of(&out_pages, length, call->at_start, other);
    vasigmon_written answer = write(call, buffer.bytes, length);
    EXPECT(answer.refusal != VASIGMON_ACCEPTED || answer.length <= length);
    EXPECT(keeps_noise(&buffer, answer.refusal == VASIGMON_ACCEPTED ? answer.length : 0));
    return answer;
}

/* The call must be refused so, whatever its buffer. */
static inline void refuses(writer *write, const struct call *call, struct refused why)
{
    static const size_t lengths[] = {0, 1, 100};
    for (size_t n = 0; n < 3; n++) {
        vasigmon_written answer = ask(write, call, lengths[n], false);
        EXPECT(answer.refusal == why.number && answer.record == why.record && answer.length == 0);
    }
}

/* The length beside 17, which must be the answer. */
static inline size_t told(vasigmon_written answer)
{
    EXPECT(answer.refusal == VASIGMON_BUFFER_TOO_SHORT && answer.record == 0);
    return answer.length;
}

/* The call must write the answer to a buffer of that length. */
static inline void writes_again(writer *write, const struct call *call, size_t length, struct text answer)
{
    vasigmon_written again = ask(write, call, length, true);
    EXPECT(again.refusal == VASIGMON_ACCEPTED && again.record == 0);
    EXPECT(same(answer, (struct text){place(&out_pages, length, call->at_start), again.length}));
}

/* What the call writes, which must not be refused. False where it has no ROOM. */
static inline bool writes(writer *write, const struct call *call, struct text *answer)
{
    static uint8_t kept[ROOM];
    vasigmon_written first = ask(write, call, 0, false);
    size_t enough = first.refusal == VASIGMON_ACCEPTED ? 0 : told(first);
    if (enough > ROOM) {
        return false;
    }
    first = ask(write, call, enough, false);
    size_t need = first.length;
    EXPECT(first.refusal == VASIGMON_ACCEPTED && first.record == 0);
    EXPECT(need <= enough && enough <= 2 * need);
    memcpy(kept, place(&out_pages, enough, call->at_start), need);
    *answer = (struct text){kept, need};

    if (need > 0) {
        enough = told(ask(write, call, need - 1, true));
        EXPECT(need <= enough && enough <= 2 * need);
    }
    writes_again(write, call, need, *answer);
    if (need + 33 <= ROOM) {
        writes_again(write, call, need + 33, *answer);
    }
    return true;
}

/* ---- What an input of a harness on lists describes. */

/* The first byte of an input: its lowest three bits are an operation, and the rest says: */
enum {
    AT_START = 8,       /* lent bytes begin behind a guard page, else they end before one */
    FIRST_LINES = 16,   /* the first list is given as lines */
    SECOND_LINES = 32,  /* so is the second */
    FORWARD = 64,       /* in validation, the rows are the forward listing of the second list */
    REVERSE = 128       /* or its reverse listing */
};

static inline uint64_t operation(uint8_t flags)
{
    static const uint64_t bad[2] = {2, UINT64_MAX};
    return flags % 8 < 6 ? flags % 2 : bad[flags % 2];
}

/* An input: flags; in two halves of a byte how often each list is repeated; two numbers
 * for the source view; then both lists, parted by two bytes 255. */
struct input {
    uint8_t flags;
    uint8_t times;
    uint64_t item_field;
    uint64_t spec;
    struct text first;
    struct text second;
};

static inline bool read_input(const uint8_t *data, size_t size, struct input *input)
{
    if (size < 4) {
        return false;
    }
    input->flags = data[0];
    input->times = data[1];
    input->item_field = data[2] == 255 ? UINT64_MAX : data[2];
    input->spec = data[3] == 255 ? UINT64_MAX : data[3];
    struct text rest = {data + 4, size - 4};
    size_t first = 0;
    while (first + 1 < rest.length && (rest.bytes[first] != 255 || rest.bytes[first + 1] != 255)) {
        first += 1;
    }
    bool parted = first + 1 < rest.length;
    input->first = part(rest, 0, parted ? first : rest.length);
    input->second = parted ? part(rest, first + 2, rest.length - first - 2) : part(rest, rest.length, 0);
    return true;
}

/* The list that a part of the input gives: its bytes, or what is put for each line. */
static inline struct bytes list_of(uint8_t *room, struct text given, bool lines,
                                   void (*put_line)(struct bytes *, struct text))
{
    struct bytes list = {room, 0};
    if (!lines) {
        put(&list, given);
        return list;
    }
    while (given.length > 0) {
        size_t length = before(given, '\n');
        put_line(&list, part(given, 0, length));
        size_t past = length < given.length ? length + 1 : length;
        given = part(given, past, given.length - past);
    }
    return list;
}

/* Repeats a list: rarely, and with 15 until it is beyond the limit of its bytes. */
static inline struct text repeated(struct bytes list, unsigned how, const size_t times[3], size_t limit)
{
    struct text once = text_of(list);
    size_t more = how < 12 || once.length == 0 ? 0 : how < 15 ? times[how - 12] : SIZE_MAX;
    for (; more > 0 && list.length <= limit; more--) {
        put(&list, once);
    }
    return text_of(list);
}

static inline struct text spec_list(const struct input *input)
{
    static uint8_t room[ROOM];
    static const size_t times[3] = {16, 100, 300};
    struct bytes list = list_of(room, input->first, input->flags & FIRST_LINES, put_record);
    return repeated(list, input->times % 16, times, 65535);
}

static inline struct text item_list(const struct input *input)
{
    static uint8_t room[ROOM];
    static const size_t times[3] = {16, 128, 1100};
    struct bytes list = list_of(room, input->second, input->flags & SECOND_LINES, put_record);
    return repeated(list, input->times / 16, times, 65535);
}

#endif
