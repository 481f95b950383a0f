/* Lists what arbitrary bytes, as a spec list, map arbitrary bytes to, as an item list, by
 * the four entries on groups. Refusals, both listings and the source view are held to the
 * plainest reading of include/vasigmon.h, and the prefix list to the prefixes of each spec. */
#include "harness.h"

/* ---- The plain reading. */

/* An item list that was read. */
struct items {
    size_t count;
    struct text names[1024];
};

static struct refused read_items(struct text list, struct items *items)
{
    items->count = 0;
    if (list.length > 65535) {
        return (struct refused){VASIGMON_LIST_TOO_LONG, 0};
    }
    for (; list.length > 0; items->count++) {
        if (items->count == 1024) {
            return (struct refused){VASIGMON_TOO_MANY_RECORDS, items->count};
        }
        if (!take_record(&list, &items->names[items->count])) {
            return (struct refused){VASIGMON_MALFORMED, items->count};
        }
        if (items->names[items->count].length > 4096) {
            return (struct refused){VASIGMON_NAME_TOO_LONG, items->count};
        }
    }
    return ACCEPTED;
}

static struct text side_of(struct text spec, uint64_t kind, uint64_t start, uint64_t length)
{
    switch (kind) {
    case VASIGMON_PLACE: return part(spec, start, length);
    case VASIGMON_SUPPLIED_HEAD: return word("HEAD");
    default: return (struct text){NULL, 0};
    }
}

static struct text source_of(const struct group *group, size_t n)
{
    vasigmon_spec spec = group->specs[n];
    return side_of(group->texts[n], spec.source, spec.source_start, spec.source_length);
}

static struct text destination_of(const struct group *group, size_t n)
{
    vasigmon_spec spec = group->specs[n];
    return side_of(group->texts[n], spec.destination, spec.destination_start, spec.destination_length);
}

static bool negative(const struct group *group, size_t n)
{
    return group->specs[n].mode == VASIGMON_NEGATIVE;
}

static bool object_source(const struct group *group, size_t n)
{
    return !negative(group, n) && object_id(source_of(group, n));
}

static bool is_candidate(struct text partial, struct text name)
{
    for (size_t n = 0; n < 6; n++) {
        struct text start = word(FRAMES[n][0]);
        struct text end = word(FRAMES[n][1]);
        if (name.length == start.length + partial.length + end.length && begins(name, start) && ends(name, end)
            && same(part(name, start.length, partial.length), partial)) {
            return true;
        }
    }
    return false;
}

/* Whether a source that is no object id fetches or pushes a name. */
static bool takes(struct text source, struct text name, struct text *capture)
{
    if (has(source, '*') || begins(source, word("refs/"))) {
        return matches(source, name, capture);
    }
    return is_candidate(source, name);
}

static bool excluded(const struct group *group, struct text name)
{
    struct text capture;
    for (size_t n = 0; n < group->count; n++) {
        if (negative(group, n) && matches(source_of(group, n), name, &capture)) {
            return true;
        }
    }
    return false;
}

/* A side with the capture in place of its star. */
static struct text filled(uint8_t *room, struct text side, struct text capture)
{
    struct bytes out = {room, 0};
    size_t star = before(side, '*');
    put(&out, part(side, 0, star));
    if (star < side.length) {
        put(&out, capture);
        put(&out, part(side, star + 1, side.length - star - 1));
    }
    return text_of(out);
}

/* Where a name goes by a spec that takes it, or nowhere. */
static struct text mapped(uint8_t *room, struct text destination, struct text capture)
{
    if (!destination.bytes) {
        return destination;
    }
    return has(destination, '*') ? filled(room, destination, capture) : completed(room, destination);
}

static void put_objects(struct bytes *out, const struct group *group)
{
    static uint8_t digits[ROOM], room[ROOM];
    for (size_t n = 0; n < group->count; n++) {
        if (object_source(group, n)) {
            struct bytes source = {digits, 0};
            put_lower(&source, source_of(group, n));
            put_row(out, 0, n, 1, text_of(source), mapped(room, destination_of(group, n), word("")));
        }
    }
}

static void put_forward(struct bytes *out, const struct group *group, size_t n, const struct items *items)
{
    static uint8_t room[ROOM];
    struct text source = source_of(group, n);
    struct text capture;
    if (negative(group, n) || object_source(group, n) || !source.bytes) {
        return;
    }
    for (size_t item = 0; item < items->count; item++) {
        struct text name = items->names[item];
        if (takes(source, name, &capture) && !excluded(group, name)) {
            put_row(out, item + 1, n, 0, name, mapped(room, destination_of(group, n), capture));
        }
    }
}

static void put_reverse(struct bytes *out, const struct group *group, size_t n, const struct items *items)
{
    static uint8_t room[ROOM];
    struct text source = source_of(group, n);
    struct text destination = destination_of(group, n);
    struct text capture;
    if (negative(group, n) || !source.bytes || !destination.bytes) {
        return;
    }
    for (size_t item = 0; item < items->count; item++) {
        struct text name = items->names[item];
        if (matches(destination, name, &capture)) {
            struct text back = filled(room, source, capture);
            if (!excluded(group, back)) {
                put_row(out, item + 1, n, 0, back, name);
            }
        }
    }
}

/* ---- The entries, held to it. */

static vasigmon_written match_lhs(const struct call *call, uint8_t *out, size_t out_len)
{
    return vasigmon_match_lhs(call->op, call->first.bytes, call->first.length, call->second.bytes,
                              call->second.length, out, out_len);
}

static vasigmon_written match_rhs(const struct call *call, uint8_t *out, size_t out_len)
{
    return vasigmon_match_rhs(call->op, call->first.bytes, call->first.length, call->second.bytes,
                              call->second.length, out, out_len);
}

static vasigmon_written group_prefixes(const struct call *call, uint8_t *out, size_t out_len)
{
    return vasigmon_group_prefixes(call->op, call->first.bytes, call->first.length, out, out_len);
}

/* A listing must be just these rows, unless they have no ROOM. */
static void lists(writer *listing, const struct call *call, struct bytes rows)
{
    struct text answer;
    if (rows.length <= ROOM / 2) {
        EXPECT(writes(listing, call, &answer) && same(answer, text_of(rows)));
    }
}

/* Texts, none of them twice. */
struct set {
    size_t count;
    struct text members[256 * 6];
};

static bool is_member(const struct set *set, struct text text)
{
    for (size_t n = 0; n < set->count; n++) {
        if (same(set->members[n], text)) {
            return true;
        }
    }
    return false;
}

/* The prefixes of each spec, as the archive has them. */
static void expand(uint64_t op, const struct group *group, struct set *set)
{
    static uint8_t room[ROOM];
    size_t used = 0;
    for (size_t n = 0; n < group->count; n++) {
        struct text spec = group->texts[n];
        vasigmon_written list = vasigmon_expand_prefixes(op, spec.bytes, spec.length, room + used, ROOM - used);
        EXPECT(list.refusal == VASIGMON_ACCEPTED);
        struct text rest = {room + used, list.length};
        struct text prefix;
        while (rest.length > 0) {
            EXPECT(take_record(&rest, &prefix));
            if (!is_member(set, prefix)) {
                set->members[set->count++] = prefix;
            }
        }
        used += list.length;
    }
}

/* The prefix list must hold each prefix of each spec once, in whatever order. */
static void lists_prefixes(const struct call *call, const struct group *group)
{
    static struct set wanted, found;
    struct text rest, prefix;
    wanted.count = found.count = 0;
    expand(call->op, group, &wanted);
    EXPECT(writes(group_prefixes, call, &rest));
    while (rest.length > 0) {
        EXPECT(take_record(&rest, &prefix));
        EXPECT(is_member(&wanted, prefix) && !is_member(&found, prefix));
        found.members[found.count++] = prefix;
    }
    EXPECT(found.count == wanted.count);
}

static vasigmon_part view_of(const struct call *call, uint64_t item_field, uint64_t spec)
{
    return vasigmon_source(call->op, call->first.bytes, call->first.length, call->second.bytes,
                           call->second.length, item_field, spec);
}

static bool refuses_view(vasigmon_part view, struct refused why)
{
    vasigmon_part refused = {.refusal = why.number, .record = why.record};
    return memcmp(&view, &refused, sizeof view) == 0;
}

/* Both listings and the view must be refused so. */
static void all_refuse(const struct call *call, const struct input *input, struct refused why)
{
    refuses(match_lhs, call, why);
    refuses(match_rhs, call, why);
    EXPECT(refuses_view(view_of(call, input->item_field, input->spec), why));
}

/* The view must be that of an item, or of an object id, or refused with 16. */
static void views(const struct call *call, const struct group *group, const struct items *items, uint64_t field,
                  uint64_t n)
{
    vasigmon_part view = view_of(call, field, n);
    bool of_specs = field == 0;
    if (n >= group->count || field > items->count || (of_specs && !object_source(group, n))) {
        EXPECT(refuses_view(view, (struct refused){VASIGMON_OUTSIDE_THE_LISTS, 0}));
        return;
    }
    struct text text = of_specs ? source_of(group, n) : items->names[field - 1];
    struct text list = of_specs ? call->first : call->second;
    EXPECT(view.refusal == VASIGMON_ACCEPTED && view.record == 0);
    EXPECT(view.list == (of_specs ? VASIGMON_SPEC_LIST : VASIGMON_ITEM_LIST));
    EXPECT(view.start == (uint64_t)(text.bytes - list.bytes) && view.length == text.length);
}

static void answers(const struct call *call, const struct input *input)
{
    static struct group group;
    static struct items items;
    static uint8_t room[ROOM];
    struct refused why = read_specs(call->op, call->first, &group);
    if (why.number != VASIGMON_ACCEPTED) {
        refuses(group_prefixes, call, why);
        all_refuse(call, input, why);
        return;
    }
    lists_prefixes(call, &group);
    why = read_items(call->second, &items);
    if (why.number != VASIGMON_ACCEPTED) {
        all_refuse(call, input, why);
        return;
    }
    views(call, &group, &items, input->item_field, input->spec);
    views(call, &group, &items, items.count, group.count - 1);
    views(call, &group, &items, items.count + 1, group.count);

    struct bytes forward = {room, 0};
    put_objects(&forward, &group);
    for (size_t n = 0; n < group.count; n++) {
        put_forward(&forward, &group, n, &items);
    }
    lists(match_lhs, call, forward);
    struct bytes reverse = {room, 0};
    for (size_t n = 0; n < group.count; n++) {
        put_reverse(&reverse, &group, n, &items);
    }
    lists(match_rhs, call, reverse);
}

int LLVMFuzzerTestOneInput(const uint8_t *data, size_t size)
{
    static struct pages spec_pages, item_pages;
    struct input input;
    if (size > 65536 || !read_input(data, size, &input)) {
        return 0;
    }
    struct call call = {.op = operation(input.flags), .at_start = input.flags & AT_START};
    struct text specs = spec_list(&input);
    struct text items = item_list(&input);
    call.first = lend(&spec_pages, specs, call.at_start);
    call.second = lend(&item_pages, items, call.at_start);
    answers(&call, &input);
    EXPECT(same(call.first, specs) && same(call.second, items));
    return 0;
}
