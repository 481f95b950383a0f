/* Puts itself between a harness and the archive, by the linker's --wrap, and spoils the
 * answers of one entry in one way: FAULT=ENTRY:WAY in the environment. fuzz/run sees that
 * the harnesses notice. */
#include "vasigmon.h"

#include <stdbool.h>
#include <stdio.h>
#include <stdlib.h>
#include <string.h>

/* What a call was lent first, and what it answered: its numbers, of which the first is the
 * refusal, and the bytes in its first buffer, if it has one. */
struct answer {
    const char *entry;
    const uint8_t *lent;
    size_t lent_len;
    uint64_t *numbers;
    size_t count;
    uint64_t *length;
    uint8_t *out;
    size_t out_len;
};

static bool fault(const struct answer *answer, const char *way)
{
    char name[64];
    const char *wanted = getenv("FAULT");
    snprintf(name, sizeof name, "%s:%s", answer->entry, way);
    return wanted && strcmp(wanted, name) == 0;
}

static bool has_plus(const struct answer *answer)
{
    return *answer->length > 0 && answer->out[0] == '+';
}

static bool has_colon(const struct answer *answer)
{
    return memchr(answer->out, ':', *answer->length) != NULL;
}

static void drop_first(const struct answer *answer)
{
    *answer->length -= 1;
    memmove(answer->out, answer->out + 1, *answer->length);
}

static void spoil(struct answer answer)
{
    bool accepted = answer.numbers[0] == VASIGMON_ACCEPTED;
    bool is_short = answer.numbers[0] == VASIGMON_BUFFER_TOO_SHORT;
    if (fault(&answer, "reads-beyond")) {
        (void)*(const volatile uint8_t *)(answer.lent + answer.lent_len);
    }
    if (fault(&answer, "number") && accepted) {
        answer.numbers[answer.count - 1] += 1;
    }
    if (fault(&answer, "which") && !accepted) {
        answer.numbers[1] += 1;
    }
    if (fault(&answer, "mark") && accepted) {
        answer.numbers[2] ^= 1;
    }
    if (fault(&answer, "unforced") && accepted) {
        answer.numbers[2] = 0;
    }
    if (fault(&answer, "takes-long") && answer.numbers[0] == VASIGMON_SPEC_TOO_LONG) {
        answer.numbers[0] = VASIGMON_ACCEPTED;
    }
    if (fault(&answer, "unsigned") && accepted && has_plus(&answer) && has_colon(&answer)) {
        drop_first(&answer);
    }
    if (fault(&answer, "bare") && accepted && has_plus(&answer) && !has_colon(&answer)) {
        drop_first(&answer);
    }
    if (fault(&answer, "as-given") && accepted && answer.lent_len <= answer.out_len) {
        *answer.length = answer.lent_len;
        memcpy(answer.out, answer.lent, answer.lent_len);
    }
    if (fault(&answer, "byte") && accepted && *answer.length > 0) {
        answer.out[*answer.length - 1] ^= 1;
    }
    if (fault(&answer, "writes-beyond") && accepted && *answer.length < answer.out_len) {
        answer.out[*answer.length] ^= 1;
    }
    if (fault(&answer, "writes-refused") && !accepted && answer.out_len > 0) {
        answer.out[answer.out_len - 1] ^= 1;
    }
    if (fault(&answer, "tells-less") && is_short) {
        *answer.length -= 1;
    }
    if (fault(&answer, "tells-more") && is_short) {
        *answer.length = 2 * *answer.length + 1;
    }
}

/* An entry whose answer is of a type: what it takes, what it hands on, the first of what it
 * is lent, and for one that writes its length and buffer. */
#define SPOILED(type, name, takes, hands, lent, length, out, out_len)                 \
    type __real_vasigmon_##name takes;                                                \
    type __wrap_vasigmon_##name takes                                                 \
    {                                                                                 \
        type it = __real_vasigmon_##name hands;                                       \
        uint64_t *numbers = (uint64_t *)&it;                                          \
        size_t count = sizeof it / sizeof *numbers;                                   \
        spoil((struct answer){#name, lent, lent##_len, numbers, count, length, out, out_len}); \
        return it;                                                                    \
    }

#define TAKES_SPEC uint64_t op, const uint8_t *spec, size_t spec_len
#define TAKES_SPECS uint64_t op, const uint8_t *specs, size_t specs_len
#define TAKES_ITEMS const uint8_t *items, size_t items_len
#define TAKES_SECOND const uint8_t *second, size_t second_len
#define TAKES_OUT uint8_t *out, size_t out_len

SPOILED(vasigmon_spec, parse, (TAKES_SPEC), (op, spec, spec_len), spec, NULL, NULL, 0)
SPOILED(vasigmon_instruction_t, instruction, (TAKES_SPEC), (op, spec, spec_len), spec, NULL, NULL, 0)
SPOILED(vasigmon_prefix_t, prefix, (TAKES_SPEC), (op, spec, spec_len), spec, NULL, NULL, 0)
SPOILED(vasigmon_written, to_bstring, (TAKES_SPEC, TAKES_OUT),
        (op, spec, spec_len, out, out_len), spec, &it.length, out, out_len)
SPOILED(vasigmon_written, expand_prefixes, (TAKES_SPEC, TAKES_OUT),
        (op, spec, spec_len, out, out_len), spec, &it.length, out, out_len)
SPOILED(vasigmon_collision, collide, (const uint8_t *first, size_t first_len, TAKES_SECOND, TAKES_OUT),
        (first, first_len, second, second_len, out, out_len), second, &it.length, out, out_len)
SPOILED(vasigmon_written, group_prefixes, (TAKES_SPECS, TAKES_OUT),
        (op, specs, specs_len, out, out_len), specs, &it.length, out, out_len)
SPOILED(vasigmon_written, match_lhs, (TAKES_SPECS, TAKES_ITEMS, TAKES_OUT),
        (op, specs, specs_len, items, items_len, out, out_len), items, &it.length, out, out_len)
SPOILED(vasigmon_written, match_rhs, (TAKES_SPECS, TAKES_ITEMS, TAKES_OUT),
        (op, specs, specs_len, items, items_len, out, out_len), items, &it.length, out, out_len)
SPOILED(vasigmon_part, source, (TAKES_SPECS, TAKES_ITEMS, uint64_t item_field, uint64_t spec),
        (op, specs, specs_len, items, items_len, item_field, spec), items, NULL, NULL, 0)
SPOILED(vasigmon_validation, validated,
        (TAKES_SPECS, const uint8_t *rows, size_t rows_len, TAKES_OUT, uint8_t *fixes, size_t fixes_len),
        (op, specs, specs_len, rows, rows_len, out, out_len, fixes, fixes_len), rows, &it.length, out, out_len)
