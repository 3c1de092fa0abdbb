#include <stdio.h>
#include <string.h>
#include "expect.h"

unsigned calls, wrong;
stretch made, types_left;
uint8_t scratch[2 * VG_SCRATCH_BYTES];
static uint8_t long_result[VG_SHEET_RESULT_BYTES + 1];

bytes hex(const char *text)
{
    bytes b = {{0}, 0};
    unsigned byte;
    for (; *text != 0; text += *text == ' ' ? 1 : 2) {
        if (*text != ' ' && sscanf(text, "%2x", &byte) == 1) {
            b.data[b.length++] = (uint8_t)byte;
        }
    }
    return b;
}

bytes followed(bytes b, bytes more)
{
    memcpy(b.data + b.length, more.data, more.length);
    b.length += more.length;
    return b;
}

void expect(const char *what, int good)
{
    calls++;
    if (!good) {
        wrong++;
        printf("wrong: %s\n", what);
    }
}

int is(vg_answer a, uint64_t kind, uint64_t number, uint64_t place, uint64_t first, uint64_t second)
{
    return a.kind == kind && a.number == number && a.place == place && a.first == first && a.second == second;
}

int all_are(uint8_t byte, const uint8_t *data, size_t length)
{
    for (size_t i = 0; i < length; i++) {
        if (data[i] != byte) {
            return 0;
        }
    }
    return 1;
}

void append_all(stretch *s, const uint8_t *data, size_t length)
{
    memcpy(s->data + s->length, data, length);
    s->length += length;
}

void append(stretch *s, bytes more) { append_all(s, more.data, more.length); }

void begin(void) { made.length = types_left.length = 0; }

bytes largest_part(uint8_t n, uint8_t fields)
{
    bytes b = hex("53480808");
    for (size_t i = 0; i < 2 * VG_MAX_SIZES; i++) {
        b = followed(b, hex("0000000000000000"));
        b.data[b.length - 8] = n;
    }
    b = followed(b, hex("534308425802 10 6e6e6e6e6e6e6e6e6e6e6e6e6e6e6e6e 00"));
    b.data[b.length - 1] = fields;
    return b;
}

void append_largest(stretch *s, uint8_t n)
{
    append(s, largest_part(n, VG_MAX_FIELDS));
    for (size_t i = 0; i < VG_MAX_FIELDS; i++) {
        append(s, largest_part(n, 0));
    }
}

outcome leaves(uint64_t types) { return (outcome){types, 0, 0}; }

outcome refuses(uint64_t number, uint64_t place) { return (outcome){0, number, place}; }

outcome with_lent(outcome o, size_t result_length, size_t scratch_length)
{
    if (scratch_length < VG_SCRATCH_BYTES) {
        return refuses(VG_TOO_SHORT, 0);
    }
    return o.number == 0 && result_length < types_left.length ? refuses(VG_TOO_SHORT, made.length) : o;
}

static int wrote_left(vg_answer a, outcome o)
{
    size_t length = o.number == 0 ? types_left.length : 0;
    return is(a, o.number == 0 ? VG_VALUE : VG_REFUSED, o.number, o.place, o.types, length) && memcmp(long_result, types_left.data, length) == 0 &&
           all_are(lent, long_result + length, sizeof long_result - length);
}

static int zeroed(size_t length) { return all_are(0, scratch, length) && all_are(lent, scratch + length, sizeof scratch - length); }

int cleared(void) { return zeroed(VG_SCRATCH_BYTES); }

void lend(const char *what, outcome o, size_t result_length, size_t scratch_length)
{
    char text[256];
    vg_answer answer;
    memset(long_result, lent, sizeof long_result);
    memset(scratch, lent, sizeof scratch);
    answer = vg_check_sheet(made.data, made.length, long_result, result_length, scratch, scratch_length);
    snprintf(text, sizeof text, "%s, a result of %zu, a scratch of %zu", what, result_length, scratch_length);
    expect(text, wrote_left(answer, with_lent(o, result_length, scratch_length)) && zeroed(scratch_length < VG_SCRATCH_BYTES ? 0 : VG_SCRATCH_BYTES));
}

void lend_exactly(const char *what, outcome o) { lend(what, o, types_left.length, VG_SCRATCH_BYTES); }

/* The number of the step that a place of what was made belongs to, 0 if none has it. */
static uint64_t step_of(uint64_t place) { return vg_find_step(made.data, made.length, place).first; }

/* Where that step begins. Numbers of steps only grow from place to place. */
static size_t start_of_step(uint64_t place)
{
    const uint64_t number = step_of(place);
    size_t from = 0, to = (size_t)place;
    while (from < to) {
        const size_t middle = from + (to - from) / 2;
        if (step_of(middle) < number) {
            from = middle + 1;
        } else {
            to = middle;
        }
    }
    return from;
}

/* Whether the place of a refusal belongs to the step that is refused: those before it are accepted. */
static int is_refused_step(uint64_t place)
{
    const size_t start = start_of_step(place);
    return step_of(place) > 0 && vg_check_sheet(made.data, start, long_result, sizeof long_result, scratch, sizeof scratch).kind == VG_VALUE;
}

static void expect_refused_step(const char *what, uint64_t place)
{
    char text[256];
    snprintf(text, sizeof text, "%s, the step refused at %llu", what, (unsigned long long)place);
    expect(text, is_refused_step(place));
}

void lend_each(const char *what, outcome o)
{
    const size_t enough = o.types * VG_TYPE_BYTES, exact = types_left.length;
    const size_t results[] = {0, exact - 1, exact, enough - 1, enough, sizeof long_result};
    const size_t scratches[] = {0, 1, VG_SCRATCH_BYTES - 1, VG_SCRATCH_BYTES, VG_SCRATCH_BYTES + 1,
                                VG_SHEET_RESULT_BYTES - 1, VG_SHEET_RESULT_BYTES, sizeof scratch};
    size_t untried = 0;
    if (o.number != 0) {
        expect_refused_step(what, o.place);
    }
    for (size_t i = 0; i < sizeof results / sizeof results[0]; i++) {
        /* None is tried twice; and more than there is cannot be lent, nor one fewer than none. */
        if (results[i] >= untried && results[i] <= sizeof long_result) {
            untried = results[i] + 1;
            for (size_t j = 0; j < sizeof scratches / sizeof scratches[0]; j++) {
                lend(what, o, results[i], scratches[j]);
            }
        }
    }
}
