/* Which step of a sheet a place belongs to.
 *
 * Where the steps of a sheet begin is known from how it was made; of a damaged one it is told here again, from the records that follow
 * each mark, and every place is asked for.
 */
#include <stdio.h>
#include <string.h>
#include "expect.h"

static int value(vg_answer a, uint64_t number, uint64_t mark) { return is(a, VG_VALUE, 0, 0, number, mark); }

static int none(vg_answer a) { return is(a, VG_NONE, 0, 0, 0, 0); }

static vg_answer found(bytes sheet, uint64_t place) { return vg_find_step(sheet.data, sheet.length, place); }

/* ---- a sheet as it was made ------------------------------------------------------------------------------------------------ */

typedef struct step {
    const char *bytes;
    uint64_t mark;
} step;

/* Document 01's example. */
static const step example[] = {{PUT ONE("03") NUM, VG_PUT}, {PUT UNKNOWN_ONE NUM, VG_PUT}, {PERVADE "00", VG_PERVADE}};

/* Every step, once or twice. No rule is asked for: names that are not declared, an empty stack and a seventh type make no difference. */
static const step every[] = {
    {DECLARE NAME_A ONE("03") NUM, VG_DECLARATION},
    {USE NAME_B, VG_USE},
    {ROW, VG_ROW},
    {JOIN, VG_JOIN},
    {PERVADE "03", VG_PERVADE},
    {VALIDATION SCALAR ALL UNKNOWN_ONE CHAR, VG_VALIDATE},
    {PUT OPEN DEF SCALAR NUM ONE("50") ANY, VG_PUT},
    {USE "10 6e6e6e6e6e6e6e6e6e6e6e6e6e6e6e6e", VG_USE},
    {DECLARE "05 5056205257" SCALAR NUM, VG_DECLARATION},
    {PUT SCALAR NUM, VG_PUT},
    {ROW, VG_ROW},
};

/* All steps, cut off after so many bytes. */
static void cut_after(const char *name, const step *steps, size_t count, size_t length)
{
    bytes sheet = {{0}, 0};
    uint64_t number = 0, place = 0;
    char what[128];
    for (size_t i = 0; i < count; i++) {
        sheet = followed(sheet, hex(steps[i].bytes));
    }
    sheet.length = length;
    for (size_t i = 0; i < count && place < length; i++) {
        const size_t end = place + hex(steps[i].bytes).length;
        /* One that was cut off has the place after the last byte. It has a mark only if both bytes of it are there. */
        const size_t past = end <= length ? end : length + 1;
        const uint64_t mark = length - place >= 2 ? steps[i].mark : VG_NO_MARK;
        for (number++; place < past; place++) {
            snprintf(what, sizeof what, "vg_find_step, %s, cut off after %zu, place %llu", name, length, (unsigned long long)place);
            expect(what, value(found(sheet, place), number, mark));
        }
    }
    snprintf(what, sizeof what, "vg_find_step, %s, cut off after %zu, no step", name, length);
    for (; place <= length + 2; place++) {
        expect(what, none(found(sheet, place)));
    }
    expect(what, none(found(sheet, VG_MAX_SIZE)) && none(found(sheet, UINT64_MAX - 1)) && none(found(sheet, UINT64_MAX)));
}

static void cut_anywhere(const char *name, const step *steps, size_t count)
{
    size_t length = 0;
    for (size_t i = 0; i < count; i++) {
        length += hex(steps[i].bytes).length;
    }
    for (size_t i = 0; i <= length; i++) {
        cut_after(name, steps, count, i);
    }
}

/* ---- a sheet of any bytes -------------------------------------------------------------------------------------------------- */

/* The end of what follows a mark, behind the place; 0 if it cannot be read to its end. */

static size_t end_of_type(const bytes *sheet, size_t at)
{
    const vg_answer a = vg_type_length(sheet->data + at, sheet->length - at);
    return a.kind == VG_VALUE ? at + (size_t)a.first : 0;
}

static size_t end_of_flag(const bytes *sheet, size_t at) { return at < sheet->length && sheet->data[at] <= 3 ? at + 1 : 0; }

static size_t end_of_name(const bytes *sheet, size_t at)
{
    const size_t count = at < sheet->length ? sheet->data[at] : 0;
    if (count == 0 || count > VG_MAX_NAME || sheet->length - at <= count) {
        return 0;
    }
    for (size_t i = 1; i <= count; i++) {
        if (sheet->data[at + i] < 32 || sheet->data[at + i] > 126) {
            return 0;
        }
    }
    return at + 1 + count;
}

static size_t end_of_step(const bytes *sheet, size_t at, uint64_t mark)
{
    switch (mark) {
    case VG_PUT:
    case VG_VALIDATE: return end_of_type(sheet, at + 2);
    case VG_ROW:
    case VG_JOIN: return at + 2;
    case VG_PERVADE: return end_of_flag(sheet, at + 2);
    case VG_USE: return end_of_name(sheet, at + 2);
    case VG_DECLARATION: at = end_of_name(sheet, at + 2); return at == 0 ? 0 : end_of_type(sheet, at);
    default: return 0;
    }
}

static uint64_t mark_at(const bytes *sheet, size_t at)
{
    static const uint64_t marks[] = {VG_PUT, VG_ROW, VG_PERVADE, VG_JOIN, VG_VALIDATE, VG_DECLARATION, VG_USE};
    for (size_t i = 0; i < sizeof marks / sizeof marks[0] && sheet->length - at >= 2; i++) {
        if (marks[i] == sheet->data[at] * 256u + sheet->data[at + 1]) {
            return marks[i];
        }
    }
    return VG_NO_MARK;
}

/* Every place of it, and some past its end. */
static void expect_steps(const char *what, bytes sheet)
{
    size_t place = 0;
    int good = 1;
    for (uint64_t number = 1; place < sheet.length; number++) {
        const uint64_t mark = mark_at(&sheet, place);
        const size_t end = end_of_step(&sheet, place, mark), past = end == 0 ? sheet.length + 1 : end;
        for (; place < past; place++) {
            good &= value(found(sheet, place), number, mark);
        }
    }
    for (; place <= sheet.length + 2; place++) {
        good &= none(found(sheet, place));
    }
    expect(what, good && none(found(sheet, UINT64_MAX)));
}

static const char *const sheets[] = {
    "", "00", "50", "5050", "5858", "0000", ROW "58", ROW "5858" ROW, "5257 5257 52", PUT, PUT "00", PUT "534809" ROW,
    PUT SCALAR "53430a" ROW, PUT "534801ff 0100000000002000" NUM ROW, PUT TWO_BOXES TWO_BOXES TWO_BOXES TWO_BOXES ROW, PERVADE, PERVADE "04" ROW,
    PERVADE "ff", USE, USE "00" ROW, USE "01", USE "0109" ROW, USE "11 6e6e6e6e6e6e6e6e6e6e6e6e6e6e6e6e6e" ROW, DECLARE, DECLARE "0161",
    DECLARE "0161" ROW ROW, DECLARE "017f" SCALAR NUM, DECLARE NAME_A SCALAR NUM NAME_A, "5550" SCALAR NUM, "5655" SCALAR NUM, VALIDATION ROW,
    VALIDATION SCALAR NUM "00",
};

/* Each byte of the sheet with every step is each of these, and one that differs from place to place. */
static void damage_anywhere(void)
{
    static const uint8_t others[] = {0x00, 0x01, 0x08, 0x50, 0x52, 0x53, 0x55, 0x56, 0x57, 0xff};
    bytes sheet = {{0}, 0}, damaged;
    char what[64];
    for (size_t i = 0; i < sizeof every / sizeof every[0]; i++) {
        sheet = followed(sheet, hex(every[i].bytes));
    }
    for (size_t at = 0; at < sheet.length; at++) {
        for (size_t i = 0; i <= sizeof others; i++) {
            damaged = sheet;
            damaged.data[at] = i < sizeof others ? others[i] : (uint8_t)(sheet.data[at] + 1 + at);
            snprintf(what, sizeof what, "vg_find_step, byte %zu is %02x", at, damaged.data[at]);
            expect_steps(what, damaged);
        }
    }
}

/* Steps are counted past the 64 that a sheet may have. */
static void many_steps(void)
{
    const size_t count = 2 * VG_MAX_STEPS + 1;
    char what[64];
    begin();
    for (size_t i = 0; i < count; i++) {
        append(&made, hex(ROW));
    }
    for (size_t i = 0; i < 2 * count; i++) {
        snprintf(what, sizeof what, "vg_find_step, step %zu", i / 2 + 1);
        expect(what, value(vg_find_step(made.data, made.length, i), i / 2 + 1, VG_ROW));
    }
    expect("vg_find_step, behind 129 steps", none(vg_find_step(made.data, made.length, made.length)));
    append(&made, hex("5858"));
    for (size_t place = 2 * count; place <= made.length; place++) {
        expect("vg_find_step, two bytes behind 129 steps", value(vg_find_step(made.data, made.length, place), count + 1, VG_NO_MARK));
    }
    expect("vg_find_step, behind them", none(vg_find_step(made.data, made.length, made.length + 1)));
}

void found_steps(void)
{
    char what[512];
    cut_anywhere("document 01's example", example, sizeof example / sizeof example[0]);
    cut_anywhere("every step", every, sizeof every / sizeof every[0]);
    for (size_t i = 0; i < sizeof sheets / sizeof sheets[0]; i++) {
        snprintf(what, sizeof what, "vg_find_step, %s", sheets[i]);
        expect_steps(what, hex(sheets[i]));
    }
    damage_anywhere();
    many_steps();
}
