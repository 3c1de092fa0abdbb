/* Calls every function of the library, from C, and compares each answer with what the paper says. Prints how many were wrong. */
#include <math.h>
#include <stdio.h>
#include <string.h>
#include "expect.h"
#include "host.h"

const char *const host = "every_call";

/* ---- what is handed in ----------------------------------------------------------------------------------------------------- */

/* [2] Def n of [] Num and [3] Num. Its fields begin at 21. */
#define FIELDS SCALAR NUM ONE("03") NUM
#define PAIR ONE("02") DEF FIELDS

#define T(text) hex(text).data, hex(text).length

/* ---- what is answered ------------------------------------------------------------------------------------------------------ */

static uint8_t result[VG_KIND_TABLE_BYTES + 20];
static const size_t room = sizeof result;

static uint8_t *fresh(void)
{
    memset(result, lent, sizeof result);
    return result;
}

static int as_lent(size_t from) { return all_are(lent, result + from, sizeof result - from); }

static int values_of(vg_answer a, uint64_t first, uint64_t second) { return is(a, VG_VALUE, 0, 0, first, second); }

static int value(vg_answer a, uint64_t first) { return values_of(a, first, 0); }

static int none(vg_answer a) { return is(a, VG_NONE, 0, 0, 0, 0) && as_lent(0); }

static int refused(vg_answer a, uint64_t number, uint64_t place) { return is(a, VG_REFUSED, number, place, 0, 0) && as_lent(0); }

static int wrote_bytes(vg_answer a, bytes b) { return value(a, b.length) && memcmp(result, b.data, b.length) == 0 && as_lent(b.length); }

static int wrote(vg_answer a, const char *text) { return wrote_bytes(a, hex(text)); }

#define VALUE(call, first) (fresh(), expect(#call, value(call, first)))
#define VALUES(call, first, second) (fresh(), expect(#call, values_of(call, first, second)))
#define NONE(call) (fresh(), expect(#call, none(call)))
#define REFUSED(call, number, place) (fresh(), expect(#call, refused(call, number, place)))
#define WROTE(call, text) (fresh(), expect(#call, wrote(call, text)))

/* ---- the calls ------------------------------------------------------------------------------------------------------------- */

/* A value is no answer here, but the number itself. */
static void version(void) { expect("vg_version", vg_version() == VG_VERSION); }

static void types(void)
{
    VALUE(vg_read(T(PAIR)), 0);
    REFUSED(vg_read(T(SCALAR NUM "00")), VG_TRAILING, 7);
    REFUSED(vg_read(T("534809")), VG_OUT_OF_RANGE, 0);
    REFUSED(vg_read(result, 0), VG_ENDED, 0);
    WROTE(vg_shape_record(T(ONE("03") NUM), result, room), ONE("03"));
    REFUSED(vg_shape_record(T(ONE("03") NUM), result, 11), VG_TOO_SHORT, 0);
    WROTE(vg_scalar_record(T(ONE("03") NUM), result, room), NUM);
    WROTE(vg_row(T(PAIR), result, room), SCALAR ALL SCALAR NUM);
    WROTE(vg_first_row(T(PAIR), result, room), SCALAR ALL SCALAR NUM);
    WROTE(vg_last_row(T(PAIR), result, room), SCALAR ALL ONE("03") NUM);
    WROTE(vg_nth_row(T(PAIR), 1, result, room), SCALAR ALL ONE("03") NUM);
    WROTE(vg_nth_row(T(PAIR), VG_UNKNOWN, result, room), SCALAR ALL SCALAR NUM);
    WROTE(vg_unboxed(T(SCALAR ALL ONE("03") NUM), result, room), ONE("03") NUM);
    WROTE(vg_as_boxes(T(PAIR), result, room), "016e02" FIELDS);
    WROTE(vg_as_boxes(T(ONE("02") ALL SCALAR NUM), result, room), "ff02" SCALAR NUM SCALAR NUM);
    NONE(vg_as_boxes(T(SCALAR NUM), result, 0));
    REFUSED(vg_as_boxes(T(ONE("20") ALL SCALAR NUM), result, room), VG_TOO_MANY, 0);
    VALUES(vg_field(T(PAIR), 1), 28, 15);
    NONE(vg_field(T(PAIR), 2));
    WROTE(vg_join(T(ONE("03") NUM), T(ONE("04") NUM), result, room), UNKNOWN_ONE NUM);
}

static void shapes(void)
{
    WROTE(vg_merge(T(UNKNOWN_ONE NUM), T(ONE("03") NUM), result, room), ONE("03"));
    WROTE(vg_join_shapes(T(TWO("02", "03") NUM), T(ONE("02") NUM), result, room), ONE("02"));
    WROTE(vg_row_shape(T(TWO("02", "03") NUM), result, room), ONE("03"));
    WROTE(vg_pervade(0, T(ONE("01") NUM), T(SCALAR NUM), result, room), UNKNOWN_ONE);
    REFUSED(vg_pervade(2, T(ONE("03") NUM), T(ONE("04") NUM), result, room), VG_UNPERVADED, 0);
    WROTE(vg_pervade(1, T(ONE("03") NUM), T(ONE("04") NUM), result, room), ONE("04"));
    WROTE(vg_pervade(1, T(ONE("0c") NUM), T(UNKNOWN_ONE NUM), result, room), ONE("0c"));
    REFUSED(vg_pervade(4, T(""), T(""), result, room), VG_OUT_OF_RANGE, 0);
    VALUES(vg_compatible_shapes(T(ONE("01") NUM), T(ONE("04") NUM)), 1, 0);
    VALUES(vg_compatible_shapes(T(ONE("03") NUM), T(ONE("04") NUM)), 0, 0);
    VALUES(vg_compatible_shapes(T(TWO("03", "05") NUM), T(TWO("04", "06") NUM)), 0, 1);
    VALUES(vg_compatible_shapes(T(ONE("03") NUM), T(TWO("03", "05") NUM)), 0, VG_NO_INDEX);
    VALUE(vg_shape_is_any(T(OPEN NUM)), 1);
    VALUE(vg_shape_is_scalar(T(OPEN NUM)), 0);
    VALUE(vg_row_count(T(UNKNOWN_ONE NUM)), VG_UNKNOWN);
    VALUE(vg_row_count(T(SCALAR NUM)), 1);
    VALUE(vg_rank(T(TWO("02", "03") NUM)), 2);
}

static void scalars(void)
{
    WROTE(vg_union(T(SCALAR INT), T(SCALAR NUM), result, room), NUM);
    WROTE(vg_union(T(SCALAR ALL SCALAR INT), T(SCALAR ALL SCALAR NUM), result, room), ALL SCALAR NUM);
    WROTE(vg_union(T(SCALAR ALL SCALAR INT), T(SCALAR ALL SCALAR CHAR), result, room), BOX_ANY);
    WROTE(vg_unrefine(T(SCALAR ALL SCALAR INT), result, room), ALL SCALAR NUM);
    VALUE(vg_superset(T(SCALAR NUM), T(SCALAR INT)), 1);
    VALUE(vg_superset(T(SCALAR INT), T(SCALAR NUM)), 0);
    VALUE(vg_compatible_scalars(T(SCALAR ALL SCALAR NUM), T(SCALAR ALL SCALAR CHAR)), 1);
    VALUE(vg_compatible_with_boxes(T(SCALAR ALL SCALAR NUM), T(SCALAR ALL SCALAR CHAR)), 0);
    VALUE(vg_compare(T(SCALAR INT), T(SCALAR NUM)), 0);
    VALUE(vg_compare(T(PAIR), T(PAIR)), 1);
    VALUE(vg_compare(T(SCALAR NUM), T(SCALAR INT)), 2);
}

/* A type of each kind, by the kind's code; of Box two, with other contents. */
typedef struct kind {
    const char *name;
    size_t code;
    const char *ty;
} kind;

static const kind of_kind[] = {
    {"Bool", 0, SCALAR BOOL},
    {"Nat", 1, SCALAR NAT},
    {"Int", 2, SCALAR INT},
    {"Num", 3, SCALAR NUM},
    {"Complex", 4, SCALAR COMPLEX},
    {"Ascii", 5, SCALAR ASCII},
    {"Char", 6, SCALAR CHAR},
    {"Stream", 7, SCALAR STREAM},
    {"box Any", 8, SCALAR BOX_ANY},
    {"box All", 8, SCALAR ALL SCALAR NUM},
    {"Any", 9, SCALAR ANY},
};
static const size_t kinds_made = sizeof of_kind / sizeof of_kind[0];

/* The table of kinds as the library wrote it, and its number for two kinds. */
static uint8_t table[VG_KIND_TABLE_BYTES];
enum square { SUPERSET, COMPATIBLE, UNION };

static uint8_t number_for(enum square square, const kind *a, const kind *b)
{
    return table[square * VG_KIND_COUNT * VG_KIND_COUNT + a->code * VG_KIND_COUNT + b->code];
}

static int is_box(const kind *k) { return k->code == 8; }

/* Whether the record of a scalar was written that has the table's kind. For two boxes the table has the mark, and it is some box. */
static int wrote_kind(vg_answer answer, uint8_t number, int boxes)
{
    char record[7];
    if (boxes) {
        return number == VG_CONTENTS_DECIDE && answer.kind == VG_VALUE && memcmp(result, hex(BOX_ANY).data, 5) == 0 && as_lent(answer.first);
    }
    snprintf(record, sizeof record, "5343%02x", number);
    return wrote(answer, record);
}

static void expect_of(const char *call, const kind *a, const kind *b, int good)
{
    char what[64];
    snprintf(what, sizeof what, "%s and the table, %s with %s", call, a->name, b->name);
    expect(what, good);
}

/* What the single calls say of two kinds, beside the table. */
static void two_kinds(const kind *a, const kind *b)
{
    fresh();
    expect_of("vg_superset", a, b, value(vg_superset(T(a->ty), T(b->ty)), number_for(SUPERSET, a, b)));
    expect_of("vg_compatible_scalars", a, b, value(vg_compatible_scalars(T(a->ty), T(b->ty)), number_for(COMPATIBLE, a, b)));
    expect_of("vg_union", a, b, wrote_kind(vg_union(T(a->ty), T(b->ty), result, room), number_for(UNION, a, b), is_box(a) && is_box(b)));
}

static int wrote_table(vg_answer answer) { return value(answer, VG_KIND_TABLE_BYTES) && as_lent(VG_KIND_TABLE_BYTES); }

static void kinds(void)
{
    REFUSED(vg_kinds(result, 0), VG_TOO_SHORT, 0);
    REFUSED(vg_kinds(result, VG_KIND_TABLE_BYTES - 1), VG_TOO_SHORT, 0);
    fresh();
    expect("vg_kinds", wrote_table(vg_kinds(result, VG_KIND_TABLE_BYTES)));
    memcpy(table, result, sizeof table);
    fresh();
    expect("vg_kinds, more room", wrote_table(vg_kinds(result, room)) && memcmp(result, table, sizeof table) == 0);
    expect("the union of two boxes", table[288] == VG_CONTENTS_DECIDE);
    for (size_t i = 0; i < kinds_made; i++) {
        for (size_t j = 0; j < kinds_made; j++) {
            two_kinds(&of_kind[i], &of_kind[j]);
        }
    }
}

static void sizes(void)
{
    VALUE(vg_dim_cmp(1, VG_UNKNOWN), 0);
    VALUE(vg_dim_cmp(0, VG_UNKNOWN), 2);
    VALUE(vg_dim_cmp_defined(1, VG_UNKNOWN), 2);
    VALUE(vg_dim_cmp_defined(5, 5), 1);
    VALUE(vg_dim_max(1, VG_UNKNOWN), VG_UNKNOWN);
    VALUE(vg_dim_max(VG_MAX_SIZE, 0), VG_MAX_SIZE);
    REFUSED(vg_dim_max(VG_MAX_SIZE + 1, 0), VG_OVERSIZED, 0);
    REFUSED(vg_dim_max(0, VG_MAX_SIZE + 1), VG_OVERSIZED, 1);
    VALUE(vg_dim_join(2, 3), VG_UNKNOWN);
    VALUE(vg_dim_compatible(1, 3), 0);
    VALUE(vg_dim_row_compatible(1, 3), 1);
}

/* A value: a number, numbers, a type; what is not meant is something else. */
#define NUMBER(x) VG_NUMBER, x, other, 1, result, 0
#define NUMBERS(list, n) VG_NUMBERS, 7.0, list, n, result, 0
#define TYPE(text) VG_TYPE, 7.0, other, 1, T(text)
#define UNSAID 3, 7.0, other, 1, result, 0

static const double other[1] = {0.5};
static const double pair[2] = {1.0, 5.0};
static const double bits[3] = {1.0, 0.0, -0.0};
static const double half[2] = {1.0, 0.5};
static const double nine[9] = {0.5};

static void values(void)
{
    const double dims[3] = {2.0, INFINITY, -0.0};
    const double minus[2] = {2.0, -INFINITY};
    WROTE(vg_val_ty(NUMBER(2.5), result, room), SCALAR NUM);
    WROTE(vg_val_ty(NUMBERS(bits, 3), result, room), ONE("03") NUM);
    WROTE(vg_val_ty(TYPE(ONE("03") INT), result, room), ONE("03") INT);
    REFUSED(vg_val_ty(UNSAID, result, room), VG_OUT_OF_RANGE, 0);
    WROTE(vg_val_spec(NUMBER(3.0), result, room), ONE("03") ANY);
    WROTE(vg_val_spec(NUMBER(INFINITY), result, room), UNKNOWN_ONE ANY);
    REFUSED(vg_val_spec(NUMBER(-INFINITY), result, room), VG_NOT_A_SIZE, 0);
    REFUSED(vg_val_spec(NUMBERS(half, 2), result, room), VG_NOT_A_SIZE, 1);
    REFUSED(vg_val_spec(NUMBERS(nine, 9), result, room), VG_OUT_OF_RANGE, 0);
    WROTE(vg_val_scalar(NUMBERS(bits, 3), result, room), BOOL);
    WROTE(vg_val_scalar(NUMBER(-1.0), result, room), INT);
    WROTE(vg_nums_scalar(half, 2, result, room), NUM);
    VALUE(vg_val_row_count(NUMBERS(bits, 3)), 3);
    VALUE(vg_val_row_count(TYPE(UNKNOWN_ONE NUM)), VG_UNKNOWN);
    VALUE(vg_val_rank(NUMBERS(bits, 3)), 1);
    VALUE(vg_val_rank(NUMBER(NAN)), 0);
    REFUSED(vg_val_rank(UNSAID), VG_OUT_OF_RANGE, 0);
    VALUE(vg_as_dim(NUMBER(-INFINITY)), VG_UNKNOWN);
    VALUE(vg_as_dim(NUMBER(9007199254740992.0)), VG_MAX_SIZE);
    REFUSED(vg_as_dim(NUMBER(1152921504606846976.0)), VG_OVERSIZED, 0);
    REFUSED(vg_as_dim(NUMBER(NAN)), VG_NOT_A_SIZE, 0);
    NONE(vg_as_dim(NUMBERS(pair, 2)));
    REFUSED(vg_as_dim(TYPE("5348")), VG_ENDED, 0);

    uint64_t out[4] = {9, 9, 9, 9};
    fresh();
    expect("vg_as_dims, too little room", refused(vg_as_dims(NUMBERS(dims, 3), out, 2), VG_TOO_SHORT, 0) && out[0] == 9 && out[1] == 9);
    expect("vg_as_dims, a bad one", refused(vg_as_dims(NUMBERS(minus, 2), out, 4), VG_NOT_A_SIZE, 1) && out[0] == 9);
    expect("vg_as_dims, no list", none(vg_as_dims(NUMBER(3.0), out, 0)));
    expect("vg_as_dims", value(vg_as_dims(NUMBERS(dims, 3), out, 4), 3) && out[0] == 2 && out[1] == VG_UNKNOWN && out[2] == 0 && out[3] == 9);
}

static void rows(void)
{
    double number = 7.0;
    fresh();
    expect("vg_val_row, a number", is(vg_val_row(NUMBER(2.5), &number, result, 0), VG_VALUE, 0, 0, 0, 1) && number == 2.5);
    expect("vg_val_first_row", is(vg_val_first_row(NUMBERS(pair, 2), &number, result, room), VG_VALUE, 0, 0, 0, 1) && number == 1.0 && as_lent(0));
    expect("vg_val_last_row", is(vg_val_last_row(NUMBERS(pair, 2), &number, result, room), VG_VALUE, 0, 0, 0, 1) && number == 5.0 && as_lent(0));
    expect("vg_val_row, NaN", is(vg_val_row(NUMBER(NAN), &number, result, room), VG_VALUE, 0, 0, 0, 1) && isnan(number));
    number = 7.0;
    WROTE(vg_val_row(NUMBERS(pair, 2), &number, result, room), SCALAR NUM);
    WROTE(vg_val_last_row(TYPE(PAIR), &number, result, room), SCALAR ALL ONE("03") NUM);
    REFUSED(vg_val_first_row(TYPE(PAIR), &number, result, 16), VG_TOO_SHORT, 0);
    REFUSED(vg_val_row(UNSAID, &number, result, room), VG_OUT_OF_RANGE, 0);
    expect("the number of a row that is a type", number == 7.0);
}

/* ---- validation: which input was being read -------------------------------------------------------------------------------- */

static int passed(vg_validation v, const char *text) { return wrote(v.answer, text) && v.reading == VG_NEITHER; }

static int refused_in(vg_validation v, uint64_t reading, uint64_t number, uint64_t place)
{
    return refused(v.answer, number, place) && v.reading == reading;
}

#define PASSED(call, text) (fresh(), expect(#call, passed(call, text)))
#define REFUSED_IN(call, reading, number, place) (fresh(), expect(#call, refused_in(call, reading, number, place)))

/* The three validations as one; the scalar's has no side, and is called unsided alone. */
enum validating { VALIDATE, CHECK_SHAPE, CHECK_SCALAR };
static const char *const validating_name[] = {"vg_validate", "vg_check_shape", "vg_check_scalar"};
static const char *const side_name[] = {"unsided", "left", "right"};
static const uint64_t last_side[] = {VG_RIGHT, VG_RIGHT, VG_UNSIDED};

static vg_validation validated(int call, uint64_t side, bytes spec, bytes ty)
{
    fresh();
    if (call == CHECK_SCALAR) {
        return vg_check_scalar(spec.data, spec.length, ty.data, ty.length, result, room);
    }
    return (call == VALIDATE ? vg_validate : vg_check_shape)(side, spec.data, spec.length, ty.data, ty.length, result, room);
}

static void expect_on(int call, uint64_t side, const char *where, const char *spec, const char *ty, int good)
{
    char what[512];
    snprintf(what, sizeof what, "%s, %s, %s: %s on %s", validating_name[call], side_name[side], where, spec, ty);
    expect(what, good);
}

/* Bytes that are no lone type, for each number, some of them at another place than 0. */
typedef struct damage {
    const char *bytes;
    uint64_t number;
    uint64_t place;
} damage;

static const damage damages[] = {
    {"", VG_ENDED, 0},
    {ONE("02"), VG_ENDED, 12},
    {"5858", VG_UNMARKED, 0},
    {SCALAR SCALAR, VG_UNMARKED, 4},
    {"534809", VG_OUT_OF_RANGE, 0},
    {SCALAR "53430a", VG_OUT_OF_RANGE, 4},
    {"534801ff 0100000000002000" NUM, VG_OVERSIZED, 0},
    {TWO_BOXES TWO_BOXES TWO_BOXES TWO_BOXES, VG_TOO_MANY, 80},
    {SCALAR NUM "00", VG_TRAILING, 7},
};
static const size_t damages_made = sizeof damages / sizeof damages[0];

/* A damaged spec, a damaged type, and both: then it is the spec that is said, whatever the type is. */
static void reading(int call, uint64_t side, const damage *d)
{
    const char *good = SCALAR NUM;
    bytes ty = hex(good), damaged = hex(d->bytes);
    expect_on(call, side, "spec", d->bytes, good, refused_in(validated(call, side, damaged, ty), VG_SPEC, d->number, d->place));
    expect_on(call, side, "type", good, d->bytes, refused_in(validated(call, side, ty, damaged), VG_CHECKED_TYPE, d->number, d->place));
    for (size_t i = 0; i < damages_made; i++) {
        ty = hex(damages[i].bytes);
        expect_on(call, side, "both", d->bytes, damages[i].bytes, refused_in(validated(call, side, damaged, ty), VG_SPEC, d->number, d->place));
    }
}

/* A box of 32 fields would be made of [32] Any by a spec with a name: 5, with both inputs read. */
#define NAMED "534308425802016e00" /* named n, no field */

static void readings(void)
{
    for (int call = VALIDATE; call <= CHECK_SCALAR; call++) {
        for (uint64_t side = VG_UNSIDED; side <= last_side[call]; side++) {
            for (size_t i = 0; i < damages_made; i++) {
                reading(call, side, &damages[i]);
            }
        }
    }
    PASSED(vg_validate(VG_UNSIDED, T(UNKNOWN_ONE NUM), T(ONE("03") INT), result, 15), ONE("03") INT);
    PASSED(vg_validate(VG_LEFT, T(UNKNOWN_ONE NUM), T(ONE("03") INT), result, room), "53480100 0300000000000000" INT);
    PASSED(vg_check_shape(VG_RIGHT, T(ONE("03") CHAR), T(TWO("02", "03") NUM), result, room), "53480201 0200000000000000 0300000000000000 0300000000000000" NUM);
    PASSED(vg_check_scalar(T(ONE("02") NUM), T(ONE("03") INT), result, room), ONE("03") INT);
    REFUSED_IN(vg_validate(VG_UNSIDED, T(UNKNOWN_ONE NUM), T(ONE("03") INT), result, 14), VG_NEITHER, VG_TOO_SHORT, 0);
    REFUSED_IN(vg_check_shape(VG_LEFT, T(UNKNOWN_ONE NUM), T(ONE("03") INT), result, 14), VG_NEITHER, VG_TOO_SHORT, 0);
    REFUSED_IN(vg_check_scalar(T(ONE("02") NUM), T(ONE("03") INT), result, 0), VG_NEITHER, VG_TOO_SHORT, 0);
    REFUSED_IN(vg_validate(3, T(""), T(""), result, room), VG_NEITHER, VG_OUT_OF_RANGE, 0);
    REFUSED_IN(vg_check_shape(VG_UNKNOWN, T("5858"), T(SCALAR NUM), result, 0), VG_NEITHER, VG_OUT_OF_RANGE, 0);
    REFUSED_IN(vg_validate(VG_LEFT, T(OPEN NAMED), T(ONE("20") ANY), result, room), VG_NEITHER, VG_TOO_MANY, 0);
    REFUSED_IN(vg_check_scalar(T(OPEN NAMED), T(ONE("20") ANY), result, room), VG_NEITHER, VG_TOO_MANY, 0);
    REFUSED_IN(vg_validate(VG_UNSIDED, T(SCALAR NUM), T(SCALAR CHAR), result, room), VG_NEITHER, VG_WRONG_SCALAR, 0);
    REFUSED_IN(vg_validate(VG_RIGHT, T(SCALAR ALL SCALAR NUM), T(SCALAR ALL SCALAR CHAR), result, room), VG_NEITHER, VG_WRONG_SCALAR, 0);
    REFUSED_IN(vg_check_scalar(T(OPEN NUM), T(ONE("03") ANY), result, room), VG_NEITHER, VG_WRONG_SCALAR, 0);
    /* The scalar is judged before the shape, a box's content before either; a short result after all. */
    REFUSED_IN(vg_validate(VG_UNSIDED, T(ONE("02") NUM), T(ONE("03") CHAR), result, 0), VG_NEITHER, VG_WRONG_SCALAR, 0);
    REFUSED_IN(vg_validate(VG_UNSIDED, T(ONE("02") ALL ONE("02") NUM), T(SCALAR ALL ONE("03") NUM), result, 0), VG_NEITHER, VG_WRONG_SHAPE, 0);
    REFUSED_IN(vg_validate(VG_UNSIDED, T(ONE("02") ALL SCALAR NUM), T(ONE("03") ALL ONE("03") NUM), result, 0), VG_NEITHER, VG_WRONG_COUNT, 0);
    REFUSED_IN(vg_check_shape(VG_UNSIDED, T(ONE("02") ALL SCALAR NUM), T(ONE("03") ALL ONE("03") NUM), result, 0), VG_NEITHER, VG_WRONG_SHAPE, 0);
}

/* ---- validation: a size that differs, a count that cannot fit -------------------------------------------------------------- */

/* A spec's shape on a type's, as the paper writes shapes, and the number that it is refused with by each side's code, 0 where it passes. */
typedef struct fit {
    const char *spec;
    const char *ty;
    uint64_t number[3];
} fit;

static const fit fits[] = {
    /* A closed type. */
    {"[2]", "[3]", {10, 10, 10}},
    {"[?]", "[3]", {0, 0, 0}},
    {"[2]", "[]", {14, 14, 14}},
    {"[]", "[2]", {14, 0, 0}},
    {"[2 3]", "[2]", {14, 14, 14}},
    {"[2 3]", "[3]", {14, 14, 14}},
    {"[2 3]", "[5]", {14, 14, 14}},
    {"[2]", "[2 3]", {14, 0, 10}},
    {"[3]", "[2 3]", {14, 10, 0}},
    {"[5]", "[2 3]", {14, 10, 10}},
    {"[2 3]", "[2 4]", {10, 10, 10}},
    {"[2 3]", "[2 ?]", {0, 0, 0}},
    /* The same for an open spec, of which the opening sizes alone are compared. */
    {"[2 3..]", "[2]", {14, 14, 14}},
    {"[2 3..]", "[5]", {14, 14, 14}},
    {"[2 3..]", "[2 4]", {10, 10, 10}},
    {"[2..4]", "[2 3]", {14, 0, 10}},
    {"[2..4]", "[2]", {0, 0, 0}},
    {"[..3]", "[2]", {14, 0, 0}},
    {"[..3]", "[]", {0, 0, 0}},
    /* An open type that names fewer sizes: unsided it is the count, unless one of them differs. */
    {"[2 3]", "[2..]", {14, 0, 14}},
    {"[2 3]", "[5..]", {10, 10, 14}},
    {"[2 3]", "[?..]", {10, 0, 14}},
    {"[? 3]", "[?..]", {14, 0, 14}},
    {"[? 3]", "[2..]", {10, 0, 14}},
    {"[2 3]", "[..3]", {14, 0, 14}},
    {"[2 3]", "[..4]", {10, 0, 14}},
    {"[2 3]", "[..?]", {10, 0, 14}},
    {"[2 ?]", "[..?]", {14, 0, 14}},
    {"[2 3 4]", "[2..4]", {14, 0, 14}},
    {"[2 3 4]", "[2..5]", {10, 0, 14}},
    {"[2 3 4]", "[5..4]", {10, 10, 14}},
    {"[2 3..]", "[2..]", {14, 0, 14}},
    {"[2 3..3]", "[5..]", {10, 10, 14}},
    /* One that names as many: a size. */
    {"[2]", "[2..]", {0, 0, 0}},
    {"[2]", "[5..]", {10, 10, 0}},
    {"[2]", "[?..]", {10, 0, 0}},
    {"[?]", "[2..]", {10, 0, 0}},
    {"[2]", "[..3]", {10, 0, 10}},
    {"[2 3]", "[2..3]", {0, 0, 0}},
    {"[2 3]", "[2..4]", {10, 0, 10}},
    {"[2 3]", "[..4 5]", {10, 0, 10}},
    /* One that names more: unsided the count, whatever the sizes are. */
    {"[2]", "[2 3..]", {14, 0, 0}},
    {"[5]", "[2 3..]", {14, 10, 0}},
    {"[2]", "[2..3]", {14, 0, 10}},
    {"[2 3]", "[2 3..3]", {14, 0, 0}},
    {"[]", "[2..]", {14, 0, 0}},
    {"[..3]", "[..3]", {14, 0, 0}},
    /* [..] as the one or the other excuses all. */
    {"[..]", "[2]", {0, 0, 0}},
    {"[..]", "[5..4]", {0, 0, 0}},
    {"[2 3]", "[..]", {0, 0, 0}},
};
static const size_t fits_made = sizeof fits / sizeof fits[0];

/* What the two shapes stand behind, and Num behind each of them: nothing, or a box that holds them. */
typedef struct held {
    const char *where;
    const char *spec;
    const char *ty;
} held;

static const held alone = {"alone", "", ""};
static const held in_boxes[] = {
    {"in a box", SCALAR ALL, SCALAR ALL},
    {"two boxes deep", SCALAR ALL ONE("02") ALL, SCALAR ALL ONE("02") ALL},
    {"as a field", ONE("02") DEF SCALAR NUM, ONE("02") DEF SCALAR NUM},
    {"as a field, the spec for each", SCALAR ALL, SCALAR DEF OPEN NUM},
};
static const size_t boxes_made = sizeof in_boxes / sizeof in_boxes[0];

/* The record of a shape whose sizes have one digit or are ?. */
static bytes shape(const char *text)
{
    bytes b = hex("534800ff");
    size_t count_at = 2;
    for (; *text != 0; text++) {
        if (*text == '.') {
            count_at = 3;
            b.data[3] = 0;
            text++;
        } else if (strchr("[ ]", *text) == NULL) {
            b.data[count_at]++;
            b = followed(b, hex(*text == '?' ? "ffffffffffffffff" : "0000000000000000"));
            b.data[b.length - 8] = *text == '?' ? 0xff : (uint8_t)(*text - '0');
        }
    }
    return b;
}

static bytes nums_behind(const char *before, const char *shape_text) { return followed(followed(hex(before), shape(shape_text)), hex(NUM)); }

static int fits_as(vg_validation v, uint64_t number)
{
    if (number == 0) {
        return value(v.answer, v.answer.first) && v.reading == VG_NEITHER && as_lent((size_t)v.answer.first);
    }
    return refused_in(v, VG_NEITHER, number, 0);
}

static void fit_held(int call, uint64_t side, const held *h, const fit *f, uint64_t number)
{
    expect_on(call, side, h->where, f->spec, f->ty, fits_as(validated(call, side, nums_behind(h->spec, f->spec), nums_behind(h->ty, f->ty)), number));
}

/* What a box holds is validated without side, whatever the side is, and only where scalars are. */
static void validation(void)
{
    expect("vg_validation, six numbers", sizeof(vg_validation) == 48 && offsetof(vg_validation, reading) == 40);
    readings();
    for (int call = VALIDATE; call <= CHECK_SCALAR; call++) {
        for (uint64_t side = VG_UNSIDED; side <= VG_RIGHT; side++) {
            for (const fit *f = fits; f < fits + fits_made; f++) {
                fit_held(call, side, &alone, f, call == CHECK_SCALAR ? 0 : f->number[side]);
                for (size_t i = 0; i < boxes_made; i++) {
                    fit_held(call, side, &in_boxes[i], f, call == CHECK_SHAPE ? 0 : f->number[VG_UNSIDED]);
                }
            }
        }
    }
}

/* ---- the length of a type -------------------------------------------------------------------------------------------------- */

static vg_answer length_of(bytes b)
{
    fresh();
    return vg_type_length(b.data, b.length);
}

/* Of a type alone, and of one before each of these. */
static void expect_length(const char *ty)
{
    static const char *const rests[] = {"", "00", "53", "5348", SCALAR NUM, PAIR, "5858", PUT SCALAR NUM, "ffffffffffffffff"};
    const bytes alone_bytes = hex(ty);
    char what[512];
    for (size_t i = 0; i < sizeof rests / sizeof rests[0]; i++) {
        snprintf(what, sizeof what, "vg_type_length, %s before %s", ty, rests[i]);
        expect(what, value(length_of(followed(alone_bytes, hex(rests[i]))), alone_bytes.length));
    }
    /* Cut off anywhere it is as vg_read has it. */
    for (size_t i = 0; i < alone_bytes.length; i++) {
        bytes cut = alone_bytes;
        cut.length = i;
        snprintf(what, sizeof what, "vg_type_length, %s cut off after %zu", ty, i);
        fresh();
        expect(what, refused(length_of(cut), VG_ENDED, vg_read(cut.data, cut.length).place));
    }
}

static void lengths(void)
{
    static const char *const made_types[] = {SCALAR NUM,      OPEN ANY, ONE("03") NUM, UNKNOWN_ONE NUM, TWO("02", "03") CHAR, PAIR, SCALAR BOX_ANY,
                                             TWO_BOXES SCALAR NUM, TWO_BOXES TWO_BOXES TWO_BOXES SCALAR ALL SCALAR NUM};
    char what[512];
    for (size_t i = 0; i < sizeof made_types / sizeof made_types[0]; i++) {
        expect_length(made_types[i]);
    }
    /* What is no type is refused as by vg_read, but bytes behind a type are none of its own. */
    for (const damage *d = damages; d < damages + damages_made; d++) {
        snprintf(what, sizeof what, "vg_type_length, %s", d->bytes);
        if (d->number == VG_TRAILING) {
            expect(what, value(length_of(hex(d->bytes)), d->place));
        } else {
            expect(what, refused(length_of(hex(d->bytes)), d->number, d->place));
        }
    }
    begin();
    append_largest(&types_left, 1);
    fresh();
    expect("vg_type_length, a largest type", value(vg_type_length(types_left.data, types_left.length), VG_TYPE_BYTES));
    append_largest(&types_left, 2);
    expect("vg_type_length, a largest type before another", value(vg_type_length(types_left.data, types_left.length), VG_TYPE_BYTES));
    expect("vg_type_length, a largest type that lacks a byte",
           is(vg_type_length(types_left.data, VG_TYPE_BYTES - 1), VG_REFUSED, VG_ENDED, VG_TYPE_BYTES - 21, 0, 0));
}

/* ---- compatible shapes: the greatest index that fails ---------------------------------------------------------------------- */

/* Two shapes, as the paper writes them, and what is answered of them in either order: 1 and 0 if they are compatible, else 0 and the
 * index. */
typedef struct tested {
    const char *a;
    const char *b;
    uint64_t first;
    uint64_t second;
} tested;

static const tested tested_shapes[] = {
    /* No index fails. */
    {"[]", "[]", 1, 0},
    {"[2 3 4]", "[2 3 4]", 1, 0},
    {"[2 1 ?]", "[2 7 8]", 1, 0},
    {"[1 ?]", "[? 1]", 1, 0},
    {"[0 0]", "[? 1]", 1, 0},
    {"[? ?]", "[? ?]", 1, 0},
    {"[2 3 4 5 6 7 8 9]", "[2 1 4 ? 6 7 ? 1]", 1, 0},
    /* One fails: the first, the last, one between. */
    {"[2]", "[3]", 0, 0},
    {"[0]", "[2]", 0, 0},
    {"[2 3 4]", "[5 3 4]", 0, 0},
    {"[2 3 4]", "[2 5 4]", 0, 1},
    {"[2 3 4]", "[2 3 5]", 0, 2},
    {"[2 3]", "[5 1]", 0, 0},
    {"[2 3]", "[? 5]", 0, 1},
    {"[2 3 4]", "[5 1 ?]", 0, 0},
    {"[2 3 4 5 6 7 8 9]", "[0 3 4 5 6 7 8 9]", 0, 0},
    {"[2 3 4 5 6 7 8 9]", "[2 3 4 5 6 7 8 0]", 0, 7},
    /* Several fail: it is the last of them. */
    {"[2 3]", "[5 6]", 0, 1},
    {"[2 3 4]", "[5 6 4]", 0, 1},
    {"[2 3 4]", "[5 3 6]", 0, 2},
    {"[2 3 4]", "[2 5 6]", 0, 2},
    {"[2 3 4]", "[5 6 ?]", 0, 1},
    {"[2 3 4 5 6 7 8 9]", "[3 4 5 6 7 8 9 9]", 0, 6},
    {"[2 3 4 5 6 7 8 9]", "[3 4 5 6 7 8 9 2]", 0, 7},
    /* The counts differ: none, whatever the sizes are. */
    {"[]", "[1]", 0, VG_NO_INDEX},
    {"[2]", "[2 3]", 0, VG_NO_INDEX},
    {"[3]", "[2 3]", 0, VG_NO_INDEX},
    {"[5]", "[2 3]", 0, VG_NO_INDEX},
    {"[? ?]", "[1 1 1]", 0, VG_NO_INDEX},
    {"[2 3 4 5 6 7 8 9]", "[2 3 4 5 6 7 8]", 0, VG_NO_INDEX},
    /* Closing sizes, and whether there may be any, make no difference. */
    {"[3..4]", "[3..5]", 1, 0},
    {"[3..4]", "[3..4 5]", 1, 0},
    {"[3..4]", "[3..]", 1, 0},
    {"[3..4]", "[3]", 1, 0},
    {"[3..]", "[3]", 1, 0},
    {"[..]", "[]", 1, 0},
    {"[..4 5]", "[]", 1, 0},
    {"[3..4]", "[5..4]", 0, 0},
    {"[2 3..4]", "[2 5]", 0, 1},
    {"[2 3..4 5]", "[6 3..7]", 0, 0},
    {"[2 3..]", "[6 7..4]", 0, 1},
    /* Nor do they count. */
    {"[..]", "[2]", 0, VG_NO_INDEX},
    {"[..2]", "[2]", 0, VG_NO_INDEX},
    {"[2..3]", "[2 3]", 0, VG_NO_INDEX},
    {"[2..3]", "[2 3..]", 0, VG_NO_INDEX},
};
static const size_t tested_made = sizeof tested_shapes / sizeof tested_shapes[0];

static vg_answer compatible(bytes a, bytes b)
{
    fresh();
    return vg_compatible_shapes(a.data, a.length, b.data, b.length);
}

/* The union of two boxes goes by yes or no alone: of an All of each it is the one with the later type, else box Any. */
static vg_answer united(bytes a, bytes b)
{
    a = followed(hex(SCALAR ALL), a);
    b = followed(hex(SCALAR ALL), b);
    fresh();
    return vg_union(a.data, a.length, b.data, b.length, result, room);
}

static bytes later(bytes a, bytes b) { return value(vg_compare(a.data, a.length, b.data, b.length), 2) ? a : b; }

static void test_shapes(const char *a_text, const char *b_text, uint64_t first, uint64_t second)
{
    const bytes a = nums_behind("", a_text), b = nums_behind("", b_text);
    char what[128];
    snprintf(what, sizeof what, "vg_compatible_shapes, %s with %s", a_text, b_text);
    expect(what, values_of(compatible(a, b), first, second));
    snprintf(what, sizeof what, "vg_union, All of %s with All of %s", a_text, b_text);
    expect(what, wrote_bytes(united(a, b), first == 1 ? followed(hex(ALL), later(a, b)) : hex(BOX_ANY)));
}

/* Sizes that pass beside each other at an index, and sizes that fail. */
typedef struct two_sizes {
    uint64_t a;
    uint64_t b;
} two_sizes;

static const two_sizes passing[] = {
    {7, 7}, {1, 7}, {7, 1}, {VG_UNKNOWN, 7}, {7, VG_UNKNOWN}, {1, VG_UNKNOWN}, {VG_UNKNOWN, 0}, {VG_UNKNOWN, VG_UNKNOWN},
    {0, 0}, {0, 1}, {1, VG_MAX_SIZE}, {VG_MAX_SIZE, VG_UNKNOWN}, {VG_MAX_SIZE, VG_MAX_SIZE},
};
static const two_sizes failing[] = {
    {2, 3}, {3, 2}, {0, 2}, {2, 0}, {5, 256 + 5}, {0, VG_MAX_SIZE}, {VG_MAX_SIZE, VG_MAX_SIZE - 1},
};
static const size_t passing_made = sizeof passing / sizeof passing[0], failing_made = sizeof failing / sizeof failing[0];

static void test_sizes(const two_sizes *two, int yes)
{
    char what[96];
    snprintf(what, sizeof what, "vg_dim_row_compatible, %llu with %llu", (unsigned long long)two->a, (unsigned long long)two->b);
    expect(what, value(vg_dim_row_compatible(two->a, two->b), (uint64_t)yes));
}

/* How many closing sizes a shape has; 255 for a closed one. */
static const uint8_t closing_counts[] = {255, 0, 1, VG_MAX_SIZES};
static const size_t closings_made = sizeof closing_counts / sizeof closing_counts[0];

static bytes and_size(bytes b, uint64_t size)
{
    for (int i = 0; i < 8; i++) {
        b.data[b.length++] = (uint8_t)(size >> 8 * i);
    }
    return b;
}

static bytes begin_shape(size_t openings, uint8_t closings)
{
    bytes b = hex(SCALAR);
    b.data[2] = (uint8_t)openings;
    b.data[3] = closings;
    return b;
}

static bytes end_shape(bytes b, uint64_t size)
{
    for (int i = 0; b.data[3] != 255 && i < b.data[3]; i++) {
        b = and_size(b, size);
    }
    return followed(b, hex(NUM));
}

/* Two lists of so many sizes. Bit i of `fails` says that those at index i fail; so the answer is known from the counts and these bits, and
 * no size is looked at again. The closing sizes are 2 and 3, which would fail. */
static void test_lists(size_t a_count, size_t b_count, unsigned fails, uint8_t a_closings, uint8_t b_closings)
{
    const int yes = a_count == b_count && fails == 0;
    bytes a = begin_shape(a_count, a_closings), b = begin_shape(b_count, b_closings);
    uint64_t greatest = VG_NO_INDEX;
    char what[128];
    for (size_t i = 0; i < VG_MAX_SIZES; i++) {
        const int fail = fails >> i & 1;
        const two_sizes *two = fail ? &failing[(fails + i) % failing_made] : &passing[(fails + i) % passing_made];
        a = i < a_count ? and_size(a, two->a) : a;
        b = i < b_count ? and_size(b, two->b) : b;
        greatest = fail && a_count == b_count ? i : greatest;
    }
    snprintf(what, sizeof what, "vg_compatible_shapes, %zu sizes with %zu, fails %02x, closing %d and %d", a_count, b_count, fails, a_closings, b_closings);
    expect(what, values_of(compatible(end_shape(a, 2), end_shape(b, 3)), (uint64_t)yes, yes ? 0 : greatest));
}

/* Every choice of indices that fail, among those that both lists have; with every two counts of closing sizes. */
static void test_counts(size_t a_count, size_t b_count)
{
    const size_t shorter = a_count < b_count ? a_count : b_count;
    for (unsigned fails = 0; fails < 1u << shorter; fails++) {
        for (size_t i = 0; i < closings_made * closings_made; i++) {
            test_lists(a_count, b_count, fails, closing_counts[i / closings_made], closing_counts[i % closings_made]);
        }
    }
}

/* Both are read before their sizes are compared, the first whole before the other. */
static void test_damaged(const damage *d)
{
    const bytes good = hex(ONE("02") NUM), damaged = hex(d->bytes);
    char what[512];
    snprintf(what, sizeof what, "vg_compatible_shapes, the first is %s", d->bytes);
    expect(what, refused(compatible(damaged, good), d->number, d->place));
    snprintf(what, sizeof what, "vg_compatible_shapes, the second is %s", d->bytes);
    expect(what, refused(compatible(good, damaged), d->number, d->place));
    for (size_t i = 0; i < damages_made; i++) {
        snprintf(what, sizeof what, "vg_compatible_shapes, %s with %s", d->bytes, damages[i].bytes);
        expect(what, refused(compatible(damaged, hex(damages[i].bytes)), d->number, d->place));
    }
}

static void compatible_shapes(void)
{
    expect("no index", VG_NO_INDEX == UINT64_MAX);
    for (const tested *t = tested_shapes; t < tested_shapes + tested_made; t++) {
        test_shapes(t->a, t->b, t->first, t->second);
        test_shapes(t->b, t->a, t->first, t->second);
    }
    for (size_t i = 0; i < passing_made; i++) {
        test_sizes(&passing[i], 1);
    }
    for (size_t i = 0; i < failing_made; i++) {
        test_sizes(&failing[i], 0);
    }
    for (size_t a_count = 0; a_count <= VG_MAX_SIZES; a_count++) {
        for (size_t b_count = 0; b_count <= VG_MAX_SIZES; b_count++) {
            test_counts(a_count, b_count);
        }
    }
    for (size_t i = 0; i < damages_made; i++) {
        test_damaged(&damages[i]);
    }
    /* Scalars make no difference. */
    VALUES(vg_compatible_shapes(T(TWO("02", "03") NUM), T(TWO("02", "05") CHAR)), 0, 1);
    VALUES(vg_compatible_shapes(T(PAIR), T(ONE("01") ALL TWO("02", "05") NUM)), 1, 0);
    VALUES(vg_compatible_shapes(T(SCALAR ALL ONE("02") NUM), T(SCALAR ALL ONE("03") NUM)), 1, 0);
}

/* ---- the sheet ------------------------------------------------------------------------------------------------------------- */

/* A scratch that holds anything is cleared, whatever is answered. */
static vg_answer check_bytes(bytes sheet, size_t room_for_types)
{
    memset(scratch, lent, sizeof scratch);
    fresh();
    return vg_check_sheet(sheet.data, sheet.length, result, room_for_types, scratch, sizeof scratch);
}

static vg_answer check(const char *text, size_t room_for_types) { return check_bytes(hex(text), room_for_types); }

/* A step validates without side, and a mismatch is at its mark, also one inside a box. */
static void step(const held *h, const fit *f)
{
    bytes put = followed(hex(PUT), nums_behind(h->ty, f->ty));
    vg_answer answer = check_bytes(followed(put, followed(hex(VALIDATION), nums_behind(h->spec, f->spec))), room);
    uint64_t number = f->number[VG_UNSIDED];
    char what[128];
    snprintf(what, sizeof what, "a step, %s: %s on %s", h->where, f->spec, f->ty);
    if (number == 0) {
        expect(what, is(answer, VG_VALUE, 0, 0, 1, answer.second) && as_lent((size_t)answer.second) && cleared());
    } else {
        expect(what, refused(answer, number, put.length) && cleared());
    }
}

static void steps(void)
{
    for (const fit *f = fits; f < fits + fits_made; f++) {
        step(&alone, f);
        for (size_t i = 0; i < boxes_made; i++) {
            step(&in_boxes[i], f);
        }
    }
}

/* A declaration of 11 bytes, and sixteen of them, of the names a to p. */
#define DECLARED(letter) DECLARE "01" letter SCALAR NUM
#define A_TO_D DECLARED("61") DECLARED("62") DECLARED("63") DECLARED("64")
#define E_TO_H DECLARED("65") DECLARED("66") DECLARED("67") DECLARED("68")
#define I_TO_L DECLARED("69") DECLARED("6a") DECLARED("6b") DECLARED("6c")
#define M_TO_P DECLARED("6d") DECLARED("6e") DECLARED("6f") DECLARED("70")
#define A_TO_P A_TO_D E_TO_H I_TO_L M_TO_P

static void sheets(void)
{
    const char *good = PUT ONE("03") NUM PUT UNKNOWN_ONE NUM PERVADE "00";
    bytes left = hex(ONE("03") NUM);
    expect("vg_check_sheet", is(check(good, room), VG_VALUE, 0, 0, 1, 15) && memcmp(result, left.data, 15) == 0 && as_lent(15) && cleared());
    bytes unknown = hex(UNKNOWN_ONE NUM);
    expect("12 filled meets ?", is(check(PUT UNKNOWN_ONE NUM PUT ONE("0c") NUM PERVADE "01", room), VG_VALUE, 0, 0, 1, 15) && memcmp(result, unknown.data, 15) == 0);
    expect("a result too short", refused(check(good, 14), VG_TOO_SHORT, 37) && cleared());
    expect("a mismatch", refused(check(PUT ONE("03") NUM PUT ONE("04") NUM PERVADE "00", room), VG_UNPERVADED, 34) && cleared());
    expect("a row first", refused(check("5257", room), VG_UNDERFLOW, 0) && cleared());
    const char *named = DECLARE NAME_A ONE("03") NUM USE NAME_A PUT UNKNOWN_ONE NUM PERVADE "00";
    expect("a table by its name", is(check(named, room), VG_VALUE, 0, 0, 1, 15) && memcmp(result, left.data, 15) == 0 && as_lent(15) && cleared());
    expect("a name that is not declared", refused(check(USE NAME_A, room), VG_UNDECLARED, 0) && cleared());
    expect("a seventeenth name", refused(check(A_TO_P DECLARED("71"), room), VG_TOO_MANY_NAMES, 176) && cleared());
    expect("an empty sheet", is(check("", 0), VG_VALUE, 0, 0, 0, 0) && as_lent(0) && cleared());
}

/* ---- the sheet: puts ------------------------------------------------------------------------------------------------------- */

/* Each puts a type that n tells from the others. */
static void put_largest(uint8_t n)
{
    append(&made, hex(PUT));
    append_largest(&made, n);
    append_largest(&types_left, n);
}

static void put_small(uint8_t n)
{
    bytes ty = hex(ONE("00") NUM);
    ty.data[4] = n;
    append(&made, followed(hex(PUT), ty));
    append(&types_left, ty);
}

static void put_either(uint8_t n) { (n % 2 == 0 ? put_largest : put_small)(n); }

typedef struct putting {
    const char *name;
    void (*put)(uint8_t n);
} putting;

static const putting puttings[] = {{"small types", put_small}, {"largest types", put_largest}, {"types of either size", put_either}};
static const size_t puttings_made = sizeof puttings / sizeof puttings[0];

static void make_puts(const putting *p, uint8_t count)
{
    begin();
    for (uint8_t n = 1; n <= count; n++) {
        p->put(n);
    }
}

/* None to six are left as they were put; a seventh is refused at its mark. */
static void puts_alone(const putting *p)
{
    char what[64];
    size_t place;
    for (uint8_t count = 0; count <= VG_MAX_STACK; count++) {
        make_puts(p, count);
        snprintf(what, sizeof what, "%d puts of %s", count, p->name);
        lend_each(what, leaves(count));
    }
    place = made.length;
    p->put(VG_MAX_STACK + 1);
    snprintf(what, sizeof what, "a seventh put of %s", p->name);
    lend_each(what, refuses(VG_OVERFLOW, place));
}

/* A seventh put of these bytes, behind six good ones. */
static void seventh(const char *how, size_t at, bytes put, uint64_t number)
{
    char what[64];
    size_t place;
    make_puts(&puttings[0], VG_MAX_STACK);
    place = made.length;
    append(&made, put);
    snprintf(what, sizeof what, "a seventh put, %s byte %zu", how, at);
    lend_each(what, refuses(number, place));
}

/* Cut off after each byte, and each byte damaged. The mark is judged before the stack, and the stack before what follows the mark. */
static void seventh_of_any_bytes(void)
{
    const bytes put = hex(PUT SCALAR NUM);
    for (size_t i = 0; i < put.length; i++) {
        bytes cut = put, damaged = put;
        cut.length = i + 1;
        damaged.data[i] = 0xee;
        seventh("cut off after", i, cut, i < 1 ? VG_ENDED : VG_OVERFLOW);
        seventh("damaged at", i, damaged, i < 2 ? VG_UNMARKED : VG_OVERFLOW);
    }
}

/* ---- the sheet: up, down and up again -------------------------------------------------------------------------------------- */

/* Some steps more, and what is left then. */
static void and_then(const char *what, const char *steps_made, uint64_t types, const char *left)
{
    append(&made, hex(steps_made));
    types_left.length = 0;
    append(&types_left, hex(left));
    lend_each(what, leaves(types));
}

static void and_refused(const char *what, const char *step_made, uint64_t number)
{
    size_t place = made.length;
    append(&made, hex(step_made));
    lend_each(what, refuses(number, place));
}

#define FOUR ONE("02") NUM ONE("03") NUM ONE("04") NUM SCALAR NUM
#define PUT_FOUR PUT ONE("02") NUM PUT ONE("03") NUM PUT ONE("04") NUM PUT SCALAR NUM

static void up_and_down(void)
{
    begin();
    and_then("up to six", PUT_FOUR PUT UNKNOWN_ONE NUM PUT TWO("05", "0c") NUM, 6, FOUR UNKNOWN_ONE NUM TWO("05", "0c") NUM);
    and_then("a row on a full stack", ROW, 6, FOUR UNKNOWN_ONE NUM ONE("0c") NUM);
    and_then("a spec on a full stack", VALIDATION ONE("0c") NUM, 6, FOUR UNKNOWN_ONE NUM ONE("0c") NUM);
    and_then("down to five", PERVADE "00", 5, FOUR ONE("0c") NUM);
    and_then("up to six from five", PUT ONE("07") NUM, 6, FOUR ONE("0c") NUM ONE("07") NUM);
    and_then("down to four", JOIN PERVADE "00", 4, ONE("02") NUM ONE("03") NUM ONE("04") NUM UNKNOWN_ONE NUM);
    and_then("up to six from four", PUT SCALAR CHAR PUT SCALAR INT, 6, ONE("02") NUM ONE("03") NUM ONE("04") NUM UNKNOWN_ONE NUM SCALAR CHAR SCALAR INT);
    and_refused("a seventh after up and down", PUT SCALAR NUM, VG_OVERFLOW);
}

/* Six largest types, of which the upper two are joined: equal sizes stay, but the first closing one is unknown. A sixth fits again. */
static void largest_joined(void)
{
    size_t joined;
    make_puts(&puttings[1], VG_MAX_STACK - 1);
    put_largest(VG_MAX_STACK - 1);
    append(&made, hex(JOIN));
    types_left.length -= VG_TYPE_BYTES;
    joined = types_left.length - VG_TYPE_BYTES;
    /* Behind mark, counts and opening sizes. */
    memset(types_left.data + joined + 4 + 8 * VG_MAX_SIZES, 0xff, 8);
    lend_each("largest types joined", leaves(VG_MAX_STACK - 1));
    put_largest(VG_MAX_STACK);
    lend_each("largest types joined, and one more", leaves(VG_MAX_STACK));
    and_refused("largest types joined, and two more", PUT SCALAR NUM, VG_OVERFLOW);
}

/* Six puts, and rows up to so many steps in all. The row of a small type is [], and so is the row of that. */
static void make_steps(size_t count)
{
    make_puts(&puttings[0], VG_MAX_STACK);
    for (size_t i = VG_MAX_STACK; i < count; i++) {
        append(&made, hex(ROW));
    }
    types_left.length -= hex(ONE("00") NUM).length;
    append(&types_left, hex(SCALAR NUM));
}

static void steps_on_a_full_stack(void)
{
    static const char *const more[] = {ROW, PUT SCALAR NUM, DECLARE NAME_A SCALAR NUM, USE NAME_A, "52", "5858"};
    char what[64];
    make_steps(VG_MAX_STEPS - 1);
    and_refused("a seventh put as the 64th step", PUT SCALAR NUM, VG_OVERFLOW);
    make_steps(VG_MAX_STEPS);
    lend_each("64 steps", leaves(VG_MAX_STACK));
    for (size_t i = 0; i < sizeof more / sizeof more[0]; i++) {
        make_steps(VG_MAX_STEPS);
        snprintf(what, sizeof what, "a 65th step, %s", more[i]);
        and_refused(what, more[i], VG_OVERFLOW);
    }
}

/* ---- the sheet: every other way to be refused ------------------------------------------------------------------------------ */

static const refused_sheet refused_sheets[] = {
    {"50", VG_ENDED, 0},
    {PUT, VG_ENDED, 2},
    {PUT SCALAR NUM PUT SCALAR NUM PERVADE, VG_ENDED, 18},
    {"5858", VG_UNMARKED, 0},
    {PUT "534809", VG_OUT_OF_RANGE, 2},
    {PUT SCALAR NUM PUT SCALAR NUM PERVADE "04", VG_OUT_OF_RANGE, 18},
    {PUT "534801ff 0100000000002000" NUM, VG_OVERSIZED, 2},
    {PUT TWO_BOXES TWO_BOXES TWO_BOXES TWO_BOXES, VG_TOO_MANY, 82},
    {PUT ONE("20") ANY VALIDATION OPEN NAMED, VG_TOO_MANY, 17},
    {PUT ONE("03") NUM PUT ONE("04") NUM PERVADE "00", VG_UNPERVADED, 34},
    {PUT SCALAR CHAR VALIDATION SCALAR NUM, VG_WRONG_SCALAR, 9},
    {PUT ONE("03") NUM VALIDATION ONE("02") NUM, VG_WRONG_SHAPE, 17},
    {ROW, VG_UNDERFLOW, 0},
    {PUT SCALAR NUM JOIN, VG_UNDERFLOW, 9},
    {PUT ONE("03") NUM VALIDATION SCALAR NUM, VG_WRONG_COUNT, 17},
    {USE, VG_ENDED, 0},
    {DECLARE NAME_A, VG_ENDED, 4},
    {DECLARE NAME_A PUT, VG_UNMARKED, 4},
    {USE "00", VG_OUT_OF_RANGE, 0},
    {DECLARE "11", VG_OUT_OF_RANGE, 0},
    {DECLARE "0109", VG_OUT_OF_RANGE, 0},
    {DECLARE NAME_A "534801ff 0100000000002000" NUM, VG_OVERSIZED, 4},
    {DECLARE NAME_A TWO_BOXES TWO_BOXES TWO_BOXES TWO_BOXES, VG_TOO_MANY, 84},
    {DECLARE NAME_A SCALAR NUM ROW, VG_UNDERFLOW, 11},
    {DECLARE NAME_A SCALAR NUM USE NAME_A JOIN, VG_UNDERFLOW, 15},
    {DECLARE NAME_A ONE("03") NUM USE NAME_A DECLARE NAME_A ONE("04") NUM USE NAME_A PERVADE "00", VG_UNPERVADED, 46},
    {USE NAME_A, VG_UNDECLARED, 0},
    {USE NAME_A DECLARE NAME_A SCALAR NUM, VG_UNDECLARED, 0},
    {DECLARE NAME_A SCALAR NUM USE NAME_B, VG_UNDECLARED, 11},
    {PUT SCALAR DEF FIELDS USE "016e", VG_UNDECLARED, 37},
    {A_TO_P DECLARED("71"), VG_TOO_MANY_NAMES, 176},
    {A_TO_P DECLARE "0171" "534809", VG_OUT_OF_RANGE, 180},
};
static const size_t refused_sheets_made = sizeof refused_sheets / sizeof refused_sheets[0];

static void lent_to_sheets(void)
{
    expect("six types at once", VG_MAX_STACK == 6 && VG_SHEET_RESULT_BYTES == 29952 && VG_TYPE_BYTES == 4992);
    expect("a type in the scratch", VG_PACKED_BYTES == 4288);
    expect("six types in the scratch", VG_SCRATCH_BYTES == 25728);
    expect("sixteen names of sixteen bytes", VG_MAX_NAMES == 16 && VG_MAX_NAME == 16);
    begin();
    append_largest(&types_left, 1);
    fresh();
    expect("a largest type", types_left.length == VG_TYPE_BYTES && value(vg_read(types_left.data, types_left.length), 0));
    for (size_t i = 0; i < puttings_made; i++) {
        puts_alone(&puttings[i]);
    }
    seventh_of_any_bytes();
    up_and_down();
    largest_joined();
    steps_on_a_full_stack();
    for (const refused_sheet *r = refused_sheets; r < refused_sheets + refused_sheets_made; r++) {
        begin();
        append(&made, hex(r->sheet));
        lend_each(r->sheet, refuses(r->number, r->place));
    }
}

int main(void)
{
    outlive_failed_writes();
    version();
    types();
    shapes();
    scalars();
    kinds();
    sizes();
    values();
    rows();
    validation();
    lengths();
    compatible_shapes();
    found_steps();
    steps();
    sheets();
    lent_to_sheets();
    named_tables();
    worked_types();
    printf("%u calls, %u wrong\n", calls, wrong);
    if (!is_written()) {
        return fail("the answer", "cannot be written");
    }
    return wrong == 0 ? 0 : 1;
}
