/* Sheets in which types are worked on, come to lie under others, and are worked on again: whatever the scratch keeps of a type, all of
 * it must come back, also of one that was put by a name. Then two such sheets at the same time.
 *
 * No rule is written down here but for shapes that stay nearly as they are; what is left is told from what was put.
 */
#include <pthread.h>
#include <stdio.h>
#include <string.h>
#include "block.h"
#include "expect.h"

/* ---- scalars of all sorts -------------------------------------------------------------------------------------------------- */

/* What follows the shape of a type, made once. */
typedef struct scalar {
    const char *name;
    uint8_t record[VG_TYPE_BYTES];
    size_t length;
} scalar;

static scalar scalars[24];
static size_t scalars_made;

/* The scalar is what was made. */
static void keep_scalar(const char *name)
{
    scalar *s = &scalars[scalars_made++];
    s->name = name;
    s->length = made.length;
    memcpy(s->record, made.data, made.length);
    begin();
}

/* A shape with sizes 0, 1, 2^53 and ?, opening and closing, for the types in a box; and a name as long as there can be, with the first
 * and the last byte that a name may have. */
#define INSIDE "53480404" "0000000000000000" "0100000000000000" "0000000000002000" "ffffffffffffffff" \
                          "ffffffffffffffff" "0000000000002000" "0100000000000000" "0000000000000000"
#define BOX_NAMED(fields) "534308425802 10 207e6162636465666768696a6b6c6d6e" fields

typedef struct sort {
    const char *name;
    const char *record;
} sort;

static const sort sorts[] = {
    {"Bool", BOOL},
    {"Nat", NAT},
    {"Int", INT},
    {"Num", NUM},
    {"Complex", COMPLEX},
    {"Ascii", ASCII},
    {"Char", CHAR},
    {"Stream", STREAM},
    {"box Any", BOX_ANY},
    {"Any", ANY},
    {"box All", ALL INSIDE NUM},
    {"a box without name and fields", "534308425802ff00"},
    {"a box with an empty name", "5343084258020000"},
    {"a box with a short name", DEF INSIDE CHAR SCALAR "5343084258020000"},
};
static const size_t sorts_made = sizeof sorts / sizeof sorts[0];

/* Seven of these heads around a number are eight types deep. */
static void keep_deep(const char *name, const char *head)
{
    for (size_t i = 1; i < VG_MAX_DEPTH; i++) {
        append(&made, hex(head));
    }
    append(&made, hex(NUM));
    keep_scalar(name);
}

/* Fields of the first nine sorts, which have no types inside. */
static void keep_wide(const char *name)
{
    append(&made, hex(BOX_NAMED("1f")));
    for (size_t i = 0; i < VG_MAX_FIELDS; i++) {
        append(&made, hex(INSIDE));
        append(&made, hex(sorts[i % 9].record));
    }
    keep_scalar(name);
}

/* A largest type without its shape. */
static void keep_largest(const char *name)
{
    const size_t shape_bytes = largest_part(0, 0).length - hex(BOX_NAMED("00")).length;
    append_largest(&types_left, 7);
    append_all(&made, types_left.data + shape_bytes, types_left.length - shape_bytes);
    keep_scalar(name);
}

static void keep_scalars(void)
{
    begin();
    for (const sort *s = sorts; s < sorts + sorts_made; s++) {
        append(&made, hex(s->record));
        keep_scalar(s->name);
    }
    keep_deep("boxes eight deep", ALL INSIDE);
    keep_deep("boxes with long names eight deep", BOX_NAMED("01") INSIDE);
    keep_wide("a box of 31 fields");
    keep_largest("a largest type's box");
}

/* ---- types as they are laid ------------------------------------------------------------------------------------------------ */

/* A type whose shape the steps below change, and nothing else. */
#define CLOSED 255

typedef struct sized {
    const scalar *scalar;
    size_t openings;
    size_t closings; /* or CLOSED */
    uint64_t opening[VG_MAX_SIZES];
    uint64_t closing[VG_MAX_SIZES];
} sized;

static size_t closings_named(const sized *t) { return t->closings == CLOSED ? 0 : t->closings; }

static void append_sizes(stretch *s, const uint64_t *sizes_made, size_t count)
{
    for (size_t i = 0; i < 8 * count; i++) {
        s->data[s->length++] = (uint8_t)(sizes_made[i / 8] >> i % 8 * 8);
    }
}

static void append_sized(stretch *s, const sized *t)
{
    append(s, hex("5348"));
    s->data[s->length++] = (uint8_t)t->openings;
    s->data[s->length++] = (uint8_t)t->closings;
    append_sizes(s, t->opening, t->openings);
    append_sizes(s, t->closing, closings_named(t));
    append_all(s, t->scalar->record, t->scalar->length);
}

/* How they are put: as they are; by one name, which is declared anew for each; by names in turn, as many as there may be. */
enum naming { UNNAMED, ONE_NAME, NAMES_IN_TURN, NAMINGS };
static const char *const naming_name[] = {"", ", by one name", ", by names in turn"};
static enum naming naming;

static bytes next_name(void)
{
    static size_t named;
    bytes name = hex(NAME_A);
    if (naming == NAMES_IN_TURN) {
        name.data[1] = (uint8_t)('a' + named++ % VG_MAX_NAMES);
    }
    return name;
}

static void put_sized(const sized *t)
{
    const bytes name = next_name();
    append(&made, naming == UNNAMED ? hex(PUT) : followed(hex(DECLARE), name));
    append_sized(&made, t);
    if (naming != UNNAMED) {
        append(&made, followed(hex(USE), name));
    }
}

/* [] of a scalar to which the other's, on top of it, is equal or a superset. */
static void put_yielding(const scalar *s)
{
    append(&made, hex(PUT SCALAR));
    if (s->record[2] == 8) {
        append(&made, hex(BOX_ANY));
    } else {
        append_all(&made, s->record, s->length);
    }
}

/* What the rules make of the shape. A row drops the first size. [..] opens what is closed. Against nothing 1 becomes ?. A join with
 * itself leaves the closing sizes in the other order, and the first of them unknown. */
static void drop_first(sized *t)
{
    uint64_t *from = t->openings > 0 ? t->opening : t->closing;
    size_t *count = t->openings > 0 ? &t->openings : &t->closings;
    if (t->openings + closings_named(t) > 0) {
        memmove(from, from + 1, (VG_MAX_SIZES - 1) * sizeof *from);
        --*count;
    }
}

static void open_up(sized *t) { t->closings = closings_named(t); }

static void forget_ones(sized *t)
{
    for (size_t i = 0; i < t->openings; i++) {
        t->opening[i] = t->opening[i] == 1 ? VG_UNKNOWN : t->opening[i];
    }
}

static void turn_closing(sized *t)
{
    const sized old = *t;
    for (size_t i = 0; i < closings_named(t); i++) {
        t->closing[i] = i == 0 ? VG_UNKNOWN : old.closing[old.closings - i];
    }
}

/* How a type comes to lie on the stack. The last two have two types more there for a while, the others one. */
enum way { AS_PUT, BY_ROW, BY_VALIDATION, BY_PERVADING, BY_JOIN, WAYS };
static const char *const way_name[] = {"as put", "by row", "by validation", "by pervading", "by join"};

static int has_room(enum way way, size_t below) { return below + (way < BY_PERVADING ? 1 : 2) <= VG_MAX_STACK; }

/* Appends the steps to the sheet, and answers what they leave. */
static sized lay(enum way way, const sized *t)
{
    sized left = *t;
    if (way == BY_PERVADING) {
        put_yielding(t->scalar);
    }
    put_sized(t);
    if (way == BY_ROW) {
        append(&made, hex(ROW));
        drop_first(&left);
    } else if (way == BY_VALIDATION) {
        append(&made, hex(VALIDATION OPEN ANY));
        open_up(&left);
    } else if (way == BY_PERVADING) {
        append(&made, hex(PERVADE "00"));
        forget_ones(&left);
    } else if (way == BY_JOIN) {
        put_sized(t);
        append(&made, hex(JOIN));
        turn_closing(&left);
    }
    return left;
}

static void lay_and_leave(enum way way, const sized *t)
{
    const sized left = lay(way, t);
    append_sized(&types_left, &left);
}

/* ---- under others ---------------------------------------------------------------------------------------------------------- */

/* Shapes with as many sizes as there can be and with none; closed, open, and with closing sizes named. A row of a box does not change
 * its scalar but at rank 1, which none has. */
#define POWER(n) (UINT64_C(1) << (n))
#define SIZES_UP {0, 1, 255, 256, POWER(48) - 1, POWER(48), VG_MAX_SIZE, VG_UNKNOWN}
#define SIZES_DOWN {VG_UNKNOWN, VG_MAX_SIZE, VG_MAX_SIZE - 1, POWER(52), 65535, 2, 1, 0}

static const sized shapes[] = {
    {NULL, 0, CLOSED, {0}, {0}},
    {NULL, 0, 0, {0}, {0}},
    {NULL, 2, CLOSED, {1, VG_MAX_SIZE}, {0}},
    {NULL, 8, CLOSED, SIZES_UP, {0}},
    {NULL, 8, 0, SIZES_DOWN, {0}},
    {NULL, 0, 8, {0}, SIZES_UP},
    {NULL, 1, 2, {VG_UNKNOWN}, {0, VG_MAX_SIZE}},
    {NULL, 8, 8, SIZES_UP, SIZES_DOWN},
};
static const size_t shapes_made = sizeof shapes / sizeof shapes[0];

/* [? n] of a kind, told from the others by n, as put or as a row or a validation leaves it. */
static void lay_small(size_t n)
{
    const sized t = {&scalars[n % 8], 2, CLOSED, {VG_UNKNOWN, n}, {0}};
    lay_and_leave((enum way)(n % BY_PERVADING), &t);
}

/* A type of each sort, laid each way, under and above so many others. */
static void one_under_others(const sized *t, enum way way, size_t below)
{
    char what[128];
    begin();
    for (size_t i = 0; i < VG_MAX_STACK; i++) {
        if (i == below) {
            lay_and_leave(way, t);
        } else {
            lay_small(i + 2);
        }
    }
    snprintf(what, sizeof what, "%s, %zu and %zu sizes, ", t->scalar->name, t->openings, closings_named(t));
    snprintf(what + strlen(what), sizeof what - strlen(what), "%s, above %zu%s", way_name[way], below, naming_name[naming]);
    lend_exactly(what, leaves(VG_MAX_STACK));
}

static void each_under_others(void)
{
    for (size_t i = 0; i < scalars_made; i++) {
        for (size_t j = 0; j < shapes_made; j++) {
            sized t = shapes[j];
            t.scalar = &scalars[i];
            for (enum way way = AS_PUT; way < WAYS; way++) {
                for (size_t below = 0; has_room(way, below); below++) {
                    one_under_others(&t, way, below);
                }
            }
        }
    }
}

/* A largest type; one of its sizes is n. */
static sized largest(uint64_t n)
{
    sized t = shapes[shapes_made - 1];
    t.scalar = &scalars[scalars_made - 1];
    t.opening[2] = n;
    return t;
}

/* Six of them, each laid in a way of its own, by the digits of a number. */
static void six_largest(size_t ways)
{
    begin();
    for (size_t i = 0; i < VG_MAX_STACK; i++, ways /= WAYS) {
        const sized t = largest(i + 2);
        lay_and_leave((enum way)(ways % WAYS), &t);
    }
}

/* The number whose digits are four times the one way and twice the other, which the sixth has room for. */
static size_t all_by(enum way lower, enum way upper)
{
    size_t ways = 0;
    for (size_t i = VG_MAX_STACK; i > 0; i--) {
        ways = WAYS * ways + (i > VG_MAX_STACK - 2 ? upper : lower);
    }
    return ways;
}

static void largest_in_all_ways(void)
{
    char what[64];
    size_t all = BY_PERVADING; /* the sixth has no room for the last two ways */
    for (size_t i = 1; i < VG_MAX_STACK; i++) {
        all *= WAYS;
    }
    for (size_t ways = 0; ways < all; ways++) {
        six_largest(ways);
        snprintf(what, sizeof what, "six largest types, ways %zu%s", ways, naming_name[naming]);
        lend_exactly(what, leaves(VG_MAX_STACK));
    }
}

/* ---- dug up again ---------------------------------------------------------------------------------------------------------- */

/* What a step from the top down makes of six types of one scalar, each with six opening sizes: a type's own, or what is told of the
 * types from one place to another. */
typedef struct digging {
    const char *name;
    const char *step;
    sized (*told)(const scalar *s, size_t from, size_t to);
    size_t (*closings)(size_t top, size_t below);
} digging;

/* Each knows a size that the others do not, and the lowest knows closing ones: pervading keeps them all. A closed one yields to the
 * other's closing sizes, and so does an open one that names none. */
static sized knowing(const scalar *s, size_t from, size_t to)
{
    static const uint64_t known[VG_MAX_STACK] = {0, VG_MAX_SIZE, 255, 256, POWER(48), 2};
    sized t = {s, VG_MAX_STACK, from == 0 ? VG_MAX_SIZES : CLOSED, {0}, SIZES_DOWN};
    for (size_t i = 0; i < VG_MAX_STACK; i++) {
        t.opening[i] = from <= i && i <= to ? known[i] : VG_UNKNOWN;
    }
    return t;
}

static size_t pervaded_closings(size_t top, size_t below) { return top == CLOSED ? below : below == CLOSED ? top : top + below; }

/* Each has a size that the others do not have: joining keeps none of them. It is open only if both are, and none names closing sizes. */
static sized differing(const scalar *s, size_t from, size_t to)
{
    static const uint64_t common[VG_MAX_STACK] = {0, 1, VG_MAX_SIZE, 255, POWER(48), 2};
    sized t = {s, VG_MAX_STACK, CLOSED, {0}, {0}};
    for (size_t i = 0; i < VG_MAX_STACK; i++) {
        t.opening[i] = i < from || i > to ? common[i] : from == to ? 7 : VG_UNKNOWN;
    }
    return t;
}

static size_t joined_closings(size_t top, size_t below) { return top == CLOSED || below == CLOSED ? CLOSED : 0; }

static const digging diggings[] = {
    {"pervaded", PERVADE "00", knowing, pervaded_closings},
    {"joined", JOIN, differing, joined_closings},
};
static const size_t diggings_made = sizeof diggings / sizeof diggings[0];

/* In one of the first three ways; a row drops a size that was in front of the six. */
static sized lay_own(enum way way, sized t)
{
    if (way == BY_ROW) {
        memmove(t.opening + 1, t.opening, VG_MAX_STACK * sizeof t.opening[0]);
        t.opening[0] = 3;
        t.openings++;
    }
    return lay(way, &t);
}

static void leave(const sized *there, size_t count)
{
    types_left.length = 0;
    for (size_t i = 0; i < count; i++) {
        append_sized(&types_left, &there[i]);
    }
}

/* The step on the upper two of so many, which makes one of them. */
static void dig_one(const digging *d, sized *there, size_t count)
{
    sized *below = &there[count - 2];
    const size_t closings = d->closings(there[count - 1].closings, below->closings);
    append(&made, hex(d->step));
    *below = d->told(below->scalar, count - 2, VG_MAX_STACK - 1);
    below->closings = closings;
}

/* Up to six, down to one, up to six on that one, and down again: what is dug up is what was laid there last. */
static void dig(const digging *d, const scalar *s, size_t ways)
{
    char what[128];
    sized there[VG_MAX_STACK];
    size_t count = 0;
    begin();
    for (int again = 0; again < 2; again++) {
        for (; count < VG_MAX_STACK; count++, ways++) {
            there[count] = lay_own((enum way)(ways % BY_PERVADING), d->told(s, count, count));
        }
        for (; count > 1; count--) {
            leave(there, count);
            snprintf(what, sizeof what, "%s, %s down to %zu, ways %zu%s", s->name, d->name, count, ways, naming_name[naming]);
            lend_exactly(what, leaves(count));
            dig_one(d, there, count);
        }
        leave(there, count);
        snprintf(what, sizeof what, "%s, %s down to one, ways %zu%s", s->name, d->name, ways, naming_name[naming]);
        lend_each(what, leaves(count));
    }
}

/* ---- each step on six largest types ---------------------------------------------------------------------------------------- */

/* Laid in one way, a step on them, and what it makes of the top. */
static void step_on_largest(enum way way, const char *step, size_t count, sized top)
{
    char what[64];
    sized there[VG_MAX_STACK];
    begin();
    for (size_t i = 0; i < VG_MAX_STACK; i++) {
        const sized t = largest(i + 2);
        there[i] = lay(way, &t);
    }
    append(&made, hex(step));
    there[count - 1] = top;
    leave(there, count);
    snprintf(what, sizeof what, "six largest types, %s%s, then %s", way_name[way], naming_name[naming], step);
    lend_each(what, leaves(count));
}

/* The top has the larger of the two sizes that differ: it stays if the one below is filled, and no closing size does; a join forgets it. */
static void each_step_on_largest(enum way way)
{
    const uint64_t n = VG_MAX_STACK + 1;
    sized row = largest(n), pervaded = largest(n), joined = largest(VG_UNKNOWN);
    drop_first(&row);
    pervaded.closings = 0;
    turn_closing(&joined);
    step_on_largest(way, ROW, VG_MAX_STACK, row);
    step_on_largest(way, VALIDATION OPEN ANY, VG_MAX_STACK, largest(n));
    step_on_largest(way, PERVADE "02", VG_MAX_STACK - 1, pervaded);
    step_on_largest(way, PERVADE "03", VG_MAX_STACK - 1, pervaded);
    step_on_largest(way, JOIN, VG_MAX_STACK - 1, joined);
}

/* ---- refused above worked types -------------------------------------------------------------------------------------------- */

/* Steps on six largest types; the place is counted from the first of them. None of these was put by the name z. */
static const refused_sheet refused_above[] = {
    {"52", VG_ENDED, 0},
    {VALIDATION, VG_ENDED, 2},
    {"5858", VG_UNMARKED, 0},
    {PERVADE "04", VG_OUT_OF_RANGE, 0},
    {VALIDATION "534801ff 0100000000002000" NUM, VG_OVERSIZED, 2},
    {VALIDATION TWO_BOXES TWO_BOXES TWO_BOXES TWO_BOXES, VG_TOO_MANY, 82},
    {JOIN PUT ONE("20") ANY VALIDATION OPEN "534308425802016e00", VG_TOO_MANY, 19},
    {PERVADE "00", VG_UNPERVADED, 0},
    {PERVADE "01", VG_UNPERVADED, 0},
    {VALIDATION OPEN NUM, VG_WRONG_SCALAR, 0},
    {ROW ROW ROW ROW ROW ROW ROW ROW VALIDATION "534801ff 0900000000000000" ANY, VG_WRONG_COUNT, 16},
    {ROW ROW ROW ROW ROW ROW ROW ROW ROW ROW ROW ROW ROW ROW ROW VALIDATION "534801ff 0900000000000000" ANY, VG_WRONG_SHAPE, 30},
    {JOIN JOIN JOIN JOIN JOIN ROW JOIN, VG_UNDERFLOW, 12},
    {PUT SCALAR NUM, VG_OVERFLOW, 0},
    {JOIN PUT SCALAR NUM ROW PUT SCALAR NUM, VG_OVERFLOW, 13},
    {DECLARE, VG_ENDED, 0},
    {DECLARE NAME_Z "534809", VG_OUT_OF_RANGE, 4},
    {DECLARE "00", VG_OUT_OF_RANGE, 0},
    {USE "00", VG_OVERFLOW, 0},
    {USE NAME_Z, VG_OVERFLOW, 0},
    {DECLARE NAME_Z SCALAR NUM USE NAME_Z, VG_OVERFLOW, 11},
    {JOIN USE NAME_Z, VG_UNDECLARED, 2},
    {JOIN DECLARE NAME_Z SCALAR NUM USE NAME_Z ROW USE NAME_Z, VG_OVERFLOW, 19},
};
static const size_t refused_above_made = sizeof refused_above / sizeof refused_above[0];

static void refused_on_largest(size_t ways)
{
    char what[512];
    for (const refused_sheet *r = refused_above; r < refused_above + refused_above_made; r++) {
        six_largest(ways);
        snprintf(what, sizeof what, "six largest types, ways %zu%s, then %s", ways, naming_name[naming], r->sheet);
        const size_t place = made.length + r->place;
        append(&made, hex(r->sheet));
        lend_each(what, refuses(r->number, place));
    }
}

/* ---- two at the same time -------------------------------------------------------------------------------------------------- */

#define ROUNDS 200

/* A sheet, and what it is answered with a result of RESULT_BYTES. */
typedef struct show {
    const char *name;
    stretch sheet;
    stretch left;
    outcome wanted;
} show;

static show shows[6];
static size_t shows_made;

/* The sheet is what was made. */
static void keep_show(const char *name, outcome o)
{
    show *s = &shows[shows_made++];
    s->name = name;
    s->sheet = made;
    s->left = types_left;
    s->wanted = with_lent(o, RESULT_BYTES, VG_SCRATCH_BYTES);
    s->left.length = s->wanted.number == 0 ? types_left.length : 0;
}

static void keep_shows(void)
{
    const scalar *most = &scalars[scalars_made - 1];
    dig(&diggings[0], most, BY_VALIDATION);
    keep_show("a sheet that pervades", leaves(1));
    dig(&diggings[1], most, BY_ROW);
    keep_show("a sheet that joins", leaves(1));
    append(&made, hex(JOIN));
    keep_show("a sheet that lacks a type", refuses(VG_UNDERFLOW, made.length - 2));
    six_largest(all_by(BY_JOIN, BY_VALIDATION));
    keep_show("a sheet that leaves more than there is room for", leaves(VG_MAX_STACK));
    naming = ONE_NAME;
    dig(&diggings[0], most, AS_PUT);
    keep_show("a sheet that names its types", leaves(1));
    naming = UNNAMED;
    begin();
    append(&made, hex(USE NAME_A));
    keep_show("a sheet that has not the other's names", refuses(VG_UNDECLARED, 0));
}

/* One of the two: its show, its part of the block, and how many answers were wrong. A thread counts for itself. */
typedef struct side {
    const show *show;
    uint8_t *part;
    unsigned wrong;
} side;

static int answered_in(const side *s, vg_answer a)
{
    const outcome o = s->show->wanted;
    const stretch *left = &s->show->left;
    const uint8_t *written = s->part + VG_SCRATCH_BYTES;
    return is(a, o.number == 0 ? VG_VALUE : VG_REFUSED, o.number, o.place, o.types, left->length) &&
           memcmp(written, left->data, left->length) == 0 && all_are(lent, written + left->length, RESULT_BYTES - left->length) &&
           all_are(0, s->part, VG_SCRATCH_BYTES);
}

static void *check_side(void *own)
{
    side *s = own;
    const stretch *sheet = &s->show->sheet;
    uint8_t *result = s->part + VG_SCRATCH_BYTES;
    for (int i = 0; i < ROUNDS; i++) {
        memset(s->part, lent, PART_BYTES);
        s->wrong += !answered_in(s, vg_check_sheet(sheet->data, sheet->length, result, RESULT_BYTES, s->part, VG_SCRATCH_BYTES));
    }
    return NULL;
}

static void side_by_side(const show *matinee, const show *evening)
{
    side sides_made[2] = {{matinee, block, 0}, {evening, block + PART_BYTES, 0}};
    pthread_t thread;
    char what[128];
    int started;
    memset(block, lent, sizeof block);
    started = pthread_create(&thread, NULL, check_side, &sides_made[0]) == 0;
    check_side(&sides_made[1]);
    snprintf(what, sizeof what, "%s beside %s", matinee->name, evening->name);
    expect(what, started && pthread_join(thread, NULL) == 0 && sides_made[0].wrong == 0 && sides_made[1].wrong == 0 &&
                     all_are(lent, block + 2 * PART_BYTES, sizeof block - 2 * PART_BYTES));
}

/* Each beside each, and beside itself. */
static void two_at_once(void)
{
    keep_shows();
    for (size_t i = 0; i < shows_made; i++) {
        for (size_t j = 0; j < shows_made; j++) {
            side_by_side(&shows[i], &shows[j]);
        }
    }
}

/* All but two sheets at once. */
static void each_in_its_place(void)
{
    each_under_others();
    largest_in_all_ways();
    for (size_t ways = 0; ways < BY_PERVADING; ways++) {
        for (size_t i = 0; i < scalars_made; i++) {
            for (size_t j = 0; j < diggings_made; j++) {
                dig(&diggings[j], &scalars[i], ways);
            }
        }
    }
    each_step_on_largest(AS_PUT);
    each_step_on_largest(BY_VALIDATION);
    refused_on_largest(all_by(AS_PUT, AS_PUT));
    refused_on_largest(all_by(BY_VALIDATION, BY_VALIDATION));
    refused_on_largest(all_by(BY_PERVADING, BY_VALIDATION));
    refused_on_largest(all_by(BY_JOIN, AS_PUT));
}

void worked_types(void)
{
    keep_scalars();
    six_largest(0);
    expect("six largest types", types_left.length == VG_SHEET_RESULT_BYTES);
    for (naming = UNNAMED; naming < NAMINGS; naming++) {
        each_in_its_place();
    }
    naming = UNNAMED;
    two_at_once();
}
