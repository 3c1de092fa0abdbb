/* Measures how much stack each call of the library uses. Prints a line for each, and the greatest beside VG_STACK_BYTES.
 *
 *   stack_use [FILE...]
 *
 * The calls are made on a thread whose stack was painted with one byte; what has another byte afterwards was used. Each call is made on
 * types and sheets that are worst by their kind: as large, as deep and as many as the limits allow, in all pairs; and on the sheets in the
 * files. It is a measurement, and no proof: of other inputs it says nothing. The status is 1 if a call used more than the header says.
 */
#define _XOPEN_SOURCE 700 /* pthread_attr_setstack, mprotect */
#include <inttypes.h>
#include <math.h>
#include <pthread.h>
#include <stdio.h>
#include <string.h>
#include <sys/mman.h>
#include "expect.h"
#include "sheet_file.h"

const char *const host = "stack_use";

/* ---- the painted stack ----------------------------------------------------------------------------------------------------- */

/* So far below its own frame the measuring function leaves bytes unpainted, for the functions that paint; they count as used. */
#define UNPAINTED 1024

/* The lowest page may not be touched, so that a call which goes beyond the painted bytes ends the host and writes nowhere else. */
#define PAGE 65536
static _Alignas(PAGE) uint64_t stack[(PAGE + 128 * 1024) / 8];
static uint64_t *const lowest = stack + PAGE / 8;

/* Everything is measured with each: a call may write the one paint itself. */
static const uint64_t paints[] = {UINT64_C(0xa5a5a5a5a5a5a5a5), UINT64_C(0x3c3c3c3c3c3c3c3c)};
static uint64_t paint;

static void paint_from(uint64_t *at, const uint64_t *end)
{
    for (; at < end; at++) {
        *at = paint;
    }
}

static uint64_t *first_used(const uint64_t *end)
{
    uint64_t *at = lowest;
    while (at < end && *at == paint) {
        at++;
    }
    return at;
}

/* The end of what is painted, seen from a frame. */
static uint64_t *end_below(uintptr_t frame) { return stack + (frame - UNPAINTED - (uintptr_t)stack) / 8; }

/* Bytes of stack that a call used, from the frame of the function that measures. What it used is painted again. */
static size_t used_by(void (*call)(void))
{
    const uintptr_t frame = (uintptr_t)__builtin_frame_address(0);
    uint64_t *used;
    call();
    used = first_used(end_below(frame));
    paint_from(used, end_below(frame));
    return frame - (uintptr_t)used;
}

/* ---- what is handed in ----------------------------------------------------------------------------------------------------- */

static struct input {
    const uint8_t *a, *b;
    size_t a_len, b_len;
    uint64_t number; /* a flag, a side, a kind, an index or a place */
    double x;
    const double *list;
    size_t list_len;
} in;

static uint8_t result[VG_BOXES_BYTES];
static double row;
static uint64_t sizes[VG_MAX_SIZES];

#define A in.a, in.a_len
#define B in.b, in.b_len
#define OUT result, sizeof result
#define V in.number, in.x, in.list, in.list_len, in.a, in.a_len

/* A function that makes one call. */
#define CALL(name, arguments)              \
    static void make_##name(void)          \
    {                                      \
        vg_##name arguments;               \
    }

CALL(version, ())
CALL(check_sheet, (A, OUT, scratch, sizeof scratch))
CALL(find_step, (A, in.number))
CALL(read, (A))
CALL(type_length, (A))
CALL(shape_record, (A, OUT))
CALL(scalar_record, (A, OUT))
CALL(row, (A, OUT))
CALL(first_row, (A, OUT))
CALL(last_row, (A, OUT))
CALL(nth_row, (A, in.number, OUT))
CALL(unboxed, (A, OUT))
CALL(as_boxes, (A, OUT))
CALL(field, (A, in.number))
CALL(join, (A, B, OUT))
CALL(merge, (A, B, OUT))
CALL(join_shapes, (A, B, OUT))
CALL(row_shape, (A, OUT))
CALL(pervade, (in.number, A, B, OUT))
CALL(compatible_shapes, (A, B))
CALL(shape_is_any, (A))
CALL(shape_is_scalar, (A))
CALL(row_count, (A))
CALL(rank, (A))
CALL(union, (A, B, OUT))
CALL(unrefine, (A, OUT))
CALL(superset, (A, B))
CALL(compatible_scalars, (A, B))
CALL(compatible_with_boxes, (A, B))
CALL(compare, (A, B))
CALL(kinds, (OUT))
CALL(dim_cmp, (in.a_len, in.number))
CALL(dim_cmp_defined, (in.a_len, in.number))
CALL(dim_max, (in.a_len, in.number))
CALL(dim_join, (in.a_len, in.number))
CALL(dim_compatible, (in.a_len, in.number))
CALL(dim_row_compatible, (in.a_len, in.number))
CALL(val_ty, (V, OUT))
CALL(val_spec, (V, OUT))
CALL(val_scalar, (V, OUT))
CALL(nums_scalar, (in.list, in.list_len, OUT))
CALL(val_row_count, (V))
CALL(val_rank, (V))
CALL(val_row, (V, &row, OUT))
CALL(val_first_row, (V, &row, OUT))
CALL(val_last_row, (V, &row, OUT))
CALL(as_dim, (V))
CALL(as_dims, (V, sizes, VG_MAX_SIZES))
CALL(validate, (in.number, A, B, OUT))
CALL(check_shape, (in.number, A, B, OUT))
CALL(check_scalar, (A, B, OUT))

/* What a call takes: a sheet; two types and a number; a value. Those that take less have no other answer for it. */
enum takes { A_SHEET, TYPES, A_VALUE };

static struct call {
    const char *name;
    void (*make)(void);
    enum takes takes;
    size_t most;
} calls_made[] = {
#define OF(name, takes) {"vg_" #name, make_##name, takes, 0}
    OF(version, TYPES), OF(check_sheet, A_SHEET), OF(find_step, A_SHEET), OF(read, TYPES), OF(type_length, TYPES), OF(shape_record, TYPES),
    OF(scalar_record, TYPES), OF(row, TYPES), OF(first_row, TYPES), OF(last_row, TYPES), OF(nth_row, TYPES), OF(unboxed, TYPES),
    OF(as_boxes, TYPES), OF(field, TYPES), OF(join, TYPES), OF(merge, TYPES), OF(join_shapes, TYPES), OF(row_shape, TYPES), OF(pervade, TYPES),
    OF(compatible_shapes, TYPES), OF(shape_is_any, TYPES), OF(shape_is_scalar, TYPES), OF(row_count, TYPES), OF(rank, TYPES), OF(union, TYPES),
    OF(unrefine, TYPES), OF(superset, TYPES), OF(compatible_scalars, TYPES), OF(compatible_with_boxes, TYPES), OF(compare, TYPES), OF(kinds, TYPES),
    OF(dim_cmp, TYPES), OF(dim_cmp_defined, TYPES), OF(dim_max, TYPES), OF(dim_join, TYPES), OF(dim_compatible, TYPES),
    OF(dim_row_compatible, TYPES), OF(val_ty, A_VALUE), OF(val_spec, A_VALUE), OF(val_scalar, A_VALUE), OF(nums_scalar, A_VALUE),
    OF(val_row_count, A_VALUE), OF(val_rank, A_VALUE), OF(val_row, A_VALUE), OF(val_first_row, A_VALUE), OF(val_last_row, A_VALUE),
    OF(as_dim, A_VALUE), OF(as_dims, A_VALUE), OF(validate, TYPES), OF(check_shape, TYPES), OF(check_scalar, TYPES),
};
static const size_t calls_count = sizeof calls_made / sizeof calls_made[0];

static void make_all(enum takes takes)
{
    for (struct call *c = calls_made; c < calls_made + calls_count; c++) {
        if (c->takes == takes) {
            const size_t used = used_by(c->make);
            c->most = used > c->most ? used : c->most;
        }
    }
}

/* ---- types ----------------------------------------------------------------------------------------------------------------- */

typedef struct ty {
    uint8_t data[VG_TYPE_BYTES];
    size_t length;
} ty;

static ty pool[32];
static size_t pool_count;

static ty *next_type(void)
{
    pool[pool_count].length = 0;
    return &pool[pool_count++];
}

static void and_bytes(ty *t, bytes more)
{
    memcpy(t->data + t->length, more.data, more.length);
    t->length += more.length;
}

static void small_type(const char *text) { and_bytes(next_type(), hex(text)); }

/* A Def of so many fields, with all the sizes and letters that there may be; n tells it from others. */
static void and_def(ty *t, uint8_t n, uint8_t fields) { and_bytes(t, largest_part(n, fields)); }

/* As wide as may be: 31 fields. */
static void wide_type(uint8_t n)
{
    ty *t = next_type();
    and_def(t, n, VG_MAX_FIELDS);
    for (int i = 0; i < VG_MAX_FIELDS; i++) {
        and_def(t, n, 0);
    }
}

/* As deep as may be: boxes in boxes, All or Def, seven of them, and what stands in the last. */
static void deep_alls(uint8_t n, const char *last)
{
    ty *t = next_type();
    for (int i = 1; i < VG_MAX_DEPTH; i++) {
        bytes b = largest_part(n, 0);
        b.length = 4 + 2 * VG_MAX_SIZES * 8; /* its shape alone */
        and_bytes(t, followed(b, hex(ALL)));
    }
    and_bytes(t, hex(last));
}

/* Seven Defs, each with three fields behind or before the one that holds the next, and more in the last: 32 types. */
static void deep_defs(uint8_t n, int before)
{
    ty *t = next_type();
    const int beside = 3, more = VG_MAX_TYPES - (VG_MAX_DEPTH - 1) - beside * (VG_MAX_DEPTH - 2);
    for (int i = 1; i < VG_MAX_DEPTH - 1; i++) {
        and_def(t, n, (uint8_t)(beside + 1));
        for (int j = 0; before && j < beside; j++) {
            and_def(t, n, 0);
        }
    }
    and_def(t, n, (uint8_t)more);
    for (int j = 0; j < more; j++) {
        and_def(t, n, 0);
    }
    for (int i = 1; i < VG_MAX_DEPTH - 1; i++) {
        for (int j = 0; !before && j < beside; j++) {
            and_def(t, n, 0);
        }
    }
}

static void make_types(void)
{
    small_type(SCALAR NUM);
    small_type(OPEN ANY);
    small_type(ONE("1f") ANY); /* of which a spec with a name makes 31 copies */
    small_type(ONE("20") ANY);
    small_type(OPEN "534308425802016e00"); /* that spec */
    small_type(OPEN ALL OPEN ANY);
    small_type(UNKNOWN_ONE BOX_ANY);
    small_type("5348");
    small_type("5858");
    for (uint8_t n = 1; n <= 2; n++) {
        wide_type(n);
        deep_alls(n, OPEN ANY);
        deep_alls(n, SCALAR "53430a"); /* is refused in the innermost */
        deep_alls(n, OPEN ALL OPEN NUM); /* nine deep */
        deep_defs(n, 0);
        deep_defs(n, 1);
    }
}

static void each_pair(void)
{
    static const uint64_t numbers[] = {0, 1, 2, 3, 30, VG_MAX_SIZE, VG_UNKNOWN};
    for (size_t i = 0; i < pool_count * pool_count; i++) {
        const ty *a = &pool[i / pool_count], *b = &pool[i % pool_count];
        in.a = a->data, in.a_len = a->length;
        in.b = b->data, in.b_len = b->length;
        for (size_t j = 0; j < sizeof numbers / sizeof numbers[0]; j++) {
            in.number = numbers[j];
            make_all(TYPES);
        }
    }
}

/* ---- values ---------------------------------------------------------------------------------------------------------------- */

static void each_value(void)
{
    static const double numbers[] = {0.0, 1.0, -1.0, 0.5, 9007199254740992.0, 1e300, INFINITY, NAN};
    static const double lists[4][VG_MAX_SIZES + 1] = {{1, 2, 3, 4, 5, 6, 7, 8, 9}, {INFINITY, 1, 2}, {0.5}, {1, 1, 1, 1, 1, 1, 1, -1}};
    for (uint64_t kind = VG_NUMBER; kind <= VG_TYPE + 1; kind++) {
        for (size_t i = 0; i < pool_count; i++) {
            for (size_t j = 0; j < sizeof numbers / sizeof numbers[0]; j++) {
                for (size_t length = 0; length <= VG_MAX_SIZES + 1; length++) {
                    in.a = pool[i].data, in.a_len = pool[i].length;
                    in.number = kind;
                    in.x = numbers[j];
                    in.list = lists[j % 4], in.list_len = length;
                    make_all(A_VALUE);
                }
            }
        }
    }
}

/* ---- sheets ---------------------------------------------------------------------------------------------------------------- */

/* What was made, and where a refusal might be: at its front, in its middle and at its end. */
static void make_sheet(const uint8_t *sheet, size_t length)
{
    const uint64_t places[] = {0, length / 2, length};
    for (size_t i = 0; i < sizeof places / sizeof places[0]; i++) {
        in.a = sheet, in.a_len = length;
        in.number = places[i];
        make_all(A_SHEET);
    }
}

static void with_type(const char *mark, const ty *t)
{
    append(&made, hex(mark));
    append_all(&made, t->data, t->length);
}

/* Four of the one type, one of each, a step on the upper two, and rows up to 64 steps. */
static void on_six(const ty *a, const ty *b, const char *step, const ty *spec)
{
    begin();
    for (int i = 0; i < VG_MAX_STACK - 1; i++) {
        with_type(PUT, a);
    }
    with_type(PUT, b);
    append(&made, hex(step));
    if (spec != NULL) {
        append_all(&made, spec->data, spec->length);
    }
    for (int i = VG_MAX_STACK + 1; i < VG_MAX_STEPS; i++) {
        append(&made, hex(i % 4 == 0 ? JOIN : i % 4 == 1 ? PERVADE "03" : ROW));
    }
    make_sheet(made.data, made.length);
}

/* Sixteen names of sixteen letters, and uses of each in turn, joined. */
static void by_names(const ty *a, const ty *b)
{
    bytes name = hex("10 6e6e6e6e6e6e6e6e6e6e6e6e6e6e6e6e");
    begin();
    for (uint8_t i = 0; i < VG_MAX_NAMES; i++) {
        const ty *t = i % 2 == 0 ? a : b;
        name.data[name.length - 1] = (uint8_t)('a' + i);
        append(&made, followed(hex(DECLARE), name));
        append_all(&made, t->data, t->length);
    }
    for (int i = VG_MAX_NAMES; i + 1 < VG_MAX_STEPS; i += 2) {
        name.data[name.length - 1] = (uint8_t)('a' + i % VG_MAX_NAMES);
        append(&made, followed(hex(USE), name));
        append(&made, i > VG_MAX_NAMES ? hex(i % 4 == 0 ? JOIN : PERVADE "02") : hex(ROW));
    }
    make_sheet(made.data, made.length);
}

static void each_sheet(void)
{
    for (size_t i = 0; i < pool_count * pool_count; i++) {
        const ty *a = &pool[i / pool_count], *b = &pool[i % pool_count];
        on_six(a, b, ROW, NULL);
        on_six(a, b, JOIN, NULL);
        on_six(a, b, PERVADE "00", NULL);
        on_six(a, b, PERVADE "03", NULL);
        on_six(a, b, VALIDATION, a);
        on_six(a, b, VALIDATION, b);
        by_names(a, b);
    }
}

/* ---- the whole ------------------------------------------------------------------------------------------------------------- */

static char **files;
static int failed;

static void each_file(void)
{
    static sheet_file sheet;
    for (char **file = files; *file != NULL; file++) {
        const char *how = read_sheet(*file, &sheet);
        if (how != NULL) {
            failed = fail(*file, how);
            return;
        }
        make_sheet(sheet.bytes, sheet.length);
    }
}

/* What a thread does. Its stack is painted before it begins; the first call that is measured is none of the library's, and only paints
 * again what the thread itself used. */
static void nothing(void) {}

static void *measure(void *unused)
{
    (void)unused;
    used_by(nothing);
    each_pair();
    each_value();
    each_sheet();
    each_file();
    return NULL;
}

static int measured_on_painted(void)
{
    pthread_attr_t attributes;
    pthread_t thread;
    paint_from(lowest, stack + sizeof stack / 8);
    return pthread_attr_init(&attributes) == 0 && pthread_attr_setstack(&attributes, lowest, sizeof stack - PAGE) == 0 &&
           pthread_create(&thread, &attributes, measure, NULL) == 0 && pthread_join(thread, NULL) == 0;
}

int main(int argc, char **argv)
{
    const struct call *greatest = calls_made;
    outlive_failed_writes();
    files = argv + (argc > 0);
    make_types();
    if (mprotect(stack, PAGE, PROT_NONE) != 0) {
        return fail("the stack", "cannot be guarded");
    }
    for (size_t i = 0; i < sizeof paints / sizeof paints[0]; i++) {
        paint = paints[i];
        if (!measured_on_painted()) {
            return fail("the stack", "cannot be painted: no thread was started on it");
        }
        if (failed != 0) {
            return failed;
        }
    }
    for (const struct call *c = calls_made; c < calls_made + calls_count; c++) {
        printf("%-26s %6zu\n", c->name, c->most);
        greatest = c->most > greatest->most ? c : greatest;
    }
    printf("the greatest: %s, %zu bytes of stack; VG_STACK_BYTES is %d\n", greatest->name, greatest->most, VG_STACK_BYTES);
    if (!is_written()) {
        return fail("what was measured", "cannot be written");
    }
    return greatest->most <= VG_STACK_BYTES ? 0 : 1;
}
