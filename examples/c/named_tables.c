/* Sheets that name their tables: which names are the same, what a use puts, how many names there may be, and every way to be refused.
 *
 * A use puts what was declared, so what is left is told from that.
 */
#include <stdio.h>
#include <string.h>
#include "expect.h"

/* ---- names and what they stand for ----------------------------------------------------------------------------------------- */

/* A name of these bytes, its length before them. */
static bytes name_of(const uint8_t *letters, size_t length)
{
    bytes b = {{0}, 1 + length};
    b.data[0] = (uint8_t)length;
    memcpy(b.data + 1, letters, length);
    return b;
}

static bytes name(const char *text) { return name_of((const uint8_t *)text, strlen(text)); }

/* A name of one letter, n letters behind a. */
static bytes letter(uint8_t n)
{
    const uint8_t one = (uint8_t)('a' + n);
    return name_of(&one, 1);
}

/* [n] Num. */
static bytes table(uint8_t n)
{
    bytes ty = hex(ONE("00") NUM);
    ty.data[4] = n;
    return ty;
}

static void declare(bytes name_said, bytes ty) { append(&made, followed(followed(hex(DECLARE), name_said), ty)); }

static void use_it(bytes name_said) { append(&made, followed(hex(USE), name_said)); }

/* A use, and what it leaves. */
static void use(bytes name_said, bytes ty)
{
    use_it(name_said);
    append(&types_left, ty);
}

static void put(bytes ty)
{
    append(&made, followed(hex(PUT), ty));
    append(&types_left, ty);
}

/* ---- bytes of a name ------------------------------------------------------------------------------------------------------- */

static int may_be_in_a_name(unsigned byte) { return byte >= 32 && byte <= 126; }

/* One letter of the longest name is another byte: where it is declared and used, and where it is used alone. */
static void any_byte(size_t at, unsigned byte)
{
    const bytes good = name("sixteen letters.");
    const bytes ty = table(3);
    bytes other = good;
    size_t place;
    char what[64];
    other.data[1 + at] = (uint8_t)byte;
    snprintf(what, sizeof what, "byte %u at %zu of a name", byte, at);

    begin();
    declare(other, ty);
    use(other, ty);
    if (may_be_in_a_name(byte)) {
        lend_exactly(what, leaves(1));
    } else {
        lend_exactly(what, refuses(VG_OUT_OF_RANGE, 0));
    }

    begin();
    declare(good, ty);
    place = made.length;
    use(other, ty);
    if (other.data[1 + at] == good.data[1 + at]) {
        lend_exactly(what, leaves(1));
    } else {
        lend_exactly(what, refuses(may_be_in_a_name(byte) ? VG_UNDECLARED : VG_OUT_OF_RANGE, place));
    }
}

/* A name that has as many letters as it says. */
static void any_length(unsigned length)
{
    const bytes ty = table(5);
    bytes long_name = {{0}, 1 + length};
    char what[64];
    long_name.data[0] = (uint8_t)length;
    memset(long_name.data + 1, 'n', length);
    snprintf(what, sizeof what, "a name of %u bytes", length);

    begin();
    declare(long_name, ty);
    use(long_name, ty);
    if (length >= 1 && length <= VG_MAX_NAME) {
        lend_exactly(what, leaves(1));
    } else {
        lend_exactly(what, refuses(VG_OUT_OF_RANGE, 0));
        begin();
        use_it(long_name);
        lend_exactly(what, refuses(VG_OUT_OF_RANGE, 0));
    }
}

static void any_names(void)
{
    for (unsigned byte = 0; byte < 256; byte++) {
        any_byte(0, byte);
        any_byte(8, byte);
        any_byte(VG_MAX_NAME - 1, byte);
        any_length(byte);
    }
}

/* ---- names that are nearly the same ---------------------------------------------------------------------------------------- */

/* Sixteen different names. */
static const char *const alike[] = {
    "tempo", "Tempo", "TEMPO", "tempo ", " tempo", "temp", "tempoo", "tenpo", "uempo", "t", "o", " ", "  ", "~",
    "sixteen letters.", "sixteen letters!",
};
static const size_t alike_made = sizeof alike / sizeof alike[0];

/* Declares all but one, in one order or the other. */
static void declare_alike(size_t left_out, int backwards)
{
    begin();
    for (size_t i = 0; i < alike_made; i++) {
        const size_t n = backwards ? alike_made - 1 - i : i;
        if (n != left_out) {
            declare(name(alike[n]), table((uint8_t)(n + 1)));
        }
    }
}

static void names_alike(int backwards)
{
    char what[64];
    expect("as many names as there may be", alike_made == VG_MAX_NAMES);
    for (size_t n = 0; n < alike_made; n++) {
        declare_alike(alike_made, backwards);
        use(name(alike[n]), table((uint8_t)(n + 1)));
        snprintf(what, sizeof what, "'%s' among names nearly alike", alike[n]);
        lend_exactly(what, leaves(1));

        declare_alike(n, backwards);
        snprintf(what, sizeof what, "'%s', though others are declared", alike[n]);
        const size_t place = made.length;
        use_it(name(alike[n]));
        lend_exactly(what, refuses(VG_UNDECLARED, place));
    }
}

/* ---- cut off and damaged --------------------------------------------------------------------------------------------------- */

/* A declaration and its use, and so many bytes of a step behind them. Answers where that step begins. */
static size_t make_part(bytes step, size_t length)
{
    size_t place;
    begin();
    declare(name("tempo"), table(3));
    use(name("tempo"), table(3));
    place = made.length;
    append_all(&made, step.data, length);
    return place;
}

/* Up to the end of the name it is the step that is cut off, then the shape, then the scalar. */
static void declaration_cut_off(const char *declared)
{
    const bytes step = followed(followed(hex(DECLARE), name(declared)), hex(SCALAR NUM));
    const size_t shape_due = 2 + name(declared).length, scalar_due = shape_due + hex(SCALAR).length;
    char what[64];
    for (size_t length = 1; length < step.length; length++) {
        const size_t place = make_part(step, length);
        snprintf(what, sizeof what, "a declaration of %s cut off after %zu bytes", declared, length);
        lend_exactly(what, refuses(VG_ENDED, place + (length < shape_due ? 0 : length < scalar_due ? shape_due : scalar_due)));
    }
    make_part(step, step.length);
    lend_exactly("a declaration that is whole", leaves(1));
}

/* Whether a name was declared is asked once all of it is there. */
static void use_cut_off(const char *used)
{
    const bytes step = followed(hex(USE), name(used));
    char what[64];
    for (size_t length = 1; length < step.length; length++) {
        const size_t place = make_part(step, length);
        snprintf(what, sizeof what, "a use of %s cut off after %zu bytes", used, length);
        lend_exactly(what, refuses(VG_ENDED, place));
    }
}

/* Types that are damaged, and where they are refused. */
static const refused_sheet damaged_types[] = {
    {"", VG_ENDED, 0},
    {"53", VG_ENDED, 0},
    {SCALAR, VG_ENDED, 4},
    {PUT SCALAR NUM, VG_UNMARKED, 0},
    {SCALAR SCALAR, VG_UNMARKED, 4},
    {"534809", VG_OUT_OF_RANGE, 0},
    {SCALAR "53430a", VG_OUT_OF_RANGE, 4},
    {SCALAR "534308425802 01 09", VG_OUT_OF_RANGE, 7},
    {"534801ff 0100000000002000" NUM, VG_OVERSIZED, 0},
    {TWO_BOXES TWO_BOXES TWO_BOXES TWO_BOXES, VG_TOO_MANY, 80},
};
static const size_t damaged_types_made = sizeof damaged_types / sizeof damaged_types[0];

/* Declared behind so many names, for one of them or for another: a type's own refusal comes first. */
static void declarations_damaged(uint8_t names)
{
    char what[512];
    for (const refused_sheet *r = damaged_types; r < damaged_types + damaged_types_made; r++) {
        for (uint8_t n = 0; n <= names; n++) {
            begin();
            for (uint8_t i = 0; i < names; i++) {
                declare(letter(i), table(i));
            }
            const size_t place = made.length + 2 + letter(n).length + r->place;
            declare(letter(n), hex(r->sheet));
            snprintf(what, sizeof what, "name %d of %d declared as %s", n, names, r->sheet);
            lend_exactly(what, refuses(r->number, place));
        }
    }
}

/* ---- names in force -------------------------------------------------------------------------------------------------------- */

/* Declared before each use, under so many names in turn: what was put stays as it was put. */
static void declared_again(uint8_t names)
{
    char what[64];
    begin();
    for (uint8_t n = 0; n < VG_MAX_STACK; n++) {
        declare(letter(n % names), table(n));
        use(letter(n % names), table(n));
        snprintf(what, sizeof what, "%d names declared again, %d types", names, n + 1);
        lend_each(what, leaves((uint64_t)n + 1));
    }
    /* Declared again at the end, they change nothing more. */
    for (uint8_t n = 0; n < names; n++) {
        declare(letter(n), hex(SCALAR CHAR));
        snprintf(what, sizeof what, "%d of %d names declared again and not used", n + 1, names);
        lend_each(what, leaves(VG_MAX_STACK));
    }
}

/* One name for largest types, one after the other, and for a small one among them. */
static void largest_again(void)
{
    begin();
    for (uint8_t n = 1; n < VG_MAX_STACK; n++) {
        append(&made, followed(hex(DECLARE), letter(0)));
        append_largest(&made, n);
        use_it(letter(0));
        append_largest(&types_left, n);
        if (n == 2) {
            declare(letter(0), table(n));
            use(letter(0), table(n));
        }
    }
    lend_each("a name declared again for largest types", leaves(VG_MAX_STACK));
}

/* A name is of one sheet: nothing is left of it for the next. */
static void another_sheet(void)
{
    begin();
    declare(letter(0), table(3));
    use(letter(0), table(3));
    lend_each("a sheet that declares", leaves(1));
    begin();
    use_it(letter(0));
    lend_each("the next sheet, which only uses", refuses(VG_UNDECLARED, 0));
}

/* ---- as many names as there may be ----------------------------------------------------------------------------------------- */

static void declare_all(void)
{
    begin();
    for (uint8_t n = 0; n < VG_MAX_NAMES; n++) {
        declare(letter(n), table(n));
    }
}

/* Each of sixteen is used, is declared again, and leaves the others as they were. */
static void each_of_sixteen(void)
{
    char what[64];
    declare_all();
    lend_each("sixteen names", leaves(0));
    for (uint8_t n = 0; n < VG_MAX_NAMES; n++) {
        const uint8_t next = (uint8_t)((n + 1) % VG_MAX_NAMES);
        declare_all();
        use(letter(n), table(n));
        declare(letter(n), table(99));
        use(letter(n), table(99));
        use(letter(next), table(next));
        snprintf(what, sizeof what, "name %d of sixteen, declared again", n);
        lend_each(what, leaves(3));
        const size_t place = made.length;
        declare(letter(VG_MAX_NAMES), table(1));
        snprintf(what, sizeof what, "a seventeenth, with name %d declared again", n);
        lend_each(what, refuses(VG_TOO_MANY_NAMES, place));
    }
}

/* Sixteen largest types have a name each, and six of them are used. */
static void sixteen_largest(uint8_t first)
{
    char what[64];
    begin();
    for (uint8_t n = 0; n < VG_MAX_NAMES; n++) {
        append(&made, followed(hex(DECLARE), letter(n)));
        append_largest(&made, n);
    }
    for (uint8_t i = 0; i < VG_MAX_STACK; i++) {
        const uint8_t n = (uint8_t)((first + 5 * i) % VG_MAX_NAMES);
        use_it(letter(n));
        append_largest(&types_left, n);
    }
    snprintf(what, sizeof what, "sixteen largest types, six used from %d on", first);
    lend_each(what, leaves(VG_MAX_STACK));
    const size_t place = made.length;
    append(&made, followed(hex(DECLARE), letter(VG_MAX_NAMES)));
    append_largest(&made, VG_MAX_NAMES);
    snprintf(what, sizeof what, "seventeen largest types, six used from %d on", first);
    lend_each(what, refuses(VG_TOO_MANY_NAMES, place));
}

/* ---- on a full stack ------------------------------------------------------------------------------------------------------- */

static void make_full(void)
{
    begin();
    declare(letter(0), table(9));
    for (uint8_t n = 0; n < VG_MAX_STACK; n++) {
        put(table(n));
    }
}

/* Uses of a name that is declared, of one that is not, and of bytes that are no name or only a part of one. */
static const char *const uses[] = {USE NAME_A, USE NAME_B, USE "00", USE "11", USE "0109", USE "02", USE "0261", USE};
static const size_t uses_made = sizeof uses / sizeof uses[0];

static void on_a_full_stack(void)
{
    char what[64];
    size_t place;
    for (size_t i = 0; i < uses_made; i++) {
        make_full();
        place = made.length;
        append(&made, hex(uses[i]));
        snprintf(what, sizeof what, "a full stack, then %s", uses[i]);
        lend_each(what, refuses(VG_OVERFLOW, place));
    }
    make_full();
    place = made.length;
    append(&made, hex("55"));
    lend_each("a full stack, then half a use", refuses(VG_ENDED, place));

    make_full();
    declare(letter(0), table(10));
    declare(letter(1), hex(SCALAR CHAR));
    lend_each("declarations on a full stack", leaves(VG_MAX_STACK));
    /* [4] and [5] joined are [?]; then there is room for one. */
    append(&made, hex(JOIN));
    types_left.length = (VG_MAX_STACK - 2) * table(0).length;
    append(&types_left, hex(UNKNOWN_ONE NUM));
    use(letter(0), table(10));
    lend_each("a use when there is room again", leaves(VG_MAX_STACK));
    place = made.length;
    use_it(letter(1));
    lend_each("a use on a stack that is full again", refuses(VG_OVERFLOW, place));
}

/* ---- the last step --------------------------------------------------------------------------------------------------------- */

/* So many declarations of one name. */
static void declare_times(size_t count)
{
    begin();
    for (size_t i = 0; i < count; i++) {
        declare(letter(0), table((uint8_t)i));
    }
}

/* A 64th step, and what is answered then. */
static void last_step(const char *what, const char *step, outcome o, const char *left)
{
    declare_times(VG_MAX_STEPS - 1);
    append(&made, hex(step));
    append(&types_left, hex(left));
    lend_each(what, o);
}

/* And a 65th, which is one too many, whatever it is. */
static void last_steps(void)
{
    static const char *const more[] = {
        DECLARE NAME_A SCALAR NUM, DECLARE NAME_B SCALAR NUM, USE NAME_A, USE NAME_B, DECLARE, USE "00", "4e", "5858",
    };
    const size_t step_bytes = 2 + letter(0).length + table(0).length, place = (VG_MAX_STEPS - 1) * step_bytes;
    char what[64];
    last_step("a declaration as the 64th step", DECLARE NAME_B SCALAR NUM, leaves(0), "");
    last_step("a use as the 64th step", USE NAME_A, leaves(1), ONE("3e") NUM);
    last_step("a use of no declared name as the 64th step", USE NAME_B, refuses(VG_UNDECLARED, place), "");
    last_step("a damaged name as the 64th step", DECLARE "00", refuses(VG_OUT_OF_RANGE, place), "");
    for (size_t i = 0; i < sizeof more / sizeof more[0]; i++) {
        declare_times(VG_MAX_STEPS);
        append(&made, hex(more[i]));
        snprintf(what, sizeof what, "a 65th step, %s", more[i]);
        lend_each(what, refuses(VG_OVERFLOW, VG_MAX_STEPS * step_bytes));
    }
}

void named_tables(void)
{
    any_names();
    names_alike(0);
    names_alike(1);
    declaration_cut_off("tempo");
    declaration_cut_off("titles");
    use_cut_off("tempo");
    use_cut_off("titles");
    declarations_damaged(1);
    declarations_damaged(VG_MAX_NAMES);
    declared_again(1);
    declared_again(2);
    declared_again(VG_MAX_STACK);
    largest_again();
    another_sheet();
    each_of_sixteen();
    for (uint8_t first = 0; first < VG_MAX_NAMES; first++) {
        sixteen_largest(first);
    }
    on_a_full_stack();
    last_steps();
}
