/* velgrodis.h: the checker of partial array types, for hosts written in C or another language that calls C.
 *
 * Link with libvelgrodis.a (tools/build velgrodis; x86-64 Linux). The library keeps nothing between calls, allocates nothing, and
 * calls nothing of the host's but memcpy, memmove and memset. Every call ends, for every input that a host can hand in, and is proved
 * to answer what its contract says (crates/velgrodis/src), which is put in words here; the bytes of records and sheets are in
 * docs/FORMAT.md.
 *
 * Beside what it is lent, a call uses the stack of the thread that makes it, and no other memory. A sheet check keeps there what its rules
 * make, in buffers of 16,000 bytes at most: room for three types and for two small ones; and where declared names stand, in 256 bytes.
 * Nothing of that is taken from the scratch or the result. How much stack that is in all was measured, and not proved (VG_STACK_BYTES).
 *
 * What the host guarantees, since no proof can:
 * - A length is true: the pointer before it points to as many elements, initialised, readable, and writable where it is not const.
 * - No pointer is null, and each is aligned for its elements, also where the length is 0 (VG_NO_NULL at each call). For length 0 any
 *   such pointer serves, as one to a byte or a number of the host's own; nothing is read or written there.
 * - What is lent to be written (result, scratch, number, sizes) overlaps nothing else that is lent to the same call. What is only
 *   read may overlap: one type may be handed in twice.
 * - Nobody else writes what is lent while a call runs, nor reads what is lent to be written. So two calls may run at the same time, in
 *   two threads, if what is lent to the one to be written is apart from all that is lent to the other; what both only read, as one
 *   sheet or one spec, they may share. Parts of one block are apart if they do not overlap (examples/c/two_sheets.c).
 */
#ifndef VELGRODIS_H
#define VELGRODIS_H

#include <stddef.h>
#include <stdint.h>

/* At each call that takes pointers: none of them is null, also where the length behind it is 0. A compiler that knows the attribute warns
 * where a null pointer is written there, and may take it that a pointer which was handed in is none. */
#if defined(__GNUC__)
#define VG_NO_NULL __attribute__((nonnull))
#else
#define VG_NO_NULL
#endif

#ifdef __cplusplus
extern "C" {
#endif

/* ---- the version ----------------------------------------------------------------------------------------------------------- */

/* The version of this header, one number that grows with every change that a host can see. It is the number in the library's source,
 * from which include/version writes it here; vg_version is proved to answer that one. */
#define VG_VERSION UINT64_C(9)

/* The version of the library that is linked. A host that may meet another library than it was compiled for, as a shared one, asks first
 * whether vg_version() == VG_VERSION.
 * Answers the number itself, and no vg_answer. Never refused. */
uint64_t vg_version(void);

/* ---- limits ---------------------------------------------------------------------------------------------------------------- */

#define VG_MAX_SIZE UINT64_C(9007199254740992)      /* the largest static size, 2^53 */
#define VG_UNKNOWN UINT64_C(18446744073709551615)   /* ?, an unknown size: all ones */
#define VG_MAX_SIZES 8                              /* opening sizes of a shape; and closing sizes */
#define VG_MAX_NAME 16                              /* bytes of a name, a Def's or one that a sheet declares */
#define VG_MAX_FIELDS 31                            /* fields of a Def; and copies that vg_as_boxes lists */
#define VG_MAX_TYPES 32                             /* types in one type, itself counted */
#define VG_MAX_DEPTH 8                              /* depth of a type; the outermost is at depth 1 */
#define VG_MAX_STACK 6                              /* types on a sheet's stack */
#define VG_MAX_STEPS 64                             /* steps of a sheet; declarations and uses of names are among them */
#define VG_MAX_NAMES 16                             /* different names that a sheet declares */
#define VG_KIND_COUNT 10                            /* kinds of a scalar; their codes are 0 to 9 */
#define VG_PROGRAM_SHEET_BYTES 49152                /* bytes of a sheet that the program `sheet` reads; a call has no such limit */

/* Bytes that always suffice: for a type, a shape's record or a scalar's; for the list of vg_as_boxes, a name's length and a count
 * before the types; for the types that a sheet leaves, 29,952. */
#define VG_TYPE_BYTES 4992
#define VG_BOXES_BYTES (2 + VG_MAX_FIELDS * VG_TYPE_BYTES)
#define VG_SHEET_RESULT_BYTES (VG_MAX_STACK * VG_TYPE_BYTES)

/* The scratch that the sheet check asks for at least, 25,728 bytes: room for as many types as the stack has places, each of them
 * packed. How they lie there is the library's affair: a host only lends the bytes. */
#define VG_PACKED_BYTES 4288
#define VG_SCRATCH_BYTES (VG_MAX_STACK * VG_PACKED_BYTES)

/* Bytes of stack that a thread has left when it makes a call. Measured, with the older kit, and not proved: examples/c/stack_use.c makes every call on types as
 * large and as deep as the limits allow, and on full sheets of them. On x86-64 the greatest was vg_check_sheet with 32,328 bytes; no other
 * call took more than 20,000. */
#define VG_STACK_BYTES 36864

/* Bytes of the table of kinds, 300, one for each number; and its mark where the boxes' contents decide, which is no kind's code. */
#define VG_KIND_TABLE_BYTES (3 * VG_KIND_COUNT * VG_KIND_COUNT)
#define VG_CONTENTS_DECIDE 255

/* ---- answers --------------------------------------------------------------------------------------------------------------- */

/* What an answer is. */
enum vg_kind {
    VG_REFUSED = 0, /* refused: `number` says why and `place` where; `first` and `second` are 0 */
    VG_VALUE = 1,   /* accepted: `first` and `second` are as the call says; `number` and `place` are 0 */
    VG_NONE = 2     /* accepted, and there is none of what was asked for; all else is 0 */
};

/* The answer of every call but vg_version; a validation says one thing more beside it (vg_validation). */
typedef struct vg_answer {
    uint64_t kind;   /* of enum vg_kind */
    uint64_t number; /* of enum vg_refusal */
    uint64_t place;
    uint64_t first;
    uint64_t second;
} vg_answer;

/* What `second` of vg_compatible_shapes is where no index is named. It has the bits of VG_UNKNOWN, but is no size. */
#define VG_NO_INDEX UINT64_C(18446744073709551615)

/* Why an input is refused, one of sixteen numbers. In a lone type a place is a byte of the type; of two types that were handed in, of
 * the one that was refused: of a spec and a type the validation itself tells which (`reading`); for two others hand the first to
 * vg_read, since it is read whole before the other: refused, it is that one. In a sheet a place is a byte of the sheet. */
enum vg_refusal {
    VG_ENDED = 1,          /* The bytes end inside a record or a type. Place: first byte of the record begun or due. */
    VG_UNMARKED = 2,       /* Two bytes that are no mark allowed there. Place: the first of them. */
    VG_OUT_OF_RANGE = 3,   /* A count, a code, a flag, or the length or a byte of a name that is out of range. Place: first byte of its
                            * record or step; 0 for more than VG_MAX_SIZES numbers, and for a flag, side or kind handed in beside the
                            * bytes. */
    VG_OVERSIZED = 4,      /* A size above VG_MAX_SIZE that is not VG_UNKNOWN. Place: first byte of its shape's record; its index
                            * for a number. */
    VG_TOO_MANY = 5,       /* More than VG_MAX_TYPES types, VG_MAX_DEPTH deep or VG_MAX_FIELDS copies. Place: first byte of the type
                            * that is one too many; where a rule would make it, 0, in a sheet its step's mark. */
    VG_TRAILING = 6,       /* Bytes after a lone type. Place: the first of them, which is the length of the type before them. */
    VG_TOO_SHORT = 7,      /* A result too short for what is to be written; it is found last, after any other refusal. Place: 0, for a
                            * sheet its length. Or a scratch under VG_SCRATCH_BYTES; it is found first of all. Place: 0. */
    VG_UNPERVADED = 8,     /* Two shapes that cannot pervade. Place: 0, in a sheet the step's mark; so for 9, 10 and 14. */
    VG_WRONG_SCALAR = 9,   /* A spec's scalar that is no superset of the type's. */
    VG_WRONG_SHAPE = 10,   /* A type's shape that does not pass the spec's: a size differs (vg_validate says when it is 14 instead). */
    VG_UNDERFLOW = 11,     /* A step that lacks types on the stack. Place: its mark. */
    VG_OVERFLOW = 12,      /* A seventh type on the stack, or a 65th step. Place: the step's mark. */
    VG_NOT_A_SIZE = 13,    /* NaN, a negative number or a fraction where a size is wanted. Place: its index; 0 for a lone number. */
    VG_WRONG_COUNT = 14,   /* A type's shape that does not pass the spec's: so many sizes cannot fit (vg_validate says when exactly). */
    VG_UNDECLARED = 15,    /* A use of a name that no step before it declares. Place: the step's mark. */
    VG_TOO_MANY_NAMES = 16 /* A declaration of a seventeenth name. Place: the step's mark. */
};

/* Every comment below has: what a value says; the refusals, in the order in which they are found.
 * "Reading X" is: 1, 2, 3, 4 or 5, whichever comes first from left to right, else 6, with its place in X.
 * "Result" is: 7 at place 0, if the result is too short for what is to be written.
 * Where a value is one thing, it is in `first`, and `second` is 0. A value of a call with a result has in `first`, unless the call says
 * otherwise, how many bytes were written to its front; the bytes after them stay as lent. A refusal, or none, leaves the whole result as
 * lent. */

/* ---- the sheet ------------------------------------------------------------------------------------------------------------- */

/* Checks a sheet: works its steps in order on a stack of types, and writes the types left to the result, bottom first, one after the
 * other. To part them: the length of the next is vg_type_length of those bytes that are not parted yet.
 * A declaration names a type for the uses after it, until the name is declared again. It takes no type and lays none down, and asks for
 * nothing more of the scratch or the result. A use puts the type that its name stands for there. A name has 1 to VG_MAX_NAME bytes, each
 * 32 to 126; two names are the same if they have as many and the same ones. The names of Defs have nothing to do with these, and none is
 * kept for another sheet.
 * A step's pervading is vg_pervade's, but where a static size other than 1 is filled on its own side and meets ?, or nothing in an open
 * shape, it gives ?: the real size there may grow.
 * Value: `first` types are left, `second` bytes in all were written; the result's bytes after them stay as lent.
 * Refused: 7 at 0, if the scratch is under VG_SCRATCH_BYTES. Then the first that is met, step by step, and in a step in this order:
 *   12 at the step, if it is the 65th, whatever its bytes are; 1 or 2 at the step, for its mark;
 *   11 at the step, if the stack lacks the types it takes; 12 at the step, if it puts a seventh, also by a name, whatever that is;
 *   1 or 3 at the step, for a flag byte, or for a name, byte by byte; 1 to 5 for the type that follows, places in the sheet;
 *   8, 9, 10, 14 or 5 at the step, for its rule; 15 at the step, for a use of a name that no step before it declares; 16 at the step, for
 *   a declaration of one more than VG_MAX_NAMES different names.
 *   At last 7 at the sheet's length, exactly if the types left do not fit into the result. VG_TYPE_BYTES for each of them are always
 *   enough and, since at most VG_MAX_STACK are left, VG_SHEET_RESULT_BYTES for every sheet.
 * A refusal leaves the whole result as lent. Whatever is answered, bytes 0 to VG_SCRATCH_BYTES - 1 of the scratch are then 0 and
 * later ones as lent; a scratch that is too short stays as lent. What the scratch held before makes no difference, and a longer one
 * changes no answer.
 * With a result of VG_TYPE_BYTES, room for any one type and for several that have no more bytes together, a check is lent 30,720 bytes
 * to write to: two such checks may run side by side in a block of 65,536. */
vg_answer vg_check_sheet(const uint8_t *sheet, size_t sheet_len, uint8_t *result, size_t result_len, uint8_t *scratch, size_t scratch_len) VG_NO_NULL;

/* The mark of a step as a number: its first byte times 256, and its second. */
enum vg_mark {
    VG_NO_MARK = 0, /* two bytes that are no step's mark, or one alone */
    VG_PUT = 0x5055,
    VG_ROW = 0x5257,
    VG_PERVADE = 0x5056,
    VG_JOIN = 0x4A4E,
    VG_VALIDATE = 0x5641,
    VG_DECLARATION = 0x4E4D,
    VG_USE = 0x5553
};

/* The step that a place of a sheet belongs to, so that a refusal can be said in words: behind two puts of 17 bytes each, 8 at 34 is at
 * step 3, pervade.
 * Steps are told by their bytes alone, whatever the stack, the names and the rules are, and counted past VG_MAX_STEPS. A step has the bytes
 * from its mark up to the next step's mark, or to the sheet's end. One that cannot be read to its end, since its mark is none, or its flag,
 * name or type would be refused 1 to 5, has all bytes that are left, and the place behind the last of them: what is missing there is
 * missing from it.
 * So the place of a refusal of vg_check_sheet belongs to the step that is refused. Only a 7 is of no step, and is not to be asked for: for 7
 * at 0, which is the scratch, this call names step 1 of any sheet that has bytes; for 7 at the sheet's length, which is the result, none.
 * Value: `first` is the step's number, counted from 1; `second` is its mark, of enum vg_mark. None: the place is past the sheet's end, or
 * at its end and every step is whole. Never refused. */
vg_answer vg_find_step(const uint8_t *sheet, size_t sheet_len, uint64_t place) VG_NO_NULL;

/* ---- types ----------------------------------------------------------------------------------------------------------------- */

/* Whether the bytes are a lone type.
 * Value: 0. Refused: reading ty. */
vg_answer vg_read(const uint8_t *ty, size_t ty_len) VG_NO_NULL;

/* The length of the type that begins the bytes, whatever stands behind it.
 * Value: the length, at most VG_TYPE_BYTES. Refused: 1, 2, 3, 4 or 5, whichever comes first from left to right, with its place; never 6. */
vg_answer vg_type_length(const uint8_t *bytes, size_t bytes_len) VG_NO_NULL;

/* The record of a type's shape; of its scalar.
 * Value: bytes written. Refused: reading ty; result. */
vg_answer vg_shape_record(const uint8_t *ty, size_t ty_len, uint8_t *result, size_t result_len) VG_NO_NULL;
vg_answer vg_scalar_record(const uint8_t *ty, size_t ty_len, uint8_t *result, size_t result_len) VG_NO_NULL;

/* The row of a type, its first row, its last, and its n-th from 0: the shape loses its first opening size, else its first closing
 * one, else nothing: [] and [..] stay. At rank 1 the row of a Def is a box All of a field: the first for vg_row and vg_first_row, the last for vg_last_row, the n-th
 * for vg_nth_row, or the first where there is no n-th; of [..] Any where it has no field.
 * Value: bytes written, a type. Refused: reading ty; result. */
vg_answer vg_row(const uint8_t *ty, size_t ty_len, uint8_t *result, size_t result_len) VG_NO_NULL;
vg_answer vg_first_row(const uint8_t *ty, size_t ty_len, uint8_t *result, size_t result_len) VG_NO_NULL;
vg_answer vg_last_row(const uint8_t *ty, size_t ty_len, uint8_t *result, size_t result_len) VG_NO_NULL;
vg_answer vg_nth_row(const uint8_t *ty, size_t ty_len, uint64_t n, uint8_t *result, size_t result_len) VG_NO_NULL;

/* What stands in a box of shape []: the content of an All, the first field of a Def, [..] Any where nothing is inside. Any other type
 * is itself.
 * Value: bytes written, a type. Refused: reading ty; result. */
vg_answer vg_unboxed(const uint8_t *ty, size_t ty_len, uint8_t *result, size_t result_len) VG_NO_NULL;

/* A box as a list of types, written as name, count and types in a Def's layout: a Def's own; of an All as many copies of its content
 * as there are rows, of an Any as many of [..] Any, one where the row count is ?.
 * Value: bytes written. None: the type is no box, and needs no result. Refused: reading ty; 5 at 0 for more than VG_MAX_FIELDS
 * copies; result. */
vg_answer vg_as_boxes(const uint8_t *ty, size_t ty_len, uint8_t *result, size_t result_len) VG_NO_NULL;

/* Where field n of a Def stands, from 0.
 * Value: `first` is the place in ty where its type starts, `second` how many bytes it has. None: the type is no Def, or has no field
 * n. Refused: reading ty. */
vg_answer vg_field(const uint8_t *ty, size_t ty_len, uint64_t n) VG_NO_NULL;

/* The join of two types: the join of their shapes, the union of their scalars.
 * Value: bytes written, a type. Refused: reading a; reading b; result. */
vg_answer vg_join(const uint8_t *a, size_t a_len, const uint8_t *b, size_t b_len, uint8_t *result, size_t result_len) VG_NO_NULL;

/* ---- shapes of types ------------------------------------------------------------------------------------------------------- */

/* The shape of a, merged from that of b; their join; the row of a shape.
 * Value: bytes written, a shape's record. Refused: reading a (ty); reading b; result. */
vg_answer vg_merge(const uint8_t *a, size_t a_len, const uint8_t *b, size_t b_len, uint8_t *result, size_t result_len) VG_NO_NULL;
vg_answer vg_join_shapes(const uint8_t *a, size_t a_len, const uint8_t *b, size_t b_len, uint8_t *result, size_t result_len) VG_NO_NULL;
vg_answer vg_row_shape(const uint8_t *ty, size_t ty_len, uint8_t *result, size_t result_len) VG_NO_NULL;

/* The pervading of two shapes, as Uiua's Rust has it (`pervade_dyn_shapes`); in a sheet a filled one may differ (vg_check_sheet). Bit 0 of
 * the flag fills a, bit 1 fills b.
 * Value: bytes written, a shape's record. Refused: 3 at 0 for a flag above 3; reading a; reading b; 8 at 0 for shapes that cannot
 * pervade; result. */
vg_answer vg_pervade(uint64_t flag, const uint8_t *a, size_t a_len, const uint8_t *b, size_t b_len, uint8_t *result, size_t result_len) VG_NO_NULL;

/* Whether two shapes are compatible: equal counts of opening sizes, and at each index equal ones, or 1 or ? on either side. Closing sizes
 * are not looked at, nor whether a shape is open.
 * Value: `first` is 1 if they are, and `second` is 0. `first` is 0 if they are not, and `second` is the greatest index that fails, counted
 * from 0 at the front, or VG_NO_INDEX where the counts differ: no size is compared then, and it is a value all the same, not VG_NONE.
 * Index 0 may fail, so of a value `first`, and not `second`, says yes or no.
 * [2 3 4] with [2 5 6] is 0 and 2; [2 3] with [5 1] is 0 and 0; [2] with [2 3], and [2..3] with [2 3], are 0 and VG_NO_INDEX; [3..4] with
 * [3..5], and [2 1] with [? 7], are 1 and 0.
 * Refused: reading a; reading b. */
vg_answer vg_compatible_shapes(const uint8_t *a, size_t a_len, const uint8_t *b, size_t b_len) VG_NO_NULL;

/* Whether the shape is [..]; whether it is [].
 * Value: 1 or 0. Refused: reading ty. */
vg_answer vg_shape_is_any(const uint8_t *ty, size_t ty_len) VG_NO_NULL;
vg_answer vg_shape_is_scalar(const uint8_t *ty, size_t ty_len) VG_NO_NULL;

/* The row count: the first opening size; without one VG_UNKNOWN for an open shape, 1 for a closed one. The rank: the opening and the
 * closing sizes, counted together.
 * Value: the number. Refused: reading ty. */
vg_answer vg_row_count(const uint8_t *ty, size_t ty_len) VG_NO_NULL;
vg_answer vg_rank(const uint8_t *ty, size_t ty_len) VG_NO_NULL;

/* ---- scalars of types, the order of types, and the table of kinds ---------------------------------------------------------- */

/* The union of two scalars; the scalar unrefined, in boxes too: Bool, Nat and Int become Num, Ascii becomes Char.
 * Value: bytes written, a scalar's record. Refused: reading a (ty); reading b; result. */
vg_answer vg_union(const uint8_t *a, size_t a_len, const uint8_t *b, size_t b_len, uint8_t *result, size_t result_len) VG_NO_NULL;
vg_answer vg_unrefine(const uint8_t *ty, size_t ty_len, uint8_t *result, size_t result_len) VG_NO_NULL;

/* Whether the scalar of a is a superset of that of b; whether they are compatible; the same with a look into All boxes.
 * Value: 1 or 0. Refused: reading a; reading b. */
vg_answer vg_superset(const uint8_t *a, size_t a_len, const uint8_t *b, size_t b_len) VG_NO_NULL;
vg_answer vg_compatible_scalars(const uint8_t *a, size_t a_len, const uint8_t *b, size_t b_len) VG_NO_NULL;
vg_answer vg_compatible_with_boxes(const uint8_t *a, size_t a_len, const uint8_t *b, size_t b_len) VG_NO_NULL;

/* The order of two types, scalars first and then shapes.
 * Value: 0 if a is less than b, 1 if they are the same, 2 if it is more. Refused: reading a; reading b. */
vg_answer vg_compare(const uint8_t *a, size_t a_len, const uint8_t *b, size_t b_len) VG_NO_NULL;

/* The table of kinds: what vg_superset, vg_compatible_scalars and vg_union say of two scalars by their kinds, for every pair of the ten.
 * Three squares one after the other, 0 superset, 1 compatible, 2 union; in each a row for each first kind, in it a number for each
 * second kind, by their codes. So the number for two kinds is byte square * 100 + first * 10 + second.
 * In the first two squares 1 is yes and 0 is no. In the third it is the code of the union's kind, or VG_CONTENTS_DECIDE where the boxes'
 * contents decide. That is once, at Box with Box, byte 288: the union is a box then, and vg_union says which.
 *
 *   superset      Bool  Nat  Int  Num  Complex  Ascii  Char  Stream  Box  Any
 *   0 Bool           1    0    0    0        0      0     0       0    0    0
 *   1 Nat            1    1    0    0        0      0     0       0    0    0
 *   2 Int            1    1    1    0        0      0     0       0    0    0
 *   3 Num            1    1    1    1        0      0     0       0    0    0
 *   4 Complex        1    1    1    1        1      0     0       0    0    0
 *   5 Ascii          0    0    0    0        0      1     0       0    0    0
 *   6 Char           0    0    0    0        0      1     1       0    0    0
 *   7 Stream         0    0    0    0        0      0     0       1    0    0
 *   8 Box            0    0    0    0        0      0     0       0    1    0
 *   9 Any            1    1    1    1        1      1     1       1    1    1
 *
 *   compatible    Bool  Nat  Int  Num  Complex  Ascii  Char  Stream  Box  Any
 *   0 Bool           1    1    1    1        1      0     0       0    0    1
 *   1 Nat            1    1    1    1        1      0     0       0    0    1
 *   2 Int            1    1    1    1        1      0     0       0    0    1
 *   3 Num            1    1    1    1        1      0     0       0    0    1
 *   4 Complex        1    1    1    1        1      0     0       0    0    1
 *   5 Ascii          0    0    0    0        0      1     1       0    0    1
 *   6 Char           0    0    0    0        0      1     1       0    0    1
 *   7 Stream         0    0    0    0        0      0     0       1    1    1
 *   8 Box            0    0    0    0        0      0     0       1    1    1
 *   9 Any            1    1    1    1        1      1     1       1    1    1
 *
 *   union         Bool  Nat  Int  Num  Complex  Ascii  Char  Stream  Box  Any
 *   0 Bool           0    1    2    3        4      9     9       9    9    9
 *   1 Nat            1    1    2    3        4      9     9       9    9    9
 *   2 Int            2    2    2    3        4      9     9       9    9    9
 *   3 Num            3    3    3    3        4      9     9       9    9    9
 *   4 Complex        4    4    4    4        4      9     9       9    9    9
 *   5 Ascii          9    9    9    9        9      5     6       9    9    9
 *   6 Char           9    9    9    9        9      6     6       9    9    9
 *   7 Stream         9    9    9    9        9      9     9       7    9    9
 *   8 Box            9    9    9    9        9      9     9       9  255    9
 *   9 Any            9    9    9    9        9      9     9       9    9    9
 *
 * Value: bytes written, always VG_KIND_TABLE_BYTES. Refused: result. */
vg_answer vg_kinds(uint8_t *result, size_t result_len) VG_NO_NULL;

/* ---- two sizes ------------------------------------------------------------------------------------------------------------- */

/* Each is 0 to VG_MAX_SIZE, or VG_UNKNOWN for ?. Refused, all six: 4 at 0 if a is no size; 4 at 1 if b is none. */

/* The order of sizes, which is no chain: 0 < 1, 1 < ?, ? < 0, and ? is less than every static size above 1.
 * Value: 0 if a is less than b, 1 if they are the same, 2 if it is more. */
vg_answer vg_dim_cmp(uint64_t a, uint64_t b);

/* The order in which ? is less than every static size.
 * Value: as for vg_dim_cmp. */
vg_answer vg_dim_cmp_defined(uint64_t a, uint64_t b);

/* The larger by vg_dim_cmp.
 * Value: a size. */
vg_answer vg_dim_max(uint64_t a, uint64_t b);

/* The size itself where both are the same, else VG_UNKNOWN.
 * Value: a size. */
vg_answer vg_dim_join(uint64_t a, uint64_t b);

/* Whether they are equal or either is ?.
 * Value: 1 or 0. */
vg_answer vg_dim_compatible(uint64_t a, uint64_t b);

/* Whether they are equal, or either is ? or 1.
 * Value: 1 or 0. */
vg_answer vg_dim_row_compatible(uint64_t a, uint64_t b);

/* ---- values handed in ------------------------------------------------------------------------------------------------------ */

/* Which of the three a value is; what is handed in for the others is not looked at, but its pointers are valid all the same. */
enum vg_value {
    VG_NUMBER = 0,  /* the number x */
    VG_NUMBERS = 1, /* the list of numbers */
    VG_TYPE = 2     /* the type whose bytes are ty */
};

/* Refused, in every call with a kind, first of all: 3 at 0 for a kind above 2. A VG_TYPE is read next, also where it could not change
 * the answer. "Length" is: 4 at 0 for a list of more than VG_MAX_SIZE numbers.
 * A number is a size if it is whole, not negative (-0 is 0) and at most VG_MAX_SIZE; plus infinity is ?. "Sizes" is: 3 at 0 for a list
 * of more than VG_MAX_SIZES; then for the first that is no size 13, or 4 if it is whole and above VG_MAX_SIZE, at its index. */

/* The type of a value: [] Num for a number, [length] Num for a list, a type itself.
 * Value: bytes written, a type. Refused: reading ty; length; result. */
vg_answer vg_val_ty(uint64_t kind, double x, const double *list, size_t list_len, const uint8_t *ty, size_t ty_len, uint8_t *result, size_t result_len) VG_NO_NULL;

/* The spec that a value stands for: [x] Any for a number, its sizes with Any for a list, a type itself.
 * Value: bytes written, a type. Refused: reading ty; sizes, also for a number, whose index is 0; result. */
vg_answer vg_val_spec(uint64_t kind, double x, const double *list, size_t list_len, const uint8_t *ty, size_t ty_len, uint8_t *result, size_t result_len) VG_NO_NULL;

/* The scalar of a value: for numbers Num if one is a fraction, NaN or infinite, else Int if one is negative, else Nat if one is above
 * 1, else Bool; for a type its own. vg_nums_scalar: the same of a list.
 * Value: bytes written, a scalar's record. Refused: reading ty; result. */
vg_answer vg_val_scalar(uint64_t kind, double x, const double *list, size_t list_len, const uint8_t *ty, size_t ty_len, uint8_t *result, size_t result_len) VG_NO_NULL;
vg_answer vg_nums_scalar(const double *list, size_t list_len, uint8_t *result, size_t result_len) VG_NO_NULL;

/* The row count of a value: 1 for a number, the length of a list, a type's own, VG_UNKNOWN for ?. Refused: reading ty; length.
 * The rank: 0 for a number, 1 for a list, a type's own. Refused: reading ty.
 * Value: the number. */
vg_answer vg_val_row_count(uint64_t kind, double x, const double *list, size_t list_len, const uint8_t *ty, size_t ty_len) VG_NO_NULL;
vg_answer vg_val_rank(uint64_t kind, double x, const double *list, size_t list_len, const uint8_t *ty, size_t ty_len) VG_NO_NULL;

/* The row of a value, its first and its last row, each a value again. A number is its own. The row of a list is its number if it has
 * one alone, else [] Num; its first and last row are its first and last number, [] Num if it has none. A type's are vg_row,
 * vg_first_row and vg_last_row.
 * Value: if `second` is 1, the row is a number, which is in *number; `first` is 0 and the result as lent. If it is 0, the row is a
 * type, of which `first` bytes were written; *number is as lent. (A NaN stays a NaN.)
 * Refused: reading ty; result. *number and the result are as lent. */
vg_answer vg_val_row(uint64_t kind, double x, const double *list, size_t list_len, const uint8_t *ty, size_t ty_len, double *number, uint8_t *result, size_t result_len) VG_NO_NULL;
vg_answer vg_val_first_row(uint64_t kind, double x, const double *list, size_t list_len, const uint8_t *ty, size_t ty_len, double *number, uint8_t *result, size_t result_len) VG_NO_NULL;
vg_answer vg_val_last_row(uint64_t kind, double x, const double *list, size_t list_len, const uint8_t *ty, size_t ty_len, double *number, uint8_t *result, size_t result_len) VG_NO_NULL;

/* The size that a number stands for, where minus infinity is ? too.
 * Value: the size, VG_UNKNOWN for ?. None: the value is no number. Refused: reading ty; 13 or 4 at 0 for a number that is no size. */
vg_answer vg_as_dim(uint64_t kind, double x, const double *list, size_t list_len, const uint8_t *ty, size_t ty_len) VG_NO_NULL;

/* The sizes that a list stands for, written to the front of `sizes`, VG_UNKNOWN for ?; VG_MAX_SIZES numbers always suffice.
 * Value: how many sizes were written; the numbers after them stay as lent. None: the value is no list, and needs no room.
 * Refused: reading ty; sizes; 7 at 0 if there is too little room. A refusal, or none, leaves `sizes` as lent. */
vg_answer vg_as_dims(uint64_t kind, double x, const double *list, size_t list_len, const uint8_t *ty, size_t ty_len, uint64_t *sizes, size_t sizes_len) VG_NO_NULL;

/* ---- validation ------------------------------------------------------------------------------------------------------------ */

enum vg_side {
    VG_UNSIDED = 0,
    VG_LEFT = 1,
    VG_RIGHT = 2
};

/* Which input was being read when a validation was refused. */
enum vg_reading {
    VG_NEITHER = 0,     /* neither: accepted, or refused before the spec was read or after both were */
    VG_SPEC = 1,        /* the spec, which is read whole before the type */
    VG_CHECKED_TYPE = 2 /* the type that is checked */
};

/* The answer of a validation: what every call answers, and which input was being read. For a refusal of "reading spec" `reading` is
 * VG_SPEC, for one of "reading ty" VG_CHECKED_TYPE; the number is 1 to 6 then, and the place is in that input. For everything else it
 * is VG_NEITHER: a value, 3 for a side above 2, 5 where the rule would make one type too many, 7, 9, 10 and 14. */
typedef struct vg_validation {
    vg_answer answer;
    uint64_t reading; /* of enum vg_reading */
} vg_validation;

/* A spec on a type: the type as it then is. vg_validate checks the scalar and then the shape; vg_check_shape the shape alone, and keeps
 * the type's scalar; vg_check_scalar the scalar alone, without side, and keeps the type's shape. Of the spec the opening sizes alone
 * are compared, for a side from the front or from the end; a type that passes for a side is open afterwards. Contents of boxes are
 * validated without side.
 * Value: bytes written, a type. Refused: 3 at 0 for a side above 2; reading spec; reading ty; then at 0 the first that is met of
 * 9, 10, 14 or 5, contents of boxes first (vg_check_shape: 10 or 14; vg_check_scalar: a 10 or 14 comes from inside a box); result.
 *
 * A shape that does not pass the spec's is refused 14 if its count of sizes cannot fit, else 10: a size differs. Where either is [..],
 * it passes. Counted are the spec's opening sizes, and the type's opening and closing ones together. It is 14 exactly if
 *   VG_LEFT: the type is closed and has fewer sizes than the spec;
 *   VG_RIGHT: the type has fewer sizes than the spec;
 *   VG_UNSIDED, a closed type: it has more or fewer than the spec, be that closed or open;
 *   VG_UNSIDED, an open type: it names more than the spec; or fewer, and each of them equals the spec's, the opening ones from the
 *     front and the closing ones from the end (? equals ? alone).
 * Spec on type, unsided: [2 3] on [2..], [2] on [2 3..], [2 3] on [..3], [2 3..] on [2] and on [5] are 14; [2] on [3], and [2 3] on
 * [5..], on [?..] and on [..4] are 10. Left: [2 3] on [2] and on [5] are 14, on [5..] 10. Right: [2 3] on [..3] and on [..4] are 14,
 * on [..4 5] 10. */
vg_validation vg_validate(uint64_t side, const uint8_t *spec, size_t spec_len, const uint8_t *ty, size_t ty_len, uint8_t *result, size_t result_len) VG_NO_NULL;
vg_validation vg_check_shape(uint64_t side, const uint8_t *spec, size_t spec_len, const uint8_t *ty, size_t ty_len, uint8_t *result, size_t result_len) VG_NO_NULL;
vg_validation vg_check_scalar(const uint8_t *spec, size_t spec_len, const uint8_t *ty, size_t ty_len, uint8_t *result, size_t result_len) VG_NO_NULL;

#ifdef __cplusplus
}
#endif

#endif
