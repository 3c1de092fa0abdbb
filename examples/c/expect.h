/* What the files of every_call share: bytes as a text says them, sheets as they are made, and what is expected of an answer. */
#ifndef EXPECT_H
#define EXPECT_H

#include "velgrodis.h"

/* ---- bytes ----------------------------------------------------------------------------------------------------------------- */

typedef struct bytes {
    uint8_t data[320];
    size_t length;
} bytes;

bytes hex(const char *text);
bytes followed(bytes b, bytes more);

#define OPEN "53480000"
#define SCALAR "534800ff"
#define ONE(n) "534801ff" n "00000000000000"
#define UNKNOWN_ONE "534801ffffffffffffffffff"
#define TWO(m, n) "534802ff" m "00000000000000" n "00000000000000"
#define BOOL "534300"
#define NAT "534301"
#define INT "534302"
#define NUM "534303"
#define COMPLEX "534304"
#define ASCII "534305"
#define CHAR "534306"
#define STREAM "534307"
#define ANY "534309"
#define BOX_ANY "534308425800"
#define ALL "534308425801"
#define DEF "534308425802016e02" /* named n, two fields */
#define TWO_BOXES SCALAR ALL SCALAR ALL

#define PUT "5055"
#define PERVADE "5056"
#define VALIDATION "5641"
#define JOIN "4a4e"
#define ROW "5257"
#define DECLARE "4e4d"
#define USE "5553"

/* Names of one letter, as they follow these two. */
#define NAME_A "0161"
#define NAME_B "0162"
#define NAME_Z "017a"

/* ---- answers --------------------------------------------------------------------------------------------------------------- */

/* What was expected so far, and what of it was not so. */
extern unsigned calls, wrong;

/* What is lent holds this byte throughout. */
static const uint8_t lent = 0xee;

void expect(const char *what, int good);
int is(vg_answer a, uint64_t kind, uint64_t number, uint64_t place, uint64_t first, uint64_t second);
int all_are(uint8_t byte, const uint8_t *data, size_t length);

/* ---- sheets ---------------------------------------------------------------------------------------------------------------- */

/* A declaration of a largest type under a longest name. */
#define LONGEST_STEP (2 + 1 + VG_MAX_NAME + VG_TYPE_BYTES)

/* A sheet as it is made, and the types that it leaves, bottom first. There is room for two puts for each place of the stack, for a
 * declaration of each name, and for one step more. */
typedef struct stretch {
    uint8_t data[(2 * VG_MAX_STACK + VG_MAX_NAMES + 1) * LONGEST_STEP];
    size_t length;
} stretch;

extern stretch made, types_left;

void begin(void);
void append(stretch *s, bytes more);
void append_all(stretch *s, const uint8_t *data, size_t length);

/* One of the 32 types in a largest one: sixteen sizes n, eight of them closing ones, and a Def with a name of sixteen letters. And a
 * largest one. */
bytes largest_part(uint8_t n, uint8_t fields);
void append_largest(stretch *s, uint8_t n);

/* What a sheet is answered, lent enough: how many types it leaves, or its refusal. */
typedef struct outcome {
    uint64_t types;
    uint64_t number;
    uint64_t place;
} outcome;

outcome leaves(uint64_t types);
outcome refuses(uint64_t number, uint64_t place);

/* The same for what was made, lent so much: the scratch is judged first of all, the result last. */
outcome with_lent(outcome o, size_t result_length, size_t scratch_length);

/* A scratch of any length up to this one. Whether its first bytes are zero, as many as are asked for, and all behind them as lent. */
extern uint8_t scratch[2 * VG_SCRATCH_BYTES];
int cleared(void);

/* Checks what was made with a result and a scratch of so many bytes; with exactly the bytes that are written and that are asked for. */
void lend(const char *what, outcome o, size_t result_length, size_t scratch_length);
void lend_exactly(const char *what, outcome o);

/* The same with every length at which the answer may turn. VG_TYPE_BYTES for each type left are among them; a scratch that could hold
 * six types as a result does is only a longer one. And whether vg_find_step finds the step that is refused. */
void lend_each(const char *what, outcome o);

/* A sheet or steps, and how it is refused. */
typedef struct refused_sheet {
    const char *sheet;
    uint64_t number;
    uint64_t place;
} refused_sheet;

/* ---- checks in files of their own ------------------------------------------------------------------------------------------ */

/* Which step of a sheet a place belongs to, in whole, cut and damaged sheets (found_steps.c). */
void found_steps(void);

/* Sheets that declare names for types and use them (named_tables.c). */
void named_tables(void);

/* Sheets in which types are worked on, come to lie under others and are worked on again (worked_types.c). */
void worked_types(void);

#endif
