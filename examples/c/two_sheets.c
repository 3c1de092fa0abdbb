/* Checks two sheets at the same time, the matinee's and the evening's, in one block of 65,536 bytes. Prints both answers as the program
 * `sheet` prints them, the matinee's first; but a sheet that leaves more than 4,992 bytes, which `sheet` accepts, is `no 7 LENGTH` here.
 *
 *   two_sheets MATINEE EVENING
 *
 * The block has a part for each: a scratch, and a result of 4,992 bytes, which is room for any one type, and for several that have no
 * more bytes together. Where a sheet leaves more, LENGTH is the sheet's own: no step of it was refused, and with a longer result it is
 * accepted (check_sheet has room for six types). `no 7 0` is a sheet longer than the program `sheet` reads, since the scratch is never
 * too short here.
 *
 * Where a sheet cannot be read or checked, or its answer is not understood, nothing is printed; where the answers cannot be written
 * whole, what came out of them is none. Standard error says so, and the status is 2. A file is read once and to its end, also if it is
 * named for both, and one that was cut while it was read is none; of a pipe whose writer failed the end looks like any other.
 */
#include <pthread.h>
#include <stddef.h>
#include <string.h>
#include "block.h"
#include "sheet_file.h"

const char *const host = "two_sheets";

/* A sheet, its part of the block, and its answer, or what went wrong. A thread writes to its own show alone, and reads nothing of the
 * other. */
typedef struct show {
    const char *name;
    uint8_t *scratch;
    uint8_t *result;
    sheet_file sheet;
    vg_answer answer;
    const char *failed;
    pthread_t thread;
} show;

static show matinee = {.name = "the matinee's sheet", .scratch = block, .result = block + VG_SCRATCH_BYTES};
static show evening = {.name = "the evening's sheet", .scratch = block + PART_BYTES, .result = block + PART_BYTES + VG_SCRATCH_BYTES};

/* What a thread does. */
static void *check(void *own)
{
    show *s = own;
    s->failed = check_sheet(&s->sheet, s->result, RESULT_BYTES, s->scratch, VG_SCRATCH_BYTES, &s->answer);
    return NULL;
}

/* Each of the next is 0 where it was done; else it said why not. */

static int read_file(const char *path, show *s)
{
    const char *failed = read_sheet(path, &s->sheet);
    return failed == NULL ? 0 : fail(s->name, failed);
}

/* A file that is named for both is read once: if it is a pipe, the second reading would find no byte, and the sheet of no bytes is
 * accepted. */
static int read_both(const char *first, const char *second)
{
    if (read_file(first, &matinee) != 0) {
        return 2;
    }
    if (strcmp(first, second) == 0) {
        evening.sheet = matinee.sheet;
        return 0;
    }
    return read_file(second, &evening);
}

static int start(show *s)
{
    return pthread_create(&s->thread, NULL, check, s) == 0 ? 0 : fail(s->name, "cannot be checked: no thread was started for it");
}

static int finish(show *s)
{
    if (pthread_join(s->thread, NULL) != 0) {
        return fail(s->name, "cannot be checked: its thread was lost");
    }
    return s->failed == NULL ? 0 : fail(s->name, s->failed);
}

/* A thread that was started is waited for, whatever became of the other. */
static int check_both(void)
{
    int failed = start(&matinee);
    if (failed == 0) {
        failed = start(&evening);
        if (failed == 0) {
            failed = finish(&evening);
        }
        failed |= finish(&matinee);
    }
    return failed;
}

int main(int argc, char **argv)
{
    outlive_failed_writes();
    if (argc != 3) {
        return fail("two sheets' files are wanted,", "the matinee's and the evening's");
    }
    /* Nothing is printed before both have their answers. */
    if (read_both(argv[1], argv[2]) != 0 || check_both() != 0) {
        return 2;
    }
    print_answer("", matinee.answer, matinee.result);
    print_answer("", evening.answer, evening.result);
    return is_written() ? 0 : fail("the answers", "cannot be written");
}
