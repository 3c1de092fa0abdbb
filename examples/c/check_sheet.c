/* Checks a sheet that is in a file, and prints what the program `sheet` prints of it.
 *
 *   check_sheet FILE
 */
#include <stddef.h>
#include "sheet_file.h"

const char *const host = "check_sheet";

static sheet_file sheet;
static uint8_t result[VG_SHEET_RESULT_BYTES];
static uint8_t scratch[VG_SCRATCH_BYTES];

int main(int argc, char **argv)
{
    const char *failed;
    vg_answer answer;
    outlive_failed_writes();
    if (argc != 2) {
        return fail("one sheet's file", "is wanted");
    }
    failed = read_sheet(argv[1], &sheet);
    if (failed != NULL) {
        return fail("the file", failed);
    }
    failed = check_sheet(&sheet, result, sizeof result, scratch, sizeof scratch, &answer);
    if (failed != NULL) {
        return fail("the sheet", failed);
    }
    print_answer("", answer, result);
    return is_written() ? 0 : fail("the answer", "cannot be written");
}
