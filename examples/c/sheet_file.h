/* What the hosts of sheets share: a sheet's file is read and checked as the program `sheet` does it, and the answer printed as it
 * prints it.
 */
#ifndef SHEET_FILE_H
#define SHEET_FILE_H

#include "host.h"
#include "velgrodis.h"

/* A sheet in memory of its own. There is room for one byte more than the program `sheet` reads: a longer sheet it refuses 7 at 0. */
typedef struct sheet_file {
    uint8_t bytes[VG_PROGRAM_SHEET_BYTES + 1];
    size_t length;
} sheet_file;

/* Reads the file at a path, or one that is open, to its end or as far as there is room. NULL, or what went wrong, for people to read; the
 * next reading writes over that text. Then there is no sheet.
 * A regular file is whole only if as many bytes were read as it had before and has afterwards. One that was cut, or grew, while it was
 * read is none; nor is one that does not know its size, as those under /proc: `cat` makes a pipe of it. Of a pipe the end is the end. */
const char *read_sheet(const char *path, sheet_file *sheet);
const char *read_open_sheet(int file, sheet_file *sheet);

/* Checks the sheet in buffers that the host lends. NULL, or what went wrong, for people to read; then there is no answer. An answer is a
 * refusal with one of the sixteen numbers and a place in the sheet, or a value with as many types in the result as it says. By its
 * contract the library answers nothing else; but what is not understood must never look like an answer. */
const char *check_sheet(const sheet_file *sheet, uint8_t *result, size_t result_len, uint8_t *scratch, size_t scratch_len, vg_answer *answer);

/* Prints such an answer, and the types left from the result that it was made with; `before` stands at the front of each line. */
void print_answer(const char *before, vg_answer answer, const uint8_t *result);

#endif
