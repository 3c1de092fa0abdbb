#define _XOPEN_SOURCE 700 /* open, read, fstat */
#include <errno.h>
#include <fcntl.h>
#include <inttypes.h>
#include <stdio.h>
#include <string.h>
#include <sys/stat.h>
#include <unistd.h>
#include "sheet_file.h"

/* ---- reading --------------------------------------------------------------------------------------------------------------- */

/* What went wrong last. */
static char wrong[256];

static const char *because(const char *what)
{
    snprintf(wrong, sizeof wrong, "%s: %s", what, strerror(errno));
    return wrong;
}

/* Whether reading came to the end, or filled the room that there is. */
static int read_to_end(int file, sheet_file *sheet)
{
    sheet->length = 0;
    while (sheet->length < sizeof sheet->bytes) {
        const ssize_t got = read(file, sheet->bytes + sheet->length, sizeof sheet->bytes - sheet->length);
        if (got == 0) {
            return 1;
        }
        if (got > 0) {
            sheet->length += (size_t)got;
        } else if (errno != EINTR) {
            return 0;
        }
    }
    return 1;
}

/* The bytes of a regular file from where its reading begins. Standard input may have been read from before. */
static uintmax_t size_from(const struct stat *file, off_t start)
{
    return file->st_size > start ? (uintmax_t)(file->st_size - start) : 0;
}

/* Of a sheet that is too long the front alone was read. */
static int is_whole(uintmax_t before, uintmax_t after, size_t length)
{
    return before == after && (length > VG_PROGRAM_SHEET_BYTES ? before >= length : before == length);
}

const char *read_open_sheet(int file, sheet_file *sheet)
{
    struct stat before, after;
    const off_t start = lseek(file, 0, SEEK_CUR); /* -1 for a pipe, of which it is not asked */
    if (fstat(file, &before) != 0 || !read_to_end(file, sheet) || fstat(file, &after) != 0) {
        return because("cannot be read");
    }
    if (S_ISREG(before.st_mode) && !is_whole(size_from(&before, start), size_from(&after, start), sheet->length)) {
        snprintf(wrong, sizeof wrong, "was not read whole: it had %" PRIuMAX " bytes before and %" PRIuMAX " after, and %zu were read",
                 size_from(&before, start), size_from(&after, start), sheet->length);
        return wrong;
    }
    return NULL;
}

const char *read_sheet(const char *path, sheet_file *sheet)
{
    const char *failed;
    const int file = open(path, O_RDONLY | O_NOCTTY);
    if (file < 0) {
        return because("cannot be opened");
    }
    failed = read_open_sheet(file, sheet);
    close(file);
    return failed;
}

/* ---- checking -------------------------------------------------------------------------------------------------------------- */

/* The length of the type that begins the bytes; 0 if none does. */
static size_t type_length(const uint8_t *bytes, size_t length)
{
    const vg_answer answer = vg_type_length(bytes, length);
    return answer.kind == VG_VALUE && answer.first <= length ? (size_t)answer.first : 0;
}

/* Whether the bytes are so many types. */
static int are_types(const uint8_t *types, uint64_t count, size_t bytes)
{
    size_t at = 0;
    for (uint64_t i = 0; i < count; i++) {
        const size_t length = type_length(types + at, bytes - at);
        if (length == 0) {
            return 0;
        }
        at += length;
    }
    return at == bytes;
}

static int is_understood(vg_answer answer, const sheet_file *sheet, const uint8_t *result, size_t result_len)
{
    if (answer.kind == VG_VALUE) {
        return answer.second <= result_len && are_types(result, answer.first, (size_t)answer.second);
    }
    return answer.kind == VG_REFUSED && answer.number >= VG_ENDED && answer.number <= VG_TOO_MANY_NAMES && answer.place <= sheet->length;
}

const char *check_sheet(const sheet_file *sheet, uint8_t *result, size_t result_len, uint8_t *scratch, size_t scratch_len, vg_answer *answer)
{
    const vg_answer too_long = {VG_REFUSED, VG_TOO_SHORT, 0, 0, 0};
    if (sheet->length > VG_PROGRAM_SHEET_BYTES) {
        *answer = too_long;
        return NULL;
    }
    *answer = vg_check_sheet(sheet->bytes, sheet->length, result, result_len, scratch, scratch_len);
    return is_understood(*answer, sheet, result, result_len) ? NULL : "has an answer that is not understood";
}

/* ---- printing -------------------------------------------------------------------------------------------------------------- */

static void print_types(const char *before, const uint8_t *types, uint64_t count, size_t bytes)
{
    size_t at = 0;
    printf("%sok %" PRIu64 " %zu\n", before, count, bytes);
    for (uint64_t i = 0; i < count; i++) {
        const size_t end = at + type_length(types + at, bytes - at);
        printf("%s%" PRIu64 " ", before, i);
        for (; at < end; at++) {
            printf("%02x", types[at]);
        }
        printf("\n");
    }
}

void print_answer(const char *before, vg_answer answer, const uint8_t *result)
{
    if (answer.kind == VG_REFUSED) {
        printf("%sno %" PRIu64 " %" PRIu64 "\n", before, answer.number, answer.place);
    } else {
        print_types(before, result, answer.first, (size_t)answer.second);
    }
}
