/* Checks sheets that are in files, and prints of each what the program `sheet` prints of it.
 *
 *   vg-check [--quiet] [--explain] [--] FILE...
 *   vg-check --help
 *   vg-check --version
 *
 * `-` is standard input. With several files each line of an answer begins with the file's name, a colon and a space, so that grep and
 * sort find a file's lines. A control character in a name is printed as ?: a name with a line feed could look like an answer.
 *
 * The status is 0 if every sheet was accepted; 1 if some were refused; 2, whatever else was, if some file could not be read to its end
 * or its answer not be written. Standard error has a sentence for each of these, and the other files are checked all the same; but where
 * an answer cannot be written, none after it is tried.
 *
 * A file is read as sheet_file.h says: one that was cut while it was read is an error. A pipe gives its bytes once, and the sheet of no
 * bytes is accepted, so a pipe that is named again is an error too, and so is standard input. A sheet of more than VG_PROGRAM_SHEET_BYTES
 * is `no 7 0`, as `sheet` has it.
 */
#define _XOPEN_SOURCE 700 /* open, fstat */
#include <errno.h>
#include <fcntl.h>
#include <inttypes.h>
#include <stdio.h>
#include <stdlib.h>
#include <string.h>
#include <sys/stat.h>
#include <unistd.h>
#include "sheet_file.h"

const char *const host = "vg-check";

static const char usage[] =
    "usage: vg-check [--quiet] [--explain] [--] FILE...\n"
    "       vg-check --help\n"
    "       vg-check --version\n";

static const char help[] =
    "\n"
    "Checks the sheet in each FILE; - is standard input. Prints `ok TYPES BYTES` and\n"
    "a line for each type left, or `no NUMBER PLACE`, as the program `sheet` does.\n"
    "With several files each line begins with the file's name, a colon and a space.\n"
    "\n"
    "  --quiet    print no answer; the status says it\n"
    "  --explain  after a refusal, a line that says in words which step it is and why\n"
    "  --help     print this\n"
    "  --version  print the version, which is the library's\n"
    "  --         what follows are files, also if they begin with -\n"
    "\n"
    "Status: 0 all accepted; 1 some refused; 2 some could not be read or written.\n"
    "What to do about each number: RULES.md, Refusals.\n";

enum status { ACCEPTED = 0, REFUSED = 1, FAILED = 2 };

/* ---- what is asked for ----------------------------------------------------------------------------------------------------- */

static struct asked {
    int quiet;
    int explain;
    int help;
    int version;
    char **files;
    size_t count;
} asked;

static int is(const char *word, const char *other) { return strcmp(word, other) == 0; }

/* Whether the word is an option that is known. */
static int take_option(const char *word)
{
    int *const option = is(word, "--quiet")     ? &asked.quiet
                        : is(word, "--explain") ? &asked.explain
                        : is(word, "--help")    ? &asked.help
                        : is(word, "--version") ? &asked.version
                                                : NULL;
    if (option != NULL) {
        *option = 1;
    }
    return option != NULL;
}

/* NULL, or the first option that is not known. Options may stand behind files; the files move to the front of the words. */
static const char *take_words(char **words)
{
    int options = 1;
    asked.files = words;
    for (char **word = words; *word != NULL; word++) {
        if (options && is(*word, "--")) {
            options = 0;
        } else if (!options || (*word)[0] != '-' || is(*word, "-")) {
            asked.files[asked.count++] = *word;
        } else if (!take_option(*word)) {
            return *word;
        }
    }
    return NULL;
}

/* ---- what is said ---------------------------------------------------------------------------------------------------------- */

/* No file that can be opened has a longer name; of any other the front is shown. And room for a colon, a space and the end. */
#define LONGEST_NAME 4096
static char name_shown[LONGEST_NAME + 3];

/* The file's name as it is printed, with this behind it. It lasts until the next. */
static const char *show(const char *name, const char *behind)
{
    size_t i;
    for (i = 0; name[i] != 0 && i < LONGEST_NAME; i++) {
        const unsigned char byte = (unsigned char)name[i];
        name_shown[i] = byte < 32 || byte == 127 ? '?' : name[i];
    }
    strcpy(name_shown + i, behind);
    return name_shown;
}

static enum status fail_file(const char *name, const char *how)
{
    fail(name[0] == 0 ? "a file without a name" : show(name, ""), how);
    return FAILED;
}

/* Room for any answer with the name before each line: it is written all at once, when it is flushed, and no line of it before. */
static char output[2 * VG_SHEET_RESULT_BYTES + (VG_MAX_STACK + 2) * (LONGEST_NAME + 256)];

static int fail_writing(void)
{
    char how[256];
    snprintf(how, sizeof how, "cannot be written: %s", strerror(errno));
    return fail("the answer", how);
}

/* The status, if what was printed is written to the last byte: some files say only when they are closed that there was no room. */
static int end_output(enum status status) { return fclose(stdout) == 0 ? (int)status : fail_writing(); }

/* ---- why a sheet is refused ------------------------------------------------------------------------------------------------ */

/* By the numbers of enum vg_refusal, in the words of docs/RULES.md. A 12 at a step past the last that is allowed is of that step. */
static const char *const reasons[] = {
    [VG_ENDED] = "the bytes end before it is whole",
    [VG_UNMARKED] = "two bytes that are no mark allowed there",
    [VG_OUT_OF_RANGE] = "a count, a code, a flag or a letter of a name is out of range",
    [VG_OVERSIZED] = "a size above 2^53",
    [VG_TOO_MANY] = "too many types in one, too deep, or too many copies",
    [VG_TRAILING] = "bytes stand behind the type",
    [VG_TOO_SHORT] = "there is too little room for the types left",
    [VG_UNPERVADED] = "the two tables cannot be laid together",
    [VG_WRONG_SCALAR] = "the wrong kind for its spec",
    [VG_WRONG_SHAPE] = "a size differs from the spec's",
    [VG_UNDERFLOW] = "it lacks tables",
    [VG_OVERFLOW] = "a seventh table at once",
    [VG_NOT_A_SIZE] = "a number that is no size",
    [VG_WRONG_COUNT] = "so many sizes cannot fit the spec's",
    [VG_UNDECLARED] = "a name that was never declared before it",
    [VG_TOO_MANY_NAMES] = "a seventeenth name",
};

static const char *word_for(uint64_t mark)
{
    switch (mark) {
    case VG_PUT: return "put";
    case VG_ROW: return "row";
    case VG_PERVADE: return "pervade";
    case VG_JOIN: return "join";
    case VG_VALIDATE: return "validate";
    case VG_DECLARATION: return "declaration";
    case VG_USE: return "use";
    default: return "no mark of a step";
    }
}

/* An answer that was understood has one of the sixteen numbers. Where no step has the place, none is named. */
static void explain(const char *before, vg_answer refusal, const sheet_file *sheet)
{
    const vg_answer step = vg_find_step(sheet->bytes, sheet->length, refusal.place);
    if (sheet->length > VG_PROGRAM_SHEET_BYTES) {
        printf("%s  the sheet: more than %d bytes\n", before, VG_PROGRAM_SHEET_BYTES);
    } else if (refusal.number == VG_TOO_SHORT || step.kind != VG_VALUE) {
        printf("%s  the sheet: %s\n", before, reasons[refusal.number]);
    } else {
        const char *const reason = refusal.number == VG_OVERFLOW && step.first > VG_MAX_STEPS ? "a 65th step" : reasons[refusal.number];
        printf("%s  step %" PRIu64 ", %s: %s\n", before, step.first, word_for(step.second), reason);
    }
}

/* ---- the files ------------------------------------------------------------------------------------------------------------- */

static sheet_file sheet;
static uint8_t result[VG_SHEET_RESULT_BYTES];
static uint8_t scratch[VG_SCRATCH_BYTES];

/* The pipes that were read, with room for as many as there are files; and whether standard input was. */
static struct pipe_read {
    dev_t device;
    ino_t number;
} *pipes_read;
static size_t pipes_count;
static int input_read;

/* Whether it is a pipe that was read. */
static int is_known(const struct stat *about)
{
    for (size_t i = 0; i < pipes_count; i++) {
        if (pipes_read[i].device == about->st_dev && pipes_read[i].number == about->st_ino) {
            return 1;
        }
    }
    return 0;
}

/* Whether the file gives its bytes once, and gave them. From now on it did. (Where standard input is closed, a file that is opened has its
 * number, and is not it.) */
static int was_read(int file, int is_input)
{
    const int again = is_input && input_read;
    struct stat about;
    input_read |= is_input;
    if (fstat(file, &about) != 0 || !(S_ISFIFO(about.st_mode) || S_ISSOCK(about.st_mode))) {
        return again;
    }
    if (is_known(&about)) {
        return 1;
    }
    pipes_read[pipes_count].device = about.st_dev;
    pipes_read[pipes_count++].number = about.st_ino;
    return again;
}

static const char *read_open(int file, int is_input)
{
    return was_read(file, is_input) ? "was read already, and gives its bytes once" : read_open_sheet(file, &sheet);
}

/* NULL, or what went wrong. */
static const char *read_named(const char *name)
{
    static char wrong[256];
    const char *failed;
    struct stat about;
    int file;
    if (is(name, "-")) {
        return read_open(STDIN_FILENO, 1);
    }
    if (stat(name, &about) == 0 && is_known(&about)) {
        return "was read already, and gives its bytes once";
    }
    file = open(name, O_RDONLY | O_NOCTTY);
    if (file < 0) {
        snprintf(wrong, sizeof wrong, "cannot be opened: %s", strerror(errno));
        return wrong;
    }
    failed = read_open(file, 0);
    close(file);
    return failed;
}

static enum status check_file(const char *name)
{
    vg_answer answer;
    const char *failed = read_named(name);
    if (failed == NULL) {
        failed = check_sheet(&sheet, result, sizeof result, scratch, sizeof scratch, &answer);
    }
    if (failed != NULL) {
        return fail_file(name, failed);
    }
    if (!asked.quiet) {
        const char *const before = asked.count > 1 ? show(name, ": ") : "";
        print_answer(before, answer, result);
        if (asked.explain && answer.kind == VG_REFUSED) {
            explain(before, answer, &sheet);
        }
    }
    return answer.kind == VG_REFUSED ? REFUSED : ACCEPTED;
}

/* The status of all. Where nothing is to be printed, it makes no difference whether it could be. */
static int check_files(void)
{
    enum status worst = ACCEPTED;
    int printed = 0;
    for (size_t i = 0; i < asked.count; i++) {
        const enum status status = check_file(asked.files[i]);
        worst = status > worst ? status : worst;
        printed |= !asked.quiet && status != FAILED;
        if (fflush(stdout) != 0) {
            return fail_writing();
        }
    }
    return printed ? end_output(worst) : (int)worst;
}

int main(int argc, char **argv)
{
    const char *unknown;
    char version[64];
    outlive_failed_writes();
    setvbuf(stdout, output, _IOFBF, sizeof output);
    unknown = take_words(argv + (argc > 0));
    if (unknown != NULL) {
        fail(show(unknown, ""), "is no option; --help names them");
        return FAILED;
    }
    if (asked.help) {
        printf("%s%s", usage, help);
        return end_output(ACCEPTED);
    }
    if (vg_version() != VG_VERSION) {
        snprintf(version, sizeof version, "has version %" PRIu64 ", and %" PRIu64 " is wanted", vg_version(), VG_VERSION);
        return fail("the library", version);
    }
    if (asked.version) {
        printf("%s %" PRIu64 "\n", host, vg_version());
        return end_output(ACCEPTED);
    }
    if (asked.count == 0) {
        fputs(usage, stderr);
        return FAILED;
    }
    pipes_read = calloc(asked.count, sizeof *pipes_read);
    if (pipes_read == NULL) {
        return fail("so many files", "cannot be kept in mind");
    }
    return check_files();
}
