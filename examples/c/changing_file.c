/* A stand-in for read(), for tests of hosts that read files: examples/build links it into a vg-check of its own (ld --wrap=read).
 *
 *   CHANGED_FILE   a file that becomes another length
 *   FIRST_LENGTH   its length from before the first reading on, if it is said
 *   LAST_LENGTH    its length from the last reading on, if it is said: one that found the end, or filled the room that there is
 *   READING_FAILS  if it is said, every reading after the first fails; a first one gives one byte
 *   INTERRUPTED    if it is said, every second reading is interrupted and has to be made again
 */
#define _XOPEN_SOURCE 700 /* truncate */
#include <errno.h>
#include <stdlib.h>
#include <unistd.h>

ssize_t __real_read(int file, void *bytes, size_t length);
ssize_t __wrap_read(int file, void *bytes, size_t length);

static void change(const char *length)
{
    /* A test that cannot be made must not look like one that passed. */
    if (getenv(length) != NULL && truncate(getenv("CHANGED_FILE"), atol(getenv(length))) != 0) {
        abort();
    }
}

ssize_t __wrap_read(int file, void *bytes, size_t length)
{
    static unsigned readings;
    ssize_t got;
    readings++;
    if (getenv("INTERRUPTED") != NULL && readings % 2 == 1) {
        errno = EINTR;
        return -1;
    }
    if (getenv("READING_FAILS") != NULL && readings > 1) {
        errno = EIO;
        return -1;
    }
    if (readings == 1) {
        change("FIRST_LENGTH");
    }
    got = __real_read(file, bytes, getenv("READING_FAILS") != NULL ? 1 : length);
    if (got == 0 || (size_t)got == length) {
        change("LAST_LENGTH");
    }
    return got;
}
