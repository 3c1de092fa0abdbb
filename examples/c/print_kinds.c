/* Prints the library's table of kinds as the program `kinds` prints it, one decimal number to a line.
 *
 *   print_kinds
 */
#include <stdio.h>
#include "host.h"
#include "velgrodis.h"

const char *const host = "print_kinds";

static uint8_t table[VG_KIND_TABLE_BYTES];

int main(int argc, char **argv)
{
    vg_answer answer;
    size_t i;
    (void)argv;
    outlive_failed_writes();
    if (argc != 1) {
        return fail("no argument", "is wanted");
    }
    answer = vg_kinds(table, sizeof table);
    if (answer.kind != VG_VALUE || answer.first != sizeof table) {
        return fail("the library's table", "is not understood");
    }
    for (i = 0; i < sizeof table; i++) {
        printf("%u\n", (unsigned)table[i]);
    }
    return is_written() ? 0 : fail("the table", "cannot be written");
}
