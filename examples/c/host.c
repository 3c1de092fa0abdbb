#define _XOPEN_SOURCE 700 /* SIGPIPE, SIGXFSZ */
#include <signal.h>
#include <stdio.h>
#include "host.h"

int fail(const char *what, const char *how)
{
    fprintf(stderr, "%s: %s %s\n", host, what, how);
    return 2;
}

void outlive_failed_writes(void)
{
    signal(SIGPIPE, SIG_IGN);
    signal(SIGXFSZ, SIG_IGN);
}

int is_written(void) { return fflush(stdout) == 0 && !ferror(stdout); }
