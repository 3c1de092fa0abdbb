/* What every host here shares: its name, its complaints, and that what it prints is written whole or its status says otherwise. */
#ifndef HOST_H
#define HOST_H

/* The host's name. Each host defines its own; its complaints begin with it. */
extern const char *const host;

/* Says on standard error what failed and how, and answers the status to exit with, 2. */
int fail(const char *what, const char *how);

/* A host calls it first. A write that fails is then told from its answer: without it a pipe that nobody reads, or a file over its limit,
 * would end the host by a signal. */
void outlive_failed_writes(void);

/* Whether all that was printed is written: it counts only then. */
int is_written(void);

#endif
