/* What failed ends the program, with a message and status 1. A terminal would rather stop here than go on with a table
 * that is not on disk. */
#ifndef DEMO_FAIL_H
#define DEMO_FAIL_H

/* A system call: errno says why. */
_Noreturn void fail(const char *what);

/* Anything else. */
_Noreturn void fail_because(const char *what, const char *why);

#endif
