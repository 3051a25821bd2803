#include "fail.h"

#include <errno.h>
#include <stdio.h>
#include <stdlib.h>
#include <string.h>

_Noreturn void fail(const char *what)
{
    fail_because(what, strerror(errno));
}

_Noreturn void fail_because(const char *what, const char *why)
{
    fflush(stdout); /* so that the message comes last; that this fails too is no news */
    fprintf(stderr, "%s: %s\n", what, why);
    exit(EXIT_FAILURE);
}
