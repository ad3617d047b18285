#include "fail.h"

#include <errno.h>
#include <stdarg.h>
#include <stdio.h>
#include <stdlib.h>
#include <string.h>

void fail(enum status status, const char *where, const char *what, ...)
{
    va_list values;
    fprintf(stderr, "%s: %s: ", program_invocation_short_name, where);
    va_start(values, what);
    vfprintf(stderr, what, values);
    va_end(values);
    fputc('\n', stderr);
    exit(status);
}

void fail_errno(const char *where, const char *doing)
{
    fail(SYSTEM_ERROR, where, "%s: %s", doing, strerror(errno));
}
