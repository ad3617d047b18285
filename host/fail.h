/* How a program ends when it can't go on: a message, and a status. */
#ifndef FAIL_H
#define FAIL_H

enum status {
    REFUSED_BY_NUMBER = 1, /* the record or n was refused */
    WRONG_ARGUMENTS = 2,
    SYSTEM_ERROR = 3,
};

/* "program: where: what" on standard error. */
_Noreturn void fail(enum status status, const char *where, const char *what, ...) __attribute__((format(printf, 3, 4)));

/* The same for a system call that failed: "program: where: doing: reason". */
_Noreturn void fail_errno(const char *where, const char *doing);

#endif
