/* Printing an answer: the part that the examples share. */
#ifndef NEKBROD_EXAMPLES_ANSWER_H
#define NEKBROD_EXAMPLES_ANSWER_H

#include <nekbrod.h>
#include <stdio.h>

/* The exit statuses. */
enum { ANSWERED = 0, REFUSED = 1, UNUSABLE = 2, UNWRITTEN = 3 };

static inline int print_refusal(const char *what, nekbrod_refusal refusal)
{
    fprintf(stderr, "%s: refused %zu at %zu\n", what, refusal.number, refusal.place);
    return REFUSED;
}

static inline char mark(bool exact)
{
    return exact ? '=' : '~';
}

/* The rest of a line: both ends of the root, each with its mark. */
static inline void print_ends(nekbrod_reply reply)
{
    printf("%u %c %u %c\n", (unsigned)reply.lower, mark(reply.lower_exact), (unsigned)reply.upper,
           mark(reply.upper_exact));
}

/* What printf keeps is written here, so that a full disk or a closed output is seen. */
static inline int written(const char *program)
{
    if (fflush(stdout) != 0 || ferror(stdout)) {
        fprintf(stderr, "%s: can't write the answer\n", program);
        return UNWRITTEN;
    }
    return ANSWERED;
}

#endif
