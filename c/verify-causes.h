/* Why the key of a good signature isn't believed, in words. */
#ifndef OPGP_VERIFY_CAUSES_H
#define OPGP_VERIFY_CAUSES_H

#include <opgp.h>

#include <stdio.h>

/* Writes of which key the reason holds, at which time, what is lacking, a date, and where the signature is that says so. */
void print_cause(FILE *file, const opgp_cause *cause);

/* Says the same to people, and what to do: a line on standard error, if that is a terminal. */
void explain_cause(const char *program, const opgp_cause *cause);

#endif
