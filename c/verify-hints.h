/* What is told of a file of keys or signatures beside a fault, or beside what is found: what it seems to be, and what to do about it.
 * Nothing here decides anything: statuses and other lines are the same without. */
#ifndef OPGP_VERIFY_HINTS_H
#define OPGP_VERIFY_HINTS_H

#include <opgp.h>

#include <stdbool.h>

/* How a program takes keyrings, for what it says of several in one file. */
enum intake {
    INTAKE_OPTIONS = 0, /* by --keyring for each */
    INTAKE_OPERANDS,    /* by an argument for each */
    INTAKE_ONE,         /* one file alone */
    INTAKE_NONE         /* the file is of signatures */
};

/* When a line for people is written: where standard error is a terminal, always, or never. */
enum hints { HINTS_AUTO = 0, HINTS_ALWAYS, HINTS_NEVER };

/* Says when, before the first line. */
void set_hints(enum hints when);

/* Whether one is written. */
bool shows_hints(void);

/* Says a second line on standard error about octets that were refused with this fault, if there is something to say: that they have a
 * secret key, or that armor is behind packets. */
void hint_of_fault(const char *program, enum intake intake, const uint8_t *octets, size_t size, const opgp_fault *fault);

/* Says how many octets outside of armored blocks were skipped, if any were. */
void hint_of_skipped(const char *program, uint64_t count);

#endif
