/* What opgp-sopv, opgp-sqv and opgp-gpgv have in common. No octet of a key or of a signature is seen here, but rows of verify-judging.h. A
 * line that says that a signature is good is written only of one that is good and believed. */
#ifndef OPGP_VERIFY_DIALECTS_H
#define OPGP_VERIFY_DIALECTS_H

#include "verify-judging.h"
#include "verify-names.h"
#include "verify-options.h"
#include "verify-output.h"

dialect sopv, sqv, gpgv;

/* What is to be judged, how keyrings are given, and how long after the present time a signature may be made. Without a file of signatures
 * the document is a cleartext message. */
struct inputs {
    const char *signatures, *document;
    const char *const *keyrings;
    size_t keyring_count;
    FILE *(*open)(const char *name);
    enum intake intake;
    uint64_t ahead;
};

/* How often standard input is named. */
size_t inputs_named(const struct inputs *inputs);

/* Judges the signatures at the present time by the usual policy; 0, or the exit status. *are_signatures is whether the signatures' file, or
 * the message, has some, or can't be read. Give *judging to judging_free. */
int judged(const struct program *program, const struct inputs *inputs, struct judging **judging, bool *are_signatures);

bool is_believed(const struct judged *row);

/* Writes the document of the message that was judged, for output_keep, with an end of its last line if it is to have one; 0, or the exit
 * status. Without a name there is nothing to write. */
int written(const struct program *program, const struct judging *judging, const char *name, bool has_end, bool may_replace,
            struct output *output);

/* Puts it at its name, if the status is 0; the exit status. */
int kept(const struct program *program, struct output *output, int status);

/* Whether a signature isn't verified since its signer's key isn't there. */
bool is_absent(const struct judged *row);

/* The times between which a signature must be made. */
struct window {
    uint64_t begin, end;
};

/* Reads the times that two options name; with has_none - is none. 0, or the exit status. */
int take_window(const struct words *words, size_t before, size_t after, bool has_none, struct window *window);

/* Why a signature that is good and believed isn't accepted: it was made outside of these times; NULL: it is. */
const char *outside(const struct judged *row, const struct window *window);

/* Says on standard error what was found of a signature, and why a good one isn't accepted, if it isn't. */
void explain(const struct program *program, const struct judged *row, const char *refusal);

#endif
