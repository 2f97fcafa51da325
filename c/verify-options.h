/* The options and operands of a command line, for opgp-verify's other names. */
#ifndef OPGP_VERIFY_OPTIONS_H
#define OPGP_VERIFY_OPTIONS_H

#include <stdbool.h>
#include <stddef.h>
#include <stdio.h>

/* The most options that a program has. */
enum { MOST_OPTIONS = 32 };

/* An option: its name, which may have a * in place of letters; another name for it, or NULL. */
struct option {
    const char *name, *other;
    bool has_value, may_repeat;
};

/* A program's options, and its exit statuses: for an unknown option, an argument that is wanting, a file that isn't there, reading that
 * failed, an input that is refused, and anything else that failed. */
struct program {
    const char *name;
    const struct option *options;
    size_t option_count;
    int unknown, wanting, missing, unread, refused, failed;
};

/* What the words name: of each option its values, or itself where it has none; and the operands. */
struct words {
    const struct program *program;
    const char **values; /* those of an option from its number times the room on, and behind all options the operands */
    size_t room, counts[MOST_OPTIONS + 1];
};

/* Says on standard error what is wrong, and returns the exit status. */
__attribute__((format(printf, 3, 4))) int said(const struct program *program, int status, const char *form, ...);

/* Ends what is written to a file; the exit status, which says if that failed. */
int ended(const struct program *program, FILE *file, int status);

/* Takes the words of a command line, which end in NULL; 0, or the exit status. Give the values to free() in any case. */
int take_words(struct words *words, const struct program *program, char **next);

/* All values of an option, and how many there are. */
const char *const *all_of(const struct words *words, size_t option);
size_t count_of(const struct words *words, size_t option);

/* The value of an option that may be there once; NULL if it isn't there. */
const char *value_of(const struct words *words, size_t option);

const char *const *operands_of(const struct words *words, size_t *count);

/* A number of at most nine digits; -1 if a word is none. */
long number_in(const char *word);

#endif
