/* Files for documents that were verified: at their names there is all of it, or what was there before. */
#ifndef OPGP_VERIFY_OUTPUT_H
#define OPGP_VERIFY_OUTPUT_H

#include <stdbool.h>
#include <stddef.h>
#include <stdint.h>

/* A file that is being written; all zeros is none. The octets are somebody else's, and stay where they are until it ends. */
struct output {
    const char *name;      /* as it was given */
    char *place;           /* where it is to be: the name, or where links lead from there */
    char *temporary;       /* where it is until then, in the same folder; NULL: it goes to a device or a pipe, which isn't replaced */
    const uint8_t *octets;
    size_t size;
    bool may_replace;
};

/* Whether something is at this name, be it a link that leads nowhere. */
bool is_taken(const char *name);

/* Writes octets to a temporary file, so that output_keep only has to give it its name. Its mode is what the process's mask lets
 * through; if it is to replace a file, it is that one's. It is flushed to its device, if that is wanted: so it is whole also behind a
 * failure of power. False, with errno, if that can't be: then nothing is left of it. */
bool output_write(struct output *it, const char *name, const uint8_t *octets, size_t size, bool may_replace, bool is_flushed);

/* Puts the file at its name, where nothing may be unless it may be replaced. False, with errno, if it can't be: then nothing is left
 * of it. Without a file that was written there is nothing to do. */
bool output_keep(struct output *it);

/* Ends: what isn't kept is removed. */
void output_end(struct output *it);

#endif
