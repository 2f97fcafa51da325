/* Writes how the parts of a keyring stand, as `opgp state --verdicts` does. */
#ifndef OPGP_VERIFY_STATES_H
#define OPGP_VERIFY_STATES_H

#include <opgp.h>

/* How many keys stand so: usable, revoked, early, unbound, expired, no-use. */
struct state_counts {
    size_t of[6];
};

/* Writes a line for each key, user ID and attribute of a keyring, by its states; the status. Where it isn't OPGP_DONE, memory ran out,
 * and nothing was written. */
uint32_t print_states(const opgp_keyring *keyring, const opgp_state *states, size_t count, struct state_counts *counts);

#endif
