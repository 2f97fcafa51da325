/* The lines of states. */
#include "verify-states.h"

#include <inttypes.h>
#include <stdio.h>

/* Where the words for each standing are, by the numbers of a state's why: OPGP_BELIEVED, OPGP_REVOKED and so on. */
static const unsigned at[] = {[OPGP_BELIEVED] = 0, [OPGP_REVOKED] = 1, [OPGP_EARLY] = 2,
                              [OPGP_UNBOUND] = 3,  [OPGP_EXPIRED] = 4, [OPGP_NO_USE] = 5};

/* A word and a number, or - for none. */
static void print_number(const char *word, uint64_t number)
{
    if (number == OPGP_NONE) {
        printf(" %s -", word);
    } else {
        printf(" %s %" PRIu64, word, number);
    }
}

/* The names of what a key may be used for, or - for nothing. */
static void print_uses(unsigned uses)
{
    static const struct {
        unsigned flag;
        const char *name;
    } all[] = {{1, "certify"}, {2, "sign"}, {4, "encrypt"}, {32, "authenticate"}};
    const char *before = " uses ";
    for (size_t i = 0; i < sizeof all / sizeof *all; i++) {
        if (uses & all[i].flag) {
            printf("%s%s", before, all[i].name);
            before = ",";
        }
    }
    if (!uses) {
        printf("%s-", before);
    }
}

static void print_key(const opgp_state *state, const opgp_key *key, struct state_counts *counts)
{
    static const char *const words[] = {"usable", "revoked", "early", "unbound", "expired", "no-use"};
    printf(state->component == OPGP_NONE ? " : pub " : " : sub ");
    for (size_t i = 0; i < key->print_size; i++) {
        printf("%02X", key->print[i]);
    }
    printf(" %s", words[at[state->why]]);
    print_uses(state->uses);
    print_number("begin", state->begin);
    print_number("end", state->end);
    print_number("reason", state->has_reason ? state->reason : OPGP_NONE);
    counts->of[at[state->why]]++;
}

/* A text, where printable ASCII but quotes and backslashes is as it is. */
static void print_text(opgp_span text)
{
    printf(" \"");
    for (size_t i = 0; i < text.size; i++) {
        uint8_t octet = text.octets[i];
        if (octet < 0x20 || octet > 0x7E || octet == '"' || octet == '\\') {
            printf("\\x%02X", octet);
        } else {
            putchar(octet);
        }
    }
    putchar('"');
}

static void print_identity(const opgp_keyring *keyring, const opgp_state *state, const opgp_packet *packet)
{
    static const char *const words[] = {"certified", "revoked", "", "unbound", ""};
    enum { USER_ID = 13 };
    printf(packet->kind == USER_ID ? " : uid %s" : " : uat %s", words[at[state->why]]);
    if (packet->kind == USER_ID) {
        print_text(opgp_body(keyring, packet));
    }
}

uint32_t print_states(const opgp_keyring *keyring, const opgp_state *states, size_t count, struct state_counts *counts)
{
    const opgp_packet *packets;
    const opgp_key *keys;
    size_t packet_count, key_count;
    uint32_t status = opgp_keys(keyring, &keys, &key_count);
    status = status == OPGP_DONE ? opgp_packets(keyring, &packets, &packet_count) : status;
    /* Each state is of a packet on which others hang, or none; and if it is a key, of the next one. */
    for (size_t i = 0; status == OPGP_DONE && i < count; i++, packets++) {
        while (packets->certificate == OPGP_NONE || packets->hang != OPGP_NONE) {
            packets++;
        }
        printf("cert %" PRIu64, states[i].certificate);
        print_number("part", states[i].component);
        if (states[i].is_key) {
            print_key(&states[i], keys++, counts);
        } else {
            print_identity(keyring, &states[i], packets);
        }
        putchar('\n');
    }
    return status;
}
