/* Prints the keys of the keyring on standard input, as `opgp list` does.
 *
 *     cc keys.c $(pkg-config --cflags --libs opgp) -o keys && ./keys < keyring.asc */
#include <opgp.h>

#include "open.h"

#include <inttypes.h>

static void print_digits(const uint8_t *octets, size_t size)
{
    for (size_t i = 0; i < size; i++) {
        printf("%02X", octets[i]);
    }
}

static void print_key(const opgp_key *key)
{
    printf("%s v%u alg %u created %" PRIu32 " ", key->component == OPGP_NONE ? "pub" : "sub", key->version, key->algorithm,
           key->created);
    print_digits(key->print, key->print_size);
    putchar(' ');
    print_digits(key->key_id, sizeof key->key_id);
    putchar('\n');
}

int main(void)
{
    int status;
    opgp_keyring *keyring = open_whole(stdin, "keys", NULL, &status);
    if (!keyring) {
        return status;
    }
    const opgp_key *keys;
    size_t count;
    uint32_t made = opgp_keys(keyring, &keys, &count);
    for (size_t number = 0; number < count; number++) {
        print_key(&keys[number]);
    }
    opgp_close(keyring);
    return made != OPGP_DONE || fflush(stdout) ? 3 : 0;
}
