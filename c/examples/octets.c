/* Writes what the signature in a row of the keyring on standard input hashes (RFC 9580, 5.2.4), as `opgp octets --row N` does.
 *
 *     cc octets.c $(pkg-config --cflags --libs opgp) -o octets && ./octets 0 < keyring.asc | sha512sum */
#include <opgp.h>

#include "open.h"

#include <string.h>

/* Whether a word is a number below 10^18. */
static bool is_number(const char *word)
{
    size_t size = strlen(word);
    return size > 0 && size <= 18 && strspn(word, "0123456789") == size;
}

int main(int argc, char **argv)
{
    if (argc != 2 || !is_number(argv[1])) {
        fprintf(stderr, "Usage: octets ROW < KEYRING\n");
        return 2;
    }
    int exit_status;
    opgp_keyring *keyring = open_whole(stdin, "octets", NULL, &exit_status);
    if (!keyring) {
        return exit_status;
    }
    uint8_t *octets;
    size_t size;
    uint32_t status = opgp_octets(keyring, strtoull(argv[1], NULL, 10), &octets, &size);
    opgp_close(keyring);
    if (status != OPGP_DONE) {
        fprintf(stderr, "octets: %s\n", opgp_status_text(status));
        return status == OPGP_NO_ROW ? 1 : 3;
    }
    size_t written = fwrite(octets, 1, size, stdout);
    free(octets);
    return written < size || fflush(stdout) ? 3 : 0;
}
