// Preloaded by tests/bindings/verify.py alone: counts how often a program has libcrypto verify a signature by Ed25519 or Ed448. At the
// end of the program, that number goes to descriptor 9.
#define _GNU_SOURCE
#include <dlfcn.h>
#include <stddef.h>
#include <stdio.h>

static long count;

int EVP_DigestVerify(void *context, const unsigned char *made, size_t size, const unsigned char *text, size_t length) {
    int (*verify)(void *, const unsigned char *, size_t, const unsigned char *, size_t) =
        (int (*)(void *, const unsigned char *, size_t, const unsigned char *, size_t))dlsym(RTLD_NEXT, "EVP_DigestVerify");
    count++;
    return verify(context, made, size, text, length);
}

__attribute__((destructor)) static void end(void) { dprintf(9, "%ld\n", count); }
