/* Verifies the Ed25519 signatures (RFC 9580, 5.2.3.4) of the keyring on standard input by OpenSSL's libcrypto. It prints the
 * number of each row and its verdict. verify-arithmetic.c asks for more algorithms.
 *
 *     cc check.c $(pkg-config --cflags --libs opgp libcrypto) -o check && ./check < keyring.asc */
#include <opgp.h>

#include "open.h"

#include <openssl/evp.h>

/* Whether the key made this signature over the digest, which is the message that Ed25519 signs. */
static opgp_verdict verify(void *context, const opgp_question *question)
{
    const opgp_job *job = question->job;
    opgp_span made = question->made[0], point = question->key[0];
    opgp_verdict verdict = OPGP_UNDECIDED;
    (void)context;
    if (job->algorithm != OPGP_KEY_ED25519 || question->signer->algorithm != OPGP_KEY_ED25519) {
        return OPGP_UNDECIDED;
    }
    EVP_PKEY *key = EVP_PKEY_new_raw_public_key(EVP_PKEY_ED25519, NULL, point.octets, point.size);
    EVP_MD_CTX *asked = EVP_MD_CTX_new();
    if (key && asked && EVP_DigestVerifyInit(asked, NULL, NULL, NULL, key) == 1) {
        int answer = EVP_DigestVerify(asked, made.octets, made.size, job->digest, job->digest_size);
        verdict = answer == 1 ? OPGP_GOOD : OPGP_BAD;
    }
    EVP_MD_CTX_free(asked);
    EVP_PKEY_free(key);
    return verdict;
}

static int report(void *context, size_t row, const opgp_job *job, opgp_verdict verdict)
{
    static const char *const words[] = {"undecided", "good", "bad"};
    char why[OPGP_NAME_ROOM];
    (void)context;
    printf("row %zu : %s\n", row, job->why ? opgp_name_text(OPGP_WHYS, job->why, why) : words[verdict]);
    return 0;
}

int main(void)
{
    int status;
    opgp_keyring *keyring = open_whole(stdin, "check", NULL, &status);
    if (!keyring) {
        return status;
    }
    uint32_t checked = opgp_check(keyring, verify, report, NULL);
    opgp_close(keyring);
    return checked != OPGP_DONE || fflush(stdout) ? 3 : 0;
}
