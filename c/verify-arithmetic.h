/* Asks OpenSSL's libcrypto about signatures: whether what a signature's algorithm made fits its digest and its issuer's key. What else
 * there is to say of one, whatever the arithmetic finds, are doubts. Nothing here knows of files, lines or options. */
#ifndef OPGP_VERIFY_ARITHMETIC_H
#define OPGP_VERIFY_ARITHMETIC_H

#include <opgp.h>

/* Doubts, to be added up. */
enum {
    DOUBT_CRITICAL = 1,  /* it has a critical subpacket of an unknown kind or form, or a critical notation, of which none is known here */
    DOUBT_WEAK_HASH = 2, /* its digest is by SHA-1 */
    DOUBT_SMALL_KEY = 4  /* the key that libcrypto asked is small */
};

/* What is found of a signature. */
struct finding {
    opgp_verdict verdict;
    const char *why; /* of an undecided one; static */
    unsigned doubts;
};

/* What is kept from question to question: the signer's key that was asked last. Each thread has its own. */
struct arithmetic;

/* To be called before libcrypto is used at all. */
void arithmetic_begin(void);

/* Whether libcrypto can be asked: what it keeps for all its calls is made here, since it doesn't stand without. */
bool arithmetic_stands(void);

/* To be called before several threads ask: what libcrypto makes when it's first asked, and keeps for all, is made here, so that no thread
 * meets it half made. */
void arithmetic_for_threads(void);

/* Whether memory ran out in any thread, for libcrypto or for this. Then no finding holds. */
bool memory_ran_out(void);

/* The name and version of libcrypto. */
const char *arithmetic_version(void);

/* What is kept from question to question, for arithmetic_free; NULL if memory ran out. */
struct arithmetic *arithmetic_new(void);
void arithmetic_free(struct arithmetic *it);

/* The SHA2-256 of octets; false if memory ran out. */
enum { SHA256_SIZE = 32 };
bool arithmetic_sha256(const uint8_t *octets, size_t size, uint8_t digest[SHA256_SIZE]);

/* The doubts that need no arithmetic, about a signature with these subpackets. */
unsigned doubts_of(const opgp_job *job, const opgp_subpacket *subpackets, size_t count);

/* What arithmetic says of a signature about which there are these doubts, and whether its key is small. The signers of all questions are
 * rows of one table. A signer who is asked again at once is asked faster.
 *
 * Where one of the decisive doubts holds, arithmetic isn't needed: the finding is undecided, and says which. With 0 as decisive the
 * verdict is that of arithmetic alone. */
struct finding arithmetic_of(struct arithmetic *it, const opgp_question *question, unsigned doubts, unsigned decisive);

#endif
