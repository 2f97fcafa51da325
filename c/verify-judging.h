/* Judges the signatures over a document: reads signatures, keyrings and the document, or a message that has it and them, has
 * verify-arithmetic.c ask libcrypto and opgp_judge judge, and gives a row for each signature. A row has names of keys, times, numbers of
 * the standard and what was found: no octets of a key, and of a digest the two that opgp-verify shows. Nothing here knows of options, or of
 * how what was found is told. */
#ifndef OPGP_VERIFY_JUDGING_H
#define OPGP_VERIFY_JUDGING_H

#include "verify-arithmetic.h"
#include "verify-hints.h"

#include <opgp.h>

#include <stdio.h>

/* What became of a step. If it isn't done, standard error says why. */
enum outcome {
    STEP_DONE = 0,
    STEP_MISSING, /* a file can't be opened */
    STEP_UNREAD,  /* reading failed */
    STEP_REFUSED, /* the library refuses an input */
    STEP_FAILED   /* memory ran out */
};

/* Room for a fingerprint or a key ID in hexadecimal, and its NUL. */
enum { DIGITS_ROOM = 65, KEY_ID_ROOM = 17, KEY_NAME_ROOM = 24 };

/* What was found of a signature over the document. Texts are empty where there is nothing to say. */
struct judged {
    size_t number;                  /* of the signature, from 0 */
    uint8_t version;                /* 3, 4 or 6; 0: it isn't parsed */
    uint8_t kind, algorithm, hash;  /* 5.2.1, 9.1, 9.5 */
    bool is_hashed;                 /* else `why` says why it isn't */
    uint8_t digest[2];              /* how its digest begins */
    bool is_dated;                  /* it states when it was made */
    uint64_t made, expires;         /* in seconds since 1970; expires 0: never */
    char issuer[DIGITS_ROOM];       /* the fingerprint or key ID of the key that it names */
    char key_id[KEY_ID_ROOM];       /* of that key, in the keyrings or not */
    char key[DIGITS_ROOM];          /* the fingerprint of its signer's key; empty: that isn't in the keyrings */
    char key_name[KEY_NAME_ROOM];   /* the algorithm of that key, such as rsa4096, nistp256 or ed25519 */
    opgp_verdict verdict;
    const char *why;                /* why it is undecided, or not hashed */
    uint8_t standing;               /* OPGP_BELIEVED, or the first reason why not; OPGP_NOT_GOOD: the verdict isn't good */
    opgp_cause cause;               /* more of that, if it is the key's; else its why is OPGP_BELIEVED */

    /* By judging_names alone. */
    char primary[DIGITS_ROOM];      /* the fingerprint of the primary key of the signer's certificate: where it is believed, if it is */
    const char *user_id;            /* the text of that certificate's primary user ID */
    size_t user_id_size;
};

/* The doubts that leave a signature undecided, by a policy (OPGP_POLICY_USUAL ..). */
unsigned decisive_by(uint32_t policy);

/* Whether there is something to ask the issuer's key of a signature, which is NULL if it isn't there; and what is found of one if not. */
bool is_asked(const opgp_job *job, const opgp_key *signer);
struct finding found_without(const opgp_job *job);

/* What is read, and found. */
struct judging;

/* `program` is the name in front of what is said on standard error. `open` opens the files, which close_named closes. `intake` is how the
 * program takes keyrings. For judging_free, which allows NULL; NULL if memory ran out. */
struct judging *judging_new(const char *program, FILE *(*open)(const char *name), enum intake intake);

/* Before the steps, if that is wanted: refuses keyrings with malformed signatures. Else these are kept: nothing is ever hashed of one. */
void judging_refuses_malformed(struct judging *it);
void judging_free(struct judging *it);

/* These steps are made in this order, each once: the file of the signatures, those of the keyrings, that of the document. */
enum outcome judging_signatures(struct judging *it, const char *name);
enum outcome judging_keyrings(struct judging *it, const char *const *names, size_t count);
enum outcome judging_document(struct judging *it, const char *name);

/* In place of the first and the last of them: reads a cleartext message (7), whose signatures are over the document in it. One of another
 * type than 01 is never good there, but undecided: programs disagree on what it is over. */
enum outcome judging_cleartext(struct judging *it, const char *name);

/* The document of the message: lines with a line feed between them, and one more behind the size. It may be anybody's, unless a signature is
 * good and believed. It lives as long as `it`. */
const uint8_t *judging_text(const struct judging *it, size_t *size);

/* Then: judges by a policy at a present time, in seconds since 1970. */
enum outcome judging_verdicts(struct judging *it, uint32_t policy, uint64_t now);

/* Then, if that is wanted: a good signature that isn't believed since it was made after the present time, by no more than `most` seconds,
 * is judged anew, at the time at which it was made. The others aren't. */
enum outcome judging_ahead(struct judging *it, uint32_t policy, uint64_t now, uint64_t most);

/* Then, if that is wanted: finds the certificates of signers and their user IDs. A user ID is one that the primary key certifies at the
 * present time and hasn't revoked: of these the newest that is marked as primary, else the newest (5.2.3.27). */
enum outcome judging_names(struct judging *it, uint32_t policy, uint64_t now);

/* The rows, a signature each, in order. They live as long as `it`. */
const struct judged *judging_rows(const struct judging *it, size_t *count);

#endif
