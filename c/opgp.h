/* opgp: parse and write OpenPGP certificates and keyrings (RFC 9580).
 *
 * There are two layers. The calls under "Proved calls" are compiled from functions that are proved to meet their contracts. What
 * is proved of each is said there under "Proved". The calls under "On top" are opgp.c: allocation, loops and callbacks in C,
 * which read no octet of the input. They aren't proved.
 *
 * No call prints, reads a file, or starts anything. Nothing is kept but what a handle or an opgp_keyring holds.
 *
 * Threads:
 *
 * - Calls on different handles and keyrings may be made at once.
 * - All calls on one opgp_keyring may be made at once, except opgp_close: it has a lock.
 * - A handle (opgp_ring, opgp_reader, opgp_document) is for one call at a time: each call takes out what it holds, and puts it
 *   back. A handle may pass from one thread to another.
 * - No call may be made from a signal handler, or in the forked child of a process with threads.
 *
 * Sizes and places are in octets, and count from 0. The caller must keep these conditions:
 *
 * - No pointer is NULL unless that is allowed. Where a table has room for nothing, its pointer may be NULL.
 * - Each pointer points to as much as the call says.
 * - No two arguments overlap.
 * - No call is made on a copy of a handle that a call has changed or closed.
 *
 * The library is for x86-64-v2 processors and later. Sections are those of RFC 9580. */
#ifndef OPGP_H
#define OPGP_H

#include <stdbool.h>
#include <stddef.h>
#include <stdint.h>

#ifdef __cplusplus
extern "C" {
#endif

#if defined(__GNUC__)
#define OPGP_API __attribute__((visibility("default")))
#else
#define OPGP_API
#endif

/* The version of the structs and calls below. opgp_abi() of the library must return it. It changes where one of them does, not where
 * one is added. New in 3: opgp_document and its calls, opgp_signatures, opgp_canonical, opgp_state and opgp_ring_states,
 * opgp_revocation and opgp_ring_revocations, opgp_ring_standing, opgp_document_standing, opgp_judge, opgp_states and
 * opgp_revocations, and opgp_cleartext_open; opgp_ring_choose, opgp_choose, opgp_ring_pick, opgp_pick, opgp_merged,
 * opgp_find_blocks and opgp_user_id; opgp_place, opgp_document_standings, opgp_cause, opgp_ring_cause, opgp_ring_verdicts, opgp_ring_skipped, opgp_read_verdicts
 * and opgp_skipped; the statuses 8 and 9; and the why 6. */
#define OPGP_ABI 3

/* The version of the library, for people. */
#define OPGP_VERSION "0.1"

/* ---- Statuses, which calls return. The numbers never change. */
enum {
    OPGP_DONE = 0,    /* it is done */
    OPGP_REFUSED = 1, /* the input is refused: the fault says where and why */
    OPGP_ROOM = 2,    /* a table has less room than the sizes now say, and is unchanged */
    OPGP_MEMORY = 3,  /* out of memory, or there is more than a size_t counts */
    OPGP_LIMITS = 4,  /* a limit is out of its range, or there is no such policy or mode */
    OPGP_CLOSED = 5,  /* the handle holds nothing, or another call is using it */
    OPGP_NO_ROW = 6,  /* no such row, or its signature isn't hashed; no such certificate, name or fault; no part is complete; no file of
                         verdicts on this keyring */
    OPGP_ENDED = 7,   /* the input of the reader, or the document, has ended; or the reporter ended opgp_check */
    OPGP_MANY = 8,    /* there are more signatures than one document is hashed for: OPGP_MOST_SIGNATURES */
    OPGP_GOING = 9    /* the document hasn't ended */
};

/* The most signatures that one document is hashed for. */
#define OPGP_MOST_SIGNATURES 64

/* In place of a number: there is none. */
#define OPGP_NONE 0xFFFFFFFFFFFFFFFFU

/* ---- Tables of numbers that have names, for opgp_name. The numbers never change. */
enum {
    OPGP_PACKET_TYPES = 0,    /* of packets (5) */
    OPGP_KEY_ALGORITHMS = 1,  /* public-key algorithms (9.1) */
    OPGP_HASH_ALGORITHMS = 2, /* 9.5 */
    OPGP_SIGNATURE_TYPES = 3, /* 5.2.1 */
    OPGP_SUBPACKET_KINDS = 4, /* 5.2.3.7 */
    OPGP_LAYERS = 5,          /* of a fault */
    OPGP_REASONS = 6,         /* of a fault */
    OPGP_WHYS = 7,            /* why a signature isn't hashed */
    OPGP_UNBELIEVED = 8       /* why a key, or a signature over a document, isn't believed */
};

/* ---- The standard's registered numbers, each with the name that opgp_name has for it. */

/* Types of packets (5): the kind of an opgp_packet. */
enum {
    OPGP_PACKET_RESERVED = 0,                 /* Reserved */
    OPGP_PACKET_ENCRYPTED_SESSION_KEY = 1,    /* Public Key Encrypted Session Key */
    OPGP_PACKET_SIGNATURE = 2,                /* Signature */
    OPGP_PACKET_SYMMETRIC_SESSION_KEY = 3,    /* Symmetric Key Encrypted Session Key */
    OPGP_PACKET_ONE_PASS_SIGNATURE = 4,       /* One-Pass Signature */
    OPGP_PACKET_SECRET_KEY = 5,               /* Secret Key */
    OPGP_PACKET_PUBLIC_KEY = 6,               /* Public Key */
    OPGP_PACKET_SECRET_SUBKEY = 7,            /* Secret Subkey */
    OPGP_PACKET_COMPRESSED_DATA = 8,          /* Compressed Data */
    OPGP_PACKET_ENCRYPTED_DATA = 9,           /* Symmetrically Encrypted Data */
    OPGP_PACKET_MARKER = 10,                  /* Marker */
    OPGP_PACKET_LITERAL_DATA = 11,            /* Literal Data */
    OPGP_PACKET_TRUST = 12,                   /* Trust */
    OPGP_PACKET_USER_ID = 13,                 /* User ID */
    OPGP_PACKET_PUBLIC_SUBKEY = 14,           /* Public Subkey */
    OPGP_PACKET_USER_ATTRIBUTE = 17,          /* User Attribute */
    OPGP_PACKET_PROTECTED_DATA = 18,          /* Symmetrically Encrypted and Integrity Protected Data */
    OPGP_PACKET_PADDING = 21                  /* Padding */
};

/* Public-key algorithms (9.1): of keys and signatures. */
enum {
    OPGP_KEY_RSA = 1,                 /* RSA (Encrypt or Sign) */
    OPGP_KEY_RSA_ENCRYPT_ONLY = 2,    /* RSA Encrypt-Only */
    OPGP_KEY_RSA_SIGN_ONLY = 3,       /* RSA Sign-Only */
    OPGP_KEY_ELGAMAL = 16,            /* Elgamal (Encrypt-Only) */
    OPGP_KEY_DSA = 17,                /* DSA (Digital Signature Algorithm) */
    OPGP_KEY_ECDH = 18,               /* ECDH public key algorithm */
    OPGP_KEY_ECDSA = 19,              /* ECDSA public key algorithm */
    OPGP_KEY_EDDSA_LEGACY = 22,       /* EdDSALegacy */
    OPGP_KEY_X25519 = 25,             /* X25519 */
    OPGP_KEY_X448 = 26,               /* X448 */
    OPGP_KEY_ED25519 = 27,            /* Ed25519 */
    OPGP_KEY_ED448 = 28               /* Ed448 */
};

/* Hash algorithms (9.5). */
enum {
    OPGP_HASH_MD5 = 1,          /* MD5 */
    OPGP_HASH_SHA1 = 2,         /* SHA-1 */
    OPGP_HASH_RIPEMD160 = 3,    /* RIPEMD-160 */
    OPGP_HASH_SHA256 = 8,       /* SHA2-256 */
    OPGP_HASH_SHA384 = 9,       /* SHA2-384 */
    OPGP_HASH_SHA512 = 10,      /* SHA2-512 */
    OPGP_HASH_SHA224 = 11,      /* SHA2-224 */
    OPGP_HASH_SHA3_256 = 12,    /* SHA3-256 */
    OPGP_HASH_SHA3_512 = 14     /* SHA3-512 */
};

/* Types of signatures (5.2.1): the kind of an opgp_job. */
enum {
    OPGP_SIGNATURE_BINARY = 0x00,                   /* Binary Signature */
    OPGP_SIGNATURE_TEXT = 0x01,                     /* Text Signature */
    OPGP_SIGNATURE_STANDALONE = 0x02,               /* Standalone Signature */
    OPGP_SIGNATURE_GENERIC_CERTIFICATION = 0x10,    /* Generic Certification Signature */
    OPGP_SIGNATURE_PERSONA_CERTIFICATION = 0x11,    /* Persona Certification Signature */
    OPGP_SIGNATURE_CASUAL_CERTIFICATION = 0x12,     /* Casual Certification Signature */
    OPGP_SIGNATURE_POSITIVE_CERTIFICATION = 0x13,   /* Positive Certification Signature */
    OPGP_SIGNATURE_SUBKEY_BINDING = 0x18,           /* Subkey Binding Signature */
    OPGP_SIGNATURE_PRIMARY_KEY_BINDING = 0x19,      /* Primary Key Binding Signature */
    OPGP_SIGNATURE_DIRECT_KEY = 0x1F,               /* Direct Key Signature */
    OPGP_SIGNATURE_KEY_REVOCATION = 0x20,           /* Key Revocation Signature */
    OPGP_SIGNATURE_SUBKEY_REVOCATION = 0x28,        /* Subkey Revocation Signature */
    OPGP_SIGNATURE_CERTIFICATION_REVOCATION = 0x30, /* Certification Revocation Signature */
    OPGP_SIGNATURE_TIMESTAMP = 0x40,                /* Timestamp Signature */
    OPGP_SIGNATURE_THIRD_PARTY_CONFIRMATION = 0x50  /* Third-Party Confirmation Signature */
};

/* Kinds of subpackets (5.2.3.7): the kind of an opgp_subpacket. */
enum {
    OPGP_SUBPACKET_CREATION_TIME = 2,             /* Signature Creation Time */
    OPGP_SUBPACKET_EXPIRATION_TIME = 3,           /* Signature Expiration Time */
    OPGP_SUBPACKET_EXPORTABLE = 4,                /* Exportable Certification */
    OPGP_SUBPACKET_TRUST = 5,                     /* Trust Signature */
    OPGP_SUBPACKET_REGULAR_EXPRESSION = 6,        /* Regular Expression */
    OPGP_SUBPACKET_REVOCABLE = 7,                 /* Revocable */
    OPGP_SUBPACKET_KEY_EXPIRATION_TIME = 9,       /* Key Expiration Time */
    OPGP_SUBPACKET_PREFERRED_CIPHERS = 11,        /* Preferred Symmetric Ciphers for v1 SEIPD */
    OPGP_SUBPACKET_REVOCATION_KEY = 12,           /* Revocation Key */
    OPGP_SUBPACKET_ISSUER_KEY_ID = 16,            /* Issuer Key ID */
    OPGP_SUBPACKET_NOTATION_DATA = 20,            /* Notation Data */
    OPGP_SUBPACKET_PREFERRED_HASHES = 21,         /* Preferred Hash Algorithms */
    OPGP_SUBPACKET_PREFERRED_COMPRESSION = 22,    /* Preferred Compression Algorithms */
    OPGP_SUBPACKET_KEY_SERVER_PREFERENCES = 23,   /* Key Server Preferences */
    OPGP_SUBPACKET_PREFERRED_KEY_SERVER = 24,     /* Preferred Key Server */
    OPGP_SUBPACKET_PRIMARY_USER_ID = 25,          /* Primary User ID */
    OPGP_SUBPACKET_POLICY_URI = 26,               /* Policy URI */
    OPGP_SUBPACKET_KEY_FLAGS = 27,                /* Key Flags */
    OPGP_SUBPACKET_SIGNERS_USER_ID = 28,          /* Signer's User ID */
    OPGP_SUBPACKET_REVOCATION_REASON = 29,        /* Reason for Revocation */
    OPGP_SUBPACKET_FEATURES = 30,                 /* Features */
    OPGP_SUBPACKET_TARGET = 31,                   /* Signature Target */
    OPGP_SUBPACKET_EMBEDDED_SIGNATURE = 32,       /* Embedded Signature */
    OPGP_SUBPACKET_ISSUER_FINGERPRINT = 33,       /* Issuer Fingerprint */
    OPGP_SUBPACKET_RECIPIENT_FINGERPRINT = 35,    /* Intended Recipient Fingerprint */
    OPGP_SUBPACKET_PREFERRED_AEAD = 39            /* Preferred AEAD Ciphersuites */
};

/* Why a signature isn't hashed: the field `why` of an opgp_job. */
enum {
    OPGP_WHY_HASHED = 0,    /* it is */
    OPGP_WHY_OPAQUE = 1,    /* it isn't parsed, or is of version 3 */
    OPGP_WHY_KIND = 2,      /* its type isn't one of certificates; over a document: isn't one of documents, or of cleartext messages */
    OPGP_WHY_MISPLACED = 3, /* its type doesn't belong where it is */
    OPGP_WHY_VERSION = 4,   /* its version isn't that of a key that it would hash */
    OPGP_WHY_HASH = 5,      /* its hash algorithm isn't supported, or not in its version */
    OPGP_WHY_LINE_ENDS = 6  /* over a document alone: it is over text, and a carriage return there isn't followed by a line feed */
};

/* ---- Forms of a subpacket's data: which numbers it has, and which fields of octets. The numbers of the forms never change. */
enum {
    OPGP_FORM_NONE = 0,          /* none: the data hasn't the form of its kind, or the kind is unknown */
    OPGP_FORM_NUMBER = 1,        /* numbers: seconds (5.2.3.11, 5.2.3.13, 5.2.3.18) */
    OPGP_FORM_OCTET = 2,         /* numbers: 0 for no, any other for yes (5.2.3.19, 5.2.3.20, 5.2.3.27) */
    OPGP_FORM_TWO_OCTETS = 3,    /* numbers: depth, amount (5.2.3.21) */
    OPGP_FORM_ENDED_TEXT = 4,    /* fields: a regular expression, without the octet 0 at its end (5.2.3.22) */
    OPGP_FORM_OCTETS = 5,        /* fields: all octets: algorithms (5.2.3.14), flags (5.2.3.29) or a text (5.2.3.30) */
    OPGP_FORM_REVOKER = 6,       /* numbers: class, algorithm; fields: fingerprint (5.2.3.23) */
    OPGP_FORM_KEY_ID = 7,        /* fields: key ID (5.2.3.12) */
    OPGP_FORM_NOTATION = 8,      /* numbers: flags, bit 31 for a value that people can read; fields: name, value (5.2.3.24) */
    OPGP_FORM_CODE_AND_TEXT = 9, /* numbers: code; fields: text (5.2.3.31) */
    OPGP_FORM_TARGET = 10,       /* numbers: public-key algorithm, hash algorithm; fields: digest (5.2.3.33) */
    OPGP_FORM_SIGNATURE = 11,    /* fields: the body of a signature (5.2.3.34) */
    OPGP_FORM_FINGERPRINT = 12,  /* numbers: version; fields: fingerprint (5.2.3.35, 5.2.3.36) */
    OPGP_FORM_PAIRS = 13         /* fields: pairs of a symmetric and an AEAD algorithm (5.2.3.15) */
};

/* ---- Structs. The proved calls fill each field; reserved octets are zeros. */

/* Policies of reading. Add up those that you want. */
enum {
    OPGP_REFUSE_OUTSIDE = 1, /* refuse lines outside of armored blocks unless they are blank; usually they are skipped */
    OPGP_KEEP_MALFORMED = 2  /* keep malformed signatures, octet for octet (5.2.5); usually they refuse the input */
};

/* Limits, and policies. opgp_usual_limits gives the usual ones. */
typedef struct opgp_limits {
    uint64_t line;     /* octets of an armored line, without its line feed: 128 to 2^20 */
    uint64_t body;     /* octets of a packet's body: 512 to 2^32 - 1 */
    uint64_t cert;     /* octets of a certificate's packets, headers included: 512 to 2^40 */
    uint64_t input;    /* octets of the input: 0 to 2^62 */
    uint64_t pieces;   /* partial lengths of one packet (4.2.1.4): 1 to 2^24 */
    uint64_t policies; /* 0, or a sum of policies */
} opgp_limits;

/* Why an input is refused. docs/FAULTS.md says what each reason means. */
typedef struct opgp_fault {
    uint64_t block;      /* the armored block, from 0; 0 for binary input */
    uint64_t pos;        /* where the line begins in the text, or the packet in its block's octets */
    uint64_t inner;      /* where the header or field at fault begins within the packet, or within its body */
    uint8_t layer;       /* 0 input, 1 armor, 2 framing, 3 body, 4 composition, 5 text, 6 cleartext: opgp_name has their names */
    uint8_t reason;      /* the number of the reason */
    uint8_t reserved[6];
} opgp_fault;

/* How many rows and octets a call gives. */
typedef struct opgp_sizes {
    uint64_t rows;
    uint64_t bytes;
} opgp_sizes;

/* A packet. Its body is bytes[at .. at + size). */
typedef struct opgp_packet {
    uint64_t certificate; /* the number of its certificate; OPGP_NONE for a filler before the first */
    uint64_t component;   /* the number of the component that it begins or is on; OPGP_NONE for the primary key */
    uint64_t hang;        /* its number among the signatures and fillers behind that, or before the first certificate; OPGP_NONE: it
                             is a key, a user ID or an attribute */
    uint64_t at;
    uint64_t size;
    uint8_t kind;         /* its type (5): 2 signature, 6 public key, 13 user ID, 14 public subkey, 17 user attribute */
    uint8_t reserved[7];
} opgp_packet;

/* A key. The fields of its material (5.5.5) are in bytes, from at on, one after the other:
 *
 * - RSA: n, e; Elgamal: p, g, y; DSA: p, q, g, y;
 * - ECDH: curve, point, parameters; ECDSA and EdDSALegacy: curve, point;
 * - X25519, X448, Ed25519, Ed448 and any other: one field.
 *
 * Integers are big-endian, without the count of their bits. In version 6 they have no zeros in front: pad them where a fixed
 * size is wanted. A curve is an object identifier (9.2) without its length. */
typedef struct opgp_key {
    uint64_t certificate;
    uint64_t component; /* the number of the component that it is; OPGP_NONE for a primary key */
    uint64_t at;
    uint64_t sizes[4];  /* of each field; 0 for one that it doesn't have */
    uint32_t created;   /* seconds since 1970 */
    uint8_t version;    /* 4 or 6 */
    uint8_t algorithm;  /* 9.1 */
    uint8_t print_size; /* of its fingerprint: 20 or 32 */
    uint8_t print[32];  /* the fingerprint (5.5.4), and zeros after it */
    uint8_t key_id[8];  /* the key ID (5.5.4) */
    uint8_t reserved[9];
} opgp_key;

/* A job: a signature, and what a verifier needs. What its algorithm made (5.2.3) is in bytes, from at on, and behind that the
 * issuer's name:
 *
 * - RSA: one integer; DSA, ECDSA and EdDSALegacy: r, s;
 * - Ed25519, Ed448 and any other: one field.
 *
 * Most integers have no zeros in front, so one in 256 is shorter than the others. Most libraries want RSA's as long as the
 * modulus, and r and s of EdDSALegacy as 32 octets. The point of an EdDSALegacy key has 0x40 in front. */
typedef struct opgp_job {
    uint64_t certificate;
    uint64_t component;  /* the component that it is on; OPGP_NONE for the primary key */
    uint64_t hang;       /* its number among the signatures and fillers behind that */
    uint64_t nested;     /* its number among the signatures embedded in that packet; OPGP_NONE: the packet's own */
    uint64_t signer;     /* the row of the key that it names as its issuer's; OPGP_NONE: not in this keyring */
    uint64_t at;
    uint64_t sizes[2];
    uint32_t created;    /* when it was made, as it states, in seconds since 1970: in version 3 in a field (5.2.2), else by the
                            one time in its hashed area (5.2.3.11); 0: that has none, or several */
    uint8_t why;         /* OPGP_WHY_HASHED: it is hashed; else why not */
    uint8_t version;     /* 3, 4 or 6; 0: not parsed */
    uint8_t kind;        /* its type (5.2.1) */
    uint8_t algorithm;   /* 9.1 */
    uint8_t hash;        /* 9.5 */
    uint8_t left[2];     /* the left 16 bits of the signed hash value, as it states them (5.2.3) */
    uint8_t is_bad;      /* 1: it is hashed, and its digest doesn't begin with them */
    uint8_t digest_size; /* 0: it isn't hashed */
    uint8_t is_dated;    /* 1: it states when it was made */
    uint8_t issuer_size; /* 20 or 32: it names its issuer by a fingerprint; 8: by a key ID; 0: not at all. opgp_issuer finds that name */
    uint8_t digest[64];  /* the digest of what it hashes (5.2.4), and zeros after it */
    uint8_t reserved;
} opgp_job;

/* A subpacket of a signature (5.2.3.7). Its data, behind its type octet, is bytes[at .. at + size). If the data has the form of
 * its kind, it has at most two numbers, and at most two fields of octets. The fields are in bytes, from fields_at on, one after
 * the other. */
typedef struct opgp_subpacket {
    uint64_t certificate;    /* where its signature is: the same four numbers as in the signature's opgp_job */
    uint64_t component;
    uint64_t hang;
    uint64_t nested;
    uint64_t at;
    uint64_t size;
    uint64_t fields_at;
    uint64_t field_sizes[2]; /* 0 for one that the form doesn't have */
    uint32_t numbers[2];     /* 0 for one that the form doesn't have */
    uint8_t kind;            /* its type without the critical bit, 0 to 127 */
    uint8_t is_critical;     /* 1: it is critical */
    uint8_t is_hashed;       /* 1: it is in the hashed area; 0: in the other, which isn't signed */
    uint8_t meaning;         /* of its data: 0, it has the form of its kind; 1, it hasn't; 2, its kind is unknown */
    uint8_t form;            /* OPGP_FORM_NUMBER and so on */
    uint8_t reserved[3];
} opgp_subpacket;

/* What a signature hashes: bytes[at .. at + size). */
typedef struct opgp_hashed {
    uint64_t row; /* the number of its job, counted from the row `first` of the call */
    uint64_t at;
    uint64_t size;
} opgp_hashed;

/* How a key, user ID or user attribute stands at a time. */
typedef struct opgp_state {
    uint64_t certificate;
    uint64_t component; /* the number of the component that it is; OPGP_NONE for a primary key */
    uint64_t end;       /* of a key: when it expires, or its primary key does, in seconds since 1970; else OPGP_NONE: never */
    uint32_t begin;     /* of a key: since when both it and its primary key are there, in seconds since 1970; else 0 */
    uint8_t why;        /* of a key: OPGP_BELIEVED if it is of use; else OPGP_REVOKED, OPGP_EARLY, OPGP_UNBOUND, OPGP_EXPIRED or
                           OPGP_NO_USE, the first that applies. Of a user ID or attribute: OPGP_BELIEVED if a certification counts
                           that the primary key hasn't revoked; else OPGP_REVOKED if it revoked one, whenever; else OPGP_UNBOUND */
    uint8_t is_key;     /* 1: a key; 0: a user ID or attribute */
    uint8_t uses;       /* of a key: what all that is heard for it lets it be used for, as flags (5.2.3.29): 1 to certify, 2 to sign, 4
                           to encrypt, 32 to authenticate; else 0 */
    uint8_t has_reason; /* 1: a key is revoked, and the first of its revocations states a reason */
    uint8_t reason;     /* the code of that reason (5.2.3.31); else 0 */
    uint8_t reserved[7];
} opgp_state;

/* The place of a key. */
typedef struct opgp_place {
    uint64_t certificate; /* the number of its certificate */
    uint64_t component;   /* the number of the component that it is; OPGP_NONE for a primary key */
} opgp_place;

/* An armored block in a text. */
typedef struct opgp_found_block {
    uint64_t at;          /* where it begins in the text: the first octet of its `-----BEGIN` */
    uint64_t size;        /* how many octets of the text it has, up to the end of its last line's content */
    uint64_t octets_at;   /* its cleaned octets, among those of all blocks */
    uint64_t octets_size; /* how many these are */
} opgp_found_block;

/* What the octets of a user ID say. */
typedef struct opgp_user_id_facts {
    uint64_t address_at;   /* where its mail address begins; 0 where it has none */
    uint64_t address_size; /* how many octets that has */
    uint32_t is_utf8;      /* 1: the octets are UTF-8, as they should be (5.11) */
    uint32_t has_address;  /* 1: it has a mail address */
} opgp_user_id_facts;

/* A handle of a keyring. Begin with all zeros; only the proved calls may change it. */
typedef struct opgp_ring {
    bool is_open;
    void *at;
} opgp_ring;

/* A handle of a keyring that is read in pieces. Begin with all zeros; only the proved calls may change it. */
typedef struct opgp_reader {
    bool is_open;
    void *at;
} opgp_reader;

/* A handle of signatures, and of the document that they are over. Begin with all zeros; only the proved calls may change it. */
typedef struct opgp_document {
    bool is_open;
    void *at;
} opgp_document;

/* ---- Proved calls. Also proved of each: it returns, and has no undefined behaviour, if the caller keeps the conditions. They
 * allocate by rattle_alloc of heap.c, which is malloc. */

/* The version of the library's structs and calls. A program that was compiled for another one can't use it.
 *
 * Proved: it is 3. */
OPGP_API uint32_t opgp_abi(void);

/* Gives the usual limits: 8,192 octets of a line, 2^24 of a body, 2^26 of a certificate, 2^40 of the input, 2^20 pieces.
 *
 * Proved: it sets exactly these. */
OPGP_API void opgp_usual_limits(opgp_limits *limits);

/* Writes the name that a table (OPGP_PACKET_TYPES and so on) has for a number to text[0 .. room), in ASCII, without a NUL. *size
 * is its length, 52 octets at most. docs/NUMBERS.md has the standard's names, docs/FAULTS.md those of layers and reasons. Whys
 * are named as `opgp check` prints them.
 *
 * OPGP_DONE; OPGP_ROOM; OPGP_NO_ROW: there is no such table, or it has no name for the number, and *size is unchanged.
 *
 * Proved:
 *
 * - OPGP_DONE: the text begins with that name, and is otherwise as it was.
 * - OPGP_ROOM: the text has less room than the name needs.
 * - OPGP_NO_ROW is returned if and only if there is no name.
 * - With any status but OPGP_DONE the text is unchanged. */
OPGP_API uint32_t opgp_name(uint32_t table, uint8_t number, uint8_t *text, size_t room, uint64_t *size);

/* Writes a fault's line to text[0 .. room), as the program writes it, such as "armor: EndLabel block 0 at 112 inner 0". It is
 * ASCII, without a line feed or a NUL. *size is its length, 108 octets at most.
 *
 * OPGP_DONE; OPGP_ROOM; OPGP_NO_ROW: there is no such layer, or no such reason, and *size is unchanged.
 *
 * Proved:
 *
 * - OPGP_DONE: the text begins with that line, and is otherwise as it was.
 * - OPGP_ROOM: the text has less room than the line needs, and fewer than 108 octets.
 * - OPGP_NO_ROW is returned if and only if the layer or the reason has no such number.
 * - With any status but OPGP_DONE the text is unchanged. */
OPGP_API uint32_t opgp_fault_line(const opgp_fault *fault, uint8_t *text, size_t room, uint64_t *size);

/* Parses the keyring in the octets in[0 .. n), armored or binary, and keeps it in the handle. What the handle held before is
 * freed. `in` isn't needed after the call. Give the handle to opgp_ring_close.
 *
 * OPGP_DONE, OPGP_REFUSED with *fault, OPGP_LIMITS, OPGP_MEMORY. With any but OPGP_DONE the handle is unchanged. With any but
 * OPGP_REFUSED *fault is unchanged.
 *
 * Proved:
 *
 * - OPGP_DONE: the handle holds the one keyring that the octets encode.
 * - OPGP_REFUSED: they encode none, and *fault is the one fault of the lowest layer that refuses them.
 * - OPGP_LIMITS is returned if and only if a limit is out of its range, or there is no such policy. */
OPGP_API uint32_t opgp_ring_open(const uint8_t *in, size_t n, const opgp_limits *limits, opgp_ring *ring, opgp_fault *fault);

/* How an input is read, for opgp_ring_open_mode. The numbers never change. */
enum {
    OPGP_MODE_AUTO = 0,  /* as opgp_ring_open: 128 or more as first octet is binary, and so is an empty input */
    OPGP_MODE_ARMOR = 1, /* as armored text (6.2) */
    OPGP_MODE_BINARY = 2 /* as packets (4) */
};

/* The same for an input that is read by this mode. OPGP_LIMITS is also returned if there is no such mode. */
OPGP_API uint32_t opgp_ring_open_mode(const uint8_t *in, size_t n, uint32_t mode, const opgp_limits *limits, opgp_ring *ring,
                                      opgp_fault *fault);

/* Free what a handle holds, if anything. opgp_ring_close takes the handle by value: neither it nor a copy of it can be used
 * again. opgp_ring_clear leaves it closed, so a second call does nothing, and the handle can be used anew.
 *
 * Proved: opgp_ring_clear leaves the handle closed. */
OPGP_API void opgp_ring_close(opgp_ring ring);
OPGP_API void opgp_ring_clear(opgp_ring *ring);

/* Says in *count how many octets of the input lie outside of its armored blocks and were skipped, if some of them are in no text: packets,
 * perhaps. It is 0 if all of that is text, for binary input, and for a ring that another call made.
 *
 * OPGP_DONE, OPGP_CLOSED.
 *
 * Proved:
 *
 * - OPGP_DONE: *count is the number that `opgp` says was skipped.
 * - OPGP_CLOSED is returned if and only if the handle holds nothing, and *count is unchanged then.
 * - The handle holds what it held. */
OPGP_API uint32_t opgp_ring_skipped(opgp_ring *ring, uint64_t *count);

/* Fill the caller's tables, rows[0 .. row_room) and bytes[0 .. byte_room), and *sizes with the room that they need:
 *
 * - packets: all packets of the keyring in order, and their bodies;
 * - keys: all keys in order, a primary key before its subkeys, and their material;
 * - jobs: all signatures in the order of `opgp check`, those embedded in bindings included, and what their algorithms made;
 * - subpackets: those of each signature in the order of the jobs, its hashed area first, and their data.
 *
 * To learn the sizes, call with room for nothing.
 *
 * OPGP_DONE; OPGP_ROOM: one of the tables is too short; OPGP_MEMORY; OPGP_CLOSED. With the last two *sizes means nothing.
 *
 * Proved:
 *
 * - OPGP_DONE: each table begins with these rows or octets of the keyring, which crates/opgp_tables/specs defines, and is
 *   otherwise as it was.
 * - OPGP_ROOM: one of them has less room than *sizes says, and *sizes is how much they are.
 * - OPGP_CLOSED is returned if and only if the handle holds nothing.
 * - With any status but OPGP_DONE both tables are unchanged.
 * - The handle holds what it held. */
OPGP_API uint32_t opgp_ring_packets(opgp_ring *ring, opgp_packet *rows, size_t row_room, uint8_t *bytes, size_t byte_room,
                                    opgp_sizes *sizes);
OPGP_API uint32_t opgp_ring_keys(opgp_ring *ring, opgp_key *rows, size_t row_room, uint8_t *bytes, size_t byte_room,
                                 opgp_sizes *sizes);
OPGP_API uint32_t opgp_ring_jobs(opgp_ring *ring, opgp_job *rows, size_t row_room, uint8_t *bytes, size_t byte_room,
                                 opgp_sizes *sizes);
OPGP_API uint32_t opgp_ring_subpackets(opgp_ring *ring, opgp_subpacket *rows, size_t row_room, uint8_t *bytes,
                                       size_t byte_room, opgp_sizes *sizes);

/* Writes what the signature in a row of the jobs hashes (5.2.4) to octets[0 .. room). *size is how much that is.
 *
 * OPGP_DONE, OPGP_ROOM, OPGP_NO_ROW, OPGP_MEMORY, OPGP_CLOSED. With the last three *size means nothing.
 *
 * Proved:
 *
 * - OPGP_DONE: the table begins with the octets that the standard says, and is otherwise as it was.
 * - OPGP_NO_ROW is returned only if there is no such row, or its signature isn't hashed.
 * - With any status but OPGP_DONE the table is unchanged.
 * - The handle holds what it held. */
OPGP_API uint32_t opgp_ring_octets(opgp_ring *ring, uint64_t row, uint8_t *octets, size_t room, uint64_t *size);

/* Fills the caller's tables, rows[0 .. row_room) and bytes[0 .. byte_room), with what signatures of the jobs hash (5.2.4), from
 * the row `first` on. Of at most `count` rows it takes as many as hash no more than `most` octets together. There is a row for
 * each signature among them that is hashed, in order, and those octets, one after the other. *sizes is the room that they need.
 * So a few passes serve all rows.
 *
 * The statuses, and what is proved, are those of opgp_ring_packets. */
OPGP_API uint32_t opgp_ring_hashed(opgp_ring *ring, uint64_t first, uint64_t count, uint64_t most, opgp_hashed *rows,
                                   size_t row_room, uint8_t *bytes, size_t byte_room, opgp_sizes *sizes);

/* Which hash algorithms and keys opgp_ring_standing relies on. The numbers never change. */
enum {
    OPGP_POLICY_USUAL = 0, /* not MD5, SHA-1, RIPEMD-160, nor a digest that is shorter than the key asks for (5.2.3.2 to 5.2.3.5);
                            * not RSA below 2048 bits, DSA below 2048 and 224 bits, ECDSA below 224 bits */
    OPGP_POLICY_ANY = 1    /* all */
};

/* Whether a key may be believed: the first reason why not. docs/VALIDITY.md has the rule. The numbers never change. */
enum {
    OPGP_BELIEVED = 0,    /* it may be */
    OPGP_IN_FUTURE = 1,   /* the signature was made after the time at which it is read */
    OPGP_REVOKED = 2,     /* the key is revoked, or its primary key is */
    OPGP_EARLY = 3,       /* the signature is older than the key, or than its primary key */
    OPGP_UNBOUND = 4,     /* nothing that counts binds the key to its certificate, or speaks for the primary key */
    OPGP_EXPIRED = 5,     /* the key has expired, or its primary key has */
    OPGP_NOT_SIGNING = 6, /* the key isn't said to be one that signs */
    OPGP_UNBACKED = 7,    /* a binding of the subkey has no good signature by the subkey that counts */

    /* Of opgp_document_standing alone: what is wrong with the signature itself. */
    OPGP_NO_DOCUMENT = 8, /* it isn't one over a document (types 00 and 01), or not of version 4 or 6 */
    OPGP_CRITICAL = 9,    /* something critical in it is unknown, or a hashed subpacket hasn't the form of its kind */
    OPGP_WEAK = 10,       /* the policy doesn't rely on its hash algorithm, or on its key */
    OPGP_UNDATED = 11,    /* it states no creation time in its hashed area, or several */
    OPGP_LAPSED = 12,     /* it has expired */
    OPGP_NOT_BY_KEY = 13, /* it names another key first */

    /* Of opgp_state alone. */
    OPGP_NO_USE = 14      /* the key may be used for nothing */
};

/* Says in *why whether a key may be believed for a signature that was made at one time and is read at another, in seconds since 1970.
 * The key is a component of a certificate, by their numbers, or its primary key for OPGP_NONE. verdicts[0 .. count) are those on the
 * rows of the jobs, in order: OPGP_GOOD, OPGP_BAD or OPGP_UNDECIDED. A row without one is undecided. For a key revocation whose why
 * is OPGP_WHY_MISPLACED it is the verdict over the primary key alone: see opgp_ring_revocation.
 *
 * OPGP_DONE; OPGP_NO_ROW: there is no such key; OPGP_LIMITS: there is no such policy; OPGP_MEMORY; OPGP_CLOSED.
 *
 * Proved:
 *
 * - OPGP_DONE: *why is OPGP_BELIEVED if and only if the key is believed by the rule, else the first reason why not.
 * - OPGP_NO_ROW is returned only if there is no such key.
 * - With any status but OPGP_DONE *why is unchanged.
 * - The handle holds what it held. */
OPGP_API uint32_t opgp_ring_standing(opgp_ring *ring, const uint8_t *verdicts, size_t count, uint32_t policy, uint64_t certificate,
                                     uint64_t component, uint64_t made, uint64_t now, uint8_t *why);

/* What is lacking for a key which is OPGP_UNBOUND: of all that signatures lack which could speak for it, the first in this order. The
 * numbers never change. */
enum {
    OPGP_LACK_NOTHING = 0,   /* there is no such signature; or another reason */
    OPGP_LACK_NEWER = 1,     /* it was made later */
    OPGP_LACK_LAPSED = 2,    /* it has expired (5.2.3.18) */
    OPGP_LACK_WEAK = 3,      /* the policy doesn't rely on its hash algorithm, or on its key */
    OPGP_LACK_MALFORMED = 4, /* a hashed subpacket hasn't the form of its kind (5.2.3.7) */
    OPGP_LACK_UNDATED = 5,   /* it states no creation time in its hashed area, or several (5.2.3.11) */
    OPGP_LACK_YOUNG = 6,     /* it is older than its issuer's key */
    OPGP_LACK_CRITICAL = 7   /* something critical in it is unknown (5.2.3.7) */
};

/* Why a key isn't believed. */
typedef struct opgp_cause {
    uint64_t date;      /* in seconds since 1970: of OPGP_IN_FUTURE when the signature was made; of OPGP_REVOKED when the revocation was;
                           of OPGP_EARLY when the key was created; of OPGP_EXPIRED when it expired; of OPGP_UNBOUND until when the
                           signature counted that has lapsed, else when it was made. OPGP_NONE: there is none */
    uint64_t component; /* the signature that says so: the component that it is on; OPGP_NONE: the primary key, or there is no such one */
    uint64_t hang;      /* its number among the packets that follow that, from 0; OPGP_NONE: there is no such signature */
    uint8_t why;        /* the first reason, OPGP_IN_FUTURE to OPGP_UNBACKED; OPGP_BELIEVED: the key is believed */
    uint8_t is_primary; /* 1: it is so of the primary key; 0: of a subkey */
    uint8_t is_now;     /* 1: it is so now, and wasn't when the signature was made */
    uint8_t lack;       /* what that signature lacks, the first one that lacks it: OPGP_LACK_NOTHING .. */
    uint8_t reserved[4];
} opgp_cause;

/* Says in *cause why a key may not be believed, by what opgp_ring_standing takes: the first reason, of which key and at which of the two
 * times it is so, a date, and the first signature that says so.
 *
 * OPGP_DONE; OPGP_NO_ROW: there is no such key; OPGP_LIMITS: there is no such policy; OPGP_MEMORY; OPGP_CLOSED.
 *
 * Proved:
 *
 * - OPGP_DONE: *cause is the row that crates/opgp_handles/specs/Causes.antt defines. Its reason is that of opgp_ring_standing.
 * - OPGP_NO_ROW is returned only if there is no such key.
 * - With any status but OPGP_DONE *cause is unchanged.
 * - The handle holds what it held. */
OPGP_API uint32_t opgp_ring_cause(opgp_ring *ring, const uint8_t *verdicts, size_t count, uint32_t policy, uint64_t certificate,
                                  uint64_t component, uint64_t made, uint64_t now, opgp_cause *cause);

/* Fills rows[0 .. row_room) with how each key, user ID and user attribute of the keyring stands at a time, in seconds since 1970: the
 * primary key of each certificate, and then its components in order. *size is how many these are. The verdicts and the policy are
 * those of opgp_ring_standing. To learn the size, call with room for nothing; that takes as long as the call that fills.
 *
 * OPGP_DONE; OPGP_ROOM: the table is too short; OPGP_LIMITS: there is no such policy; OPGP_MEMORY; OPGP_CLOSED. With the last three
 * *size means nothing.
 *
 * Proved:
 *
 * - OPGP_DONE: the table begins with these rows, which crates/opgp_handles/specs/States.antt defines, and is otherwise as it was.
 * - OPGP_ROOM: it has less room than *size says, and *size is how many they are.
 * - OPGP_LIMITS is returned only if there is no such policy.
 * - OPGP_CLOSED is returned if and only if the handle holds nothing.
 * - With any status but OPGP_DONE the table is unchanged.
 * - The handle holds what it held. */
OPGP_API uint32_t opgp_ring_states(opgp_ring *ring, const uint8_t *verdicts, size_t count, uint32_t policy, uint64_t at,
                                   opgp_state *rows, size_t row_room, uint64_t *size);

/* Reads a file of verdicts on the signatures of the keyring, file[0 .. n), as `opgp-verify --verdicts` writes it, to verdicts[0 .. room):
 * one for each row of the jobs, in order, which is OPGP_GOOD, OPGP_BAD or OPGP_UNDECIDED. *size is how many rows there are.
 *
 * The file's first line has the SHA2-256 of the keyring's packets, as opgp_ring_write writes them, so a file on another keyring is
 * refused, and one that was made by a policy too.
 *
 * OPGP_DONE; OPGP_ROOM: the table is too short; OPGP_NO_ROW: the file isn't one of verdicts on this keyring; OPGP_MEMORY; OPGP_CLOSED. With
 * the last three *size means nothing.
 *
 * Proved:
 *
 * - OPGP_DONE: the table begins with the verdicts that the file has, and is otherwise as it was.
 * - OPGP_ROOM: it has less room than *size says.
 * - OPGP_NO_ROW is returned only if the file isn't one of verdicts on this keyring.
 * - With any status but OPGP_DONE the table is unchanged.
 * - The handle holds what it held. */
OPGP_API uint32_t opgp_ring_verdicts(opgp_ring *ring, const uint8_t *file, size_t n, uint8_t *verdicts, size_t room, uint64_t *size);

/* Writes the digest of what the revocation of a primary key in a row of the jobs hashes to digest[0 .. room): that key alone, wherever
 * in its certificate the revocation is (5.2.1.11). *size is how much that is, 64 octets at most. So it can be verified where the
 * row's why is OPGP_WHY_MISPLACED, since somebody put it behind the whole certificate.
 *
 * OPGP_DONE, OPGP_ROOM, OPGP_CLOSED; OPGP_NO_ROW: the row has no such signature, or it isn't hashed. With the last two *size means
 * nothing.
 *
 * Proved:
 *
 * - OPGP_DONE: the table begins with the digest of the octets that the standard says, and is otherwise as it was.
 * - OPGP_NO_ROW is returned only if the row has no such signature, or it isn't hashed.
 * - With any status but OPGP_DONE the table is unchanged.
 * - The handle holds what it held. */
OPGP_API uint32_t opgp_ring_revocation(opgp_ring *ring, uint64_t row, uint8_t *digest, size_t room, uint64_t *size);

/* A revocation of a primary key, and the digest that opgp_ring_revocation has for its row. */
typedef struct opgp_revocation {
    uint64_t row;        /* the number of its job */
    uint8_t digest_size; /* 20 to 64 */
    uint8_t digest[64];  /* the digest of what it hashes over the primary key alone, and zeros after it */
    uint8_t reserved[7];
} opgp_revocation;

/* Fills the caller's table, rows[0 .. room), with all revocations of primary keys for which opgp_ring_revocation has a digest, in the
 * order of the jobs. *size is how many there are. To verify rows of OPGP_WHY_MISPLACED, call this once:
 * that walks the keyring for each.
 *
 * OPGP_DONE, OPGP_ROOM, OPGP_MEMORY, OPGP_CLOSED. With the last two *size means nothing.
 *
 * Proved:
 *
 * - OPGP_DONE: the table begins with these rows, and is otherwise as it was. Their digests are of the octets that the standard says.
 * - OPGP_ROOM: the table has less room than *size says, and *size is how many there are.
 * - OPGP_CLOSED is returned if and only if the handle holds nothing.
 * - With any status but OPGP_DONE the table is unchanged.
 * - The handle holds what it held. */
OPGP_API uint32_t opgp_ring_revocations(opgp_ring *ring, opgp_revocation *rows, size_t room, uint64_t *size);

/* Writes the keyring's packets to text[0 .. room): bare if armor is 0, else as one block of armor. *size is how much that is.
 *
 * OPGP_DONE, OPGP_ROOM, OPGP_MEMORY, OPGP_CLOSED. With the last two *size means nothing.
 *
 * Proved:
 *
 * - OPGP_DONE: the table begins with the packets, octet for octet as they were read, and is otherwise as it was.
 * - With any other status the table is unchanged.
 * - The handle holds what it held. */
OPGP_API uint32_t opgp_ring_write(opgp_ring *ring, uint32_t armor, uint8_t *text, size_t room, uint64_t *size);

/* Make another keyring, which *into holds. What *into held before is freed. Give it to opgp_ring_close. ring, other and into are
 * different handles. If other is ring, OPGP_CLOSED is returned, and nothing is lost.
 *
 * - normalise: the packets, each in the current format and its shortest length (4.2.1);
 * - merge: certificates of the same primary key become one, and equal packets of a place appear once (10.1);
 * - choose: chosen parts of each certificate, as `opgp write` with --own-signatures, --no-attributes and --user-id does. Where
 *   own_signatures isn't 0, only those signatures that name their certificate's primary key as the issuer. Where no_attributes isn't
 *   0, no user attributes (5.12). Where count isn't 0, only the user IDs (5.11) whose numbers are among user_ids[0 .. count), which
 *   are counted from 0 in each certificate;
 * - pick: only certificates, that of number n, from 0, if n < count and picked[n] isn't 0. opgp_find_key says which keys have a name,
 *   and each key its certificate: so `opgp split` picks with --key, and with --except. What precedes the first one is left out;
 * - certificate: only the certificate of this number, from 0;
 * - join: the packets of ring, and behind them those of other.
 *
 * OPGP_DONE, OPGP_MEMORY, OPGP_CLOSED; of a certificate also OPGP_NO_ROW. With any but OPGP_DONE *into is unchanged.
 *
 * Proved:
 *
 * - OPGP_DONE: *into holds that keyring.
 * - OPGP_NO_ROW is returned only if there is no certificate of that number.
 * - The other handles hold what they held. */
OPGP_API uint32_t opgp_ring_normalise(opgp_ring *ring, opgp_ring *into);
OPGP_API uint32_t opgp_ring_merge(opgp_ring *ring, opgp_ring *into);
OPGP_API uint32_t opgp_ring_choose(opgp_ring *ring, uint32_t own_signatures, uint32_t no_attributes, const uint64_t *user_ids,
                                   size_t count, opgp_ring *into);
OPGP_API uint32_t opgp_ring_pick(opgp_ring *ring, const uint8_t *picked, size_t count, opgp_ring *into);
OPGP_API uint32_t opgp_ring_certificate(opgp_ring *ring, uint64_t number, opgp_ring *into);
OPGP_API uint32_t opgp_ring_join(opgp_ring *ring, opgp_ring *other, opgp_ring *into);

/* Read a keyring whose octets, armored or binary, come in pieces of any size, and give its parts as they are complete: each
 * certificate, and the packets before the first one, if there are any. A reader keeps what is unfinished, within its limits, and the
 * parts that weren't taken. So an input of any size is read in bounded memory, if the parts are taken after each piece.
 *
 *     opgp_reader reader = {0};
 *     opgp_ring part = {0};
 *     opgp_reader_open(&limits, &reader);
 *     while there is a piece: opgp_reader_push(&reader, piece, size);
 *                             while (opgp_reader_take(&reader, &part) == OPGP_DONE) ..
 *     opgp_reader_end(&reader, &fault);
 *     while (opgp_reader_take(&reader, &part) == OPGP_DONE) ..
 *     opgp_ring_close(part), opgp_reader_close(reader);
 *
 * A program must look at each status. All parts were given only if each push and the end returned OPGP_DONE, and each last take
 * OPGP_NO_ROW. Only the end says whether the input is a keyring. A fault may follow parts that were taken; those that weren't taken
 * are gone then.
 *
 * - open: begins. What the handle held before is freed. OPGP_DONE, OPGP_LIMITS, OPGP_MEMORY. With any but OPGP_DONE the handle is
 *   unchanged.
 * - push: takes the next piece, piece[0 .. n), all of it. Give fewer than 2^63 octets in all. OPGP_DONE, OPGP_ENDED, OPGP_MEMORY,
 *   OPGP_CLOSED.
 * - take: keeps the next part in *into, as a keyring of its own. What *into held before is freed. OPGP_DONE; OPGP_NO_ROW: no part is
 *   complete that wasn't taken; OPGP_MEMORY, OPGP_CLOSED. With any but OPGP_DONE *into is unchanged.
 * - end: ends the input. OPGP_DONE: it is a keyring; OPGP_REFUSED with *fault: it isn't; OPGP_MEMORY, OPGP_CLOSED. A second call
 *   returns the same. With any but OPGP_REFUSED *fault is unchanged.
 * - close, clear: free what the handle holds, as opgp_ring_close and opgp_ring_clear do.
 *
 * Out of memory a piece isn't taken, and the reading is lost. Each later call but those that close returns OPGP_MEMORY.
 *
 * Proved, however the octets are cut:
 *
 * - OPGP_DONE of end: they encode one keyring. Its parts are those that were taken, in order, and those that can still be taken.
 * - OPGP_REFUSED: they encode none. *fault is the one fault of the lowest layer that refuses them, as opgp_ring_open returns it for
 *   them in one piece.
 * - OPGP_NO_ROW is returned if and only if the reading isn't lost, and no part is complete that wasn't taken.
 * - OPGP_ENDED is returned if and only if the input had ended. It changes nothing of what can still be taken.
 * - OPGP_MEMORY is returned only if the reading is lost, before or now.
 * - OPGP_CLOSED is returned if and only if the handle holds nothing.
 * - A handle that is open stays open. */
OPGP_API uint32_t opgp_reader_open(const opgp_limits *limits, opgp_reader *reader);
OPGP_API uint32_t opgp_reader_push(opgp_reader *reader, const uint8_t *piece, size_t n);
OPGP_API uint32_t opgp_reader_take(opgp_reader *reader, opgp_ring *into);
OPGP_API uint32_t opgp_reader_end(opgp_reader *reader, opgp_fault *fault);
OPGP_API void opgp_reader_close(opgp_reader reader);
OPGP_API void opgp_reader_clear(opgp_reader *reader);

/* Hash a document, which comes in pieces of any size, for the signatures over it (5.2.1.1, 5.2.1.2, 5.2.4), in one pass and in
 * bounded memory. The signatures are read first: detached ones (10.4), armored or binary.
 *
 *     opgp_document document = {0};
 *     opgp_document_open(signatures, size, OPGP_MODE_AUTO, &limits, &document, &fault);
 *     while there is a piece: opgp_document_push(&document, piece, size);
 *     opgp_document_end(&document);
 *     opgp_document_jobs(&document, &ring, rows, row_room, bytes, byte_room, &sizes);
 *     opgp_document_close(document);
 *
 * - open: reads the signatures in in[0 .. n) by a mode, as opgp_ring_open_mode does a keyring, and begins a document of which
 *   nothing was given. What the handle held before is freed. `in` isn't needed after the call. OPGP_DONE; OPGP_REFUSED with
 *   *fault; OPGP_LIMITS; OPGP_MANY: there are more signatures than OPGP_MOST_SIGNATURES; OPGP_MEMORY. With any but OPGP_DONE the
 *   handle is unchanged. With any but OPGP_REFUSED *fault is unchanged.
 * - push: takes the next piece of the document, piece[0 .. n). OPGP_DONE; OPGP_ENDED: the document has ended; OPGP_CLOSED.
 * - end: ends the document. OPGP_DONE; OPGP_ENDED: it had ended; OPGP_CLOSED.
 * - jobs: fills the caller's tables, as opgp_ring_jobs does, with a row for each signature, in order. A row belongs to no
 *   certificate: certificate, component and nested are OPGP_NONE, and hang is the signature's number, from 0. signer is the row of
 *   its issuer's key among the keys of the ring, which may be a keyring without certificates. Over the document of a cleartext
 *   message only signatures of type 01 are hashed; others get OPGP_WHY_KIND. OPGP_DONE, OPGP_ROOM, OPGP_MEMORY;
 *   OPGP_GOING: the document hasn't ended; OPGP_CLOSED: of one of the handles. With any but the first two *sizes means nothing.
 * - subpackets: the same of the signatures' subpackets, as opgp_ring_subpackets, before the document's end too. OPGP_DONE,
 *   OPGP_ROOM, OPGP_MEMORY, OPGP_CLOSED. With the last two *sizes means nothing.
 * - octets: writes what the signature in a row hashes beside the document to octets[0 .. room), for who hashes elsewhere: if behind
 *   is 0 what comes in front of it, which is the salt in version 6 and nothing in version 4; else what comes behind it. *size is
 *   how much that is. Over a cleartext message this is also given for other types than 01: ask opgp_document_standing, which never
 *   believes them. OPGP_DONE, OPGP_ROOM; OPGP_NO_ROW: there is no such row, or its signature is malformed, or of another version
 *   than 4 and 6; OPGP_MEMORY, OPGP_CLOSED. With the last three *size is unchanged.
 * - close, clear: free what the handle holds, as opgp_ring_close and opgp_ring_clear do.
 *
 * A push and an end allocate nothing, and so can't run out of memory.
 *
 * Proved, however the document is cut:
 *
 * - OPGP_DONE of open: the handle holds the signatures that the octets encode. OPGP_REFUSED: they encode none, and *fault is the
 *   one fault of the lowest layer that refuses them. OPGP_MANY is returned only if there are more than OPGP_MOST_SIGNATURES, and
 *   OPGP_DONE only if there aren't.
 * - OPGP_DONE of push: the document is what it was, and behind that the piece.
 * - OPGP_DONE of jobs: each table begins with these rows or octets, which crates/opgp_tables/specs defines, and is otherwise as it
 *   was. Each digest is that of what its signature hashes over all that was pushed. A `why` is the first reason why there is none.
 * - OPGP_DONE of octets: the table begins with the octets that the standard says, and is otherwise as it was.
 * - OPGP_ENDED is returned only if the document had ended. OPGP_GOING is returned only if it hasn't, and then always if both
 *   handles hold something.
 * - OPGP_CLOSED is returned if and only if a handle holds nothing.
 * - With any status but OPGP_DONE tables are unchanged.
 * - Of jobs, subpackets and octets: the handles hold what they held. */
OPGP_API uint32_t opgp_document_open(const uint8_t *in, size_t n, uint32_t mode, const opgp_limits *limits, opgp_document *document,
                                     opgp_fault *fault);
OPGP_API uint32_t opgp_document_push(opgp_document *document, const uint8_t *piece, size_t n);
OPGP_API uint32_t opgp_document_end(opgp_document *document);
OPGP_API uint32_t opgp_document_jobs(opgp_document *document, opgp_ring *ring, opgp_job *rows, size_t row_room, uint8_t *bytes,
                                     size_t byte_room, opgp_sizes *sizes);
OPGP_API uint32_t opgp_document_subpackets(opgp_document *document, opgp_subpacket *rows, size_t row_room, uint8_t *bytes,
                                           size_t byte_room, opgp_sizes *sizes);
OPGP_API uint32_t opgp_document_octets(opgp_document *document, uint64_t row, uint32_t behind, uint8_t *octets, size_t room,
                                       uint64_t *size);

/* Says in *why whether the signature in a row of opgp_document_jobs may be believed as one by a key of the keyring, where a verifier
 * finds it good, and it is read now, in seconds since 1970. The other arguments are those of opgp_ring_standing, and made is when the
 * signature says that it was made. Ask for each place where the issuer's key is, or opgp_document_standings of all at once: it is
 * believed if it is at one of them. Of the document only one thing counts: where it is a cleartext message's, the answer is
 * OPGP_NO_DOCUMENT for signatures of another type than 01.
 *
 * OPGP_DONE; OPGP_NO_ROW: there is no such key or row, or the signature is malformed; OPGP_LIMITS: there is no such policy;
 * OPGP_MEMORY; OPGP_CLOSED.
 *
 * Proved:
 *
 * - OPGP_DONE: *why is OPGP_BELIEVED if and only if the signature is believed by the rule, else the first reason why not, of those of
 *   the signature and then of those of the key.
 * - OPGP_NO_ROW is returned only if there is no such key or row, or the signature is malformed.
 * - With any status but OPGP_DONE *why is unchanged.
 * - The handles hold what they held. */
OPGP_API uint32_t opgp_document_standing(opgp_document *document, opgp_ring *ring, const uint8_t *verdicts, size_t count,
                                         uint32_t policy, uint64_t row, uint64_t certificate, uint64_t component, uint64_t now,
                                         uint8_t *why);

/* Says the same of several places at once: of each of places[0 .. place_count) what opgp_document_standing says in *why of it, in
 * whys[0 .. room). *size is how many places these are. Where they come in the order of their certificates, the time is linear in the
 * keyring and the places.
 *
 * OPGP_DONE; OPGP_ROOM: room is less than *size; OPGP_NO_ROW: there is no such row, its signature is malformed, or at one of the places
 * there is no key; OPGP_LIMITS: there is no such policy; OPGP_MEMORY; OPGP_CLOSED. With the last four *size means nothing.
 *
 * Proved:
 *
 * - OPGP_DONE: the table begins with what opgp_document_standing says of each place, and is otherwise as it was.
 * - OPGP_ROOM: it has less room than *size says.
 * - OPGP_NO_ROW is returned only if there is no such row, its signature is malformed, or at one of the places there is no key.
 * - OPGP_LIMITS is returned if and only if there is no such policy.
 * - With any status but OPGP_DONE the table is unchanged.
 * - The handles hold what they held. */
OPGP_API uint32_t opgp_document_standings(opgp_document *document, opgp_ring *ring, const uint8_t *verdicts, size_t count,
                                          uint32_t policy, uint64_t row, const opgp_place *places, size_t place_count, uint64_t now,
                                          uint8_t *whys, size_t room, uint64_t *size);

OPGP_API void opgp_document_close(opgp_document document);
OPGP_API void opgp_document_clear(opgp_document *document);

/* Reads a message in the cleartext signature framework (7), such as an InRelease file or a signed mail. Its document, at most n octets,
 * goes to text[0 .. room): its lines with a line feed between them, and none at the end. The handle then holds the signatures, over that
 * document, which has ended; what it held before is freed. *size is how many octets the document has.
 *
 * Strict: outside of the message only blank lines may be, its headers name hash algorithms alone, and no line begins with a hyphen
 * unless it is escaped. docs/FORMAT.md has the rules. Until a signature is verified the document may be anybody's. The handle knows
 * that its document is a message's: signatures of another type than 01, on which programs disagree, aren't hashed, nor believed.
 *
 * OPGP_DONE; OPGP_REFUSED with *fault: the first line that no message has there, or what is wrong with the signatures; OPGP_ROOM;
 * OPGP_MANY; OPGP_LIMITS; OPGP_MEMORY. With any but OPGP_DONE and OPGP_ROOM *size is unchanged.
 *
 * Proved:
 *
 * - OPGP_DONE: the text begins with the document of the one message that the octets are, and is otherwise as it was. The handle holds
 *   the signatures that follow it, and what each hashes over that document.
 * - OPGP_REFUSED: the octets are no message with signatures, or more than the limit input allows, and *fault says where and why.
 * - OPGP_ROOM: the text has less room than *size says.
 * - OPGP_MANY is returned only if there are more than OPGP_MOST_SIGNATURES, and OPGP_DONE only if there aren't.
 * - With any status but OPGP_DONE the text and the handle are unchanged. */
OPGP_API uint32_t opgp_cleartext_open(const uint8_t *in, size_t n, const opgp_limits *limits, uint8_t *text, size_t room, uint64_t *size,
                                      opgp_document *document, opgp_fault *fault);

/* Make the canonical text of a document (5.2.1.2), which comes in pieces of any size: what signatures of type 01 are over. A line
 * ends in a line feed, or in a carriage return and a line feed; in the text each ends in the two. What is behind the last line end
 * stays as it is. A document with a carriage return that no line feed follows has no canonical text: programs disagree about it.
 *
 *     opgp_text text = {0};
 *     while there is a piece: opgp_canonical(&text, piece, n, octets, room, &size, &fault), then use octets[0 .. size)
 *     opgp_canonical_end(&text, &fault);
 *
 * - canonical: takes the next piece of the document, piece[0 .. n), and writes its text to octets[0 .. room). *size is how many
 *   octets that is, at most 2 * n. OPGP_DONE; OPGP_ROOM: the room is less than *size; OPGP_REFUSED with *fault: the document has
 *   such a carriage return, and *size is unchanged. With any but OPGP_DONE the piece isn't taken, and text and octets are unchanged.
 * - canonical_end: whether the document may end here. OPGP_DONE; OPGP_REFUSED with *fault: it ends in a carriage return.
 *
 * With any but OPGP_REFUSED *fault is unchanged. pos is the place of the carriage return in the document. Nothing is allocated, and
 * there is nothing to free. A copy of text goes on from where text was.
 *
 * Proved, however the document is cut:
 *
 * - OPGP_DONE of the end: what was written, piece after piece, is the canonical text of the document.
 * - OPGP_REFUSED: the document, whatever may come behind this piece, has such a carriage return, and *fault says where the first is.
 * - OPGP_ROOM is returned only if the room is less than *size. */
typedef struct opgp_text {
    uint64_t given;            /* how many octets were given; behind 2^64 - 1 that */
    uint64_t last_return;      /* where the last octet is, if it is a carriage return */
    uint32_t is_behind_return; /* whether it is one */
    uint32_t reserved;
} opgp_text;

OPGP_API uint32_t opgp_canonical(opgp_text *text, const uint8_t *piece, size_t n, uint8_t *octets, size_t room, uint64_t *size,
                                 opgp_fault *fault);
OPGP_API uint32_t opgp_canonical_end(const opgp_text *text, opgp_fault *fault);

/* Finds the armored blocks in text[0 .. size) as mail programs meet it: quoted by `> `, indented, with a break of HTML at the end of a
 * line, behind a byte order mark, among other text. Fills the caller's tables: blocks[0 .. count) with a row for each block, in order;
 * octets[0 .. room) with the blocks cleaned, one behind the other, for a strict reader to take or refuse; and *sizes with the room
 * that they need. Room for size + 1 octets is always enough.
 *
 * - A line ends in a line feed, or with the text. Its content is what is left without the spaces, tabs and `>` that it begins with, and
 *   without the spaces, tabs, carriage returns, `<br>`, `<br/>` and `<br />`, in either case, that it ends in. The first line begins
 *   behind a byte order mark (EF BB BF), if the text begins with one.
 * - A content `-----BEGIN PGP label-----` begins a block, and `-----END PGP label-----` ends one. A label is one or more printable
 *   ASCII characters other than `-`. `SIGNED MESSAGE` begins none, since the text of a cleartext message must stay as it is (7); its
 *   block of signatures is found by itself.
 * - Each line that begins a block makes one. It goes up to the first line behind it that ends one; but only to before the next line
 *   that begins one, or to the end of the text, if that comes first. So nothing is passed over in silence: the reader says then what
 *   is missing.
 * - A block's cleaned octets are the contents of its lines, each with a line feed.
 *
 * OPGP_DONE; OPGP_ROOM: one of the tables is too short; OPGP_MEMORY, and *sizes means nothing.
 *
 * Proved:
 *
 * - OPGP_DONE: each table begins with these rows or octets, which crates/opgp_blocks/specs and crates/opgp_handles/specs define, and is
 *   otherwise as it was.
 * - OPGP_ROOM: one of them has less room than *sizes says, and *sizes is how much they are.
 * - *sizes never wants more than size + 1 octets.
 * - With any status but OPGP_DONE both tables are unchanged. */
OPGP_API uint32_t opgp_find_blocks(const uint8_t *text, size_t size, opgp_found_block *blocks, size_t count, uint8_t *octets,
                                   size_t room, opgp_sizes *sizes);

/* Says in *facts of a user ID, octets[0 .. size), whether it is UTF-8 (5.11), and where its mail address is. All of the user ID is the
 * address; or the address stands at its end, in `<` and `>`, and there is no other `<` or `>`.
 *
 * An address is a local part, `@` and a domain, in UTF-8: each is one or more octets with dots between some of them (RFC 5322, 3.2.3).
 * These are neither spaces nor control octets of ASCII, nor one of `()<>[]:;@\,"`; and in the domain none is `_`. In front of
 * `<` may be any text, another address too; that in `<` and `>` counts. Above ASCII all characters are allowed, also those that
 * steer a terminal or turn the direction of text: escape an address where you show it.
 *
 * Proved: these are the facts, which crates/opgp_handles/specs/UserIds.antt defines. */
OPGP_API void opgp_user_id(const uint8_t *octets, size_t size, opgp_user_id_facts *facts);

/* ---- On top. Not proved. */

/* A keyring with its tables. The first call for a table makes it. */
typedef struct opgp_keyring opgp_keyring;

/* Octets that belong to something else. */
typedef struct opgp_span {
    const uint8_t *octets;
    size_t size;
} opgp_span;

/* Parses the keyring in in[0 .. n), as opgp_ring_open does. `in` may be NULL if n is 0, limits for the usual ones, and fault if
 * you don't want it. Give *keyring to opgp_close. opgp_open_mode reads by a mode, as opgp_ring_open_mode does.
 *
 * OPGP_DONE, OPGP_REFUSED with *fault, OPGP_LIMITS, OPGP_MEMORY. With any but OPGP_DONE *keyring is NULL. With any but
 * OPGP_REFUSED *fault is unchanged. */
OPGP_API uint32_t opgp_open(const uint8_t *in, size_t n, const opgp_limits *limits, opgp_keyring **keyring, opgp_fault *fault);
OPGP_API uint32_t opgp_open_mode(const uint8_t *in, size_t n, uint32_t mode, const opgp_limits *limits, opgp_keyring **keyring,
                                 opgp_fault *fault);

/* How many octets of the input lie outside of its armored blocks and were skipped, if some are in no text, as opgp_ring_skipped says.
 * Tell it to whoever gave the input: keys may be among them, which aren't in the keyring.
 *
 * OPGP_DONE. */
OPGP_API uint32_t opgp_skipped(const opgp_keyring *keyring, uint64_t *count);

/* Returns the index of the first bad field of opgp_limits, from 0; 5: the policies; 6: all are valid. */
OPGP_API unsigned opgp_wrong_limit(const opgp_limits *limits);

/* Begins to read a keyring in pieces, as opgp_reader_open does; limits may be NULL for the usual ones. */
OPGP_API uint32_t opgp_begin(const opgp_limits *limits, opgp_reader *reader);

/* Takes the next part of a keyring that is read in pieces, as opgp_reader_take does. Give *keyring to opgp_close.
 *
 * OPGP_DONE, OPGP_NO_ROW, OPGP_MEMORY, OPGP_CLOSED. With any but OPGP_DONE *keyring is NULL. Go on as long as it is OPGP_DONE.
 * Then end the reading, unless it is OPGP_NO_ROW: parts may be left, or lost. */
OPGP_API uint32_t opgp_take(opgp_reader *reader, opgp_keyring **keyring);

/* Frees a keyring and all that points into it. NULL is allowed. No other call may use the keyring then, or at the same time. */
OPGP_API void opgp_close(opgp_keyring *keyring);

/* A table: rows[0 .. *count), in the order of the keyring. The rows live as long as the keyring. The first call makes the table.
 * That of the jobs hashes what each signature is over: for a stranger's keyring see "Strangers' keyrings" in docs/LIBRARY-C.md.
 *
 * OPGP_DONE; OPGP_MEMORY: *rows is NULL, and *count 0. */
OPGP_API uint32_t opgp_packets(const opgp_keyring *keyring, const opgp_packet **rows, size_t *count);
OPGP_API uint32_t opgp_keys(const opgp_keyring *keyring, const opgp_key **rows, size_t *count);
OPGP_API uint32_t opgp_subpackets(const opgp_keyring *keyring, const opgp_subpacket **rows, size_t *count);
OPGP_API uint32_t opgp_jobs(const opgp_keyring *keyring, const opgp_job **rows, size_t *count);

/* How many certificates the keyring has; and the rows of the one of this number, from 0, in each table. The first of its keys is
 * the primary key. They live as long as the keyring.
 *
 * OPGP_DONE, with NULL as *rows if there are none; OPGP_MEMORY; OPGP_NO_ROW: there is no such certificate. With any but
 * OPGP_DONE *rows is NULL, and *count 0. */
OPGP_API uint32_t opgp_certificate_count(const opgp_keyring *keyring, size_t *count);
OPGP_API uint32_t opgp_packets_of(const opgp_keyring *keyring, uint64_t certificate, const opgp_packet **rows, size_t *count);
OPGP_API uint32_t opgp_keys_of(const opgp_keyring *keyring, uint64_t certificate, const opgp_key **rows, size_t *count);
OPGP_API uint32_t opgp_jobs_of(const opgp_keyring *keyring, uint64_t certificate, const opgp_job **rows, size_t *count);

/* The subpackets of the signature in a row of the jobs, its hashed area first. They live as long as the keyring.
 *
 * OPGP_DONE, with NULL as *rows if there are none; OPGP_MEMORY; OPGP_NO_ROW: there is no such row. With any but OPGP_DONE *rows
 * is NULL, and *count 0. */
OPGP_API uint32_t opgp_subpackets_of(const opgp_keyring *keyring, size_t row, const opgp_subpacket **rows, size_t *count);

/* From row to row:
 *
 * - opgp_packet_of: the packet of a signature, or that which an embedded one is in;
 * - opgp_subject_of: what a signature is on, as the packet of a primary key, a user ID, an attribute or a subkey;
 * - opgp_find_key: the row of the first key, from `from` on, whose fingerprint or key ID is name[0 .. size), of 20, 32 or 8
 *   octets. Several keys may have one key ID: go on from the next row.
 *
 * OPGP_DONE, OPGP_MEMORY; OPGP_NO_ROW: there is none. With any but OPGP_DONE *packet is NULL, and *row unchanged. */
OPGP_API uint32_t opgp_packet_of(const opgp_keyring *keyring, const opgp_job *job, const opgp_packet **packet);
OPGP_API uint32_t opgp_subject_of(const opgp_keyring *keyring, const opgp_job *job, const opgp_packet **packet);
OPGP_API uint32_t opgp_find_key(const opgp_keyring *keyring, const uint8_t *name, size_t size, size_t from, size_t *row);

/* What a row of this keyring points to. It lives as long as the keyring.
 *
 * - opgp_body: a packet's body.
 * - opgp_key_field: a field of a key's material (0 to 3).
 * - opgp_job_field: a field of what a signature's algorithm made (0, 1).
 * - opgp_data: a subpacket's data; opgp_subpacket_field: a field of it (0, 1). Of several subpackets of a kind the last in the
 *   hashed area counts (5.2.3.9).
 * - opgp_issuer: the fingerprint or key ID of the key that a signature names as its issuer, in this keyring or not. It is the
 *   first fingerprint in the hashed area (5.2.3.35), else the first key ID, of that area before the other (5.2.3.12); in version
 *   3 a field (5.2.2).
 *
 * A field is empty if there is none of that number. */
OPGP_API opgp_span opgp_body(const opgp_keyring *keyring, const opgp_packet *packet);
OPGP_API opgp_span opgp_key_field(const opgp_keyring *keyring, const opgp_key *key, unsigned number);
OPGP_API opgp_span opgp_job_field(const opgp_keyring *keyring, const opgp_job *job, unsigned number);
OPGP_API opgp_span opgp_issuer(const opgp_keyring *keyring, const opgp_job *job);
OPGP_API opgp_span opgp_data(const opgp_keyring *keyring, const opgp_subpacket *subpacket);
OPGP_API opgp_span opgp_subpacket_field(const opgp_keyring *keyring, const opgp_subpacket *subpacket, unsigned number);

/* What opgp_ring_octets and opgp_ring_write write, in memory that the caller frees by free(). If you have made the jobs, and
 * then ask for row after row, the time is linear in all. The keyring keeps the octets of some rows that come next, at most a
 * quarter of its input, or 1 MiB.
 *
 * OPGP_DONE, OPGP_MEMORY; of a row also OPGP_NO_ROW. With any but OPGP_DONE the octets are NULL, and *size is 0. */
OPGP_API uint32_t opgp_octets(const opgp_keyring *keyring, uint64_t row, uint8_t **octets, size_t *size);
OPGP_API uint32_t opgp_write(const opgp_keyring *keyring, bool armor, uint8_t **text, size_t *size);

/* The table that opgp_document_jobs fills, of signatures over a document that has ended: (*rows)[0 .. *count), and the octets that
 * they point into, in memory that the caller frees by free(). The signers are rows of opgp_keys of the keyring; with NULL as
 * keyring there are none.
 *
 * OPGP_DONE, OPGP_GOING, OPGP_MEMORY, OPGP_CLOSED. With any but OPGP_DONE both are NULL, and *count is 0. */
OPGP_API uint32_t opgp_signatures(opgp_document *document, const opgp_keyring *keyring, opgp_job **rows, size_t *count,
                                  uint8_t **bytes);

/* The keyrings that opgp_ring_normalise, opgp_ring_merge, opgp_ring_choose, opgp_ring_pick, opgp_ring_certificate and opgp_ring_join
 * make. other may be keyring. Give *made to opgp_close.
 *
 * OPGP_DONE, OPGP_MEMORY; of a certificate also OPGP_NO_ROW. With any but OPGP_DONE *made is NULL. */
OPGP_API uint32_t opgp_normalise(const opgp_keyring *keyring, opgp_keyring **made);
OPGP_API uint32_t opgp_merge(const opgp_keyring *keyring, opgp_keyring **made);
OPGP_API uint32_t opgp_choose(const opgp_keyring *keyring, bool own_signatures, bool no_attributes, const uint64_t *user_ids,
                              size_t count, opgp_keyring **made);
OPGP_API uint32_t opgp_pick(const opgp_keyring *keyring, const uint8_t *picked, size_t count, opgp_keyring **made);
OPGP_API uint32_t opgp_certificate(const opgp_keyring *keyring, uint64_t number, opgp_keyring **made);
OPGP_API uint32_t opgp_join(const opgp_keyring *keyring, const opgp_keyring *other, opgp_keyring **made);

/* The keyring that opgp_merge makes, which this one keeps: it is made by the first call, or the first one of opgp_judge, opgp_states or
 * opgp_read_verdicts. Where merging changes nothing it is this keyring itself. opgp_close of keyring closes it; don't close it
 * yourself.
 *
 * OPGP_DONE; OPGP_MEMORY: *merged is NULL. */
OPGP_API uint32_t opgp_merged(const opgp_keyring *keyring, const opgp_keyring **merged);

/* What a verifier finds. */
typedef enum opgp_verdict { OPGP_UNDECIDED = 0, OPGP_GOOD = 1, OPGP_BAD = 2 } opgp_verdict;

/* A verifier's question: does what this signature's algorithm made fit this digest and this key? */
typedef struct opgp_question {
    size_t row;             /* the number of the job */
    const opgp_job *job;
    opgp_span made[2];      /* what the signature's algorithm made */
    const opgp_key *signer; /* the issuer's key, whose version is the signature's */
    opgp_span key[4];       /* its material */
    const opgp_cause *cause; /* to a reporter of opgp_judge: why its signer isn't believed, if that is what is reported; else NULL */
} opgp_question;

/* Returns OPGP_GOOD or OPGP_BAD: by arithmetic alone, whether the key made the signature. Any other number is OPGP_UNDECIDED:
 * for each algorithm, curve, key or hash that it can't verify. It has to compare the algorithms of the signature and the key
 * itself. To distrust weak ones is up to the policy of the calls that judge: a verifier that leaves a revocation by SHA-1
 * undecided would have its key believed. Only for opgp_check, which judges nothing, may a verifier have doubts of its own. */
typedef opgp_verdict opgp_verifier(void *context, const opgp_question *question);

/* Gets the verdict on the signature in a row. A number other than 0 ends opgp_check. */
typedef int opgp_reporter(void *context, size_t row, const opgp_job *job, opgp_verdict verdict);

/* Calls the reporter for each signature, in order, with a verdict:
 *
 * - OPGP_BAD if its digest doesn't begin with the 16 bits that it states;
 * - what the verifier returns, which is called once, if it is hashed, and its issuer's key is in the keyring and has its
 *   version;
 * - OPGP_UNDECIDED for all others; with NULL as verify, for all that aren't bad.
 *
 * Both get the context. They may make calls on the keyring, but not close it.
 *
 * OPGP_DONE; OPGP_ENDED: the reporter ended it; OPGP_MEMORY: the reporter wasn't called. OPGP_GOOD is arithmetic and no more.
 * Expiries, revocations, key flags and critical subpackets aren't looked at: whether to rely on a signature is up to you. */
OPGP_API uint32_t opgp_check(const opgp_keyring *keyring, opgp_verifier *verify, opgp_reporter *report, void *context);

/* In place of a reason why a signature isn't believed: it isn't good. */
#define OPGP_NOT_GOOD 255

/* Gets the question about a signature over a document, the verdict on it, and why it isn't to be believed: OPGP_BELIEVED if it is,
 * else the first reason, as opgp_document_standing gives it; OPGP_NOT_GOOD if the verdict isn't OPGP_GOOD. The signer of the
 * question is the issuer's key at the first place at which the signature is believed, else at its first place, which is the row that the
 * job names: so its certificate is that by whose signatures it is believed. NULL: that key isn't in the keyring. The question's cause says
 * more of a reason that is the key's; its numbers are those of opgp_merged. A number other than 0 ends opgp_judge. */
typedef int opgp_judge_reporter(void *context, const opgp_question *question, opgp_verdict verdict, uint8_t why);

/* Judges the signatures over a document that has ended, by a policy (OPGP_POLICY_USUAL ..) and at a present time in seconds since
 * 1970. docs/VALIDITY.md has the rule. It judges by opgp_merged of the keyring, since each certificate is judged alone: a question's
 * numbers are of rows of that. It is made once, so the next document takes less time.
 *
 * The verifier is called as opgp_check calls it:
 *
 * - for each signature over the document, whose job has OPGP_NONE as certificate;
 * - if one of them is good, for those in the certificates that have its signer as primary key, or at its first place, or where a
 *   signature may bind it; but not for what another key certified (types 10 to 13 and 30), which says nothing. Only
 *   signatures found good count, revocations too.
 *
 * Then the reporter is called for each signature over the document, in order. Where a key is in several places, one at which it is
 * believed is enough; else the reason is that of the first. Of equal signatures one is judged for all of them.
 *
 * Both get the context. They may make calls on the keyring and the document, but not close them. What a question points to lives
 * until opgp_judge returns, but for the signer, which is a row of opgp_keys of opgp_merged.
 *
 * OPGP_DONE; OPGP_ENDED: the reporter ended it. Of these the reporter wasn't called: OPGP_LIMITS: there is no such policy;
 * OPGP_GOING, OPGP_MEMORY, OPGP_CLOSED. */
OPGP_API uint32_t opgp_judge(opgp_document *document, const opgp_keyring *keyring, uint32_t policy, uint64_t now,
                             opgp_verifier *verify, opgp_judge_reporter *report, void *context);

/* Finds what the revocations of primary keys hash over the primary key alone: the rows of opgp_ring_revocations, for free().
 *
 * OPGP_DONE; OPGP_MEMORY: *rows is NULL, and *count 0. */
OPGP_API uint32_t opgp_revocations(const opgp_keyring *keyring, opgp_revocation **rows, size_t *count);

/* Finds how each key, user ID and attribute of a keyring stands at a time, in seconds since 1970, by a policy (OPGP_POLICY_USUAL ..):
 * the rows of opgp_ring_states, for free(). docs/VALIDITY.md has the rule.
 *
 * The verifier is called as opgp_check calls it, and for key revocations that stand behind another part: they are over the
 * primary key alone (5.2.1.11), so their job has the digest of that; but not for what another key certified (types 10 to 13 and
 * 30), which says nothing. Only signatures found good count, revocations too; with verify NULL, none do. It may
 * make calls on the keyring, but not close it. Since each certificate is judged alone, and one copy may lack a revocation, it
 * goes by opgp_merged of the keyring: all numbers are of that.
 *
 * OPGP_DONE; or *rows is NULL and *count 0: OPGP_LIMITS: there is no such policy; OPGP_MEMORY. */
OPGP_API uint32_t opgp_states(const opgp_keyring *keyring, uint32_t policy, uint64_t at, opgp_verifier *verify, void *context,
                              opgp_state **rows, size_t *count);

/* Reads a file of verdicts on the keyring's signatures, as opgp_ring_verdicts does: (*verdicts)[0 .. *count), for free(). They are on the
 * rows of opgp_jobs of opgp_merged, as `opgp-verify --verdicts` goes by the merged keyring. `file` may be NULL if n is 0.
 *
 * OPGP_DONE; OPGP_NO_ROW: the file isn't one of verdicts on this keyring; OPGP_MEMORY. With any but OPGP_DONE *verdicts is NULL, and
 * *count 0. */
OPGP_API uint32_t opgp_read_verdicts(const opgp_keyring *keyring, const uint8_t *file, size_t n, uint8_t **verdicts, size_t *count);

/* What a status means, in a few words, or "unknown". The text is static. */
OPGP_API const char *opgp_status_text(uint32_t status);

/* The room that each name needs, with its NUL. */
#define OPGP_NAME_ROOM 64

/* Writes the name that opgp_name writes, with a NUL, or "unknown" if there is none, and returns text. */
OPGP_API char *opgp_name_text(uint32_t table, uint8_t number, char text[OPGP_NAME_ROOM]);

/* The room that each fault's line needs, with its NUL. */
#define OPGP_FAULT_ROOM 128

/* Writes the line that opgp_fault_line writes, with a NUL, or "unknown" if there is no such fault, and returns text. */
OPGP_API char *opgp_fault_text(const opgp_fault *fault, char text[OPGP_FAULT_ROOM]);

#ifdef __cplusplus
}
#endif
#endif
