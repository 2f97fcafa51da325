/* What libcrypto says of signatures. Section numbers are those of RFC 9580. */
#include "verify-arithmetic.h"

#include <openssl/bn.h>
#include <openssl/core_names.h>
#include <openssl/crypto.h>
#include <openssl/dsa.h>
#include <openssl/ecdsa.h>
#include <openssl/err.h>
#include <openssl/evp.h>
#include <openssl/param_build.h>
#include <openssl/rsa.h>

#include <stdatomic.h>
#include <stdlib.h>
#include <string.h>

/* The octets of a point, and of each half of a signature, on an Edwards curve. */
enum { SIZE_25519 = 32, SIZE_448 = 57 };

/* The least bits of an RSA key, and of the strength of any other one, about which there is no doubt. */
enum { LEAST_RSA = 2048, LEAST_STRENGTH = 112 };

/* A key that was asked. */
struct asked_key {
    const opgp_key *signer; /* whose it is; NULL: nobody's */
    EVP_PKEY *key;          /* NULL: libcrypto doesn't take it, or it wasn't asked to */
    const char *why;        /* why it wasn't; NULL: it was */
    EVP_PKEY_CTX *ready;    /* what verifies digests by that key; NULL: nothing yet */
    int hash;               /* the hash function of those digests; -1: none yet */
};

struct arithmetic {
    struct asked_key now, before; /* the one that is asked, and the one before it: a primary key and a subkey take turns */
    unsigned decisive;            /* the doubts that decide */
    struct finding found;         /* of the question that is answered now */
};

/* ---- Memory */

/* Whether memory ran out. libcrypto doesn't always say so, and then a good signature is bad to it. It is known where libcrypto takes
 * memory from here; where not, what it says is believed, though it says so of an allocation of no octets, too. */
static atomic_bool ran_out;
static bool is_asked_here;

static void *get(size_t size, const char *file, int line)
{
    (void)file, (void)line;
    void *room = size > 0 ? malloc(size) : NULL;
    if (!room && size > 0) {
        ran_out = true;
    }
    return room;
}

static void let_go(void *room, const char *file, int line)
{
    (void)file, (void)line;
    free(room);
}

static void *get_more(void *room, size_t size, const char *file, int line)
{
    if (size == 0) {
        let_go(room, file, line);
        return NULL;
    }
    void *more = realloc(room, size);
    if (!more) {
        ran_out = true;
    }
    return more;
}

/* A libcrypto that took memory when it was loaded keeps its own functions; then it must say itself what was refused. Its configuration
 * isn't read, so that no file of a machine changes what is found. Nor does it list the names that its older calls go by, which are none
 * of those below, and at the end it is left as it is: that would take a fifth of the time of a small document. */
void arithmetic_begin(void)
{
    is_asked_here = CRYPTO_set_mem_functions(get, get_more, let_go) == 1;
    OPENSSL_init_crypto(OPENSSL_INIT_NO_LOAD_CONFIG | OPENSSL_INIT_NO_LOAD_CRYPTO_STRINGS | OPENSSL_INIT_NO_ADD_ALL_CIPHERS
                            | OPENSSL_INIT_NO_ADD_ALL_DIGESTS | OPENSSL_INIT_NO_ATEXIT,
                        NULL);
}

bool arithmetic_stands(void)
{
    return OSSL_LIB_CTX_get0_global_default() && !ran_out;
}

void arithmetic_for_threads(void)
{
    EVP_MD_free(EVP_MD_fetch(NULL, "SHA2-256", NULL));
    EVP_KEYMGMT_free(EVP_KEYMGMT_fetch(NULL, "RSA", NULL));
    EVP_SIGNATURE_free(EVP_SIGNATURE_fetch(NULL, "RSA", NULL));
}

bool memory_ran_out(void)
{
    return ran_out;
}

const char *arithmetic_version(void)
{
    return OpenSSL_version(OPENSSL_VERSION);
}

static opgp_verdict undecided(struct arithmetic *it, const char *why)
{
    it->found.why = why;
    return OPGP_UNDECIDED;
}

/* Whether an error of libcrypto is about the key and not about the signature. */
static bool is_about_key(unsigned long error)
{
    int reason = ERR_GET_REASON(error);
    switch (ERR_GET_LIB(error)) {
    case ERR_LIB_RSA: return reason == RSA_R_MODULUS_TOO_LARGE || reason == RSA_R_BAD_E_VALUE;
    case ERR_LIB_DSA:
        return reason == DSA_R_MISSING_PARAMETERS || reason == DSA_R_BAD_Q_VALUE || reason == DSA_R_MODULUS_TOO_LARGE
               || reason == DSA_R_INVALID_PARAMETERS;
    case ERR_LIB_BN: return true;
    default: return false;
    }
}

/* Why a call of libcrypto failed: memory ran out, and no finding holds; else it doesn't take the key; else this is the verdict. */
static opgp_verdict failed(struct arithmetic *it, opgp_verdict verdict)
{
    for (unsigned long error = ERR_get_error(); error != 0; error = ERR_get_error()) {
        if (!is_asked_here && ERR_GET_REASON(error) == ERR_R_MALLOC_FAILURE) {
            ran_out = true;
        }
        if (is_about_key(error)) {
            verdict = undecided(it, "key");
        }
    }
    return verdict;
}

/* Whether octets are these. */
static bool is_same(opgp_span span, const uint8_t *octets, size_t size)
{
    return span.size == size && memcmp(span.octets, octets, size) == 0;
}

/* Puts an integer at the end of room[0 .. size), which is zeros; false if it is too large. */
static bool put_integer(uint8_t *room, size_t size, opgp_span integer)
{
    while (integer.size > 0 && integer.octets[0] == 0) {
        integer.octets++;
        integer.size--;
    }
    if (integer.size > size) {
        return false;
    }
    memcpy(room + size - integer.size, integer.octets, integer.size);
    return true;
}

static BIGNUM *integer_of(opgp_span span)
{
    return BN_bin2bn(span.octets, (int)span.size, NULL);
}

/* ---- Keys: NULL where libcrypto doesn't take them. */

static EVP_PKEY *key_of(const char *type, OSSL_PARAM_BLD *build)
{
    EVP_PKEY *key = NULL;
    OSSL_PARAM *parameters = OSSL_PARAM_BLD_to_param(build);
    EVP_PKEY_CTX *context = EVP_PKEY_CTX_new_from_name(NULL, type, NULL);
    if (context && parameters && EVP_PKEY_fromdata_init(context) == 1) {
        EVP_PKEY_fromdata(context, &key, EVP_PKEY_PUBLIC_KEY, parameters);
    }
    EVP_PKEY_CTX_free(context);
    OSSL_PARAM_free(parameters);
    return key;
}

/* A key of integers with these names, four at most. */
static EVP_PKEY *key_of_integers(const char *type, const char *const names[], const opgp_span spans[], size_t count)
{
    OSSL_PARAM_BLD *build = OSSL_PARAM_BLD_new();
    BIGNUM *integers[4] = {NULL};
    bool is_whole = build != NULL;
    for (size_t i = 0; i < count; i++) {
        integers[i] = integer_of(spans[i]);
        is_whole = is_whole && integers[i] && OSSL_PARAM_BLD_push_BN(build, names[i], integers[i]) == 1;
    }
    EVP_PKEY *key = is_whole ? key_of(type, build) : NULL;
    for (size_t i = 0; i < count; i++) {
        BN_free(integers[i]);
    }
    OSSL_PARAM_BLD_free(build);
    return key;
}

/* The name that libcrypto has for the curve of an object identifier (9.2); NULL if it isn't one for ECDSA. */
static const char *curve_name(opgp_span identifier)
{
    static const struct {
        const char *name;
        size_t size;
        uint8_t octets[9];
    } curves[] = {
        {"P-256", 8, {0x2A, 0x86, 0x48, 0xCE, 0x3D, 0x03, 0x01, 0x07}},
        {"P-384", 5, {0x2B, 0x81, 0x04, 0x00, 0x22}},
        {"P-521", 5, {0x2B, 0x81, 0x04, 0x00, 0x23}},
        {"brainpoolP256r1", 9, {0x2B, 0x24, 0x03, 0x03, 0x02, 0x08, 0x01, 0x01, 0x07}},
        {"brainpoolP384r1", 9, {0x2B, 0x24, 0x03, 0x03, 0x02, 0x08, 0x01, 0x01, 0x0B}},
        {"brainpoolP512r1", 9, {0x2B, 0x24, 0x03, 0x03, 0x02, 0x08, 0x01, 0x01, 0x0D}},
    };
    for (size_t i = 0; i < sizeof curves / sizeof *curves; i++) {
        if (is_same(identifier, curves[i].octets, curves[i].size)) {
            return curves[i].name;
        }
    }
    return NULL;
}

static EVP_PKEY *key_on_curve(const char *name, opgp_span point)
{
    OSSL_PARAM_BLD *build = OSSL_PARAM_BLD_new();
    bool is_whole = build && OSSL_PARAM_BLD_push_utf8_string(build, OSSL_PKEY_PARAM_GROUP_NAME, name, 0) == 1
                    && OSSL_PARAM_BLD_push_octet_string(build, OSSL_PKEY_PARAM_PUB_KEY, point.octets, point.size) == 1;
    EVP_PKEY *key = is_whole ? key_of("EC", build) : NULL;
    OSSL_PARAM_BLD_free(build);
    return key;
}

/* That of EdDSALegacy (5.5.5.5): a point after 0x40. If it has another form, this says why there is no key. */
static EVP_PKEY *key_of_eddsa_legacy(opgp_span curve, opgp_span point, const char **why)
{
    static const uint8_t ed25519[] = {0x2B, 0x06, 0x01, 0x04, 0x01, 0xDA, 0x47, 0x0F, 0x01};
    if (!is_same(curve, ed25519, sizeof ed25519)) {
        *why = "curve";
        return NULL;
    }
    if (point.size != SIZE_25519 + 1 || point.octets[0] != 0x40) {
        *why = "key";
        return NULL;
    }
    return EVP_PKEY_new_raw_public_key(EVP_PKEY_ED25519, NULL, point.octets + 1, SIZE_25519);
}

/* That of Ed25519 or Ed448 as it is. */
static EVP_PKEY *key_of_native(int type, size_t size, opgp_span point, const char **why)
{
    if (point.size != size) {
        *why = "key";
        return NULL;
    }
    return EVP_PKEY_new_raw_public_key(type, NULL, point.octets, size);
}

static EVP_PKEY *key_of_ecdsa(opgp_span curve, opgp_span point, const char **why)
{
    const char *name = curve_name(curve);
    *why = name ? NULL : "curve";
    return name ? key_on_curve(name, point) : NULL;
}

/* The key of a signer. Where libcrypto isn't asked to take it, this says why. */
static EVP_PKEY *key_of_signer(const opgp_question *question, const char **why)
{
    static const char *const rsa[] = {OSSL_PKEY_PARAM_RSA_N, OSSL_PKEY_PARAM_RSA_E};
    static const char *const dsa[] = {OSSL_PKEY_PARAM_FFC_P, OSSL_PKEY_PARAM_FFC_Q, OSSL_PKEY_PARAM_FFC_G,
                                      OSSL_PKEY_PARAM_PUB_KEY};
    const opgp_span *fields = question->key;
    *why = NULL;
    switch (question->signer->algorithm) {
    case OPGP_KEY_RSA:
    case OPGP_KEY_RSA_SIGN_ONLY: return key_of_integers("RSA", rsa, fields, 2);
    case OPGP_KEY_DSA: return key_of_integers("DSA", dsa, fields, 4);
    case OPGP_KEY_ECDSA: return key_of_ecdsa(fields[0], fields[1], why);
    case OPGP_KEY_EDDSA_LEGACY: return key_of_eddsa_legacy(fields[0], fields[1], why);
    case OPGP_KEY_ED25519: return key_of_native(EVP_PKEY_ED25519, SIZE_25519, fields[0], why);
    case OPGP_KEY_ED448: return key_of_native(EVP_PKEY_ED448, SIZE_448, fields[0], why);
    default: *why = "unknown"; return NULL;
    }
}

static void drop_key(struct asked_key *it)
{
    EVP_PKEY_CTX_free(it->ready);
    EVP_PKEY_free(it->key);
    *it = (struct asked_key){NULL, NULL, NULL, NULL, -1};
}

/* Takes the key of a question's signer, if it isn't one of the two that were asked last. */
static void take_key(struct arithmetic *it, const opgp_question *question)
{
    if (it->now.signer != question->signer) {
        struct asked_key last = it->now;
        it->now = it->before;
        it->before = last;
    }
    if (it->now.signer != question->signer) {
        drop_key(&it->now);
        it->now.key = key_of_signer(question, &it->now.why);
        it->now.signer = question->signer;
        failed(it, OPGP_UNDECIDED);
    }
}

/* ---- Signatures, by the key that is taken. */

static const EVP_MD *hash_of(uint8_t number)
{
    switch (number) {
    case OPGP_HASH_SHA1: return EVP_sha1();
    case OPGP_HASH_SHA256: return EVP_sha256();
    case OPGP_HASH_SHA384: return EVP_sha384();
    case OPGP_HASH_SHA512: return EVP_sha512();
    case OPGP_HASH_SHA224: return EVP_sha224();
    default: return NULL;
    }
}

static bool is_small(const EVP_PKEY *key)
{
    return EVP_PKEY_get_base_id(key) == EVP_PKEY_RSA ? EVP_PKEY_get_bits(key) < LEAST_RSA
                                                     : EVP_PKEY_get_security_bits(key) < LEAST_STRENGTH;
}

/* Makes the key ready to verify digests, if it isn't; whether it is. */
static bool is_ready(struct arithmetic *it)
{
    if (it->now.ready) {
        return true;
    }
    it->now.ready = EVP_PKEY_CTX_new(it->now.key, NULL);
    it->now.hash = -1;
    if (it->now.ready && EVP_PKEY_verify_init(it->now.ready) == 1
        && (EVP_PKEY_get_base_id(it->now.key) != EVP_PKEY_RSA || EVP_PKEY_CTX_set_rsa_padding(it->now.ready, RSA_PKCS1_PADDING) == 1)) {
        return true;
    }
    EVP_PKEY_CTX_free(it->now.ready);
    it->now.ready = NULL;
    return false;
}

/* The same for digests of this hash function. */
static bool is_ready_for(struct arithmetic *it, uint8_t hash)
{
    if (is_ready(it) && it->now.hash != hash) {
        it->now.hash = EVP_PKEY_CTX_set_signature_md(it->now.ready, hash_of(hash)) == 1 ? hash : -1;
    }
    return it->now.ready && it->now.hash == hash;
}

/* By RSA, DSA or ECDSA, in libcrypto's form: a signature over a digest. */
static opgp_verdict over_digest(struct arithmetic *it, const opgp_job *job, const uint8_t *made, size_t size)
{
    it->found.doubts |= is_small(it->now.key) ? DOUBT_SMALL_KEY : 0;
    if (it->found.doubts & it->decisive & DOUBT_SMALL_KEY) {
        return undecided(it, "small-key");
    }
    if (!is_ready_for(it, job->hash)) {
        return failed(it, undecided(it, "refused"));
    }
    return EVP_PKEY_verify(it->now.ready, made, size, job->digest, job->digest_size) == 1 ? OPGP_GOOD : failed(it, OPGP_BAD);
}

/* By RSA (5.2.3.1), whose signature libcrypto wants as long as the modulus. */
static opgp_verdict by_rsa(struct arithmetic *it, const opgp_question *question)
{
    int size_of_key = it->now.key ? EVP_PKEY_get_size(it->now.key) : 0;
    if (size_of_key <= 0) { /* such as that of the modulus 0 */
        return failed(it, undecided(it, "key"));
    }
    size_t size = (size_t)size_of_key;
    uint8_t *made = calloc(1, size);
    opgp_verdict verdict = OPGP_BAD;
    if (!made) {
        ran_out = true;
    } else if (put_integer(made, size, question->made[0])) {
        verdict = over_digest(it, question->job, made, size);
    }
    free(made);
    return verdict;
}

/* By DSA or ECDSA (5.2.3.2): r and s, which have the same form in libcrypto for both. */
static opgp_verdict by_pair(struct arithmetic *it, const opgp_question *question)
{
    if (!it->now.key) {
        return undecided(it, "key");
    }
    uint8_t *made = NULL;
    int size = -1;
    ECDSA_SIG *pair = ECDSA_SIG_new();
    BIGNUM *r = integer_of(question->made[0]), *s = integer_of(question->made[1]);
    if (pair && r && s && ECDSA_SIG_set0(pair, r, s) == 1) {
        size = i2d_ECDSA_SIG(pair, &made);
    } else {
        BN_free(r);
        BN_free(s);
    }
    opgp_verdict verdict = OPGP_UNDECIDED;
    if (size > 0) {
        verdict = over_digest(it, question->job, made, (size_t)size);
    } else {
        ran_out = true;
    }
    OPENSSL_free(made);
    ECDSA_SIG_free(pair);
    return verdict;
}

/* By Ed25519 or Ed448, whose message is the digest (5.2.3.4, 5.2.3.5). */
static opgp_verdict by_edwards(struct arithmetic *it, const opgp_job *job, opgp_span made)
{
    EVP_MD_CTX *context = EVP_MD_CTX_new();
    opgp_verdict verdict;
    if (!it->now.key || !context || EVP_DigestVerifyInit(context, NULL, NULL, NULL, it->now.key) != 1) {
        verdict = failed(it, undecided(it, "key"));
    } else if (EVP_DigestVerify(context, made.octets, made.size, job->digest, job->digest_size) == 1) {
        verdict = OPGP_GOOD;
    } else {
        verdict = failed(it, OPGP_BAD);
    }
    EVP_MD_CTX_free(context);
    return verdict;
}

/* By EdDSALegacy (5.2.3.3): both halves of the signature as integers. */
static opgp_verdict by_eddsa_legacy(struct arithmetic *it, const opgp_question *question)
{
    uint8_t made[2 * SIZE_25519] = {0};
    if (!put_integer(made, SIZE_25519, question->made[0]) || !put_integer(made + SIZE_25519, SIZE_25519, question->made[1])) {
        return OPGP_BAD;
    }
    return by_edwards(it, question->job, (opgp_span){made, sizeof made});
}

/* By Ed25519 or Ed448 as they are: both halves in one field. */
static opgp_verdict by_native(struct arithmetic *it, const opgp_question *question)
{
    return question->made[0].size == 2 * question->key[0].size ? by_edwards(it, question->job, question->made[0]) : OPGP_BAD;
}

/* What the key says of the signature. */
static opgp_verdict verdict_of(struct arithmetic *it, const opgp_question *question)
{
    ERR_clear_error();
    take_key(it, question);
    if (it->now.why) {
        return undecided(it, it->now.why);
    }
    switch (question->signer->algorithm) {
    case OPGP_KEY_RSA:
    case OPGP_KEY_RSA_SIGN_ONLY: return by_rsa(it, question);
    case OPGP_KEY_EDDSA_LEGACY: return by_eddsa_legacy(it, question);
    case OPGP_KEY_ED25519:
    case OPGP_KEY_ED448: return by_native(it, question);
    default: return by_pair(it, question);
    }
}

/* ---- Digests */

bool arithmetic_sha256(const uint8_t *octets, size_t size, uint8_t digest[SHA256_SIZE])
{
    return EVP_Digest(octets, size, digest, NULL, EVP_sha256(), NULL) == 1 && !ran_out;
}

/* ---- Questions */

struct arithmetic *arithmetic_new(void)
{
    struct arithmetic *it = calloc(1, sizeof *it);
    if (!it) {
        ran_out = true;
    }
    return it;
}

void arithmetic_free(struct arithmetic *it)
{
    if (it) {
        drop_key(&it->now);
        drop_key(&it->before);
        free(it);
    }
}

/* A critical subpacket (5.2.3.7) may have an unknown kind or form, and of notations (5.2.3.24) none is known here. */
unsigned doubts_of(const opgp_job *job, const opgp_subpacket *subpackets, size_t count)
{
    unsigned doubts = job->hash == OPGP_HASH_SHA1 ? DOUBT_WEAK_HASH : 0;
    for (size_t i = 0; i < count; i++) {
        bool is_unknown = subpackets[i].meaning != 0 || subpackets[i].kind == OPGP_SUBPACKET_NOTATION_DATA;
        doubts |= subpackets[i].is_critical && is_unknown ? DOUBT_CRITICAL : 0;
    }
    return doubts;
}

static bool is_rsa_number(uint8_t algorithm)
{
    return algorithm == OPGP_KEY_RSA || algorithm == OPGP_KEY_RSA_SIGN_ONLY;
}

struct finding arithmetic_of(struct arithmetic *it, const opgp_question *question, unsigned doubts, unsigned decisive)
{
    uint8_t algorithm = question->job->algorithm, key = question->signer->algorithm;
    it->found = (struct finding){OPGP_UNDECIDED, NULL, doubts};
    it->decisive = decisive;
    if (algorithm != key && !(is_rsa_number(algorithm) && is_rsa_number(key))) {
        undecided(it, "algorithm");
    } else if (doubts & decisive & DOUBT_CRITICAL) {
        undecided(it, "critical");
    } else if (doubts & decisive & DOUBT_WEAK_HASH) {
        undecided(it, "weak-hash");
    } else {
        it->found.verdict = verdict_of(it, question);
    }
    return it->found;
}
