/* What bench/library measures over libopgp and c/verify-arithmetic.c, whose answers it takes. Words, and the least of so many runs in
 * microseconds of processor time that each prints:
 *
 *     call RUNS FILE     opens the keyring of the file 10,000 times, takes the fingerprint of its first key, and closes it: of one time
 *     handle RUNS FILE   the same by opgp_ring_open and opgp_ring_keys, without the layer on top
 *     open RUNS FILE     opens the keyring, makes all its tables, and closes it
 *     packets RUNS FILE  the same with the table of packets alone
 *     document RUNS FILE hashes the file's first 1,024 octets for a signature 10,000 times, by opgp_document_open and so on: of one time
 *     octets RUNS FILE   the same with what each signature hashes, row after row, and no table
 *     ring RUNS FILE     the same with none of it
 *     pieces RUNS FILE   reads it in pieces of 65,536 octets, and takes each part
 *     verify RUNS FILE   collects all questions first: how many; then all answers of the verifier, and within them the calls of
 *                        libcrypto that verify, without those that make a key of its integers */
#define _POSIX_C_SOURCE 200809L
#include <openssl/evp.h>

#include <time.h>

static double in_libcrypto; /* microseconds in the calls that verify */

static double now(void)
{
    struct timespec it;
    clock_gettime(CLOCK_PROCESS_CPUTIME_ID, &it);
    return (double)it.tv_sec * 1e6 + (double)it.tv_nsec / 1e3;
}

static int timed_verify(EVP_PKEY_CTX *context, const unsigned char *made, size_t size, const unsigned char *digest, size_t digest_size)
{
    double begin = now();
    int answer = EVP_PKEY_verify(context, made, size, digest, digest_size);
    in_libcrypto += now() - begin;
    return answer;
}

static int timed_digest_verify(EVP_MD_CTX *context, const unsigned char *made, size_t size, const unsigned char *text, size_t text_size)
{
    double begin = now();
    int answer = EVP_DigestVerify(context, made, size, text, text_size);
    in_libcrypto += now() - begin;
    return answer;
}

#define EVP_PKEY_verify timed_verify
#define EVP_DigestVerify timed_digest_verify
#include "../c/examples/open.h"
#include "../c/verify-arithmetic.c"

enum { TIMES = 10000, PIECE = 1 << 16 };

static void wanted(bool holds, const char *what)
{
    if (!holds) {
        fprintf(stderr, "bench/library.c: %s failed\n", what);
        exit(3);
    }
}

static uint8_t *in;
static size_t size;
static uint8_t print[32]; /* the last fingerprint */
static size_t signatures; /* of the keyring whose tables were made */

static void call(void)
{
    for (int i = 0; i < TIMES; i++) {
        opgp_keyring *keyring;
        wanted(opgp_open(in, size, NULL, &keyring, NULL) == OPGP_DONE, "opgp_open");
        const opgp_key *keys;
        size_t count;
        wanted(opgp_keys(keyring, &keys, &count) == OPGP_DONE, "opgp_keys");
        memcpy(print, keys[0].print, sizeof print);
        opgp_close(keyring);
    }
}

static void handle(void)
{
    opgp_limits limits;
    opgp_usual_limits(&limits);
    for (int i = 0; i < TIMES; i++) {
        opgp_ring ring = {0};
        opgp_fault fault;
        opgp_key keys[4];
        uint8_t material[4096];
        opgp_sizes sizes;
        wanted(opgp_ring_open(in, size, &limits, &ring, &fault) == OPGP_DONE, "opgp_ring_open");
        wanted(opgp_ring_keys(&ring, keys, 4, material, sizeof material, &sizes) == OPGP_DONE, "opgp_ring_keys");
        memcpy(print, keys[0].print, sizeof print);
        opgp_ring_close(ring);
    }
}

static void document(void)
{
    /* Of type 00, by SHA2-256, with nothing in its areas. */
    static const uint8_t signature[] = {0xC2, 14, 4, 0, 22, 8, 0, 0, 0, 0, 0xAB, 0xCD, 0, 0, 0, 0};
    opgp_limits limits;
    opgp_ring ring = {0};
    opgp_fault fault;
    opgp_usual_limits(&limits);
    wanted(size >= 1024 && opgp_ring_open(in, 0, &limits, &ring, &fault) == OPGP_DONE, "opgp_ring_open");
    for (int i = 0; i < TIMES; i++) {
        opgp_document it = {0};
        opgp_job job;
        uint8_t made[64];
        opgp_sizes sizes;
        wanted(opgp_document_open(signature, sizeof signature, OPGP_MODE_AUTO, &limits, &it, &fault) == OPGP_DONE, "opgp_document_open");
        wanted(opgp_document_push(&it, in, 1024) == OPGP_DONE && opgp_document_end(&it) == OPGP_DONE, "opgp_document_push");
        wanted(opgp_document_jobs(&it, &ring, &job, 1, made, sizeof made, &sizes) == OPGP_DONE, "opgp_document_jobs");
        memcpy(print, job.digest, sizeof print);
        opgp_document_close(it);
    }
    opgp_ring_close(ring);
}

static void open_all(void)
{
    opgp_keyring *keyring;
    const opgp_packet *packets;
    const opgp_key *keys;
    const opgp_subpacket *subpackets;
    const opgp_job *jobs;
    size_t count;
    wanted(opgp_open(in, size, NULL, &keyring, NULL) == OPGP_DONE, "opgp_open");
    wanted(opgp_packets(keyring, &packets, &count) == OPGP_DONE && opgp_keys(keyring, &keys, &count) == OPGP_DONE
               && opgp_subpackets(keyring, &subpackets, &count) == OPGP_DONE && opgp_jobs(keyring, &jobs, &count) == OPGP_DONE,
           "the tables");
    signatures = count;
    opgp_close(keyring);
}

static void open_packets(void)
{
    opgp_keyring *keyring;
    const opgp_packet *packets;
    size_t count;
    wanted(opgp_open(in, size, NULL, &keyring, NULL) == OPGP_DONE && opgp_packets(keyring, &packets, &count) == OPGP_DONE, "opgp_packets");
    opgp_close(keyring);
}

static void all_octets(void)
{
    opgp_keyring *keyring;
    wanted(opgp_open(in, size, NULL, &keyring, NULL) == OPGP_DONE, "opgp_open");
    for (size_t row = 0; row < signatures; row++) {
        uint8_t *octets;
        size_t n;
        uint32_t status = opgp_octets(keyring, row, &octets, &n);
        wanted(status == OPGP_DONE || status == OPGP_NO_ROW, "opgp_octets");
        free(octets);
    }
    opgp_close(keyring);
}

static void open_ring(void)
{
    opgp_limits limits;
    opgp_ring ring = {0};
    opgp_fault fault;
    opgp_usual_limits(&limits);
    wanted(opgp_ring_open(in, size, &limits, &ring, &fault) == OPGP_DONE, "opgp_ring_open");
    opgp_ring_close(ring);
}

static void take_all(opgp_reader *reader, opgp_ring *part)
{
    uint32_t status;
    while ((status = opgp_reader_take(reader, part)) == OPGP_DONE) {
    }
    wanted(status == OPGP_NO_ROW, "opgp_reader_take");
}

static void in_pieces(void)
{
    opgp_limits limits;
    opgp_reader reader = {0};
    opgp_ring part = {0};
    opgp_fault fault;
    opgp_usual_limits(&limits);
    wanted(opgp_reader_open(&limits, &reader) == OPGP_DONE, "opgp_reader_open");
    for (size_t at = 0; at < size; at += PIECE) {
        wanted(opgp_reader_push(&reader, in + at, size - at < PIECE ? size - at : PIECE) == OPGP_DONE, "opgp_reader_push");
        take_all(&reader, &part);
    }
    wanted(opgp_reader_end(&reader, &fault) == OPGP_DONE, "opgp_reader_end");
    take_all(&reader, &part);
    opgp_ring_close(part);
    opgp_reader_close(reader);
}

/* ---- Verifying */

static opgp_question *questions;
static size_t asked, room;

/* Keeps the question, whose pointers are into the keyring. */
static opgp_verdict collect(void *context, const opgp_question *question)
{
    (void)context;
    if (asked == room) {
        room = 2 * room + 1;
        questions = realloc(questions, room * sizeof *questions);
        wanted(questions != NULL, "realloc");
    }
    questions[asked++] = *question;
    return OPGP_UNDECIDED;
}

static int pass(void *context, size_t row, const opgp_job *job, opgp_verdict verdict)
{
    (void)context, (void)row, (void)job, (void)verdict;
    return 0;
}

/* Of which signer first, as opgp-verify asks. */
static int by_signer(const void *one, const void *other)
{
    const opgp_question *a = one, *b = other;
    return a->signer != b->signer ? (a->signer > b->signer) - (a->signer < b->signer) : (a->row > b->row) - (a->row < b->row);
}

static void verify_all(unsigned long runs)
{
    opgp_keyring *keyring;
    double least = 0, least_in_libcrypto = 0;
    size_t good = 0;
    wanted(opgp_open(in, size, NULL, &keyring, NULL) == OPGP_DONE, "opgp_open");
    opgp_check(keyring, collect, pass, NULL);
    qsort(questions, asked, sizeof *questions, by_signer);
    for (unsigned long i = 0; i < runs; i++) {
        in_libcrypto = 0;
        good = 0;
        double begin = now();
        struct arithmetic *arithmetic = arithmetic_new();
        wanted(arithmetic != NULL, "arithmetic_new");
        for (size_t n = 0; n < asked; n++) {
            good += arithmetic_of(arithmetic, &questions[n], 0, 0).verdict == OPGP_GOOD;
        }
        arithmetic_free(arithmetic);
        double spent = now() - begin;
        least = i == 0 || spent < least ? spent : least;
        least_in_libcrypto = i == 0 || in_libcrypto < least_in_libcrypto ? in_libcrypto : least_in_libcrypto;
    }
    printf("%zu %zu %.0f %.0f\n", asked, good, least, least_in_libcrypto);
    free(questions);
    opgp_close(keyring);
}

static void measure(void (*work)(void), unsigned long runs, double times)
{
    double least = 0;
    for (unsigned long i = 0; i < runs; i++) {
        double begin = now();
        work();
        double spent = now() - begin;
        least = i == 0 || spent < least ? spent : least;
    }
    printf("%.3f\n", least / times);
}

int main(int argc, char **argv)
{
    static const struct {
        const char *word;
        void (*work)(void);
        double times;
    } works[] = {{"call", call, TIMES}, {"handle", handle, TIMES}, {"document", document, TIMES}, {"open", open_all, 1},
                 {"packets", open_packets, 1},
                 {"octets", all_octets, 1}, {"ring", open_ring, 1}, {"pieces", in_pieces, 1}};
    wanted(argc == 4, "the words");
    unsigned long runs = strtoul(argv[2], NULL, 10);
    FILE *file = fopen(argv[3], "rb");
    wanted(file != NULL, "opening the file");
    in = read_whole(file, &size);
    wanted(in && !ferror(file), "reading the file");
    fclose(file);
    if (strcmp(argv[1], "verify") == 0) {
        verify_all(runs);
    }
    if (strcmp(argv[1], "octets") == 0) {
        open_all();
    }
    for (size_t i = 0; i < sizeof works / sizeof *works; i++) {
        if (strcmp(argv[1], works[i].word) == 0) {
            measure(works[i].work, runs, works[i].times);
        }
    }
    free(in);
    return fflush(stdout) ? 3 : 0;
}
