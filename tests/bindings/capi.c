/* The library for C, called in each way that its header allows, over the keyring on standard input. Words:
 *
 *     --line=N --body=N --cert=N --input=N --pieces=N --policies=N   the limits of `told`
 *     told      prints the tables, or the fault
 *     named     prints each name of a number
 *     normalise, merge, join, nth=N, chosen=OWN,NONE,N.., picked=DIGITS   write the packets of the keyring that is made; joined with
 *               itself; of own signatures, no attributes, and user IDs of these numbers; of the certificates with another digit than 0
 *     document=PIECE,SIGNATURES,KEYRING   prints what is told of signatures over a document that comes in pieces of so many octets
 *               (0: in one): standard input has so many octets of signatures, and of a keyring, and then the document
 *     canonical=PIECE     writes the canonical text of standard input in pieces of so many octets (0: in one), or prints the fault
 *     canonical_texts     canonical text: each status, each room that is too small
 *     blocks              blocks in a text, and user IDs: each status, each room that is too small, each allocation failed in turn
 *     documents           signatures over a document: each status, each room that is too small
 *     documents_wanting   the same, with each allocation failed in turn
 *     rooms     each room that is too small; each status
 *     memory    each allocation failed in turn
 *     pieces    the input in pieces of several sizes
 *     wanting   the input in pieces, with each allocation failed in turn
 *     holding   how much is held while octets are pushed, behind a fault, and by calls that only ask
 *     threads   keyrings in several threads, and one keyring in several
 *
 * All but `told` print what is wrong, and the program ends with 'N passed, M failed'. */
#include <opgp.h>

#include <inttypes.h>
#include <malloc.h>
#include <pthread.h>
#include <stdio.h>
#include <stdlib.h>
#include <string.h>

enum { MOST = 1 << 22, THREADS = 4, TURNS = 50 };

static unsigned long passed, failed;
static uint8_t in[MOST];
static size_t size;

static void holds(bool it, const char *what)
{
    passed += it;
    failed += !it;
    if (!it) {
        fprintf(stderr, "tests/bindings/capi.py: %s: FAILED\n", what);
    }
}

/* ---- An allocator that fails at the call of a number, and counts what is held. */
void *__real_malloc(size_t n);
void *__real_calloc(size_t count, size_t n);
void *__real_realloc(void *block, size_t n);
void __real_free(void *block);
void *__wrap_malloc(size_t n);
void *__wrap_calloc(size_t count, size_t n);
void *__wrap_realloc(void *block, size_t n);
void __wrap_free(void *block);

static _Thread_local unsigned long calls, fails_at;
static _Thread_local long held, held_octets, most_octets;

/* Counts a block that is there now, where so many octets were before. */
static void count_octets(void *block, size_t before)
{
    held_octets += (long)malloc_usable_size(block) - (long)before;
    most_octets = held_octets > most_octets ? held_octets : most_octets;
}

static bool fails(void)
{
    return ++calls == fails_at;
}

static void *kept(void *block)
{
    held += block != NULL;
    count_octets(block, 0);
    return block;
}

void *__wrap_malloc(size_t n)
{
    return fails() ? NULL : kept(__real_malloc(n));
}

void *__wrap_calloc(size_t count, size_t n)
{
    return fails() ? NULL : kept(__real_calloc(count, n));
}

void *__wrap_realloc(void *block, size_t n)
{
    size_t before = malloc_usable_size(block);
    void *grown = fails() ? NULL : __real_realloc(block, n);
    held += !block && grown;
    if (grown) {
        count_octets(grown, before);
    }
    return grown;
}

void __wrap_free(void *block)
{
    held -= block != NULL;
    held_octets -= (long)malloc_usable_size(block);
    __real_free(block);
}

/* A block of just this size, so that an octet past it is seen where there is a sanitizer. */
static void *block_of(size_t n)
{
    void *block = malloc(n ? n : 1);
    if (!block) {
        fprintf(stderr, "tests/bindings/capi.py: out of memory\n");
        exit(1);
    }
    memset(block, 0xA5, n);
    return block;
}

static bool is_blank(const void *block, size_t from, size_t to)
{
    const uint8_t *octets = block;
    for (size_t at = from; at < to; at++) {
        if (octets[at] != 0xA5) {
            return false;
        }
    }
    return true;
}

/* ---- Tables */

static void print_digits(const uint8_t *octets, size_t n)
{
    for (size_t i = 0; i < n; i++) {
        printf("%02X", octets[i]);
    }
}

static void print_span(opgp_span span)
{
    putchar(' ');
    print_digits(span.octets, span.size);
    printf(span.size ? "" : "-");
}

static void print_number(uint64_t number)
{
    if (number == OPGP_NONE) {
        printf(" -");
    } else {
        printf(" %" PRIu64, number);
    }
}

static bool is_zero(const uint8_t *octets, size_t n)
{
    for (size_t i = 0; i < n; i++) {
        if (octets[i] != 0) {
            return false;
        }
    }
    return true;
}

static int print_row(void *context, size_t row, const opgp_job *job, opgp_verdict verdict)
{
    const opgp_keyring *keyring = context;
    printf("job %zu", row);
    print_number(job->certificate);
    print_number(job->component);
    print_number(job->hang);
    print_number(job->nested);
    print_number(job->signer);
    print_number(job->is_dated ? job->created : OPGP_NONE);
    print_span(opgp_issuer(keyring, job));
    char why[OPGP_NAME_ROOM];
    printf(" why %s v%u type %02X alg %u hash %u left ", job->why ? opgp_name_text(OPGP_WHYS, job->why, why) : "-", job->version,
           job->kind, job->algorithm, job->hash);
    print_digits(job->left, 2);
    printf(" bad %u verdict %d digest ", job->is_bad, (int)verdict);
    print_span((opgp_span){job->digest, job->digest_size});
    print_span(opgp_job_field(keyring, job, 0));
    print_span(opgp_job_field(keyring, job, 1));
    bool is_padded = is_zero(job->digest + job->digest_size, sizeof job->digest - job->digest_size) && (job->is_dated || !job->created);
    printf(" zeros %d\n", is_padded && !job->reserved && !opgp_job_field(keyring, job, 2).size);
    return 0;
}

/* The rows of each table, where there is memory for it. */
#define ROWS_BY(NAME, CALL, TYPE)                                                \
    static const TYPE *NAME(const opgp_keyring *keyring, size_t *count)          \
    {                                                                            \
        const TYPE *rows = NULL;                                                 \
        holds(CALL(keyring, &rows, count) == OPGP_DONE && rows, #CALL);          \
        return rows;                                                             \
    }

ROWS_BY(packets_in, opgp_packets, opgp_packet)
ROWS_BY(keys_in, opgp_keys, opgp_key)
ROWS_BY(jobs_in, opgp_jobs, opgp_job)
ROWS_BY(subpackets_in, opgp_subpackets, opgp_subpacket)

static void print_tables(const opgp_keyring *keyring)
{
    size_t packet_count, key_count, job_count;
    const opgp_packet *packets = packets_in(keyring, &packet_count);
    const opgp_key *keys = keys_in(keyring, &key_count);
    jobs_in(keyring, &job_count);
    for (size_t i = 0; i < packet_count; i++) {
        const opgp_packet *packet = &packets[i];
        printf("packet");
        print_number(packet->certificate);
        print_number(packet->component);
        print_number(packet->hang);
        printf(" %u", packet->kind);
        print_span(opgp_body(keyring, packet));
        printf(" zeros %d\n", is_zero(packet->reserved, sizeof packet->reserved));
    }
    for (size_t i = 0; i < key_count; i++) {
        const opgp_key *key = &keys[i];
        printf("key");
        print_number(key->certificate);
        print_number(key->component);
        printf(" v%u alg %u created %" PRIu32 " ", key->version, key->algorithm, key->created);
        print_digits(key->print, key->print_size);
        putchar(' ');
        print_digits(key->key_id, sizeof key->key_id);
        for (unsigned k = 0; k < 4; k++) {
            print_span(opgp_key_field(keyring, key, k));
        }
        bool is_padded = is_zero(key->print + key->print_size, sizeof key->print - key->print_size);
        printf(" zeros %d\n", is_padded && is_zero(key->reserved, sizeof key->reserved) && !opgp_key_field(keyring, key, 4).size);
    }
    opgp_check(keyring, NULL, print_row, (void *)(uintptr_t)keyring);
    for (size_t row = 0; row < job_count; row++) {
        size_t count;
        const opgp_subpacket *subpackets;
        opgp_subpackets_of(keyring, row, &subpackets, &count);
        for (size_t i = 0; i < count; i++) {
            const opgp_subpacket *it = &subpackets[i];
            printf("sub %zu hashed %u kind %u critical %u meaning %u", row, it->is_hashed, it->kind, it->is_critical, it->meaning);
            print_span(opgp_data(keyring, it));
            printf(" form %u %" PRIu32 " %" PRIu32, it->form, it->numbers[0], it->numbers[1]);
            print_span(opgp_subpacket_field(keyring, it, 0));
            print_span(opgp_subpacket_field(keyring, it, 1));
            printf(" zeros %d\n", is_zero(it->reserved, sizeof it->reserved) && !opgp_subpacket_field(keyring, it, 2).size);
        }
    }
}

static int told(const opgp_limits *limits)
{
    opgp_keyring *keyring;
    opgp_fault fault;
    char text[OPGP_FAULT_ROOM];
    uint32_t status = opgp_open(in, size, limits, &keyring, &fault);
    if (status != OPGP_DONE) {
        fprintf(stderr, "%s\n", status == OPGP_REFUSED ? opgp_fault_text(&fault, text) : opgp_status_text(status));
        return 1;
    }
    print_tables(keyring);
    opgp_close(keyring);
    return 0;
}

/* ---- Signatures over a document */

/* Prints the octets that a call gives. */
static uint8_t *side(opgp_document *document, uint64_t row, uint32_t behind, uint64_t *n, uint32_t *status)
{
    *status = opgp_document_octets(document, row, behind, NULL, 0, n);
    uint8_t *octets = malloc(*n + 1);
    if (*status == OPGP_ROOM) {
        *status = opgp_document_octets(document, row, behind, octets, (size_t)*n, n);
    }
    return octets;
}

static void print_side(opgp_document *document, uint64_t row, uint32_t behind)
{
    uint64_t n = 0;
    uint32_t status;
    uint8_t *octets = side(document, row, behind, &n, &status);
    if (status == OPGP_DONE) {
        print_span((opgp_span){octets, (size_t)n});
    } else {
        printf(" status %" PRIu32, status);
    }
    free(octets);
}

/* The rows of the signatures, what they point into, and what each hashes beside the document; and the rows of their subpackets. */
static bool print_document(opgp_document *document, const opgp_keyring *keyring)
{
    opgp_job *jobs = NULL;
    uint8_t *made = NULL;
    size_t count = 0;
    if (opgp_signatures(document, keyring, &jobs, &count, &made) != OPGP_DONE) {
        return false;
    }
    for (size_t row = 0; row < count; row++) {
        const opgp_job *job = &jobs[row];
        printf("job %zu", row);
        print_number(job->certificate);
        print_number(job->component);
        print_number(job->hang);
        print_number(job->nested);
        print_number(job->signer);
        print_number(job->is_dated ? job->created : OPGP_NONE);
        print_span((opgp_span){made + job->at + job->sizes[0] + job->sizes[1], job->issuer_size});
        printf(" why %u v%u type %02X alg %u hash %u left ", job->why, job->version, job->kind, job->algorithm, job->hash);
        print_digits(job->left, 2);
        printf(" bad %u digest", job->is_bad);
        print_span((opgp_span){job->digest, job->digest_size});
        print_span((opgp_span){made + job->at, (size_t)job->sizes[0]});
        print_span((opgp_span){made + job->at + job->sizes[0], (size_t)job->sizes[1]});
        printf(" front");
        print_side(document, row, 0);
        printf(" behind");
        print_side(document, row, 1);
        printf(" zeros %d\n", is_zero(job->digest + job->digest_size, sizeof job->digest - job->digest_size) && !job->reserved);
    }
    opgp_sizes sizes = {0, 0};
    opgp_document_subpackets(document, NULL, 0, NULL, 0, &sizes);
    opgp_subpacket *subpackets = malloc((size_t)sizes.rows * sizeof *subpackets + 1);
    uint8_t *data = malloc((size_t)sizes.bytes + 1);
    bool is_done = opgp_document_subpackets(document, subpackets, (size_t)sizes.rows, data, (size_t)sizes.bytes, &sizes) == OPGP_DONE;
    for (size_t i = 0; is_done && i < sizes.rows; i++) {
        const opgp_subpacket *it = &subpackets[i];
        printf("sub");
        print_number(it->certificate);
        print_number(it->component);
        print_number(it->hang);
        print_number(it->nested);
        printf(" hashed %u kind %u critical %u", it->is_hashed, it->kind, it->is_critical);
        print_span((opgp_span){data + it->at, (size_t)it->size});
        putchar('\n');
    }
    free(jobs);
    free(made);
    free(subpackets);
    free(data);
    return is_done;
}

static int documented(const char *numbers, const opgp_limits *limits)
{
    size_t piece = 0, signatures = 0, keys = 0;
    opgp_document document = {false, NULL};
    opgp_keyring *keyring = NULL;
    opgp_fault fault;
    char text[OPGP_FAULT_ROOM];
    if (sscanf(numbers, "%zu,%zu,%zu", &piece, &signatures, &keys) != 3 || signatures + keys > size) {
        return 2;
    }
    uint32_t status = opgp_document_open(in, signatures, OPGP_MODE_AUTO, limits, &document, &fault);
    if (status != OPGP_DONE) {
        fprintf(stderr, "%s\n", status == OPGP_REFUSED ? opgp_fault_text(&fault, text) : opgp_status_text(status));
        return 1;
    }
    if (keys > 0 && opgp_open(in + signatures, keys, limits, &keyring, NULL) != OPGP_DONE) {
        return 3;
    }
    for (size_t at = signatures + keys; at < size;) {
        size_t n = piece == 0 || size - at < piece ? size - at : piece;
        if (opgp_document_push(&document, in + at, n) != OPGP_DONE) {
            return 3;
        }
        at += n;
    }
    bool is_done = opgp_document_end(&document) == OPGP_DONE && print_document(&document, keyring);
    opgp_document_close(document);
    opgp_close(keyring);
    return is_done ? 0 : 3;
}

/* Prints each number that a table has a name for, with the name. */
static int named(void)
{
    for (uint32_t table = 0; table <= OPGP_UNBELIEVED; table++) {
        for (unsigned number = 0; number <= UINT8_MAX; number++) {
            uint8_t name[OPGP_NAME_ROOM];
            uint64_t n = 0;
            uint32_t status = opgp_name(table, (uint8_t)number, name, sizeof name, &n);
            if (status == OPGP_DONE) {
                printf("%" PRIu32 " %u %.*s\n", table, number, (int)n, (const char *)name);
            } else if (status != OPGP_NO_ROW) {
                return 1;
            }
        }
    }
    return 0;
}

/* Chooses parts of a keyring, by numbers with commas between them. */
static uint32_t chosen(const char *numbers, const opgp_keyring *keyring, opgp_keyring **it)
{
    uint64_t each[64];
    size_t count = 0;
    for (char *next; count < 64 && *numbers != '\0'; numbers = *next == ',' ? next + 1 : next) {
        each[count++] = strtoull(numbers, &next, 10);
    }
    return opgp_choose(keyring, each[0] != 0, each[1] != 0, count > 2 ? each + 2 : NULL, count - 2, it);
}

/* Picks certificates of a keyring, by a digit for each. */
static uint32_t picked(const char *digits, const opgp_keyring *keyring, opgp_keyring **it)
{
    uint8_t each[64];
    size_t count = strlen(digits);
    for (size_t i = 0; i < count && i < sizeof each; i++) {
        each[i] = (uint8_t)(digits[i] - '0');
    }
    return opgp_pick(keyring, count > 0 ? each : NULL, count, it);
}

/* Writes the packets of the keyring that this word makes. */
static int made(const char *word)
{
    opgp_keyring *keyring, *again, *it;
    uint8_t *octets;
    size_t n;
    if (opgp_open(in, size, NULL, &keyring, NULL) != OPGP_DONE || opgp_open(in, size, NULL, &again, NULL) != OPGP_DONE) {
        return 3;
    }
    uint32_t status = strcmp(word, "normalise") == 0 ? opgp_normalise(keyring, &it)
                      : strcmp(word, "merge") == 0   ? opgp_merge(keyring, &it)
                      : strcmp(word, "join") == 0    ? opgp_join(keyring, again, &it)
                      : word[0] == 'c'               ? chosen(word + 7, keyring, &it)
                      : word[0] == 'p'               ? picked(word + 7, keyring, &it)
                                                     : opgp_certificate(keyring, strtoull(word + 4, NULL, 10), &it);
    opgp_close(keyring);
    opgp_close(again);
    if (status == OPGP_NO_ROW) {
        fprintf(stderr, "opgp: no such certificate\n");
        return 1;
    }
    if (status != OPGP_DONE || opgp_write(it, false, &octets, &n) != OPGP_DONE) {
        return 3;
    }
    fwrite(octets, 1, n, stdout);
    free(octets);
    opgp_close(it);
    return 0;
}

/* ---- Rooms */

/* Each room for rows and octets, up to one more than is wanted: it is said, and nothing past what there is was written. */
#define TRY_ROOMS(CALL, ROW)                                                                                         \
    do {                                                                                                             \
        opgp_sizes wanted = {0, 0}, sizes;                                                                           \
        ROW row;                                                                                                     \
        uint8_t byte;                                                                                                \
        uint32_t status = CALL(&ring, &row, 0, &byte, 0, &wanted);                                                   \
        holds(status == (wanted.rows || wanted.bytes ? OPGP_ROOM : OPGP_DONE), #CALL " without room");               \
        for (size_t r = 0; r <= wanted.rows + 1; r++) {                                                              \
            for (size_t b = 0; b <= wanted.bytes + 1; b++) {                                                         \
                ROW *rows = block_of(r * sizeof *rows);                                                              \
                uint8_t *bytes = block_of(b);                                                                        \
                status = CALL(&ring, rows, r, bytes, b, &sizes);                                                     \
                bool fits = r >= wanted.rows && b >= wanted.bytes;                                                   \
                size_t filled = fits ? (size_t)wanted.rows * sizeof *rows : 0, put = fits ? (size_t)wanted.bytes : 0; \
                holds(status == (fits ? OPGP_DONE : OPGP_ROOM) && sizes.rows == wanted.rows                          \
                          && sizes.bytes == wanted.bytes && is_blank(rows, filled, r * sizeof *rows)                 \
                          && is_blank(bytes, put, b),                                                                \
                      #CALL " with some room");                                                                      \
                free(rows);                                                                                          \
                free(bytes);                                                                                         \
            }                                                                                                        \
        }                                                                                                            \
    } while (0)

/* The same for octets alone; CALLED has `octets` and `b` for them, and `again` for their number. */
#define TRY_OCTETS(CALLED, WHAT)                                                                                     \
    do {                                                                                                             \
        uint64_t wanted = 0, again = 0;                                                                              \
        uint8_t byte, *octets = &byte;                                                                               \
        size_t b = 0;                                                                                                \
        uint32_t status = CALLED;                                                                                    \
        wanted = again;                                                                                              \
        holds(status == (wanted ? OPGP_ROOM : OPGP_DONE), WHAT " without room");                                     \
        for (b = 0; b <= wanted + 1; b++) {                                                                          \
            octets = block_of(b);                                                                                    \
            status = CALLED;                                                                                         \
            holds(status == (b >= wanted ? OPGP_DONE : OPGP_ROOM) && again == wanted                                 \
                      && is_blank(octets, b >= wanted ? (size_t)wanted : 0, b),                                      \
                  WHAT " with some room");                                                                           \
            free(octets);                                                                                            \
        }                                                                                                            \
    } while (0)

/* A limit out of its range: the least and the most of each, and what is beyond. */
static void try_limit(opgp_ring *ring, size_t at, uint64_t least, uint64_t most)
{
    const uint64_t values[] = {least - 1, least, most, most + 1, UINT64_MAX};
    opgp_ring before = *ring;
    for (size_t i = 0; i < sizeof values / sizeof *values; i++) {
        opgp_limits limits;
        opgp_fault fault;
        bool is_allowed = values[i] >= least && values[i] <= most;
        opgp_usual_limits(&limits);
        memcpy((uint8_t *)&limits + at, &values[i], sizeof values[i]);
        memset(&fault, 0xA5, sizeof fault);
        uint32_t status = opgp_ring_open((const uint8_t *)"x", 1, &limits, ring, &fault);
        bool is_as_it_was = ring->at == before.at && ring->is_open == before.is_open;
        holds(is_as_it_was && (is_allowed ? status == OPGP_REFUSED : status == OPGP_LIMITS && is_blank(&fault, 0, sizeof fault)),
              "a limit");
    }
}

/* Reads octets under a policy; the status, and of a refusal the reason's number. */
static unsigned read_by(opgp_ring *ring, uint64_t policies, const char *octets, size_t count)
{
    opgp_limits limits;
    opgp_fault fault = {0, 0, 0, 0, 0, {0}};
    opgp_usual_limits(&limits);
    limits.policies = policies;
    uint32_t status = opgp_ring_open((const uint8_t *)octets, count, &limits, ring, &fault);
    return status * 256 + fault.reason;
}

/* A line outside of an empty block, and a key with a signature of one octet, under each policy. */
static void policies(opgp_ring *ring)
{
    static const char outside[] = "a line\n-----BEGIN PGP PUBLIC KEY BLOCK-----\n\n-----END PGP PUBLIC KEY BLOCK-----\n";
    static const char malformed[] = "\xC6\x33\x04\x53\xF3\x5F\x0B\x16\x09\x2B\x06\x01\x04\x01\xDA\x47\x0F\x01\x01\x07\x40"
                                    "\x3F\x09\x89\x94\xBD\xD9\x16\xED\x40\x53\x19\x79\x34\xE4\xA8\x7C\x80\x73\x3A\x12"
                                    "\x80\xD6\x2F\x80\x10\x99\x2E\x43\xEE\x3B\x24\x06\xC2\x01\x04";
    const uint64_t refuse = OPGP_REFUSE_OUTSIDE, keep = OPGP_KEEP_MALFORMED;
    const unsigned is_outside = OPGP_REFUSED * 256 + 9, is_short = OPGP_REFUSED * 256 + 2;
    holds(read_by(ring, 0, outside, sizeof outside - 1) == OPGP_DONE, "a line outside is passed over");
    holds(read_by(ring, keep, outside, sizeof outside - 1) == OPGP_DONE, "a line outside, where malformed signatures are kept");
    holds(read_by(ring, refuse, outside, sizeof outside - 1) == is_outside, "a line outside is refused");
    holds(read_by(ring, refuse + keep, outside, sizeof outside - 1) == is_outside, "a line outside under both policies");
    holds(read_by(ring, 0, malformed, sizeof malformed - 1) == is_short, "a malformed signature is refused");
    holds(read_by(ring, refuse, malformed, sizeof malformed - 1) == is_short, "a malformed signature, where lines outside are refused");
    holds(read_by(ring, keep, malformed, sizeof malformed - 1) == OPGP_DONE, "a malformed signature is kept");
    uint8_t text[64];
    uint64_t count = 0;
    holds(opgp_ring_write(ring, 0, text, sizeof text, &count) == OPGP_DONE && count == sizeof malformed - 1 && !memcmp(text, malformed, count),
          "a malformed signature is written again");
    holds(read_by(ring, refuse + keep, malformed, sizeof malformed - 1) == OPGP_DONE, "a malformed signature under both policies");
    uint8_t armor[256], other[256];
    uint64_t armor_count = 0, other_count = 0;
    holds(opgp_ring_write(ring, 1, armor, sizeof armor, &armor_count) == OPGP_DONE && armor[0] == '-', "armor");
    for (unsigned way = 2; way != 0; way *= 2) {
        holds(opgp_ring_write(ring, way, other, sizeof other, &other_count) == OPGP_DONE && other_count == armor_count
              && !memcmp(armor, other, armor_count), "armor by another number than 1");
    }
}

static void closed(void)
{
    opgp_ring ring = {false, NULL};
    opgp_packet packet;
    opgp_key key;
    opgp_job job;
    opgp_subpacket subpacket;
    opgp_sizes sizes;
    uint64_t wanted;
    uint8_t byte;
    holds(opgp_ring_subpackets(&ring, &subpacket, 1, &byte, 1, &sizes) == OPGP_CLOSED, "subpackets of a closed handle");
    holds(opgp_ring_packets(&ring, &packet, 1, &byte, 1, &sizes) == OPGP_CLOSED, "packets of a closed handle");
    holds(opgp_ring_keys(&ring, &key, 1, &byte, 1, &sizes) == OPGP_CLOSED, "keys of a closed handle");
    holds(opgp_ring_jobs(&ring, &job, 1, &byte, 1, &sizes) == OPGP_CLOSED, "jobs of a closed handle");
    holds(opgp_ring_octets(&ring, 0, &byte, 1, &wanted) == OPGP_CLOSED, "octets of a closed handle");
    holds(opgp_ring_write(&ring, 0, &byte, 1, &wanted) == OPGP_CLOSED, "writing a closed handle");
    wanted = byte = 0xA5;
    holds(opgp_ring_skipped(&ring, &wanted) == OPGP_CLOSED && wanted == 0xA5, "what a closed handle skipped");
    holds(opgp_ring_verdicts(&ring, &byte, 1, &byte, 1, &wanted) == OPGP_CLOSED && byte == 0xA5, "verdicts on a closed handle");
    opgp_ring into = {false, NULL}, other = {false, NULL};
    holds(opgp_ring_normalise(&ring, &into) == OPGP_CLOSED && opgp_ring_merge(&ring, &into) == OPGP_CLOSED
              && opgp_ring_certificate(&ring, 0, &into) == OPGP_CLOSED && opgp_ring_join(&ring, &other, &into) == OPGP_CLOSED
              && !into.is_open && !other.is_open,
          "keyrings made of a closed handle");
    holds(!ring.is_open, "a closed handle stays closed");
    opgp_ring_close(ring);
}

/* Names and lines of faults, in each room. */
static void texts(void)
{
    opgp_fault fault = {1, 22, 333, 0, 0, {1}};
    uint64_t n = 7;
    uint8_t byte = 0xA5;
    for (uint32_t table = 0; table <= OPGP_UNBELIEVED; table++) {
        for (unsigned number = 0; number <= UINT8_MAX; number++) {
            uint32_t first = opgp_name(table, (uint8_t)number, &byte, 0, &n);
            holds(first == OPGP_ROOM ? n > 0 && n < OPGP_NAME_ROOM : first == OPGP_NO_ROW && n == 7 && byte == 0xA5, "a name");
            if (first == OPGP_ROOM) {
                TRY_OCTETS(opgp_name(table, (uint8_t)number, octets, b, &again), "a name");
            }
            n = 7;
        }
    }
    const uint32_t others[] = {OPGP_UNBELIEVED + 1, 256, 1U << 31, UINT32_MAX};
    for (size_t i = 0; i < sizeof others / sizeof *others; i++) {
        holds(opgp_name(others[i], 1, &byte, 1, &n) == OPGP_NO_ROW && n == 7 && byte == 0xA5, "a table that there isn't");
    }
    for (unsigned layer = 0; layer <= UINT8_MAX; layer++) {
        bool fits = true;
        for (unsigned reason = 0; reason <= UINT8_MAX; reason++) {
            char name[OPGP_NAME_ROOM], why[OPGP_NAME_ROOM], text[OPGP_FAULT_ROOM], wanted[2 * OPGP_NAME_ROOM + 32];
            fault.layer = (uint8_t)layer;
            fault.reason = (uint8_t)reason;
            bool is_one = opgp_name(OPGP_LAYERS, fault.layer, &byte, 0, &n) == OPGP_ROOM
                          && opgp_name(OPGP_REASONS, fault.reason, &byte, 0, &n) == OPGP_ROOM;
            snprintf(wanted, sizeof wanted, "%s: %s block 1 at 22 inner 333", opgp_name_text(OPGP_LAYERS, fault.layer, name),
                     opgp_name_text(OPGP_REASONS, fault.reason, why));
            fits = fits && strcmp(opgp_fault_text(&fault, text), is_one ? wanted : "unknown") == 0;
            n = 7;
            fits = fits && (is_one || (opgp_fault_line(&fault, &byte, 1, &n) == OPGP_NO_ROW && n == 7 && byte == 0xA5));
        }
        holds(fits, "the lines of a layer's faults");
    }
    fault = (opgp_fault){UINT64_MAX, UINT64_MAX, UINT64_MAX, 4, 53, {0}};
    TRY_OCTETS(opgp_fault_line(&fault, octets, b, &again), "the line of a fault");
    holds(opgp_fault_line(&fault, &byte, 0, &n) == OPGP_ROOM && n == 108, "the longest line of a fault");
}

/* What some signatures hash, in one table, is what each hashes by itself, as far as there is room; in each room that is too small. */
static void hashed_window(opgp_ring *ring, uint64_t jobs, uint64_t first, uint64_t count, uint64_t most)
{
    opgp_sizes wanted, sizes;
    uint32_t status = opgp_ring_hashed(ring, first, count, most, NULL, 0, NULL, 0, &wanted);
    holds(status == (wanted.rows ? OPGP_ROOM : OPGP_DONE) && wanted.bytes <= most, "what signatures hash without room");
    opgp_hashed *rows = block_of((size_t)wanted.rows * sizeof *rows);
    uint8_t *bytes = block_of((size_t)wanted.bytes);
    bool is_short = opgp_ring_hashed(ring, first, count, most, rows, (size_t)wanted.rows, bytes, 0, &sizes) == OPGP_ROOM;
    holds(is_short == (wanted.bytes > 0) && is_blank(bytes, 0, (size_t)wanted.bytes), "what signatures hash with too little room");
    status = opgp_ring_hashed(ring, first, count, most, rows, (size_t)wanted.rows, bytes, (size_t)wanted.bytes, &sizes);
    holds(status == OPGP_DONE && sizes.rows == wanted.rows && sizes.bytes == wanted.bytes, "what signatures hash");
    uint64_t next = 0, at = 0;
    bool is_full = false;
    for (uint64_t row = first; !is_full && row < jobs && row - first < count; row++) {
        static uint8_t octets[1 << 16];
        uint64_t size_of_it = 0;
        if (opgp_ring_octets(ring, row, octets, sizeof octets, &size_of_it) == OPGP_DONE) {
            is_full = size_of_it > most - at;
            holds(is_full || (next < wanted.rows && rows[next].row == row - first && rows[next].at == at && rows[next].size == size_of_it
                              && memcmp(bytes + at, octets, (size_t)size_of_it) == 0),
                  "what a signature hashes in the table");
            at += is_full ? 0 : size_of_it;
            next += !is_full;
        }
    }
    holds(next == wanted.rows && at == wanted.bytes, "no more rows than signatures that are hashed");
    free(rows);
    free(bytes);
}

static void hashed_rows(opgp_ring *ring, uint64_t jobs)
{
    opgp_ring closed = {false, NULL};
    opgp_sizes sizes;
    uint64_t size_of_first = 0;
    holds(opgp_ring_hashed(&closed, 0, 1, 1, NULL, 0, NULL, 0, &sizes) == OPGP_CLOSED, "what signatures of a closed handle hash");
    opgp_ring_octets(ring, 0, NULL, 0, &size_of_first);
    for (uint64_t first = 0; first <= jobs + 1; first++) {
        for (uint64_t count = 0; count <= jobs + 1; count++) {
            for (uint64_t most = size_of_first > 0 ? size_of_first - 1 : 0; most <= 3 * size_of_first + 1; most += 1 + size_of_first / 3) {
                hashed_window(ring, jobs, first, count, most);
            }
            hashed_window(ring, jobs, first, count, UINT64_MAX);
        }
    }
    holds(opgp_ring_hashed(ring, UINT64_MAX, UINT64_MAX, UINT64_MAX, NULL, 0, NULL, 0, &sizes) == OPGP_DONE && sizes.rows == 0,
          "no rows past the last");
}

/* Reading by each mode, and a handle that is used for two arguments at once or closed twice. */
static void modes(const opgp_limits *limits)
{
    static const char armored[] = "-----BEGIN PGP PUBLIC KEY BLOCK-----\n\n-----END PGP PUBLIC KEY BLOCK-----\n";
    const uint8_t filler[] = {0xE8, 0};
    opgp_ring ring = {false, NULL};
    opgp_fault fault;
    memset(&fault, 0xA5, sizeof fault);
    for (uint32_t mode = 3; mode != 0; mode = mode == 3 ? 256 : mode << 8) {
        holds(opgp_ring_open_mode(filler, sizeof filler, mode, limits, &ring, &fault) == OPGP_LIMITS && !ring.is_open, "no such mode");
    }
    holds(is_blank(&fault, 0, sizeof fault), "a fault of no mode");
    holds(opgp_ring_open_mode(filler, sizeof filler, OPGP_MODE_AUTO, limits, &ring, &fault) == OPGP_DONE
              && opgp_ring_open_mode(filler, sizeof filler, OPGP_MODE_BINARY, limits, &ring, &fault) == OPGP_DONE
              && opgp_ring_open_mode(filler, sizeof filler, OPGP_MODE_ARMOR, limits, &ring, &fault) == OPGP_REFUSED && fault.layer == 1,
          "packets by each mode");
    const uint8_t *text = (const uint8_t *)armored;
    holds(opgp_ring_open_mode(text, sizeof armored - 1, OPGP_MODE_AUTO, limits, &ring, &fault) == OPGP_DONE
              && opgp_ring_open_mode(text, sizeof armored - 1, OPGP_MODE_ARMOR, limits, &ring, &fault) == OPGP_DONE
              && opgp_ring_open_mode(text, sizeof armored - 1, OPGP_MODE_BINARY, limits, &ring, &fault) == OPGP_REFUSED && fault.layer == 2,
          "armor by each mode");
    opgp_sizes sizes;
    holds(opgp_ring_open(filler, sizeof filler, limits, &ring, &fault) == OPGP_DONE && opgp_ring_join(&ring, &ring, &ring) == OPGP_CLOSED
              && ring.is_open && opgp_ring_packets(&ring, NULL, 0, NULL, 0, &sizes) == OPGP_ROOM && sizes.rows == 1,
          "a handle joined with itself is refused, and holds what it held");
    opgp_ring_clear(&ring);
    holds(!ring.is_open && opgp_ring_packets(&ring, NULL, 0, NULL, 0, &sizes) == OPGP_CLOSED, "a handle that is cleared");
    opgp_ring_clear(&ring);
    opgp_ring_close(ring);
    opgp_reader reader = {false, NULL};
    holds(opgp_reader_open(limits, &reader) == OPGP_DONE && opgp_reader_push(&reader, filler, sizeof filler) == OPGP_DONE, "a reader");
    opgp_reader_clear(&reader);
    holds(!reader.is_open && opgp_reader_push(&reader, filler, 1) == OPGP_CLOSED, "a reader that is cleared");
    opgp_reader_clear(&reader);
    opgp_limits none = {0, 0, 0, 0, 0, 0};
    holds(opgp_begin(&none, &reader) == OPGP_LIMITS && !reader.is_open && opgp_begin(limits, &reader) == OPGP_DONE && reader.is_open,
          "a reading that begins within limits");
    opgp_reader_clear(&reader);
    holds(held == 0, "what cleared handles held is let go");
}

/* Writes the text of a piece to standard output, into the room that it wants; first into less. The status. */
static uint32_t write_text(opgp_text *text, const uint8_t *piece, size_t n, opgp_fault *fault)
{
    opgp_text before = *text;
    uint64_t wanted = 0, n_again = 0;
    uint32_t status = opgp_canonical(text, piece, n, NULL, 0, &wanted, fault);
    if (status != OPGP_ROOM) {
        return status;
    }
    uint8_t *octets = block_of((size_t)wanted + 1);
    holds(wanted > 0 && opgp_canonical(text, piece, n, octets, (size_t)wanted - 1, &n_again, fault) == OPGP_ROOM && n_again == wanted
              && is_blank(octets, 0, (size_t)wanted + 1) && memcmp(text, &before, sizeof before) == 0,
          "a text without room");
    status = opgp_canonical(text, piece, n, octets, (size_t)wanted + 1, &n_again, fault);
    holds(status == OPGP_DONE && n_again == wanted && is_blank(octets, (size_t)wanted, (size_t)wanted + 1), "a text with room");
    fwrite(octets, 1, (size_t)wanted, stdout);
    free(octets);
    return status;
}

static int canonical(const char *number)
{
    size_t piece = strtoull(number, NULL, 10);
    opgp_text text = {0, 0, 0, 0};
    opgp_fault fault;
    char line[OPGP_FAULT_ROOM];
    uint32_t status = OPGP_DONE;
    for (size_t at = 0; at < size && status == OPGP_DONE;) {
        size_t n = piece == 0 || size - at < piece ? size - at : piece;
        status = write_text(&text, in + at, n, &fault);
        at += n;
    }
    if (status == OPGP_DONE) {
        status = opgp_canonical_end(&text, &fault);
    }
    if (status == OPGP_REFUSED) {
        fprintf(stderr, "%s\n", opgp_fault_text(&fault, line));
    }
    return failed > 0 ? 3 : status == OPGP_DONE ? 0 : 1;
}

/* Each status of the calls on canonical text. */
static void canonical_texts(void)
{
    opgp_text text = {0, 0, 0, 0}, before;
    opgp_fault fault;
    uint8_t octets[4];
    uint64_t n = 7;
    memset(&fault, 0xA5, sizeof fault);
    holds(opgp_canonical(&text, NULL, 0, NULL, 0, &n, &fault) == OPGP_DONE && n == 0 && opgp_canonical_end(&text, &fault) == OPGP_DONE,
          "an empty piece");
    holds(opgp_canonical(&text, (const uint8_t *)"a\r", 2, octets, 2, &n, &fault) == OPGP_DONE && n == 2 && memcmp(octets, "a\r", 2) == 0
              && is_blank(&fault, 0, sizeof fault),
          "a return at the end of a piece");
    before = text;
    holds(opgp_canonical_end(&text, &fault) == OPGP_REFUSED && fault.layer == 5 && fault.reason == 43 && fault.pos == 1 && fault.block == 0
              && fault.inner == 0 && memcmp(&text, &before, sizeof text) == 0,
          "a return at the end of a document");
    memset(&fault, 0xA5, sizeof fault);
    n = 7;
    holds(opgp_canonical(&text, (const uint8_t *)"b\n", 2, octets, 4, &n, &fault) == OPGP_REFUSED && fault.pos == 1 && n == 7
              && memcmp(&text, &before, sizeof text) == 0,
          "a stray return");
    memset(&fault, 0xA5, sizeof fault);
    holds(opgp_canonical(&text, (const uint8_t *)"\n\n", 2, octets, 2, &n, &fault) == OPGP_ROOM && n == 3
              && memcmp(&text, &before, sizeof text) == 0 && is_blank(&fault, 0, sizeof fault),
          "a text that wants more room");
    holds(opgp_canonical(&text, (const uint8_t *)"\n\n", 2, octets, 3, &n, &fault) == OPGP_DONE && n == 3
              && memcmp(octets, "\n\r\n", 3) == 0 && opgp_canonical_end(&text, &fault) == OPGP_DONE && is_blank(&fault, 0, sizeof fault),
          "a line end in two pieces");
    /* Numbers that no call made are taken as they are: a place is told, and nothing else happens. */
    text = (opgp_text){UINT64_MAX, UINT64_MAX, 77, 77};
    holds(opgp_canonical(&text, (const uint8_t *)"b", 1, octets, 1, &n, &fault) == OPGP_REFUSED && fault.pos == UINT64_MAX, "the last place");
    holds(opgp_canonical(&text, (const uint8_t *)"\nab", 3, octets, 3, &n, &fault) == OPGP_DONE && text.given == UINT64_MAX
              && opgp_canonical_end(&text, &fault) == OPGP_DONE,
          "behind the last place");
}

/* A text with two blocks, the second of which lacks its end. */
static const char TEXT[] = "\xEF\xBB\xBF> -----BEGIN PGP X-----<br>\r\n> a <BR />\n>> -----END PGP Y----- \t\ntext\n"
                           " -----BEGIN PGP SIGNED MESSAGE-----\n\t-----BEGIN PGP SIGNATURE-----\r\nb";
static const char CLEANED[] = "-----BEGIN PGP X-----\na\n-----END PGP Y-----\n-----BEGIN PGP SIGNATURE-----\nb\n";
enum { FIRST_CLEANED = 44, FOUND_CLEANED = sizeof CLEANED - 1 };

/* The blocks of the text, with room for so many rows and octets; whether the call is right. */
static bool blocks_fit(size_t rows, size_t room)
{
    opgp_found_block found[3];
    uint8_t octets[FOUND_CLEANED + 1];
    opgp_sizes sizes;
    memset(found, 0xA5, sizeof found);
    memset(octets, 0xA5, sizeof octets);
    memset(&sizes, 0xA5, sizeof sizes);
    uint32_t status = opgp_find_blocks((const uint8_t *)TEXT, sizeof TEXT - 1, rows ? found : NULL, rows, room ? octets : NULL, room,
                                       &sizes);
    if (status == OPGP_MEMORY) {
        return is_blank(found, 0, sizeof found) && is_blank(octets, 0, sizeof octets) && fails_at > 0;
    }
    bool is_sized = sizes.rows == 2 && sizes.bytes == FOUND_CLEANED;
    if (status == OPGP_ROOM) {
        return is_sized && (rows < 2 || room < FOUND_CLEANED) && is_blank(found, 0, sizeof found) && is_blank(octets, 0, sizeof octets);
    }
    const char *first = strstr(TEXT, "-----BEGIN PGP X"), *ends = strstr(TEXT, " \t\ntext");
    const char *second = strstr(TEXT, "-----BEGIN PGP SIGNATURE");
    return status == OPGP_DONE && is_sized && rows >= 2 && room >= FOUND_CLEANED && memcmp(octets, CLEANED, FOUND_CLEANED) == 0
        && is_blank(octets, FOUND_CLEANED, sizeof octets) && is_blank(found, 2 * sizeof *found, sizeof found)
        && found[0].at == (uint64_t)(first - TEXT) && found[0].size == (uint64_t)(ends - first) && found[0].octets_at == 0
        && found[0].octets_size == FIRST_CLEANED && found[1].at == (uint64_t)(second - TEXT)
        && found[1].size == (uint64_t)(TEXT + sizeof TEXT - 1 - second) && found[1].octets_at == FIRST_CLEANED
        && found[1].octets_size == FOUND_CLEANED - FIRST_CLEANED;
}

/* What is said of the octets of a user ID. */
static bool user_id_fits(const char *octets, uint32_t is_utf8, uint64_t at, uint64_t n)
{
    opgp_user_id_facts facts;
    memset(&facts, 0xA5, sizeof facts);
    opgp_user_id((const uint8_t *)octets, strlen(octets), &facts);
    return facts.is_utf8 == is_utf8 && facts.has_address == (n > 0) && facts.address_at == at && facts.address_size == n;
}

static void blocks(void)
{
    opgp_sizes sizes;
    for (size_t rows = 0; rows <= 3; rows++) {
        for (size_t room = 0; room <= FOUND_CLEANED + 1; room++) {
            holds(blocks_fit(rows, room), "blocks with room for so much");
        }
    }
    holds(opgp_find_blocks(NULL, 0, NULL, 0, NULL, 0, &sizes) == OPGP_DONE && sizes.rows == 0 && sizes.bytes == 0, "no text");
    unsigned long wanted = 1;
    for (fails_at = 1; fails_at <= wanted; fails_at++) {
        calls = 0;
        holds(blocks_fit(3, FOUND_CLEANED + 1), "blocks where memory runs out");
        wanted = calls >= fails_at ? fails_at + 1 : wanted;
    }
    fails_at = 0;
    holds(wanted > 2 && held == 0, "allocations for blocks");
    holds(user_id_fits("", 1, 0, 0) && user_id_fits("a@b", 1, 0, 3) && user_id_fits("\xFF <a.b@c.d>", 0, 3, 7),
          "user IDs with an address");
    holds(user_id_fits("a@b@c", 1, 0, 0) && user_id_fits("<a@b> ", 1, 0, 0) && user_id_fits("x<a@b", 1, 0, 0) && user_id_fits("<", 1, 0, 0)
              && user_id_fits("<>", 1, 0, 0) && user_id_fits(">", 1, 0, 0) && user_id_fits("<a@\xC3>", 0, 0, 0),
          "user IDs without one");
}

/* A signature of version 4 by hand: of this type, with nothing in its areas. */
#define FOUR(KIND) 0xC2, 14, 4, (KIND), 22, 8, 0, 0, 0, 0, 0xAB, 0xCD, 0, 0, 0, 0

/* Each status of the calls on documents; each room that is too small. */
static void documents(void)
{
    static const uint8_t two[] = {FOUR(0), FOUR(1)};
    static const uint8_t key[] = {0xC6, 1, 4};
    opgp_limits limits;
    opgp_document document = {false, NULL};
    opgp_ring ring = {false, NULL};
    opgp_fault fault;
    opgp_sizes sizes;
    opgp_job job;
    opgp_subpacket subpacket;
    uint64_t n = 0;
    uint8_t byte = 0;
    opgp_usual_limits(&limits);
    memset(&fault, 0xA5, sizeof fault);
    holds(opgp_document_push(&document, in, 1) == OPGP_CLOSED && opgp_document_end(&document) == OPGP_CLOSED
              && opgp_document_jobs(&document, &ring, &job, 1, &byte, 1, &sizes) == OPGP_CLOSED
              && opgp_document_subpackets(&document, &subpacket, 1, &byte, 1, &sizes) == OPGP_CLOSED
              && opgp_document_octets(&document, 0, 0, &byte, 1, &n) == OPGP_CLOSED,
          "a closed document");
    limits.line = 1;
    holds(opgp_document_open(two, sizeof two, OPGP_MODE_AUTO, &limits, &document, &fault) == OPGP_LIMITS && !document.is_open
              && is_blank(&fault, 0, sizeof fault),
          "signatures within no limits");
    opgp_usual_limits(&limits);
    for (uint32_t mode = 3; mode != 0; mode = mode == 3 ? 256 : mode << 8) {
        holds(opgp_document_open(two, sizeof two, mode, &limits, &document, &fault) == OPGP_LIMITS && !document.is_open, "signatures by no mode");
    }
    holds(opgp_document_open(key, sizeof key, OPGP_MODE_AUTO, &limits, &document, &fault) == OPGP_REFUSED && !document.is_open,
          "a key as signatures");
    holds(opgp_document_open(in, 0, OPGP_MODE_AUTO, &limits, &document, &fault) == OPGP_REFUSED && fault.layer == 4 && !document.is_open,
          "no signatures");
    holds(opgp_document_open(two, sizeof two, OPGP_MODE_ARMOR, &limits, &document, &fault) == OPGP_REFUSED && fault.layer == 1,
          "packets as armor");
    for (unsigned count = 63; count <= 66; count++) {
        static uint8_t many[66 * sizeof two / 2];
        for (unsigned k = 0; k < count; k++) {
            memcpy(many + k * sizeof two / 2, two, sizeof two / 2);
        }
        memset(&fault, 0xA5, sizeof fault);
        opgp_document before = document;
        uint32_t status = opgp_document_open(many, count * sizeof two / 2, OPGP_MODE_BINARY, &limits, &document, &fault);
        holds(is_blank(&fault, 0, sizeof fault) && (count <= OPGP_MOST_SIGNATURES ? status == OPGP_DONE && document.is_open
                  : status == OPGP_MANY && document.is_open == before.is_open && document.at == before.at),
              "many signatures");
    }
    holds(opgp_document_open(two, sizeof two, OPGP_MODE_AUTO, &limits, &document, &fault) == OPGP_DONE && document.is_open, "signatures");
    holds(opgp_document_jobs(&document, &ring, &job, 1, &byte, 1, &sizes) == OPGP_CLOSED && document.is_open, "jobs beside a closed handle");
    holds(opgp_ring_open(in, 0, &limits, &ring, &fault) == OPGP_DONE, "a keyring of nothing");
    holds(opgp_document_jobs(&document, &ring, &job, 1, &byte, 1, &sizes) == OPGP_GOING && document.is_open && ring.is_open,
          "jobs before the end");
    holds(opgp_document_push(&document, (const uint8_t *)"a\n", 2) == OPGP_DONE && opgp_document_push(&document, in, 0) == OPGP_DONE
              && opgp_document_jobs(&document, &ring, NULL, 0, NULL, 0, &sizes) == OPGP_GOING,
          "pieces of a document");
    holds(opgp_document_end(&document) == OPGP_DONE && opgp_document_end(&document) == OPGP_ENDED
              && opgp_document_push(&document, in, 1) == OPGP_ENDED && opgp_document_push(&document, in, 0) == OPGP_ENDED,
          "a document that has ended");
    opgp_sizes wanted = {0, 0};
    holds(opgp_document_jobs(&document, &ring, NULL, 0, NULL, 0, &wanted) == OPGP_ROOM && wanted.rows == 2, "jobs without room");
    for (size_t r = 0; r <= wanted.rows + 1; r++) {
        for (size_t b = 0; b <= wanted.bytes + 1; b++) {
            opgp_job *rows = block_of(r * sizeof *rows);
            uint8_t *bytes = block_of(b);
            bool fits = r >= wanted.rows && b >= wanted.bytes;
            uint32_t status = opgp_document_jobs(&document, &ring, rows, r, bytes, b, &sizes);
            size_t filled = fits ? (size_t)wanted.rows * sizeof *rows : 0, put = fits ? (size_t)wanted.bytes : 0;
            holds(status == (fits ? OPGP_DONE : OPGP_ROOM) && sizes.rows == wanted.rows && sizes.bytes == wanted.bytes
                      && is_blank(rows, filled, r * sizeof *rows) && is_blank(bytes, put, b),
                  "jobs with some room");
            free(rows);
            free(bytes);
        }
    }
    holds(opgp_document_subpackets(&document, NULL, 0, NULL, 0, &sizes) == OPGP_DONE && sizes.rows == 0 && sizes.bytes == 0,
          "subpackets where there are none");
    TRY_OCTETS(opgp_document_octets(&document, 1, 1, octets, b, &again), "octets behind a document");
    TRY_OCTETS(opgp_document_octets(&document, 0, 0, octets, b, &again), "octets in front of a document");
    for (uint32_t way = 2; way != 0; way *= 2) {
        holds(opgp_document_octets(&document, 0, way, &byte, 0, &n) == OPGP_ROOM && n == 12, "octets behind it by another number than 1");
    }
    holds(opgp_document_octets(&document, 2, 1, &byte, 1, &n) == OPGP_NO_ROW
              && opgp_document_octets(&document, UINT64_MAX, 1, &byte, 1, &n) == OPGP_NO_ROW,
          "octets of no row");
    opgp_document_clear(&document);
    holds(!document.is_open && opgp_document_push(&document, in, 1) == OPGP_CLOSED, "a document that is cleared");
    opgp_document_clear(&document);
    opgp_document_close(document);
    opgp_ring_close(ring);
    holds(held == 0, "what documents held is let go");
}

/* Which limit is out of its range. */
static void wrong_limits(void)
{
    const struct {
        size_t at;
        uint64_t least, most;
    } ranges[] = {{offsetof(opgp_limits, line), 128, UINT64_C(1) << 20}, {offsetof(opgp_limits, body), 512, UINT32_MAX},
                  {offsetof(opgp_limits, cert), 512, UINT64_C(1) << 40}, {offsetof(opgp_limits, input), 0, UINT64_C(1) << 62},
                  {offsetof(opgp_limits, pieces), 1, UINT64_C(1) << 24}, {offsetof(opgp_limits, policies), 0, 3}};
    for (unsigned number = 0; number < sizeof ranges / sizeof *ranges; number++) {
        const uint64_t values[] = {ranges[number].least, ranges[number].most, ranges[number].most + 1, ranges[number].least - 1};
        for (size_t i = 0; i < sizeof values / sizeof *values; i++) {
            opgp_limits limits;
            opgp_usual_limits(&limits);
            memcpy((uint8_t *)&limits + ranges[number].at, &values[i], sizeof values[i]);
            holds(opgp_wrong_limit(&limits) == (i < 2 ? 6 : number), "the limit that is wrong");
        }
    }
    holds(held == 0, "limits that are looked at hold nothing");
}

/* The digests of key revocations: where one is in its place, that of its job. */
static void revocations(opgp_ring *ring, uint64_t count)
{
    opgp_ring none = {false, NULL};
    opgp_sizes sizes = {0, 0};
    uint8_t digest[64];
    uint64_t n = 0;
    opgp_ring_jobs(ring, NULL, 0, NULL, 0, &sizes);
    opgp_job *jobs = calloc((size_t)count + 1, sizeof *jobs);
    uint8_t *bytes = malloc((size_t)sizes.bytes + 1);
    holds(opgp_ring_jobs(ring, jobs, (size_t)count, bytes, (size_t)sizes.bytes, &sizes) == OPGP_DONE, "jobs");
    uint64_t wanted = 0, listed = 0;
    uint32_t without = opgp_ring_revocations(ring, NULL, 0, &wanted);
    holds(without == (wanted ? OPGP_ROOM : OPGP_DONE) && wanted <= count, "revocations without room");
    opgp_revocation *rows = block_of((size_t)wanted * sizeof *rows);
    if (wanted > 0) {
        holds(opgp_ring_revocations(ring, rows, (size_t)wanted - 1, &n) == OPGP_ROOM && n == wanted
                  && is_blank(rows, 0, (size_t)wanted * sizeof *rows),
              "revocations with room for all but one");
    }
    holds(opgp_ring_revocations(ring, rows, (size_t)wanted, &n) == OPGP_DONE && n == wanted, "revocations");
    for (uint64_t row = 0; row < count; row++) {
        const opgp_job *job = &jobs[row];
        bool is_one = job->kind == OPGP_SIGNATURE_KEY_REVOCATION && job->nested == OPGP_NONE && job->version > 3;
        uint32_t status = opgp_ring_revocation(ring, row, digest, sizeof digest, &n);
        holds(status == OPGP_DONE || status == OPGP_NO_ROW, "a revocation");
        holds(status == OPGP_NO_ROW || is_one, "a revocation of a primary key alone");
        bool is_hashed = is_one && job->why == OPGP_WHY_HASHED;
        holds(!is_hashed || (status == OPGP_DONE && n == job->digest_size && memcmp(digest, job->digest, n) == 0), "the digest of its job");
        if (status == OPGP_DONE) {
            const opgp_revocation *found = &rows[listed];
            holds(listed < wanted && found->row == row && found->digest_size == n && memcmp(found->digest, digest, n) == 0
                      && is_zero(found->digest + n, sizeof found->digest - n) && is_zero(found->reserved, sizeof found->reserved),
                  "a row of the revocations");
            listed++;
            TRY_OCTETS(opgp_ring_revocation(ring, row, octets, b, &again), "the digest of a revocation");
        }
    }
    holds(listed == wanted, "each of the revocations is that of a row");
    free(rows);
    free(jobs);
    free(bytes);
    holds(opgp_ring_revocations(&none, NULL, 0, &n) == OPGP_CLOSED, "revocations of a closed handle");
    holds(opgp_ring_revocation(ring, count, digest, sizeof digest, &n) == OPGP_NO_ROW, "a revocation past the last row");
    holds(opgp_ring_revocation(ring, UINT64_MAX, digest, sizeof digest, &n) == OPGP_NO_ROW, "a revocation of no row");
    holds(opgp_ring_revocation(&none, 0, digest, sizeof digest, &n) == OPGP_CLOSED, "a revocation of a closed handle");
}

/* Of keys that nobody signed: there is no verdict. */
static void standings(opgp_ring *ring)
{
    opgp_ring none = {false, NULL};
    uint8_t why = 0xA5;
    opgp_sizes sizes = {0, 0};
    opgp_ring_keys(ring, NULL, 0, NULL, 0, &sizes);
    const uint32_t wanted = sizes.rows > 0 ? OPGP_DONE : OPGP_NO_ROW;
    holds(opgp_ring_standing(ring, NULL, 0, 2, 0, OPGP_NONE, 0, 0, &why) == OPGP_LIMITS && why == 0xA5, "no such policy");
    holds(opgp_ring_standing(ring, NULL, 0, UINT32_MAX, UINT64_MAX, 0, 0, 0, &why) == OPGP_LIMITS && why == 0xA5, "no such policy or key");
    holds(opgp_ring_standing(ring, NULL, 0, 0, UINT64_MAX, OPGP_NONE, 0, 0, &why) == OPGP_NO_ROW && why == 0xA5, "no such certificate");
    holds(opgp_ring_standing(ring, NULL, 0, 0, 0, OPGP_NONE - 1, 0, 0, &why) == OPGP_NO_ROW && why == 0xA5, "no such component");
    holds(opgp_ring_standing(&none, NULL, 0, 2, 0, OPGP_NONE, 0, 0, &why) == OPGP_CLOSED && why == 0xA5, "a key of a closed handle");
    holds(opgp_ring_standing(ring, NULL, 0, 0, 0, OPGP_NONE, 1, 0, &why) == wanted && (wanted || why == OPGP_IN_FUTURE), "in future");
    holds(opgp_ring_standing(ring, NULL, 0, 1, 0, OPGP_NONE, UINT64_MAX, UINT64_MAX, &why) == wanted && (wanted || why == OPGP_UNBOUND),
          "a key that nobody signed");
    opgp_cause cause = {.date = 7, .why = 0xA5};
    holds(opgp_ring_cause(ring, NULL, 0, 2, 0, OPGP_NONE, 0, 0, &cause) == OPGP_LIMITS && cause.why == 0xA5, "a cause by no such policy");
    holds(opgp_ring_cause(ring, NULL, 0, 0, UINT64_MAX, OPGP_NONE, 0, 0, &cause) == OPGP_NO_ROW && cause.why == 0xA5, "of no such certificate");
    holds(opgp_ring_cause(&none, NULL, 0, 0, 0, OPGP_NONE, 0, 0, &cause) == OPGP_CLOSED && cause.date == 7, "of a closed handle");
    holds(opgp_ring_cause(ring, NULL, 0, 0, 0, OPGP_NONE, 3, 0, &cause) == wanted && (wanted || (cause.why == OPGP_IN_FUTURE && cause.date == 3)),
          "the cause of what is in future");
    holds(opgp_ring_cause(ring, NULL, 0, 1, 0, OPGP_NONE, UINT64_MAX, UINT64_MAX, &cause) == wanted
              && (wanted || (cause.why == OPGP_UNBOUND && cause.lack == OPGP_LACK_NOTHING && cause.hang == OPGP_NONE && cause.is_primary == 1)),
          "the cause of a key that nobody signed");
}

/* How the parts of a keyring stand, in each room: one for each key, user ID and attribute, of which nobody signed one. */
static void states(opgp_ring *ring)
{
    opgp_ring none = {false, NULL};
    opgp_sizes sizes = {0, 0};
    uint64_t wanted = 0, n = 0, parts = 0, found = 0;
    opgp_ring_packets(ring, NULL, 0, NULL, 0, &sizes);
    opgp_packet *packets = calloc((size_t)sizes.rows + 1, sizeof *packets);
    uint8_t *bytes = malloc((size_t)sizes.bytes + 1);
    opgp_ring_packets(ring, packets, (size_t)sizes.rows, bytes, (size_t)sizes.bytes, &sizes);
    uint32_t status = opgp_ring_states(ring, NULL, 0, OPGP_POLICY_ANY, UINT64_MAX, NULL, 0, &wanted);
    holds(status == (wanted ? OPGP_ROOM : OPGP_DONE), "states without room");
    for (size_t r = 0; r <= wanted + 1; r++) {
        opgp_state *rows = block_of(r * sizeof *rows);
        bool fits = r >= wanted;
        status = opgp_ring_states(ring, NULL, 0, OPGP_POLICY_ANY, UINT64_MAX, rows, r, &n);
        holds(status == (fits ? OPGP_DONE : OPGP_ROOM) && n == wanted
                  && is_blank(rows, fits ? (size_t)wanted * sizeof *rows : 0, r * sizeof *rows),
              "states with some room");
        holds(opgp_ring_states(ring, NULL, 0, 2, 0, rows, r, &n) == OPGP_LIMITS
                  && opgp_ring_states(&none, NULL, 0, 2, 0, rows, r, &n) == OPGP_CLOSED
                  && is_blank(rows, fits ? (size_t)wanted * sizeof *rows : 0, r * sizeof *rows),
              "states by no policy, or of a closed handle");
        free(rows);
    }
    opgp_state *rows = calloc((size_t)wanted + 1, sizeof *rows);
    holds(opgp_ring_states(ring, NULL, 0, OPGP_POLICY_USUAL, 0, rows, (size_t)wanted, &n) == OPGP_DONE, "states");
    for (uint64_t i = 0; i < sizes.rows; i++) {
        bool is_primary = packets[i].kind == OPGP_PACKET_PUBLIC_KEY, is_key = is_primary || packets[i].kind == OPGP_PACKET_PUBLIC_SUBKEY;
        if (is_key || packets[i].kind == OPGP_PACKET_USER_ID || packets[i].kind == OPGP_PACKET_USER_ATTRIBUTE) {
            const opgp_state *row = &rows[found < wanted ? found : 0];
            parts = is_primary ? 0 : parts + 1;
            holds(found < wanted && row->is_key == is_key && row->component == (is_primary ? OPGP_NONE : parts - 1), "the state of a part");
            holds(row->why == (is_key ? OPGP_EARLY : OPGP_UNBOUND) && row->uses == 0 && row->has_reason == 0 && row->reason == 0
                      && is_zero(row->reserved, sizeof row->reserved) && row->end == OPGP_NONE && (is_key || row->begin == 0),
                  "the state of what nobody signed");
            found++;
        }
    }
    holds(found == wanted, "as many states as parts");
    free(rows);
    free(packets);
    free(bytes);
}

static void rooms(void)
{
    opgp_limits limits;
    opgp_ring ring = {false, NULL};
    opgp_fault fault;
    opgp_sizes sizes;
    uint64_t wanted;
    uint8_t byte;

    holds(opgp_abi() == OPGP_ABI, "the version");
    closed();
    texts();
    wrong_limits();
    opgp_usual_limits(&limits);
    modes(&limits);
    memset(&fault, 0xA5, sizeof fault);
    holds(opgp_ring_open(in, size, &limits, &ring, &fault) == OPGP_DONE && is_blank(&fault, 0, sizeof fault), "open");
    TRY_ROOMS(opgp_ring_packets, opgp_packet);
    TRY_ROOMS(opgp_ring_keys, opgp_key);
    TRY_ROOMS(opgp_ring_jobs, opgp_job);
    TRY_ROOMS(opgp_ring_subpackets, opgp_subpacket);
    TRY_OCTETS(opgp_ring_write(&ring, 0, octets, b, &again), "packets");
    TRY_OCTETS(opgp_ring_write(&ring, 1, octets, b, &again), "armor");
    TRY_OCTETS(opgp_ring_write(&ring, UINT32_MAX, octets, b, &again), "armor by another number");
    sizes = (opgp_sizes){0, 0};
    opgp_ring_jobs(&ring, NULL, 0, NULL, 0, &sizes);
    hashed_rows(&ring, sizes.rows);
    for (uint64_t number = 0; number < sizes.rows; number++) {
        if (opgp_ring_octets(&ring, number, &byte, 0, &wanted) != OPGP_NO_ROW) {
            TRY_OCTETS(opgp_ring_octets(&ring, number, octets, b, &again), "octets");
        }
    }
    revocations(&ring, sizes.rows);
    holds(opgp_ring_octets(&ring, sizes.rows, &byte, 0, &wanted) == OPGP_NO_ROW, "octets past the last row");
    holds(opgp_ring_octets(&ring, UINT64_MAX, &byte, 0, &wanted) == OPGP_NO_ROW, "octets of no row");
    standings(&ring);
    states(&ring);
    try_limit(&ring, offsetof(opgp_limits, line), 128, UINT64_C(1) << 20);
    try_limit(&ring, offsetof(opgp_limits, body), 512, UINT32_MAX);
    try_limit(&ring, offsetof(opgp_limits, cert), 512, UINT64_C(1) << 40);
    try_limit(&ring, offsetof(opgp_limits, pieces), 1, UINT64_C(1) << 24);
    limits.input = (UINT64_C(1) << 62) + 1;
    holds(opgp_ring_open(in, size, &limits, &ring, &fault) == OPGP_LIMITS, "a limit of the input out of its range");
    limits.input = 0;
    holds(opgp_ring_open(in, size, &limits, &ring, &fault) == OPGP_REFUSED && fault.layer == 0 && fault.reason == 19 && fault.pos == 0
              && is_zero(fault.reserved, sizeof fault.reserved),
          "an input of more than no octets");
    limits.input = UINT64_C(1) << 62;
    try_limit(&ring, offsetof(opgp_limits, policies), 0, OPGP_REFUSE_OUTSIDE + OPGP_KEEP_MALFORMED);
    policies(&ring);
    holds(opgp_ring_open(in, size, &limits, &ring, &fault) == OPGP_DONE, "a keyring in place of another");
    holds(opgp_ring_open(&byte, 0, &limits, &ring, &fault) == OPGP_DONE, "nothing in place of a keyring");
    opgp_packet packet;
    holds(opgp_ring_packets(&ring, &packet, 0, &byte, 0, &sizes) == OPGP_DONE && sizes.rows == 0 && sizes.bytes == 0,
          "packets of an empty keyring");
    opgp_ring other = {false, NULL}, into = {false, NULL};
    holds(opgp_ring_join(&ring, &other, &into) == OPGP_CLOSED && ring.is_open && !other.is_open && !into.is_open,
          "a keyring joined with a closed handle");
    holds(opgp_ring_open(in, size, &limits, &other, &fault) == OPGP_DONE, "another keyring");
    opgp_ring gone = {false, NULL};
    holds(opgp_ring_join(&other, &gone, &into) == OPGP_CLOSED && opgp_ring_join(&gone, &other, &into) == OPGP_CLOSED && !into.is_open
              && !gone.is_open && opgp_ring_packets(&other, &packet, 0, &byte, 0, &sizes) == OPGP_ROOM,
          "a keyring that could be joined with none is as it was");
    holds(opgp_ring_join(&ring, &other, &into) == OPGP_DONE && ring.is_open && other.is_open && into.is_open
              && opgp_ring_packets(&into, &packet, 0, &byte, 0, &sizes) == OPGP_ROOM,
          "a keyring in place of none");
    holds(opgp_ring_certificate(&ring, 0, &into) == OPGP_NO_ROW && opgp_ring_packets(&into, &packet, 0, &byte, 0, &sizes) == OPGP_ROOM,
          "no certificate of an empty keyring");
    holds(opgp_ring_merge(&ring, &into) == OPGP_DONE && opgp_ring_packets(&into, &packet, 0, &byte, 0, &sizes) == OPGP_DONE,
          "an empty keyring merged, in place of another");
    holds(opgp_ring_certificate(&other, UINT64_MAX, &into) == OPGP_NO_ROW, "no certificate of the last number");
    const uint8_t first[] = {0xE8, 0}, second[] = {0xE9, 0};
    opgp_packet both[2];
    holds(opgp_ring_open(first, sizeof first, &limits, &ring, &fault) == OPGP_DONE
              && opgp_ring_open(second, sizeof second, &limits, &other, &fault) == OPGP_DONE
              && opgp_ring_join(&ring, &other, &into) == OPGP_DONE
              && opgp_ring_packets(&into, both, 2, &byte, 0, &sizes) == OPGP_DONE && both[0].kind == 40 && both[1].kind == 41,
          "two keyrings in their order");
    opgp_ring_close(other);
    opgp_ring_close(into);
    opgp_ring_close(ring);
    holds(held == 0, "what was held is let go");
}

/* ---- On top */

struct count {
    size_t asked, told, ends_at;
    int answer;
};

static opgp_verdict count_question(void *context, const opgp_question *question)
{
    struct count *count = context;
    count->asked++;
    holds(question->job->why == 0 && !question->job->is_bad && question->signer->version == question->job->version
              && question->made[0].size == question->job->sizes[0] && question->key[3].size == question->signer->sizes[3],
          "a question");
    return (opgp_verdict)count->answer;
}

static int count_row(void *context, size_t row, const opgp_job *job, opgp_verdict verdict)
{
    struct count *count = context;
    (void)job;
    holds(row == count->told, "rows are told in order");
    holds(verdict == OPGP_UNDECIDED || verdict == OPGP_GOOD || verdict == OPGP_BAD, "a verdict");
    count->told++;
    return count->told == count->ends_at ? 7 : 0;
}

/* From row to row: certificates, packets of signatures, what they are on, and keys by their names. */
static void ways(const opgp_keyring *keyring)
{
    size_t packet_count, key_count, job_count, certificates, count, seen[3] = {0, 0, 0};
    const opgp_packet *packets = packets_in(keyring, &packet_count), *packet;
    const opgp_key *keys = keys_in(keyring, &key_count), *key;
    const opgp_job *jobs = jobs_in(keyring, &job_count), *job;
    holds(opgp_certificate_count(keyring, &certificates) == OPGP_DONE, "how many certificates");
    while (seen[0] < packet_count && packets[seen[0]].certificate == OPGP_NONE) {
        seen[0]++;
    }
    for (uint64_t number = 0; number < certificates; number++) {
        holds(opgp_packets_of(keyring, number, &packet, &count) == OPGP_DONE && packet == &packets[seen[0]] && packet->kind == OPGP_PACKET_PUBLIC_KEY
                  && packet[count - 1].certificate == number,
              "the packets of a certificate");
        seen[0] += count;
        holds(opgp_keys_of(keyring, number, &key, &count) == OPGP_DONE && key == &keys[seen[1]] && key->component == OPGP_NONE
                  && key[count - 1].certificate == number,
              "the keys of a certificate");
        seen[1] += count;
        holds(opgp_jobs_of(keyring, number, &job, &count) == OPGP_DONE && (count == 0 ? !job : job == &jobs[seen[2]] && job->certificate == number),
              "the jobs of a certificate");
        seen[2] += count;
    }
    holds(seen[0] == packet_count && seen[1] == key_count && seen[2] == job_count, "the rows of all certificates");
    const uint64_t none[] = {certificates, OPGP_NONE - 1, OPGP_NONE};
    for (size_t i = 0; i < 3; i++) {
        holds(opgp_keys_of(keyring, none[i], &key, &count) == OPGP_NO_ROW && !key && count == 0, "no certificate of a number");
    }
    for (size_t row = 0; row < job_count; row++) {
        job = &jobs[row];
        holds(opgp_packet_of(keyring, job, &packet) == OPGP_DONE && packet->certificate == job->certificate && packet->component == job->component
                  && packet->hang == job->hang && packet->kind == OPGP_PACKET_SIGNATURE,
              "the packet of a signature");
        holds(opgp_subject_of(keyring, job, &packet) == OPGP_DONE && packet->certificate == job->certificate && packet->component == job->component
                  && packet->hang == OPGP_NONE && (job->component != OPGP_NONE || packet->kind == OPGP_PACKET_PUBLIC_KEY),
              "what a signature is on");
    }
    const opgp_job nowhere = {.certificate = certificates};
    holds(opgp_packet_of(keyring, &nowhere, &packet) == OPGP_NO_ROW && !packet && opgp_subject_of(keyring, &nowhere, &packet) == OPGP_NO_ROW,
          "no packet of a place");
    for (size_t i = 0; i < key_count; i++) {
        size_t by_print = SIZE_MAX, by_id = SIZE_MAX;
        holds(opgp_find_key(keyring, keys[i].print, keys[i].print_size, i, &by_print) == OPGP_DONE && by_print == i
                  && opgp_find_key(keyring, keys[i].key_id, 8, i, &by_id) == OPGP_DONE && by_id == i,
              "a key by its names");
        holds(opgp_find_key(keyring, keys[i].print, keys[i].print_size, 0, &by_print) == OPGP_DONE && by_print <= i
                  && opgp_find_key(keyring, keys[i].print, 7, 0, &by_id) == OPGP_NO_ROW && by_id == i,
              "a key by a part of its name");
    }
    size_t past = 7;
    holds(opgp_find_key(keyring, NULL, 0, 0, &past) == OPGP_NO_ROW && opgp_find_key(keyring, in, 20, SIZE_MAX, &past) == OPGP_NO_ROW && past == 7,
          "no key of that name");
}

/* What each row hashes is the same whatever was asked before: up, down, each twice, by another keyring. */
static void orders(const opgp_keyring *keyring, size_t rows)
{
    for (int way = 0; way < 3; way++) {
        for (size_t i = 0; i <= rows; i++) {
            size_t row = way == 1 ? rows - i : i, n = 0, again = 0;
            uint8_t *octets = NULL, *others = NULL;
            opgp_keyring *other = NULL;
            uint32_t status = opgp_octets(keyring, row, &octets, &n);
            holds(opgp_open(in, size, NULL, &other, NULL) == OPGP_DONE && opgp_octets(other, row, &others, &again) == status && n == again
                      && (status == OPGP_DONE ? memcmp(octets, others, n) == 0 : status == OPGP_NO_ROW && !octets && !others),
                  "what a row hashes");
            free(octets);
            free(others);
            opgp_close(other);
            if (way == 2) {
                holds(opgp_octets(keyring, row, &octets, &n) == status && n == again, "the same row again");
                free(octets);
            }
        }
    }
}

/* RFC 9580, A.1 and A.2: a key, and its signature over a document. */
static const char key_of_it[] = "-----BEGIN PGP PUBLIC KEY BLOCK-----\n\n"
                                "xjMEU/NfCxYJKwYBBAHaRw8BAQdAPwmJlL3ZFu1AUxl5NOSofIBzOhKA1i+AEJku\nQ+47JAY=\n"
                                "-----END PGP PUBLIC KEY BLOCK-----\n";
static const char made_by_it[] = "-----BEGIN PGP SIGNATURE-----\n\n"
                                 "iF4EABYIAAYFAlX5X5UACgkQjP3hIZeWWpr2IgD/VvkMypjiECY3vZg/2xbBMd/S\n"
                                 "ftgr9N3lYG4NdWrtM2YBANCcT6EVJ/A44PV/IgHYLy6iyQMyZfps60iehUuuYbQE\n-----END PGP SIGNATURE-----\n";
static const uint64_t made_then = 0x55F95F95;

struct judged {
    struct count count;
    opgp_verdict verdict;
    uint8_t why;
    const opgp_keyring *keyring; /* by which it is judged; NULL: none that is asked for its keys */
};

static opgp_verdict judged_question(void *context, const opgp_question *question)
{
    struct judged *it = context;
    holds(it->count.told == 0 && (it->count.asked == 0) == (question->job->certificate == OPGP_NONE), "the document's question is first");
    return count_question(&it->count, question);
}

static int take_judgement(void *context, const opgp_question *question, opgp_verdict verdict, uint8_t why)
{
    struct judged *it = context;
    it->verdict = verdict;
    it->why = why;
    holds(question->row == it->count.told && question->job->certificate == OPGP_NONE && question->signer && question->made[1].size == 32
              && question->job->created == made_then,
          "a judgement");
    holds((question->cause != NULL) == (why >= OPGP_IN_FUTURE && why <= OPGP_UNBACKED) && (!question->cause || question->cause->why == why),
          "its cause");
    if (it->keyring) {
        const opgp_keyring *merged;
        const opgp_key *keys;
        size_t count;
        holds(opgp_merged(it->keyring, &merged) == OPGP_DONE && opgp_keys(merged, &keys, &count) == OPGP_DONE && question->signer >= keys
                  && question->signer < keys + count,
              "a signer of the merged keyring");
    }
    it->count.told++;
    return it->count.told == it->count.ends_at ? 7 : 0;
}

/* Reads that signature and its document. */
static uint32_t read_signed(opgp_document *document)
{
    opgp_limits limits;
    opgp_fault fault;
    opgp_usual_limits(&limits);
    uint32_t status = opgp_document_open((const uint8_t *)made_by_it, sizeof made_by_it - 1, OPGP_MODE_AUTO, &limits, document, &fault);
    return status == OPGP_DONE ? opgp_document_push(document, (const uint8_t *)"OpenPGP", 7) : status;
}

/* Reads that key, and puts the input in front of it. */
static uint32_t read_joined(opgp_keyring **keyring)
{
    opgp_keyring *front = NULL, *behind = NULL;
    *keyring = NULL;
    uint32_t status = opgp_open(in, size, NULL, &front, NULL);
    status = status == OPGP_DONE ? opgp_open((const uint8_t *)key_of_it, sizeof key_of_it - 1, NULL, &behind, NULL) : status;
    status = status == OPGP_DONE ? opgp_join(front, behind, keyring) : status;
    opgp_close(front);
    opgp_close(behind);
    return status;
}

/* Puts what opgp_document_standing says of each place; the first status that isn't OPGP_DONE. */
static uint32_t each_standing(opgp_document *document, opgp_ring *ring, const uint8_t *verdicts, size_t count, uint32_t policy,
                              const opgp_place *places, size_t place_count, uint64_t now, uint8_t *whys)
{
    uint32_t status = OPGP_DONE;
    for (size_t i = 0; status == OPGP_DONE && i < place_count; i++) {
        status = opgp_document_standing(document, ring, verdicts, count, policy, 0, places[i].certificate, places[i].component, now, &whys[i]);
    }
    return status;
}

/* Whether several places are judged as each of them is: of all keys, which are given their places. */
static void places_judged(opgp_document *document, opgp_ring *ring, const opgp_place *places, size_t count)
{
    static const uint8_t verdicts[] = {OPGP_GOOD, OPGP_GOOD, OPGP_BAD, OPGP_UNDECIDED, 255, OPGP_GOOD, OPGP_GOOD, OPGP_GOOD};
    uint8_t *each = block_of(count);
    for (uint32_t policy = 0; policy < 2; policy++) {
        for (uint64_t now = made_then - 1; now < made_then + 2; now++) {
            uint32_t wanted = each_standing(document, ring, verdicts, sizeof verdicts, policy, places, count, now, each);
            for (size_t room = 0; room <= count + 1; room++) {
                uint8_t *whys = block_of(room);
                uint64_t n = 0;
                bool fits = room >= count;
                uint32_t status = opgp_document_standings(document, ring, verdicts, sizeof verdicts, policy, 0, places, count, now, whys, room, &n);
                holds(wanted == OPGP_DONE && status == (fits ? OPGP_DONE : OPGP_ROOM) && n == count && is_blank(whys, fits ? count : 0, room)
                          && (!fits || memcmp(whys, each, count) == 0),
                      "several places");
                free(whys);
            }
        }
    }
    free(each);
}

/* Each status of opgp_document_standings. */
static void several_places(opgp_document *document)
{
    opgp_ring ring = {false, NULL}, none = {false, NULL};
    opgp_document nothing = {false, NULL};
    opgp_limits limits;
    opgp_fault fault;
    opgp_sizes sizes = {0, 0};
    uint8_t whys[2] = {0xA5, 0xA5};
    uint64_t n = 0;
    opgp_usual_limits(&limits);
    holds(opgp_ring_open((const uint8_t *)key_of_it, sizeof key_of_it - 1, &limits, &none, &fault) == OPGP_DONE
              && opgp_ring_open(in, size, &limits, &ring, &fault) == OPGP_DONE,
          "two keyrings");
    opgp_ring both = {false, NULL};
    holds(opgp_ring_join(&none, &ring, &both) == OPGP_DONE, "both");
    opgp_ring_close(none);
    none = (opgp_ring){false, NULL};
    opgp_ring_keys(&both, NULL, 0, NULL, 0, &sizes);
    opgp_key *keys = calloc((size_t)sizes.rows + 1, sizeof *keys);
    uint8_t *bytes = malloc((size_t)sizes.bytes + 1);
    opgp_place *places = calloc((size_t)sizes.rows + 1, sizeof *places);
    opgp_ring_keys(&both, keys, (size_t)sizes.rows, bytes, (size_t)sizes.bytes, &sizes);
    for (size_t i = 0; i < sizes.rows; i++) {
        places[i] = (opgp_place){keys[i].certificate, keys[i].component};
    }
    for (size_t count = 0; count <= sizes.rows; count++) {
        places_judged(document, &both, places, count);
    }
    const opgp_place twice[] = {places[0], places[0]}, wrong[][2] = {{places[0], {UINT64_MAX, OPGP_NONE}}, {{0, OPGP_NONE - 1}, places[0]}};
    places_judged(document, &both, twice, 2);
    for (size_t i = 0; i < 2; i++) {
        holds(opgp_document_standings(document, &both, NULL, 0, 0, 0, wrong[i], 2, 0, whys, 2, &n) == OPGP_NO_ROW, "a place without a key");
    }
    holds(opgp_document_standings(document, &both, NULL, 0, 0, 1, places, 1, 0, whys, 2, &n) == OPGP_NO_ROW, "a row that isn't there");
    holds(opgp_document_standings(document, &both, NULL, 0, 2, 0, places, 1, 0, whys, 2, &n) == OPGP_LIMITS, "places by no policy");
    holds(opgp_document_standings(document, &none, NULL, 0, 0, 0, places, 1, 0, whys, 2, &n) == OPGP_CLOSED
              && opgp_document_standings(&nothing, &both, NULL, 0, 0, 0, places, 1, 0, whys, 2, &n) == OPGP_CLOSED,
          "places of a closed handle");
    holds(whys[0] == 0xA5 && whys[1] == 0xA5 && both.is_open && document->is_open, "whys stay as they are");
    free(keys);
    free(bytes);
    free(places);
    opgp_ring_close(ring);
    opgp_ring_close(both);
}

/* What opgp_merged gives: always the same, whose packets are those of opgp_merge. */
static void merged_once(const opgp_keyring *keyring)
{
    const opgp_keyring *merged = NULL, *again = NULL;
    opgp_keyring *made = NULL;
    uint8_t *octets[2] = {NULL, NULL};
    size_t sizes[2] = {0, 1};
    holds(opgp_merged(keyring, &merged) == OPGP_DONE && opgp_merged(keyring, &again) == OPGP_DONE && merged && merged == again,
          "a merged keyring that is kept");
    holds(opgp_merge(keyring, &made) == OPGP_DONE && opgp_write(merged, false, &octets[0], &sizes[0]) == OPGP_DONE
              && opgp_write(made, false, &octets[1], &sizes[1]) == OPGP_DONE && sizes[0] == sizes[1]
              && memcmp(octets[0], octets[1], sizes[0]) == 0,
          "the packets of a merged keyring");
    free(octets[0]);
    free(octets[1]);
    opgp_close(made);
}

/* Each status of opgp_judge, and what it says by each answer: the key is bare, so nothing binds it. */
static void judgements(void)
{
    opgp_document document = {false, NULL};
    opgp_keyring *keyring;
    size_t others;
    struct judged it = {.count = {.answer = OPGP_GOOD}};
    holds(read_joined(&keyring) == OPGP_DONE, "the input and a key");
    jobs_in(keyring, &others);
    holds(opgp_judge(&document, keyring, 0, made_then, judged_question, take_judgement, &it) == OPGP_CLOSED, "judging a closed document");
    holds(read_signed(&document) == OPGP_DONE, "a signature over a document");
    holds(opgp_judge(&document, keyring, 0, made_then, judged_question, take_judgement, &it) == OPGP_GOING, "judging a document that goes on");
    opgp_document_end(&document);
    holds(opgp_judge(&document, keyring, 2, made_then, judged_question, take_judgement, &it) == OPGP_LIMITS
              && opgp_judge(&document, keyring, UINT32_MAX, made_then, NULL, take_judgement, &it) == OPGP_LIMITS,
          "judging by no policy");
    holds(it.count.asked == 0 && it.count.told == 0, "nobody is asked or told");
    holds(opgp_judge(&document, keyring, 0, made_then, NULL, take_judgement, &it) == OPGP_DONE && it.count.told == 1
              && it.verdict == OPGP_UNDECIDED && it.why == OPGP_NOT_GOOD,
          "judging without a verifier");
    for (int answer = -1; answer < 4; answer++) {
        for (uint64_t now = made_then - 1; now <= made_then + 1; now++) {
            it = (struct judged){{0, 0, now == made_then ? 1 : 2, answer}, OPGP_UNDECIDED, 0xA5, keyring};
            uint32_t status = opgp_judge(&document, keyring, now % 2, now, judged_question, take_judgement, &it);
            holds(status == (now == made_then ? OPGP_ENDED : OPGP_DONE) && it.count.told == 1 && it.count.asked >= 1
                      && it.count.asked <= (answer == OPGP_GOOD ? others + 1 : 1),
                  "judging");
            holds(it.verdict == (answer == OPGP_GOOD || answer == OPGP_BAD ? (opgp_verdict)answer : OPGP_UNDECIDED)
                      && it.why == (answer != OPGP_GOOD ? OPGP_NOT_GOOD : now < made_then ? OPGP_IN_FUTURE : OPGP_UNBOUND),
                  "a judgement by an answer");
        }
    }
    merged_once(keyring);
    several_places(&document);
    opgp_close(keyring);
    opgp_document_close(document);
}

/* Reads a file of verdicts on the merged input: in one call, and by a handle in each room. Prints the verdicts, the status, and how many octets of the
 * input were skipped. */
static int read_verdicts(const char *path)
{
    static uint8_t octets[MOST];
    opgp_keyring *keyring;
    opgp_ring ring = {false, NULL}, merged = {false, NULL};
    opgp_limits limits;
    opgp_fault fault;
    uint8_t *verdicts = (uint8_t *)octets;
    size_t count = 1;
    uint64_t n = 0, skipped[2] = {1, 2};
    FILE *file = fopen(path, "rb");
    opgp_usual_limits(&limits);
    if (!file || opgp_open(in, size, NULL, &keyring, NULL) != OPGP_DONE || opgp_ring_open(in, size, &limits, &ring, &fault) != OPGP_DONE
        || opgp_ring_merge(&ring, &merged) != OPGP_DONE) {
        return 2;
    }
    size_t length = fread(octets, 1, sizeof octets, file);
    fclose(file);
    uint32_t status = opgp_read_verdicts(keyring, length ? octets : NULL, length, &verdicts, &count);
    holds(status == OPGP_DONE ? verdicts != NULL : !verdicts && count == 0, "what is given of a file of verdicts");
    for (size_t room = 0; room <= count + 1; room++) {
        uint8_t *found = block_of(room);
        bool fits = room >= count;
        uint32_t wanted = status != OPGP_DONE || fits ? status : OPGP_ROOM;
        holds(opgp_ring_verdicts(&merged, octets, length, found, room, &n) == wanted && (status != OPGP_DONE || n == count)
                  && is_blank(found, wanted == OPGP_DONE ? count : 0, room) && (wanted != OPGP_DONE || !count || memcmp(found, verdicts, count) == 0),
              "a file of verdicts in some room");
        free(found);
    }
    holds(opgp_skipped(keyring, &skipped[0]) == OPGP_DONE && opgp_ring_skipped(&ring, &skipped[1]) == OPGP_DONE && skipped[0] == skipped[1], "what was skipped");
    for (size_t i = 0; i < count; i++) {
        printf("%u", verdicts[i]);
    }
    printf(" %u %" PRIu64 "\n", status, skipped[0]);
    free(verdicts);
    opgp_close(keyring);
    opgp_ring_close(ring);
    opgp_ring_close(merged);
    return failed > 0;
}

/* Reads a file that has no verdicts until memory runs out. */
static bool read_no_verdicts(void)
{
    static const uint8_t text[] = "verdicts by arithmetic of keyring sha256 ";
    opgp_keyring *keyring = NULL;
    uint8_t *verdicts = NULL;
    size_t count = 1;
    uint32_t status = opgp_open(in, size, NULL, &keyring, NULL);
    if (status == OPGP_DONE) {
        status = opgp_read_verdicts(keyring, text, sizeof text, &verdicts, &count);
        holds((status == OPGP_NO_ROW || status == OPGP_MEMORY) && !verdicts && count == 0, "a file without verdicts");
    }
    opgp_close(keyring);
    return status == OPGP_NO_ROW;
}

/* Judges until memory runs out; then nobody is told. */
static bool judge_document(void)
{
    opgp_document document = {false, NULL};
    opgp_keyring *keyring = NULL;
    struct judged it = {.count = {.answer = OPGP_GOOD}};
    uint32_t status = read_joined(&keyring);
    status = status == OPGP_DONE ? read_signed(&document) : status;
    status = status == OPGP_DONE ? opgp_document_end(&document) : status;
    status = status == OPGP_DONE ? opgp_judge(&document, keyring, 0, made_then, judged_question, take_judgement, &it) : status;
    holds(status == OPGP_DONE ? it.count.told == 1 && it.why == OPGP_UNBOUND : status == OPGP_MEMORY && it.count.told == 0,
          "judging where memory runs out");
    opgp_close(keyring);
    opgp_document_close(document);
    return status == OPGP_DONE;
}

/* What is answered about each signature, how often one is asked about, and in which row that was last. */
struct answering {
    int answer;
    size_t asked, next;
};

static opgp_verdict answer(void *context, const opgp_question *question)
{
    struct answering *it = context;
    holds(question->row >= it->next && question->signer && question->signer->version == question->job->version
              && question->job->why == OPGP_WHY_HASHED && !question->job->is_bad,
          "a question, in the order of rows");
    it->next = question->row + 1;
    it->asked++;
    return (opgp_verdict)it->answer;
}

/* Whether another key than the primary one certified something, or revoked that: nobody is asked, since it says nothing of states. */
static bool is_of_another(const opgp_job *job, const opgp_key *table)
{
    const opgp_key *primary = table, *signer = &table[job->signer];
    while (primary->certificate != job->certificate) {
        primary++;
    }
    bool is_kind = (job->kind >= 0x10 && job->kind <= 0x13) || job->kind == 0x30;
    return is_kind && memcmp(primary->print, signer->print, sizeof signer->print) != 0;
}

/* Finds the verdicts on the rows of a keyring, where each that may be asked about has this one; and how many are asked about. */
static size_t verdicts_by(const opgp_keyring *keyring, opgp_ring *ring, int given, uint8_t *verdicts)
{
    static opgp_revocation revocations[MOST / 64];
    size_t rows, keys, asked = 0;
    uint64_t n = 0;
    const opgp_job *jobs = jobs_in(keyring, &rows);
    const opgp_key *table = keys_in(keyring, &keys);
    holds(opgp_ring_revocations(ring, revocations, sizeof revocations / sizeof *revocations, &n) == OPGP_DONE, "revocations");
    for (size_t row = 0; row < rows; row++) {
        const opgp_revocation *alone = NULL;
        for (uint64_t i = 0; i < n && jobs[row].why == OPGP_WHY_MISPLACED; i++) {
            alone = revocations[i].row == row ? &revocations[i] : alone;
        }
        bool is_hashed = jobs[row].why == OPGP_WHY_HASHED || alone;
        bool is_bad = alone ? memcmp(alone->digest, jobs[row].left, 2) != 0 : jobs[row].is_bad;
        bool is_asked = is_hashed && !is_bad && jobs[row].signer < keys && table[jobs[row].signer].version == jobs[row].version;
        asked += is_asked && !is_of_another(&jobs[row], table);
        verdicts[row] = is_bad ? OPGP_BAD : is_asked && (given == OPGP_GOOD || given == OPGP_BAD) ? (uint8_t)given : OPGP_UNDECIDED;
    }
    return asked;
}

/* The states that opgp_states finds by each answer are those of the proved call, by these verdicts, of the merged keyring. */
static void states_on_top(const opgp_keyring *keyring)
{
    static opgp_state wanted[MOST / 32];
    static uint8_t verdicts[MOST];
    opgp_limits limits;
    opgp_ring ring = {false, NULL}, into = {false, NULL};
    opgp_fault fault;
    opgp_state *rows = wanted;
    size_t count = 1;
    struct answering it = {OPGP_GOOD, 0, 0};
    opgp_usual_limits(&limits);
    const opgp_keyring *merged = NULL;
    holds(opgp_merged(keyring, &merged) == OPGP_DONE, "the merged keyring");
    holds(opgp_ring_open(in, size, &limits, &ring, &fault) == OPGP_DONE && opgp_ring_merge(&ring, &into) == OPGP_DONE, "the same, as a handle");
    opgp_ring_close(ring);
    holds(opgp_states(keyring, 2, 0, answer, &it, &rows, &count) == OPGP_LIMITS && !rows && count == 0 && it.asked == 0, "states by no policy");
    for (int given = -2; given < 4; given++) {
        size_t asked = verdicts_by(merged, &into, given, verdicts), jobs;
        jobs_in(merged, &jobs);
        for (uint32_t policy = 0; policy < 2; policy++) {
            for (uint64_t at = 0; at <= UINT64_C(1) << 33; at += UINT64_C(1) << 30) {
                uint64_t n = 0;
                it = (struct answering){given, 0, 0};
                holds(opgp_ring_states(&into, verdicts, jobs, policy, at, wanted, sizeof wanted / sizeof *wanted, &n) == OPGP_DONE, "states");
                uint32_t status = opgp_states(keyring, policy, at, given < -1 ? NULL : answer, &it, &rows, &count);
                holds(status == OPGP_DONE && rows && count == n && memcmp(rows, wanted, count * sizeof *rows) == 0, "states by a verifier");
                holds(it.asked == (given < -1 ? 0 : asked), "who is asked for states");
                free(rows);
            }
        }
    }
    opgp_ring_close(into);
}

/* Finds states until memory runs out; then there are none. */
static bool find_states(void)
{
    opgp_keyring *keyring = NULL;
    opgp_state *rows = NULL;
    size_t count = 1;
    struct answering it = {OPGP_GOOD, 0, 0};
    uint32_t status = opgp_open(in, size, NULL, &keyring, NULL);
    if (status == OPGP_DONE) {
        status = opgp_states(keyring, OPGP_POLICY_USUAL, 0, answer, &it, &rows, &count);
        holds(status == OPGP_DONE ? rows != NULL : status == OPGP_MEMORY && !rows && count == 0, "states where memory runs out");
    }
    free(rows);
    opgp_close(keyring);
    return status == OPGP_DONE;
}

static void on_top(void)
{
    opgp_keyring *keyring = NULL;
    uint8_t *octets;
    size_t n, rows, count = 1;
    const opgp_subpacket *found = NULL;
    const opgp_packet *packet = NULL;
    opgp_limits limits = {0, 0, 0, 0, 0, 0};
    char text[OPGP_FAULT_ROOM], name[OPGP_NAME_ROOM];
    const opgp_fault longest = {UINT64_MAX, UINT64_MAX, UINT64_MAX, 4, 53, {0}}, unknown = {1, 2, 3, 5, 255, {0}};

    holds(opgp_open(NULL, 0, NULL, &keyring, NULL) == OPGP_DONE, "an empty keyring");
    packets_in(keyring, &n);
    keys_in(keyring, &rows);
    holds(n == 0 && rows == 0, "its packets and keys");
    jobs_in(keyring, &n);
    subpackets_in(keyring, &rows);
    holds(n == 0 && rows == 0, "its jobs and subpackets");
    holds(opgp_subpackets_of(keyring, 0, &found, &count) == OPGP_NO_ROW && !found && count == 0, "subpackets of a row that isn't there");
    holds(opgp_certificate_count(keyring, &count) == OPGP_DONE && count == 0, "no certificates");
    holds(opgp_packets_of(keyring, 0, &packet, &count) == OPGP_NO_ROW && !packet && count == 0, "packets of no certificate");
    holds(opgp_write(keyring, false, &octets, &n) == OPGP_DONE && octets && n == 0, "an empty keyring written");
    free(octets);
    opgp_close(keyring);
    opgp_close(NULL);
    holds(opgp_open(in, size, &limits, &keyring, NULL) == OPGP_LIMITS && !keyring, "limits that aren't any");
    holds(opgp_open((const uint8_t *)"x", 1, NULL, &keyring, NULL) == OPGP_REFUSED && !keyring, "an input that is refused");
    holds(opgp_open(in, size, NULL, &keyring, NULL) == OPGP_DONE, "a keyring");
    jobs_in(keyring, &rows);
    for (size_t row = 0; row <= rows + 1; row++) {
        uint32_t status = opgp_subpackets_of(keyring, row, &found, &count);
        holds(row < rows ? status == OPGP_DONE && !found == !count : status == OPGP_NO_ROW && !found && count == 0, "subpackets of a row");
    }
    count = 1;
    holds(opgp_subpackets_of(keyring, SIZE_MAX, &found, &count) == OPGP_NO_ROW && !found && count == 0, "subpackets past the last row");
    ways(keyring);
    orders(keyring, rows);
    judgements();
    states_on_top(keyring);
    opgp_keyring *twice = NULL;
    uint8_t *alone = NULL;
    size_t size_of_it = 0;
    holds(opgp_join(keyring, keyring, &twice) == OPGP_DONE && opgp_write(twice, false, &octets, &n) == OPGP_DONE
              && opgp_write(keyring, false, &alone, &size_of_it) == OPGP_DONE && n == 2 * size_of_it && memcmp(octets, alone, size_of_it) == 0
              && memcmp(octets + size_of_it, alone, size_of_it) == 0,
          "a keyring joined with itself");
    free(octets);
    free(alone);
    opgp_close(twice);
    holds(opgp_octets(keyring, rows, &octets, &n) == OPGP_NO_ROW && !octets && n == 0, "octets past the last row");
    for (int answer = -1; answer < 4; answer++) {
        struct count count = {0, 0, 0, answer};
        holds(opgp_check(keyring, count_question, count_row, &count) == OPGP_DONE && count.told == rows && count.asked <= rows, "a check");
    }
    for (size_t end = 1; end <= rows; end++) {
        struct count count = {0, 0, end, OPGP_GOOD};
        holds(opgp_check(keyring, count_question, count_row, &count) == OPGP_ENDED && count.told == end, "a check that is ended");
    }
    opgp_close(keyring);
    holds(strcmp(opgp_fault_text(&longest, text), "composition: NotASignedLiteral block 18446744073709551615 at 18446744073709551615 "
                                                  "inner 18446744073709551615") == 0,
          "the longest line of a fault");
    holds(strcmp(opgp_fault_text(&unknown, text), "unknown") == 0, "a fault that there isn't");
    holds(strcmp(opgp_name_text(OPGP_WHYS, 0, name), "unknown") == 0 && strcmp(opgp_name_text(OPGP_UNBELIEVED + 1, 0, name), "unknown") == 0
              && strcmp(opgp_name_text(OPGP_LAYERS, 1, name), "armor") == 0,
          "names of what there is and isn't");
    static const char *const statuses[] = {"done", "the input is refused", "too little room", "out of memory",
                                           "a limit is out of its range", "the handle holds nothing", "no such row",
                                           "the input has ended", "too many signatures", "the document hasn't ended",
                                           "unknown"};
    for (uint32_t status = 0; status < sizeof statuses / sizeof *statuses; status++) {
        holds(strcmp(opgp_status_text(status), statuses[status]) == 0, "the text of a status");
    }
    holds(OPGP_ENDED == 7 && strcmp(opgp_status_text(UINT32_MAX), "unknown") == 0, "the text of no status");
    holds(held == 0, "what was held is let go");
}

/* ---- Memory */

/* Everything once; whether it went well. */
static bool everything(void)
{
    opgp_keyring *keyring;
    opgp_fault fault;
    uint8_t *octets;
    size_t n;
    bool is_well = true;
    memset(&fault, 0xA5, sizeof fault);
    uint32_t status = opgp_open(in, size, NULL, &keyring, &fault);
    if (status != OPGP_DONE) {
        holds(status == OPGP_MEMORY && !keyring && is_blank(&fault, 0, sizeof fault), "a status where memory runs out");
        return false;
    }
    for (int armor = 0; armor < 2; armor++) {
        status = opgp_write(keyring, armor, &octets, &n);
        holds(status == OPGP_DONE ? n > 0 : status == OPGP_MEMORY && !octets && n == 0, "writing where memory runs out");
        is_well = is_well && status == OPGP_DONE;
        free(octets);
    }
    const opgp_packet *packets;
    const opgp_key *keys;
    const opgp_subpacket *subpackets;
    const opgp_job *jobs;
    size_t rows, first;
    struct count count = {0, 0, 0, OPGP_GOOD};
    status = opgp_check(keyring, NULL, count_row, &count);
    holds(status == OPGP_DONE || (status == OPGP_MEMORY && count.told == 0), "a check where memory runs out");
    is_well = is_well && status == OPGP_DONE;
    status = opgp_packets(keyring, &packets, &rows);
    holds(status == OPGP_DONE ? packets && rows : status == OPGP_MEMORY && !packets && !rows, "packets where memory runs out");
    is_well = is_well && status == OPGP_DONE;
    status = opgp_keys(keyring, &keys, &rows);
    holds(status == OPGP_DONE ? keys != NULL : status == OPGP_MEMORY && !keys && !rows, "keys where memory runs out");
    is_well = is_well && status == OPGP_DONE;
    status = opgp_subpackets(keyring, &subpackets, &rows);
    holds(status == OPGP_DONE ? subpackets != NULL : status == OPGP_MEMORY && !subpackets && !rows, "subpackets where memory runs out");
    is_well = is_well && status == OPGP_DONE;
    status = opgp_jobs(keyring, &jobs, &rows);
    holds(status == OPGP_DONE ? jobs != NULL : status == OPGP_MEMORY && !jobs && !rows, "jobs where memory runs out");
    is_well = is_well && status == OPGP_DONE;
    status = opgp_subpackets_of(keyring, 0, &subpackets, &first);
    holds(status == OPGP_DONE || status == OPGP_NO_ROW || status == OPGP_MEMORY, "subpackets of a row where memory runs out");
    is_well = is_well && status != OPGP_MEMORY;
    for (size_t row = 0; row <= rows; row++) {
        status = opgp_octets(keyring, row, &octets, &n);
        holds(status == OPGP_DONE ? n > 0 : (status == OPGP_NO_ROW || status == OPGP_MEMORY) && !octets && n == 0,
              "octets where memory runs out");
        is_well = is_well && status != OPGP_MEMORY;
        free(octets);
    }
    opgp_keyring *other, *made;
    status = opgp_normalise(keyring, &other);
    const uint64_t numbers[] = {1, 0};
    for (int way = -2; way < 5 && status == OPGP_DONE; way++) {
        status = way < -1   ? opgp_pick(keyring, (const uint8_t *)"a\0a", 3, &made)
                 : way < 0  ? opgp_choose(keyring, true, true, numbers, 2, &made)
                 : way == 0 ? opgp_merge(keyring, &made)
                 : way == 1 ? opgp_join(keyring, other, &made)
                 : way == 2 ? opgp_join(keyring, keyring, &made)
                 : way == 3 ? opgp_certificate(keyring, 0, &made)
                            : opgp_certificate(keyring, UINT64_MAX, &made);
        holds(status == OPGP_DONE ? way < 4 : !made && (status == OPGP_MEMORY || (way == 4 && status == OPGP_NO_ROW)),
              "a keyring made where memory runs out");
        opgp_close(made);
        status = status == OPGP_NO_ROW ? OPGP_DONE : status;
    }
    holds(status == OPGP_DONE || status == OPGP_MEMORY, "what making keyrings answers where memory runs out");
    is_well = is_well && status == OPGP_DONE;
    opgp_close(other);
    opgp_close(keyring);
    return is_well;
}

/* Reads the input in small pieces by the loop of docs/LIBRARY-C.md, which goes on where a part can't be taken now: with OPGP_DONE of
 * the end and OPGP_NO_ROW of the last take, all parts were taken; whether it went well. */
static size_t all_parts;

static bool take_patiently(void)
{
    opgp_reader reader = {false, NULL};
    opgp_keyring *part;
    opgp_fault fault;
    size_t parts = 0;
    uint32_t status = opgp_begin(NULL, &reader), taken_status = OPGP_NO_ROW;
    for (size_t at = 0; status == OPGP_DONE && at < size; at += 60) {
        status = opgp_reader_push(&reader, in + at, size - at < 60 ? size - at : 60);
        while (status == OPGP_DONE && (taken_status = opgp_take(&reader, &part)) == OPGP_DONE) {
            parts++;
            opgp_close(part);
        }
    }
    status = status == OPGP_DONE ? opgp_reader_end(&reader, &fault) : status;
    while (status == OPGP_DONE && (taken_status = opgp_take(&reader, &part)) == OPGP_DONE) {
        parts++;
        opgp_close(part);
    }
    /* A part for whose struct there was no memory waits; one more turn gives it. */
    if (status == OPGP_DONE && taken_status == OPGP_MEMORY && opgp_reader_end(&reader, &fault) == OPGP_DONE) {
        while ((taken_status = opgp_take(&reader, &part)) == OPGP_DONE) {
            parts++;
            opgp_close(part);
        }
    }
    bool is_whole = status == OPGP_DONE && taken_status == OPGP_NO_ROW;
    all_parts = fails_at == 0 ? parts : all_parts;
    holds(!is_whole || parts == all_parts, "no part is lost where a reading ends well");
    opgp_reader_close(reader);
    return is_whole;
}

/* Reads the input in one piece, and takes each part with its tables; whether it went well. */
static bool take_everything(void)
{
    opgp_limits limits;
    opgp_reader reader = {false, NULL};
    opgp_keyring *part = NULL;
    opgp_fault fault;
    opgp_usual_limits(&limits);
    uint32_t status = opgp_reader_open(&limits, &reader);
    holds(status == OPGP_DONE ? reader.is_open : status == OPGP_MEMORY && !reader.is_open, "a reader where memory runs out");
    status = status == OPGP_DONE ? opgp_reader_push(&reader, in, size) : status;
    status = status == OPGP_DONE ? opgp_reader_end(&reader, &fault) : status;
    while (status == OPGP_DONE) {
        status = opgp_take(&reader, &part);
        holds(status == OPGP_DONE ? part != NULL : !part, "a part where memory runs out");
        if (status == OPGP_DONE) {
            const opgp_packet *packets;
            size_t count;
            status = opgp_packets(part, &packets, &count);
            holds(status == OPGP_DONE ? count > 0 : status == OPGP_MEMORY, "the packets of a part where memory runs out");
        }
        opgp_close(part);
    }
    holds(status == OPGP_NO_ROW || status == OPGP_MEMORY, "what taking parts answers where memory runs out");
    opgp_reader_close(reader);
    return status == OPGP_NO_ROW;
}

static void wants_memory(bool (*run)(void))
{
    bool is_well = false;
    for (unsigned long n = 1; !is_well && n < 100000; n++) {
        calls = 0;
        fails_at = n;
        is_well = run() && calls < n;
        holds(held == 0, "what was held is let go where memory ran out");
    }
    fails_at = 0;
    holds(is_well, "with enough memory it goes well");
}

/* The calls on documents, until one runs out of memory; a push and an end can't. */
static bool document_everything(void)
{
    static const uint8_t two[] = {FOUR(0), FOUR(1)};
    opgp_limits limits;
    opgp_document document = {false, NULL};
    opgp_fault fault;
    opgp_job *jobs = NULL;
    uint8_t *made = NULL, octets[16];
    uint64_t n = 0;
    size_t count = 0;
    opgp_usual_limits(&limits);
    bool is_done = opgp_document_open(two, sizeof two, OPGP_MODE_AUTO, &limits, &document, &fault) == OPGP_DONE;
    if (is_done) {
        unsigned long before = calls;
        holds(opgp_document_push(&document, (const uint8_t *)"a\nb\r\n", 6) == OPGP_DONE && opgp_document_end(&document) == OPGP_DONE
                  && calls == before,
              "a document allocates nothing");
        is_done = opgp_signatures(&document, NULL, &jobs, &count, &made) == OPGP_DONE;
        holds(is_done == (count == 2) && is_done == (jobs && made), "the signatures, or none");
        is_done = is_done && opgp_document_octets(&document, 0, 1, octets, sizeof octets, &n) == OPGP_DONE;
    } else {
        holds(!document.is_open, "no document is begun");
    }
    free(jobs);
    free(made);
    opgp_document_close(document);
    return is_done;
}

static void documents_wanting(void)
{
    wants_memory(document_everything);
}

/* Whether each primary key may be believed, until memory runs out. Then what was said stays, and so does what the handle holds. */
static bool judge_everything(void)
{
    static const uint8_t verdicts[] = {OPGP_GOOD, OPGP_GOOD, OPGP_BAD, OPGP_UNDECIDED, 255, OPGP_GOOD};
    const uint64_t now = UINT64_C(1) << 33;
    opgp_limits limits;
    opgp_ring ring = {false, NULL};
    opgp_fault fault;
    uint32_t status = OPGP_DONE;
    opgp_usual_limits(&limits);
    bool is_done = opgp_ring_open(in, size, &limits, &ring, &fault) == OPGP_DONE;
    for (uint64_t certificate = 0; is_done && status != OPGP_NO_ROW; certificate++) {
        uint8_t why = 0xA5;
        status = opgp_ring_standing(&ring, verdicts, sizeof verdicts, OPGP_POLICY_USUAL, certificate, OPGP_NONE, now, now, &why);
        opgp_cause cause = {.why = 0xA5};
        const uint32_t told = opgp_ring_cause(&ring, verdicts, sizeof verdicts, OPGP_POLICY_USUAL, certificate, OPGP_NONE, now, now, &cause);
        holds(told == OPGP_DONE ? status != OPGP_DONE || cause.why == why : cause.why == 0xA5, "why it may not be believed");
        is_done = status != OPGP_MEMORY && told != OPGP_MEMORY;
        holds(status == OPGP_DONE ? why <= OPGP_UNBACKED : (why == 0xA5 && (status == OPGP_MEMORY || status == OPGP_NO_ROW)) && ring.is_open,
              "whether a key may be believed");
    }
    static opgp_state rows[256];
    uint64_t n = 0;
    memset(rows, 0xA5, sizeof rows);
    if (is_done) {
        status = opgp_ring_states(&ring, verdicts, sizeof verdicts, OPGP_POLICY_USUAL, now, rows, sizeof rows / sizeof *rows, &n);
        is_done = status == OPGP_DONE;
        holds(is_done ? is_blank(rows, (size_t)n * sizeof *rows, sizeof rows) : status == OPGP_MEMORY && is_blank(rows, 0, sizeof rows) && ring.is_open,
              "how the parts of a keyring stand");
    }
    opgp_ring_close(ring);
    return is_done;
}

static void memory(void)
{
    wants_memory(everything);
    wants_memory(take_everything);
    wants_memory(judge_everything);
    wants_memory(judge_document);
    wants_memory(read_no_verdicts);
    wants_memory(find_states);
    take_patiently();
    wants_memory(take_patiently);
}

/* ---- Reading in pieces */

/* The packets of the parts that were taken, one behind the other, and how many parts these are. */
static uint8_t taken[MOST];
static size_t taken_size, taken_parts;

/* Takes all parts that wait, and returns what the last call answers. */
static uint32_t take_all(opgp_reader *reader, opgp_ring *part)
{
    uint32_t status = opgp_reader_take(reader, part);
    while (status == OPGP_DONE) {
        uint64_t n = 0;
        status = opgp_ring_write(part, 0, taken + taken_size, sizeof taken - taken_size, &n);
        if (status != OPGP_DONE) {
            return status;
        }
        taken_size += (size_t)n;
        taken_parts++;
        status = opgp_reader_take(reader, part);
    }
    return status;
}

/* Reads the input in pieces of this size, or of 1 to 97 octets in turn if it is 0, each in a block of its own if `copies`. */
static uint32_t read_pieces(size_t piece, bool copies, opgp_fault *fault)
{
    opgp_limits limits;
    opgp_reader reader = {false, NULL};
    opgp_ring part = {false, NULL};
    opgp_usual_limits(&limits);
    taken_size = taken_parts = 0;
    uint32_t status = opgp_reader_open(&limits, &reader);
    for (size_t at = 0, turn = 0; status == OPGP_DONE && at < size; turn++) {
        size_t n = piece ? piece : 1 + turn % 97;
        n = n < size - at ? n : size - at;
        uint8_t *block = copies ? block_of(n) : NULL;
        if (block) {
            memcpy(block, in + at, n);
        }
        status = opgp_reader_push(&reader, block ? block : in + at, n);
        free(block);
        at += n;
        if (status == OPGP_DONE) {
            status = take_all(&reader, &part);
            status = status == OPGP_NO_ROW ? OPGP_DONE : status;
        }
    }
    status = status == OPGP_DONE ? opgp_reader_end(&reader, fault) : status;
    if (status == OPGP_DONE) {
        status = take_all(&reader, &part);
        status = status == OPGP_NO_ROW ? OPGP_DONE : status;
    }
    opgp_ring_close(part);
    opgp_reader_close(reader);
    return status;
}

/* What the calls answer in an order that isn't the usual one. */
static void reader_statuses(void)
{
    opgp_limits limits;
    opgp_reader reader = {false, NULL};
    opgp_ring part = {false, NULL};
    opgp_keyring *keyring = NULL;
    opgp_fault fault, again;
    memset(&fault, 0xA5, sizeof fault);
    memset(&again, 0xA5, sizeof again);
    holds(opgp_reader_push(&reader, in, 1) == OPGP_CLOSED && opgp_reader_take(&reader, &part) == OPGP_CLOSED
              && opgp_reader_end(&reader, &fault) == OPGP_CLOSED && opgp_take(&reader, &keyring) == OPGP_CLOSED && !keyring
              && !reader.is_open && !part.is_open && is_blank(&fault, 0, sizeof fault),
          "a closed reader");
    opgp_reader_close(reader);
    opgp_usual_limits(&limits);
    limits.body = 511;
    holds(opgp_reader_open(&limits, &reader) == OPGP_LIMITS && !reader.is_open, "a reader's limits");
    limits.body = 512;
    limits.policies = 4;
    holds(opgp_reader_open(&limits, &reader) == OPGP_LIMITS && !reader.is_open, "a reader's policy that stands for nothing");
    opgp_usual_limits(&limits);
    holds(opgp_reader_open(&limits, &reader) == OPGP_DONE && reader.is_open, "a reader");
    holds(opgp_reader_take(&reader, &part) == OPGP_NO_ROW && opgp_take(&reader, &keyring) == OPGP_NO_ROW && !keyring, "no part yet");
    holds(opgp_reader_push(&reader, in, 0) == OPGP_DONE && opgp_reader_take(&reader, &part) == OPGP_NO_ROW && !part.is_open, "no octets");
    holds(opgp_reader_push(&reader, in, size) == OPGP_DONE, "the input in one piece");
    uint32_t status = opgp_reader_end(&reader, &fault), later = opgp_reader_end(&reader, &again);
    holds(status == later && memcmp(&fault, &again, sizeof fault) == 0, "an end that is asked for again");
    holds((status == OPGP_REFUSED) != is_blank(&fault, 0, sizeof fault), "the fault of a refused input alone");
    holds(opgp_reader_push(&reader, in, 1) == OPGP_ENDED, "a piece behind the end");
    holds(opgp_reader_push(&reader, in, 0) == OPGP_ENDED, "an empty piece behind the end");
    size_t count = 0;
    while (opgp_take(&reader, &keyring) == OPGP_DONE) {
        size_t packets;
        packets_in(keyring, &packets);
        holds(packets > 0, "the packets of a part");
        opgp_close(keyring);
        count++;
    }
    holds(status == OPGP_DONE ? count > 0 || size == 0 : count == 0, "parts behind the end");
    holds(opgp_reader_open(&limits, &reader) == OPGP_DONE && opgp_reader_push(&reader, in, size) == OPGP_DONE, "a handle used again");
    opgp_reader_close(reader);
    opgp_ring_close(part);
    holds(held == 0, "what a reader held is let go");
}

static void pieces(void)
{
    static const size_t sizes[] = {1, 2, 7, 64, 4096, MOST, 0};
    opgp_keyring *whole = NULL;
    opgp_fault fault, found;
    uint8_t *octets = NULL;
    size_t n = 0, parts = 0;
    memset(&fault, 0xA5, sizeof fault);
    uint32_t status = opgp_open(in, size, NULL, &whole, &fault);
    if (status == OPGP_DONE) {
        size_t count;
        const opgp_packet *packets = packets_in(whole, &count);
        holds(opgp_write(whole, false, &octets, &n) == OPGP_DONE, "the packets of the whole");
        for (size_t i = 0; i < count; i++) {
            uint64_t before = i ? packets[i - 1].certificate : UINT64_MAX - 1;
            parts += packets[i].certificate != before;
        }
    }
    opgp_close(whole);
    for (size_t i = 0; i < sizeof sizes / sizeof *sizes; i++) {
        memset(&found, 0xA5, sizeof found);
        holds(read_pieces(sizes[i], true, &found) == status && memcmp(&found, &fault, sizeof found) == 0, "the end of an input in pieces");
        holds(status != OPGP_DONE || (taken_size == n && memcmp(taken, octets, n) == 0 && taken_parts == parts), "its parts");
    }
    free(octets);
    reader_statuses();
}

static void wanting(void)
{
    opgp_fault fault;
    uint32_t status = read_pieces(64, false, &fault), ended = OPGP_MEMORY;
    for (unsigned long k = 1; ended == OPGP_MEMORY && k < 100000; k++) {
        calls = 0;
        fails_at = k;
        ended = read_pieces(64, false, &fault);
        holds(ended == OPGP_MEMORY || (ended == status && calls < k), "reading in pieces where memory runs out");
        holds(held == 0, "what a reader held is let go where memory ran out");
    }
    fails_at = 0;
    holds(ended == status, "with enough memory reading in pieces goes well");
}

/* ---- What is held */

enum { PIECE = 4096, FEW = 300, MANY = 20000, WIDE = 1 << 20, SLACK = 4096 };

/* A certificate: the key of RFC 9580, A.1, and a user ID. */
static const uint8_t certificate[] = {
    0xC6, 0x33, 0x04, 0x53, 0xF3, 0x5F, 0x0B, 0x16, 0x09, 0x2B, 0x06, 0x01, 0x04, 0x01, 0xDA, 0x47, 0x0F, 0x01, 0x01,
    0x07, 0x40, 0x3F, 0x09, 0x89, 0x94, 0xBD, 0xD9, 0x16, 0xED, 0x40, 0x53, 0x19, 0x79, 0x34, 0xE4, 0xA8, 0x7C, 0x80,
    0x73, 0x3A, 0x12, 0x80, 0xD6, 0x2F, 0x80, 0x10, 0x99, 0x2E, 0x43, 0xEE, 0x3B, 0x24, 0x06, 0xCD, 0x01, 'a'};

/* Octets that are pushed: a front, a user ID of so many octets behind a certificate if there are any, and copies of a certificate. */
static uint8_t *stretched(const char *front, size_t front_size, size_t wide, size_t copies, size_t *n)
{
    const uint8_t head[] = {0xCD, 0xFF, (uint8_t)(wide >> 24), (uint8_t)(wide >> 16), (uint8_t)(wide >> 8), (uint8_t)wide};
    size_t more = wide ? sizeof certificate + sizeof head + wide : 0, at = front_size;
    uint8_t *octets = block_of(front_size + more + copies * sizeof certificate);
    memcpy(octets, front, front_size);
    if (wide) {
        memcpy(octets + at, certificate, sizeof certificate);
        memcpy(octets + at + sizeof certificate, head, sizeof head);
        memset(octets + at + sizeof certificate + sizeof head, 'u', wide);
        at += more;
    }
    for (size_t copy = 0; copy < copies; copy++) {
        memcpy(octets + at, certificate, sizeof certificate);
        at += sizeof certificate;
    }
    *n = at;
    return octets;
}

/* How much a reader holds beside what is taken from it: at most, when all was pushed, and at the end. */
struct holding {
    long most, pushed, ended;
};

static struct holding pushed(const opgp_limits *limits, const uint8_t *octets, size_t n, uint32_t wanted)
{
    opgp_reader reader = {false, NULL};
    opgp_ring part = {false, NULL};
    opgp_fault fault;
    const long before = held_octets;
    struct holding found;
    holds(opgp_reader_open(limits, &reader) == OPGP_DONE, "a reader");
    most_octets = held_octets;
    for (size_t at = 0; at < n; at += PIECE) {
        holds(opgp_reader_push(&reader, octets + at, n - at < PIECE ? n - at : PIECE) == OPGP_DONE, "a piece");
        uint32_t status = OPGP_DONE;
        while (status == OPGP_DONE) {
            status = opgp_reader_take(&reader, &part);
        }
        holds(status == OPGP_NO_ROW, "parts");
    }
    opgp_ring_close(part);
    found.most = most_octets - before;
    found.pushed = held_octets - before;
    holds(opgp_reader_end(&reader, &fault) == wanted, "the end");
    found.ended = held_octets - before;
    opgp_reader_close(reader);
    holds(held_octets == before, "what a reader held is let go");
    return found;
}

/* What is held doesn't grow with what was taken, nor with what comes behind a fault; nor is a large part kept, or a large body that
 * comes behind a fault. */
static void held_while_pushed(void)
{
    static const struct {
        const char *front;
        size_t size;
        uint32_t wanted;
    } fronts[] = {
        {"", 0, OPGP_DONE},
        {"\xE8\x00", 2, OPGP_DONE},                                        /* a filler */
        {"\xC6\x01\x03", 3, OPGP_REFUSED},                                 /* a body's fault */
        {"\xC0\x00", 2, OPGP_REFUSED},                                     /* one of framing */
        {"\xCD\x01" "a", 3, OPGP_REFUSED},                                 /* ones of composition */
        {"\xC4\x00", 2, OPGP_REFUSED},
        {"\xC6\x01\x03\xC0\x00", 5, OPGP_REFUSED},
        {"a line", 6, OPGP_REFUSED},                                        /* ones of armor */
        {"-----BEGIN PGP \n", 16, OPGP_REFUSED},
        {"-----BEGIN PGP PUBLIC KEY BLOCK-----\nno header\n", 47, OPGP_REFUSED},
        {"-----BEGIN PGP PUBLIC KEY BLOCK-----\n\nxgED!\n", 44, OPGP_REFUSED},
        {"-----BEGIN PGP PUBLIC KEY BLOCK-----\n\nxgED\n-----END PGP PUBLIC KEY BLOCK-----\n", 78, OPGP_REFUSED},
    };
    opgp_limits limits;
    opgp_usual_limits(&limits);
    for (size_t i = 0; i <= sizeof fronts / sizeof *fronts; i++) {
        /* The last time the input is past its limit. */
        bool is_past = i == sizeof fronts / sizeof *fronts;
        const char *front = is_past ? "" : fronts[i].front;
        size_t size_of_front = is_past ? 0 : fronts[i].size, n[3];
        uint32_t wanted = is_past ? OPGP_REFUSED : fronts[i].wanted;
        uint8_t *octets[3] = {stretched(front, size_of_front, 0, FEW, &n[0]), stretched(front, size_of_front, 0, MANY, &n[1]),
                              stretched(front, size_of_front, WIDE, FEW, &n[2])};
        limits.input = is_past ? 100 : limits.input;
        struct holding few = pushed(&limits, octets[0], n[0], wanted), many = pushed(&limits, octets[1], n[1], wanted);
        struct holding wide = pushed(&limits, octets[2], n[2], wanted);
        holds(many.most <= few.most + SLACK, "what is held at most");
        holds(many.pushed <= few.pushed + SLACK && wide.pushed <= few.pushed + SLACK, "what is held when all was pushed");
        holds(many.ended <= few.ended + SLACK && wide.ended <= few.ended + SLACK, "what is held at the end");
        if (many.most > few.most + SLACK || many.pushed > few.pushed + SLACK || wide.pushed > few.pushed + SLACK
            || many.ended > few.ended + SLACK || wide.ended > few.ended + SLACK) {
            fprintf(stderr, "tests/bindings/capi.py: front %zu: %ld %ld %ld, then %ld %ld %ld, and %ld %ld %ld\n", i, few.most, few.pushed, few.ended,
                    many.most, many.pushed, many.ended, wide.most, wide.pushed, wide.ended);
        }
        free(octets[0]);
        free(octets[1]);
        free(octets[2]);
    }
}

/* A call that only asks, or that is refused, leaves as much held as before. */
static void held_by_calls(void)
{
    opgp_limits limits;
    opgp_ring ring = {false, NULL}, into = {false, NULL};
    opgp_fault fault;
    opgp_sizes sizes = {0, 0};
    opgp_packet packet;
    opgp_key key;
    opgp_job job;
    opgp_subpacket subpacket;
    uint64_t wanted;
    uint8_t byte;
    size_t n;
    opgp_usual_limits(&limits);
    uint8_t *octets = stretched("\xE8\x00", 2, WIDE, FEW, &n);
    const long nothing = held_octets;
    holds(opgp_ring_open(octets, n, &limits, &ring, &fault) == OPGP_DONE, "a keyring");
    const long before = held_octets;
    opgp_ring_packets(&ring, &packet, 0, &byte, 0, &sizes);
    opgp_ring_keys(&ring, &key, 0, &byte, 0, &sizes);
    opgp_ring_jobs(&ring, &job, 0, &byte, 0, &sizes);
    opgp_ring_subpackets(&ring, &subpacket, 0, &byte, 0, &sizes);
    opgp_ring_octets(&ring, 0, &byte, 0, &wanted);
    opgp_ring_write(&ring, 0, &byte, 0, &wanted);
    opgp_ring_write(&ring, 1, &byte, 0, &wanted);
    opgp_ring_standing(&ring, NULL, 0, OPGP_POLICY_ANY, 0, OPGP_NONE, 0, 0, &byte);
    opgp_ring_cause(&ring, NULL, 0, OPGP_POLICY_ANY, 0, OPGP_NONE, 0, 0, &(opgp_cause){.date = 0});
    opgp_ring_states(&ring, NULL, 0, OPGP_POLICY_ANY, 0, NULL, 0, &wanted);
    holds(opgp_ring_certificate(&ring, UINT64_MAX, &into) == OPGP_NO_ROW && !into.is_open, "no certificate");
    holds(held_octets == before, "calls that ask hold nothing more");
    holds(opgp_ring_open(octets, n - 1, &limits, &ring, &fault) == OPGP_REFUSED, "a refused input");
    limits.body = 1;
    holds(opgp_ring_open(octets, n, &limits, &ring, &fault) == OPGP_LIMITS, "a refused limit");
    holds(held_octets == before, "a refused input holds nothing more");
    for (int turn = 0; turn < 2; turn++) {
        holds(opgp_ring_normalise(&ring, &into) == OPGP_DONE && opgp_ring_merge(&ring, &into) == OPGP_DONE
                  && opgp_ring_certificate(&ring, 1, &into) == OPGP_DONE,
              "keyrings in place of others");
    }
    opgp_ring_close(into);
    holds(held_octets == before, "what others held is let go");
    opgp_ring_close(ring);
    holds(held_octets == nothing, "what a keyring held is let go");
    opgp_keyring *keyring;
    holds(opgp_open(octets, n - 1, NULL, &keyring, &fault) == OPGP_REFUSED && held_octets == nothing, "a refused keyring holds nothing");
    free(octets);
}

static void holding(void)
{
    held_while_pushed();
    held_by_calls();
    holds(held == 0 && held_octets == 0, "what was held is let go");
}

/* ---- Threads */

struct shared {
    const opgp_keyring *keyring; /* of all threads */
    bool is_wrong;
};

static int count_good(void *context, size_t row, const opgp_job *job, opgp_verdict verdict)
{
    (void)row;
    (void)job;
    *(size_t *)context += verdict == OPGP_GOOD;
    return 0;
}

/* Whether calls on the keyring of all threads answer as calls on one of this thread's own; the tables are made by whoever is first. */
static bool are_alike(const opgp_keyring *own, const opgp_keyring *shared, int turn)
{
    const opgp_key *keys;
    const opgp_job *jobs;
    uint8_t *texts[2] = {NULL, NULL}, *octets[2] = {NULL, NULL};
    size_t count[2], rows[2], n[2], hashed[2], good = 0;
    opgp_keyring *made = NULL;
    bool is_well = opgp_join(shared, turn % 2 ? own : shared, &made) == OPGP_DONE;
    opgp_close(made);
    for (int i = 0; i < 2; i++) {
        const opgp_keyring *it = i ? shared : own;
        is_well = is_well && opgp_keys(it, &keys, &count[i]) == OPGP_DONE && opgp_jobs(it, &jobs, &rows[i]) == OPGP_DONE
                  && opgp_write(it, turn % 2 == 0, &texts[i], &n[i]) == OPGP_DONE;
        uint32_t status = opgp_octets(it, (uint64_t)turn % 4, &octets[i], &hashed[i]);
        is_well = is_well && (status == OPGP_DONE || status == OPGP_NO_ROW);
    }
    is_well = is_well && count[0] == count[1] && rows[0] == rows[1] && n[0] == n[1] && memcmp(texts[0], texts[1], n[0]) == 0
              && hashed[0] == hashed[1] && (hashed[0] == 0 || memcmp(octets[0], octets[1], hashed[0]) == 0)
              && opgp_check(shared, NULL, count_good, &good) == OPGP_DONE && good == 0;
    for (int i = 0; i < 2; i++) {
        free(texts[i]);
        free(octets[i]);
    }
    return is_well;
}

static void *reader(void *argument)
{
    struct shared *shared = argument;
    for (int turn = 0; turn < TURNS; turn++) {
        opgp_keyring *keyring;
        bool is_open = opgp_open(in, size, NULL, &keyring, NULL) == OPGP_DONE;
        shared->is_wrong = shared->is_wrong || !is_open || !are_alike(keyring, shared->keyring, turn);
        opgp_close(keyring);
    }
    return NULL;
}

static void threads(void)
{
    pthread_t each[THREADS];
    struct shared shared[THREADS];
    opgp_keyring *keyring;
    holds(opgp_open(in, size, NULL, &keyring, NULL) == OPGP_DONE, "a keyring for threads");
    for (int i = 0; i < THREADS; i++) {
        shared[i] = (struct shared){keyring, false};
        holds(pthread_create(&each[i], NULL, reader, &shared[i]) == 0, "a thread");
    }
    for (int i = 0; i < THREADS; i++) {
        holds(pthread_join(each[i], NULL) == 0 && !shared[i].is_wrong, "keyrings in threads");
    }
    opgp_close(keyring);
}

int main(int argc, char **argv)
{
    static const struct {
        const char *word;
        void (*run)(void);
    } runs[] = {{"rooms", rooms}, {"on_top", on_top}, {"memory", memory}, {"pieces", pieces}, {"wanting", wanting},
                {"holding", holding}, {"threads", threads}, {"documents", documents}, {"documents_wanting", documents_wanting},
                {"canonical_texts", canonical_texts}, {"blocks", blocks}};
    opgp_limits limits;
    const struct {
        const char *word;
        uint64_t *number;
    } options[] = {{"--line=", &limits.line}, {"--body=", &limits.body}, {"--cert=", &limits.cert}, {"--input=", &limits.input},
                   {"--pieces=", &limits.pieces}, {"--policies=", &limits.policies}};
    bool is_told = false;
    const char *making = NULL, *document = NULL, *piece = NULL, *verdicts = NULL;
    opgp_usual_limits(&limits);
    size = fread(in, 1, sizeof in, stdin);
    for (int i = 1; i < argc; i++) {
        bool is_known = strcmp(argv[i], "told") == 0;
        is_told = is_told || is_known;
        if (strcmp(argv[i], "named") == 0) {
            return named();
        }
        if (strcmp(argv[i], "normalise") == 0 || strcmp(argv[i], "merge") == 0 || strcmp(argv[i], "join") == 0
            || strncmp(argv[i], "nth=", 4) == 0 || strncmp(argv[i], "chosen=", 7) == 0 || strncmp(argv[i], "picked=", 7) == 0) {
            making = argv[i];
            is_known = true;
        }
        if (strncmp(argv[i], "document=", 9) == 0) {
            document = argv[i] + 9;
            is_known = true;
        }
        if (strncmp(argv[i], "canonical=", 10) == 0) {
            piece = argv[i] + 10;
            is_known = true;
        }
        if (strncmp(argv[i], "verdicts=", 9) == 0) {
            verdicts = argv[i] + 9;
            is_known = true;
        }
        for (size_t k = 0; k < sizeof options / sizeof *options; k++) {
            size_t length = strlen(options[k].word);
            if (strncmp(argv[i], options[k].word, length) == 0) {
                *options[k].number = strtoull(argv[i] + length, NULL, 10);
                is_known = true;
            }
        }
        for (size_t k = 0; k < sizeof runs / sizeof *runs; k++) {
            if (strcmp(argv[i], runs[k].word) == 0) {
                runs[k].run();
                is_known = true;
            }
        }
        if (!is_known) {
            fprintf(stderr, "tests/bindings/capi.c: unknown word '%s'\n", argv[i]);
            return 2;
        }
    }
    if (making) {
        return made(making);
    }
    if (document) {
        return documented(document, &limits);
    }
    if (piece) {
        return canonical(piece);
    }
    if (verdicts) {
        return read_verdicts(verdicts);
    }
    if (is_told) {
        return told(&limits);
    }
    printf("%lu passed, %lu failed\n", passed, failed);
    return failed > 0;
}
