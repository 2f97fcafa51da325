/* The layer on top: allocation, locks, loops and callbacks. It reads no octet of any input. */
#include "opgp.h"

#include <pthread.h>
#include <stdlib.h>
#include <string.h>

/* The structs are those that the proved calls fill. */
#define IS_AT(STRUCT, FIELD, AT) _Static_assert(offsetof(STRUCT, FIELD) == (AT), #STRUCT "." #FIELD)

_Static_assert(sizeof(opgp_limits) == 48, "opgp_limits");
IS_AT(opgp_limits, line, 0);
IS_AT(opgp_limits, body, 8);
IS_AT(opgp_limits, cert, 16);
IS_AT(opgp_limits, input, 24);
IS_AT(opgp_limits, pieces, 32);
IS_AT(opgp_limits, policies, 40);

_Static_assert(sizeof(opgp_fault) == 32, "opgp_fault");
IS_AT(opgp_fault, block, 0);
IS_AT(opgp_fault, pos, 8);
IS_AT(opgp_fault, inner, 16);
IS_AT(opgp_fault, layer, 24);
IS_AT(opgp_fault, reason, 25);
IS_AT(opgp_fault, reserved, 26);

_Static_assert(sizeof(opgp_sizes) == 16, "opgp_sizes");
IS_AT(opgp_sizes, rows, 0);
IS_AT(opgp_sizes, bytes, 8);

_Static_assert(sizeof(opgp_packet) == 48, "opgp_packet");
IS_AT(opgp_packet, certificate, 0);
IS_AT(opgp_packet, component, 8);
IS_AT(opgp_packet, hang, 16);
IS_AT(opgp_packet, at, 24);
IS_AT(opgp_packet, size, 32);
IS_AT(opgp_packet, kind, 40);
IS_AT(opgp_packet, reserved, 41);

_Static_assert(sizeof(opgp_key) == 112, "opgp_key");
IS_AT(opgp_key, certificate, 0);
IS_AT(opgp_key, component, 8);
IS_AT(opgp_key, at, 16);
IS_AT(opgp_key, sizes, 24);
IS_AT(opgp_key, created, 56);
IS_AT(opgp_key, version, 60);
IS_AT(opgp_key, algorithm, 61);
IS_AT(opgp_key, print_size, 62);
IS_AT(opgp_key, print, 63);
IS_AT(opgp_key, key_id, 95);
IS_AT(opgp_key, reserved, 103);

_Static_assert(sizeof(opgp_job) == 144, "opgp_job");
IS_AT(opgp_job, certificate, 0);
IS_AT(opgp_job, component, 8);
IS_AT(opgp_job, hang, 16);
IS_AT(opgp_job, nested, 24);
IS_AT(opgp_job, signer, 32);
IS_AT(opgp_job, at, 40);
IS_AT(opgp_job, sizes, 48);
IS_AT(opgp_job, created, 64);
IS_AT(opgp_job, why, 68);
IS_AT(opgp_job, version, 69);
IS_AT(opgp_job, kind, 70);
IS_AT(opgp_job, algorithm, 71);
IS_AT(opgp_job, hash, 72);
IS_AT(opgp_job, left, 73);
IS_AT(opgp_job, is_bad, 75);
IS_AT(opgp_job, digest_size, 76);
IS_AT(opgp_job, is_dated, 77);
IS_AT(opgp_job, issuer_size, 78);
IS_AT(opgp_job, digest, 79);
IS_AT(opgp_job, reserved, 143);

_Static_assert(sizeof(opgp_subpacket) == 88, "opgp_subpacket");
IS_AT(opgp_subpacket, certificate, 0);
IS_AT(opgp_subpacket, component, 8);
IS_AT(opgp_subpacket, hang, 16);
IS_AT(opgp_subpacket, nested, 24);
IS_AT(opgp_subpacket, at, 32);
IS_AT(opgp_subpacket, size, 40);
IS_AT(opgp_subpacket, fields_at, 48);
IS_AT(opgp_subpacket, field_sizes, 56);
IS_AT(opgp_subpacket, numbers, 72);
IS_AT(opgp_subpacket, kind, 80);
IS_AT(opgp_subpacket, is_critical, 81);
IS_AT(opgp_subpacket, is_hashed, 82);
IS_AT(opgp_subpacket, meaning, 83);
IS_AT(opgp_subpacket, form, 84);
IS_AT(opgp_subpacket, reserved, 85);

_Static_assert(sizeof(opgp_hashed) == 24, "opgp_hashed");
IS_AT(opgp_hashed, row, 0);
IS_AT(opgp_hashed, at, 8);
IS_AT(opgp_hashed, size, 16);

_Static_assert(sizeof(opgp_state) == 40, "opgp_state");
IS_AT(opgp_state, certificate, 0);
IS_AT(opgp_state, component, 8);
IS_AT(opgp_state, end, 16);
IS_AT(opgp_state, begin, 24);
IS_AT(opgp_state, why, 28);
IS_AT(opgp_state, is_key, 29);
IS_AT(opgp_state, uses, 30);
IS_AT(opgp_state, has_reason, 31);
IS_AT(opgp_state, reason, 32);
IS_AT(opgp_state, reserved, 33);

_Static_assert(sizeof(opgp_revocation) == 80, "opgp_revocation");
IS_AT(opgp_revocation, row, 0);
IS_AT(opgp_revocation, digest_size, 8);
IS_AT(opgp_revocation, digest, 9);
IS_AT(opgp_revocation, reserved, 73);

_Static_assert(sizeof(opgp_place) == 16, "opgp_place");
IS_AT(opgp_place, certificate, 0);
IS_AT(opgp_place, component, 8);

_Static_assert(sizeof(opgp_found_block) == 32, "opgp_found_block");
IS_AT(opgp_found_block, at, 0);
IS_AT(opgp_found_block, size, 8);
IS_AT(opgp_found_block, octets_at, 16);
IS_AT(opgp_found_block, octets_size, 24);

_Static_assert(sizeof(opgp_user_id_facts) == 24, "opgp_user_id_facts");
IS_AT(opgp_user_id_facts, address_at, 0);
IS_AT(opgp_user_id_facts, address_size, 8);
IS_AT(opgp_user_id_facts, is_utf8, 16);
IS_AT(opgp_user_id_facts, has_address, 20);

_Static_assert(sizeof(opgp_ring) == 2 * sizeof(void *), "opgp_ring");
IS_AT(opgp_ring, is_open, 0);
IS_AT(opgp_ring, at, sizeof(void *));

_Static_assert(sizeof(opgp_reader) == 2 * sizeof(void *), "opgp_reader");
IS_AT(opgp_reader, is_open, 0);
IS_AT(opgp_reader, at, sizeof(void *));

_Static_assert(sizeof(opgp_document) == 2 * sizeof(void *), "opgp_document");
IS_AT(opgp_document, is_open, 0);
IS_AT(opgp_document, at, sizeof(void *));

/* A batch of hashed octets has at most a part of the keyring's octets, or so many; and a row for so many of them. */
enum { BATCH = 1 << 20, PARTS = 4, OF_ROW = 64 };

/* What the signatures of some jobs hash, which stand one behind the other. */
struct batch {
    uint64_t first, count; /* of the jobs that are looked at */
    uint64_t most;         /* octets that there is room for, and a row for each OF_ROW of them */
    opgp_hashed *rows;
    uint8_t *bytes;
    opgp_sizes sizes;
};

struct opgp_keyring {
    pthread_mutex_t lock; /* of all below; what a table's pointer points to never changes once it isn't NULL */
    opgp_ring ring;
    opgp_packet *packets;
    opgp_key *keys;
    opgp_job *jobs;
    opgp_subpacket *subpackets;
    size_t *firsts; /* of each job the number of its first subpacket, and behind the last how many there are */
    uint8_t *bodies;
    uint8_t *material;
    uint8_t *made;
    uint8_t *data;
    opgp_sizes packet_sizes, key_sizes, job_sizes, subpacket_sizes;
    uint64_t size;     /* octets that it was read from, or more than its packets have; 0: not known yet */
    uint64_t next_row; /* the row behind the one whose octets were asked for last; at first that of no job */
    struct batch batch;
    opgp_keyring *merged; /* the same with its certificates merged; NULL: not made yet, or it is once */
    bool is_once;         /* merging it changes nothing */
};

/* Room for so many things, at least one; NULL if there is none. */
static void *room_for(uint64_t count, size_t size)
{
    return count > SIZE_MAX / size ? NULL : calloc(count ? (size_t)count : 1, size);
}

/* The same, with whatever is there. */
static void *bare_room_for(uint64_t count, size_t size)
{
    return count > SIZE_MAX / size ? NULL : malloc((count ? (size_t)count : 1) * size);
}

/* ---- Keyrings */

static opgp_keyring *new_keyring(void)
{
    opgp_keyring *it = calloc(1, sizeof *it);
    if (it && pthread_mutex_init(&it->lock, NULL) != 0) {
        free(it);
        it = NULL;
    }
    if (it) {
        it->next_row = OPGP_NONE;
    }
    return it;
}

/* Gives the caller a keyring that is read or made if the status is OPGP_DONE, or NULL. */
static uint32_t give_keyring(uint32_t status, opgp_keyring *it, opgp_keyring **keyring)
{
    if (status != OPGP_DONE) {
        opgp_close(it);
        it = NULL;
    }
    *keyring = it;
    return status;
}

/* Locks a keyring, all of which were allocated, so none is const in itself. */
static opgp_keyring *enter(const opgp_keyring *keyring)
{
    opgp_keyring *it = (opgp_keyring *)(uintptr_t)keyring;
    pthread_mutex_lock(&it->lock);
    return it;
}

static uint32_t leave(opgp_keyring *it, uint32_t status)
{
    pthread_mutex_unlock(&it->lock);
    return status;
}

uint32_t opgp_open_mode(const uint8_t *in, size_t n, uint32_t mode, const opgp_limits *limits, opgp_keyring **keyring, opgp_fault *fault)
{
    opgp_limits usual;
    opgp_fault unwanted;
    const uint8_t nothing = 0;
    opgp_keyring *it = new_keyring();
    uint32_t status = OPGP_MEMORY;

    if (!limits) {
        opgp_usual_limits(&usual);
        limits = &usual;
    }
    if (it) {
        status = opgp_ring_open_mode(in || n > 0 ? in : &nothing, n, mode, limits, &it->ring, fault ? fault : &unwanted);
        it->size = n;
    }
    return give_keyring(status, it, keyring);
}

uint32_t opgp_open(const uint8_t *in, size_t n, const opgp_limits *limits, opgp_keyring **keyring, opgp_fault *fault)
{
    return opgp_open_mode(in, n, OPGP_MODE_AUTO, limits, keyring, fault);
}

unsigned opgp_wrong_limit(const opgp_limits *limits)
{
    const uint64_t given[] = {limits->line, limits->body, limits->cert, limits->input, limits->pieces, limits->policies};
    const uint8_t nothing = 0;
    for (unsigned number = 0; number < sizeof given / sizeof *given; number++) {
        /* The usual limits but for this one, within which nothing is read. */
        opgp_limits one;
        opgp_usual_limits(&one);
        uint64_t *const all[] = {&one.line, &one.body, &one.cert, &one.input, &one.pieces, &one.policies};
        *all[number] = given[number];
        opgp_ring ring = {false, NULL};
        opgp_fault unwanted;
        uint32_t status = opgp_ring_open(&nothing, 0, &one, &ring, &unwanted);
        opgp_ring_close(ring);
        if (status == OPGP_LIMITS) {
            return number;
        }
    }
    return sizeof given / sizeof *given;
}

uint32_t opgp_skipped(const opgp_keyring *keyring, uint64_t *count)
{
    opgp_keyring *it = enter(keyring);
    return leave(it, opgp_ring_skipped(&it->ring, count));
}

uint32_t opgp_begin(const opgp_limits *limits, opgp_reader *reader)
{
    opgp_limits usual;
    opgp_usual_limits(&usual);
    return opgp_reader_open(limits ? limits : &usual, reader);
}

/* The part is taken behind all that may fail, so it waits where there is no memory for a keyring. */
uint32_t opgp_take(opgp_reader *reader, opgp_keyring **keyring)
{
    opgp_keyring *it = new_keyring();
    return give_keyring(it ? opgp_reader_take(reader, &it->ring) : OPGP_MEMORY, it, keyring);
}

static void drop_batch(struct batch *batch)
{
    free(batch->rows);
    free(batch->bytes);
    *batch = (struct batch){0, 0, 0, NULL, NULL, {0, 0}};
}

void opgp_close(opgp_keyring *keyring)
{
    if (keyring) {
        opgp_ring_close(keyring->ring);
        free(keyring->packets);
        free(keyring->keys);
        free(keyring->jobs);
        free(keyring->subpackets);
        free(keyring->firsts);
        free(keyring->bodies);
        free(keyring->material);
        free(keyring->made);
        free(keyring->data);
        drop_batch(&keyring->batch);
        opgp_close(keyring->merged);
        pthread_mutex_destroy(&keyring->lock);
        free(keyring);
    }
}

uint32_t opgp_normalise(const opgp_keyring *keyring, opgp_keyring **made)
{
    opgp_keyring *it = new_keyring(), *from = enter(keyring);
    return give_keyring(leave(from, it ? opgp_ring_normalise(&from->ring, &it->ring) : OPGP_MEMORY), it, made);
}

uint32_t opgp_merge(const opgp_keyring *keyring, opgp_keyring **made)
{
    opgp_keyring *it = new_keyring(), *from = enter(keyring);
    return give_keyring(leave(from, it ? opgp_ring_merge(&from->ring, &it->ring) : OPGP_MEMORY), it, made);
}

/* Says in *is_same whether a merged keyring has as many packets and octets in them as the one that it was made of. Merging only leaves
 * out repetitions, so then it changed nothing. */
static uint32_t compare_packets(opgp_keyring *keyring, opgp_keyring *merged, bool *is_same)
{
    opgp_sizes own, others;
    uint32_t status = opgp_ring_packets(&keyring->ring, NULL, 0, NULL, 0, &own);
    status = status == OPGP_DONE || status == OPGP_ROOM ? opgp_ring_packets(&merged->ring, NULL, 0, NULL, 0, &others) : status;
    if (status == OPGP_DONE || status == OPGP_ROOM) {
        *is_same = own.rows == others.rows && own.bytes == others.bytes;
        return OPGP_DONE;
    }
    return status;
}

uint32_t opgp_merged(const opgp_keyring *keyring, const opgp_keyring **merged)
{
    opgp_keyring *it = enter(keyring), *made;
    uint32_t status = OPGP_DONE;
    if (!it->merged && !it->is_once) {
        made = new_keyring();
        status = give_keyring(made ? opgp_ring_merge(&it->ring, &made->ring) : OPGP_MEMORY, made, &made);
        status = status == OPGP_DONE ? compare_packets(it, made, &it->is_once) : status;
        if (status == OPGP_DONE && !it->is_once) {
            made->is_once = true;
            it->merged = made;
        } else {
            opgp_close(made);
        }
    }
    *merged = status != OPGP_DONE ? NULL : it->is_once ? it : it->merged;
    return leave(it, status);
}

uint32_t opgp_choose(const opgp_keyring *keyring, bool own_signatures, bool no_attributes, const uint64_t *user_ids, size_t count,
                     opgp_keyring **made)
{
    opgp_keyring *it = new_keyring(), *from = enter(keyring);
    uint32_t status = it ? opgp_ring_choose(&from->ring, own_signatures, no_attributes, user_ids, count, &it->ring) : OPGP_MEMORY;
    return give_keyring(leave(from, status), it, made);
}

uint32_t opgp_pick(const opgp_keyring *keyring, const uint8_t *picked, size_t count, opgp_keyring **made)
{
    opgp_keyring *it = new_keyring(), *from = enter(keyring);
    return give_keyring(leave(from, it ? opgp_ring_pick(&from->ring, picked, count, &it->ring) : OPGP_MEMORY), it, made);
}

uint32_t opgp_certificate(const opgp_keyring *keyring, uint64_t number, opgp_keyring **made)
{
    opgp_keyring *it = new_keyring(), *from = enter(keyring);
    return give_keyring(leave(from, it ? opgp_ring_certificate(&from->ring, number, &it->ring) : OPGP_MEMORY), it, made);
}

/* Joins a keyring with a copy of itself, which is what it makes joined with nothing. */
static uint32_t join_twice(opgp_ring *ring, opgp_ring *into)
{
    opgp_limits usual;
    opgp_fault unwanted;
    opgp_ring none = {false, NULL}, copy = {false, NULL};
    const uint8_t nothing = 0;
    opgp_usual_limits(&usual);
    uint32_t status = opgp_ring_open(&nothing, 0, &usual, &none, &unwanted);
    status = status == OPGP_DONE ? opgp_ring_join(ring, &none, &copy) : status;
    status = status == OPGP_DONE ? opgp_ring_join(ring, &copy, into) : status;
    opgp_ring_close(none);
    opgp_ring_close(copy);
    return status;
}

uint32_t opgp_join(const opgp_keyring *keyring, const opgp_keyring *other, opgp_keyring **made)
{
    /* Both are locked in the order of their addresses, so that no two calls wait for each other. */
    bool is_same = keyring == other, is_first = (uintptr_t)keyring < (uintptr_t)other;
    opgp_keyring *it = new_keyring(), *one = enter(is_first ? keyring : other), *two = is_same ? one : enter(is_first ? other : keyring);
    opgp_keyring *front = is_first ? one : two, *behind = is_first ? two : one;
    uint32_t status = OPGP_MEMORY;
    if (it) {
        status = is_same ? join_twice(&one->ring, &it->ring) : opgp_ring_join(&front->ring, &behind->ring, &it->ring);
    }
    if (!is_same) {
        leave(two, status);
    }
    return give_keyring(leave(one, status), it, made);
}

/* ---- Tables: each is made once, of a keyring that is locked. */

/* Makes one table if it isn't made yet: asked with no room, the call counts how much is wanted. Each octet of that room is filled then,
 * or the room is freed, so it is taken as it is. */
#define FILL(CALL, ROWS, BYTES, SIZES)                                                                             \
    static uint32_t want_##ROWS(opgp_keyring *it)                                                                  \
    {                                                                                                              \
        opgp_sizes room = {0, 0};                                                                                  \
        uint32_t status = it->ROWS ? OPGP_DONE : OPGP_ROOM;                                                        \
        for (; status == OPGP_ROOM; room = it->SIZES) {                                                            \
            it->ROWS = bare_room_for(room.rows, sizeof *it->ROWS);                                                 \
            it->BYTES = bare_room_for(room.bytes, 1);                                                              \
            status = !it->ROWS || !it->BYTES                                                                       \
                         ? OPGP_MEMORY                                                                             \
                         : CALL(&it->ring, it->ROWS, (size_t)room.rows, it->BYTES, (size_t)room.bytes, &it->SIZES); \
            if (status != OPGP_DONE) {                                                                             \
                free(it->ROWS);                                                                                    \
                free(it->BYTES);                                                                                   \
                it->ROWS = NULL;                                                                                   \
                it->BYTES = NULL;                                                                                  \
            }                                                                                                      \
        }                                                                                                          \
        return status;                                                                                             \
    }

FILL(opgp_ring_packets, packets, bodies, packet_sizes)
FILL(opgp_ring_keys, keys, material, key_sizes)
FILL(opgp_ring_jobs, jobs, made, job_sizes)
FILL(opgp_ring_subpackets, subpackets, data, subpacket_sizes)

/* Whether a subpacket is of the signature of this job. */
static bool is_of(const opgp_subpacket *subpacket, const opgp_job *job)
{
    return subpacket->certificate == job->certificate && subpacket->component == job->component
        && subpacket->hang == job->hang && subpacket->nested == job->nested;
}

/* Finds the subpackets of each job, which stand in the order of the jobs. */
static uint32_t find_firsts(opgp_keyring *it)
{
    size_t at = 0, jobs = (size_t)it->job_sizes.rows, count = (size_t)it->subpacket_sizes.rows;
    it->firsts = room_for(it->job_sizes.rows + 1, sizeof *it->firsts);
    if (!it->firsts) {
        return OPGP_MEMORY;
    }
    for (size_t row = 0; row < jobs; row++) {
        it->firsts[row] = at;
        while (at < count && is_of(&it->subpackets[at], &it->jobs[row])) {
            at++;
        }
    }
    it->firsts[jobs] = at;
    return OPGP_DONE;
}

/* The jobs and the subpackets, and which of these are of each job. */
static uint32_t want_firsts(opgp_keyring *it)
{
    uint32_t status = it->firsts ? OPGP_DONE : want_jobs(it);
    status = status == OPGP_DONE ? want_subpackets(it) : status;
    return status == OPGP_DONE && !it->firsts ? find_firsts(it) : status;
}

/* Gives the rows of a table, or none. */
#define TABLE(CALL, TYPE, ROWS, SIZES)                                                       \
    uint32_t CALL(const opgp_keyring *keyring, const TYPE **rows, size_t *count)             \
    {                                                                                        \
        opgp_keyring *it = enter(keyring);                                                   \
        uint32_t status = want_##ROWS(it);                                                   \
        *rows = status == OPGP_DONE ? it->ROWS : NULL;                                       \
        *count = status == OPGP_DONE ? (size_t)it->SIZES.rows : 0;                           \
        return leave(it, status);                                                            \
    }

TABLE(opgp_packets, opgp_packet, packets, packet_sizes)
TABLE(opgp_keys, opgp_key, keys, key_sizes)
TABLE(opgp_jobs, opgp_job, jobs, job_sizes)
TABLE(opgp_subpackets, opgp_subpacket, subpackets, subpacket_sizes)

/* Gives the rows of a certificate, whose numbers only grow from row to row, but for packets before the first one: OPGP_NONE and 1 are
 * 0. The rows begin behind as many as are of smaller numbers. */
#define ROWS_OF(CALL, TABLE_OF_ALL, TYPE)                                                                        \
    uint32_t CALL(const opgp_keyring *keyring, uint64_t certificate, const TYPE **rows, size_t *count)           \
    {                                                                                                            \
        size_t all, certificates, ends[2];                                                                       \
        const TYPE *first;                                                                                       \
        uint32_t status = opgp_certificate_count(keyring, &certificates);                                        \
        status = status == OPGP_DONE ? TABLE_OF_ALL(keyring, &first, &all) : status;                             \
        *rows = NULL;                                                                                            \
        *count = 0;                                                                                              \
        if (status != OPGP_DONE || certificate >= certificates) {                                                \
            return status == OPGP_DONE ? OPGP_NO_ROW : status;                                                   \
        }                                                                                                        \
        for (unsigned end = 0; end < 2; end++) {                                                                 \
            size_t low = 0, high = all;                                                                          \
            while (low < high) {                                                                                 \
                size_t middle = low + (high - low) / 2;                                                          \
                if (first[middle].certificate + 1 < certificate + 1 + end) {                                     \
                    low = middle + 1;                                                                            \
                } else {                                                                                         \
                    high = middle;                                                                               \
                }                                                                                                \
            }                                                                                                    \
            ends[end] = low;                                                                                     \
        }                                                                                                        \
        *count = ends[1] - ends[0];                                                                              \
        *rows = *count ? first + ends[0] : NULL;                                                                 \
        return OPGP_DONE;                                                                                        \
    }

ROWS_OF(opgp_packets_of, opgp_packets, opgp_packet)
ROWS_OF(opgp_keys_of, opgp_keys, opgp_key)
ROWS_OF(opgp_jobs_of, opgp_jobs, opgp_job)

uint32_t opgp_certificate_count(const opgp_keyring *keyring, size_t *count)
{
    const opgp_packet *rows;
    size_t packets;
    uint32_t status = opgp_packets(keyring, &rows, &packets);
    *count = packets > 0 ? (size_t)(rows[packets - 1].certificate + 1) : 0;
    return status;
}

uint32_t opgp_subpackets_of(const opgp_keyring *keyring, size_t row, const opgp_subpacket **rows, size_t *count)
{
    opgp_keyring *it = enter(keyring);
    uint32_t status = want_firsts(it);
    status = status == OPGP_DONE && row >= it->job_sizes.rows ? OPGP_NO_ROW : status;
    *count = status == OPGP_DONE ? it->firsts[row + 1] - it->firsts[row] : 0;
    *rows = *count ? &it->subpackets[it->firsts[row]] : NULL;
    return leave(it, status);
}

/* The packet that stands there, of a keyring whose packets are made; their places only grow, where OPGP_NONE and 1 are 0. */
static const opgp_packet *packet_at(const opgp_keyring *it, uint64_t certificate, uint64_t component, uint64_t hang)
{
    size_t low = 0, high = (size_t)it->packet_sizes.rows;
    const uint64_t place[] = {certificate + 1, component + 1, hang + 1};
    while (low < high) {
        size_t middle = low + (high - low) / 2;
        const opgp_packet *packet = &it->packets[middle];
        const uint64_t other[] = {packet->certificate + 1, packet->component + 1, packet->hang + 1};
        unsigned k = 0;
        while (k < 3 && other[k] == place[k]) {
            k++;
        }
        if (k == 3) {
            return packet;
        }
        if (other[k] < place[k]) {
            low = middle + 1;
        } else {
            high = middle;
        }
    }
    return NULL;
}

/* Gives the packet that stands there. */
static uint32_t find_packet(const opgp_keyring *keyring, const opgp_job *job, uint64_t hang, const opgp_packet **packet)
{
    opgp_keyring *it = enter(keyring);
    uint32_t status = want_packets(it);
    *packet = status == OPGP_DONE ? packet_at(it, job->certificate, job->component, hang) : NULL;
    return leave(it, status == OPGP_DONE && !*packet ? OPGP_NO_ROW : status);
}

uint32_t opgp_packet_of(const opgp_keyring *keyring, const opgp_job *job, const opgp_packet **packet)
{
    return find_packet(keyring, job, job->hang, packet);
}

uint32_t opgp_subject_of(const opgp_keyring *keyring, const opgp_job *job, const opgp_packet **packet)
{
    return find_packet(keyring, job, OPGP_NONE, packet);
}

uint32_t opgp_find_key(const opgp_keyring *keyring, const uint8_t *name, size_t size, size_t from, size_t *row)
{
    const opgp_key *keys;
    size_t count;
    uint32_t status = opgp_keys(keyring, &keys, &count);
    for (size_t i = from; i < count; i++) {
        if ((size == keys[i].print_size && memcmp(name, keys[i].print, size) == 0)
            || (size == sizeof keys[i].key_id && memcmp(name, keys[i].key_id, size) == 0)) {
            *row = i;
            return OPGP_DONE;
        }
    }
    return status == OPGP_DONE ? OPGP_NO_ROW : status;
}

/* ---- What rows point to */

opgp_span opgp_body(const opgp_keyring *keyring, const opgp_packet *packet)
{
    opgp_span found = {keyring->bodies + packet->at, (size_t)packet->size};
    return found;
}

/* The field of this number among those that stand one behind the other from at on. */
static opgp_span field(const uint8_t *bytes, uint64_t at, const uint64_t *sizes, unsigned count, unsigned number)
{
    opgp_span found = {bytes + at, 0};
    if (number < count) {
        for (unsigned k = 0; k < number; k++) {
            found.octets += sizes[k];
        }
        found.size = (size_t)sizes[number];
    }
    return found;
}

opgp_span opgp_key_field(const opgp_keyring *keyring, const opgp_key *key, unsigned number)
{
    return field(keyring->material, key->at, key->sizes, 4, number);
}

opgp_span opgp_job_field(const opgp_keyring *keyring, const opgp_job *job, unsigned number)
{
    return field(keyring->made, job->at, job->sizes, 2, number);
}

opgp_span opgp_issuer(const opgp_keyring *keyring, const opgp_job *job)
{
    opgp_span found = {keyring->made + job->at + job->sizes[0] + job->sizes[1], job->issuer_size};
    return found;
}

opgp_span opgp_data(const opgp_keyring *keyring, const opgp_subpacket *subpacket)
{
    opgp_span found = {keyring->data + subpacket->at, (size_t)subpacket->size};
    return found;
}

opgp_span opgp_subpacket_field(const opgp_keyring *keyring, const opgp_subpacket *subpacket, unsigned number)
{
    return field(keyring->data, subpacket->fields_at, subpacket->field_sizes, 2, number);
}

/* ---- Octets for the caller */

/* Gives the caller octets of this size if the status is OPGP_DONE, and else frees them. */
static uint32_t give(uint32_t status, uint8_t *room, uint64_t wanted, uint8_t **octets, size_t *size)
{
    if (status != OPGP_DONE) {
        free(room);
        room = NULL;
    }
    *octets = room;
    *size = room ? (size_t)wanted : 0;
    return status;
}

/* Makes room for a batch: for a part of what the keyring has. */
static bool has_batch(opgp_keyring *it)
{
    struct batch *batch = &it->batch;
    uint8_t byte;
    if (!batch->bytes) {
        if (it->size == 0) { /* of a part, or of a keyring that was made */
            opgp_ring_write(&it->ring, 0, &byte, 0, &it->size);
        }
        batch->most = it->size / PARTS < BATCH ? BATCH : it->size / PARTS;
        batch->rows = room_for(batch->most / OF_ROW, sizeof *batch->rows);
        batch->bytes = batch->rows ? malloc(batch->most) : NULL;
        if (!batch->bytes) {
            drop_batch(batch);
        }
    }
    return batch->bytes;
}

/* Makes a batch from this row of the jobs on: of as many rows as there is room for; of none where this one alone is larger. */
static bool fill_batch(opgp_keyring *it, uint64_t row)
{
    struct batch *batch = &it->batch;
    uint64_t count = batch->most / OF_ROW;
    uint32_t status = opgp_ring_hashed(&it->ring, row, count, batch->most, batch->rows, (size_t)count, batch->bytes, (size_t)batch->most,
                                       &batch->sizes);
    batch->first = row;
    batch->count = status == OPGP_DONE && batch->sizes.rows > 0 ? batch->rows[batch->sizes.rows - 1].row + 1 : 0;
    return batch->count > 0;
}

/* What the signature of a row of the batch hashes; NULL where it isn't hashed. */
static const opgp_hashed *hashed_in(const struct batch *batch, uint64_t row)
{
    size_t low = 0, high = (size_t)batch->sizes.rows;
    row -= batch->first;
    while (low < high) {
        size_t middle = low + (high - low) / 2;
        if (batch->rows[middle].row < row) {
            low = middle + 1;
        } else {
            high = middle;
        }
    }
    return low < batch->sizes.rows && batch->rows[low].row == row ? &batch->rows[low] : NULL;
}

/* Gives what the signature of a row of the batch hashes. */
static uint32_t give_hashed(const struct batch *batch, uint64_t row, uint8_t **octets, size_t *size)
{
    const opgp_hashed *hashed = hashed_in(batch, row);
    uint8_t *room = hashed ? malloc(hashed->size ? (size_t)hashed->size : 1) : NULL;
    if (room) {
        memcpy(room, batch->bytes + hashed->at, (size_t)hashed->size);
    }
    return give(!hashed ? OPGP_NO_ROW : room ? OPGP_DONE : OPGP_MEMORY, room, hashed ? hashed->size : 0, octets, size);
}

/* Gives what the signature of a row hashes, to which a walk leads from the first row on. */
static uint32_t give_row(opgp_keyring *it, uint64_t row, uint8_t **octets, size_t *size)
{
    uint64_t wanted = 0;
    uint8_t byte, *room = NULL;
    uint32_t status = opgp_ring_octets(&it->ring, row, &byte, 0, &wanted);

    if (status == OPGP_ROOM || status == OPGP_DONE) {
        room = room_for(wanted, 1);
        status = room ? opgp_ring_octets(&it->ring, row, room, (size_t)wanted, &wanted) : OPGP_MEMORY;
    }
    return give(status, room, wanted, octets, size);
}

/* Who asks for the row behind the one asked for last is given it from a batch, so that each walk serves many. */
uint32_t opgp_octets(const opgp_keyring *keyring, uint64_t row, uint8_t **octets, size_t *size)
{
    opgp_keyring *it = enter(keyring);
    bool goes_on = row == it->next_row && row != OPGP_NONE, is_there = row - it->batch.first < it->batch.count;
    it->next_row = row == OPGP_NONE ? row : row + 1;
    if (it->jobs && (row >= it->job_sizes.rows || it->jobs[row].why != OPGP_WHY_HASHED)) {
        return leave(it, give(OPGP_NO_ROW, NULL, 0, octets, size));
    }
    is_there = is_there || (goes_on && has_batch(it) && fill_batch(it, row));
    return leave(it, is_there ? give_hashed(&it->batch, row, octets, size) : give_row(it, row, octets, size));
}

uint32_t opgp_write(const opgp_keyring *keyring, bool armor, uint8_t **text, size_t *size)
{
    opgp_keyring *it = enter(keyring);
    uint64_t wanted = 0;
    uint8_t byte, *room = NULL;
    uint32_t status = opgp_ring_write(&it->ring, armor, &byte, 0, &wanted);

    if (status == OPGP_ROOM || status == OPGP_DONE) {
        room = room_for(wanted, 1);
        status = room ? opgp_ring_write(&it->ring, armor, room, (size_t)wanted, &wanted) : OPGP_MEMORY;
    }
    return leave(it, give(status, room, wanted, text, size));
}

/* ---- Signatures over a document */

/* Makes the table, with the signers of a handle. */
static uint32_t fill_signatures(opgp_document *document, opgp_ring *ring, opgp_job **rows, uint8_t **bytes, opgp_sizes *sizes)
{
    uint32_t status = opgp_document_jobs(document, ring, NULL, 0, NULL, 0, sizes);
    if (status != OPGP_ROOM) { /* there is at least one signature */
        return status;
    }
    *rows = room_for(sizes->rows, sizeof **rows);
    *bytes = room_for(sizes->bytes, 1);
    if (!*rows || !*bytes) {
        return OPGP_MEMORY;
    }
    return opgp_document_jobs(document, ring, *rows, (size_t)sizes->rows, *bytes, (size_t)sizes->bytes, sizes);
}

/* The same with no signers: those of a keyring that has nothing. */
static uint32_t fill_alone(opgp_document *document, opgp_job **rows, uint8_t **bytes, opgp_sizes *sizes)
{
    opgp_limits usual;
    opgp_fault unwanted;
    opgp_ring none = {false, NULL};
    const uint8_t nothing = 0;
    opgp_usual_limits(&usual);
    uint32_t status = opgp_ring_open(&nothing, 0, &usual, &none, &unwanted);
    status = status == OPGP_DONE ? fill_signatures(document, &none, rows, bytes, sizes) : status;
    opgp_ring_close(none);
    return status;
}

uint32_t opgp_signatures(opgp_document *document, const opgp_keyring *keyring, opgp_job **rows, size_t *count, uint8_t **bytes)
{
    opgp_sizes sizes = {0, 0};
    uint32_t status;
    *rows = NULL;
    *bytes = NULL;
    if (keyring) {
        opgp_keyring *it = enter(keyring);
        status = leave(it, fill_signatures(document, &it->ring, rows, bytes, &sizes));
    } else {
        status = fill_alone(document, rows, bytes, &sizes);
    }
    if (status != OPGP_DONE) {
        free(*rows);
        free(*bytes);
        *rows = NULL;
        *bytes = NULL;
    }
    *count = *rows ? (size_t)sizes.rows : 0;
    return status;
}

/* ---- Verifying */

/* The question about the signature in a row, which has this job and what its algorithm made. Its signer is of this keyring. */
static opgp_question question_of(const opgp_keyring *keyring, size_t row, const opgp_job *job, const uint8_t *made)
{
    opgp_question question = {.row = row, .job = job, .signer = job->signer == OPGP_NONE ? NULL : &keyring->keys[job->signer]};
    for (unsigned k = 0; k < 2; k++) {
        question.made[k] = field(made, job->at, job->sizes, 2, k);
    }
    for (unsigned k = 0; question.signer && k < 4; k++) {
        question.key[k] = opgp_key_field(keyring, question.signer, k);
    }
    return question;
}

/* What is found of the signature of a question. */
static opgp_verdict verdict_of(const opgp_question *question, opgp_verifier *verify, void *context)
{
    const opgp_job *job = question->job;
    if (job->is_bad) {
        return OPGP_BAD;
    }
    if (!verify || job->why != OPGP_WHY_HASHED || !question->signer || question->signer->version != job->version) {
        return OPGP_UNDECIDED;
    }
    opgp_verdict verdict = verify(context, question);
    return verdict == OPGP_GOOD || verdict == OPGP_BAD ? verdict : OPGP_UNDECIDED;
}

/* The tables that are gone through are made, so they don't change any more, and no lock is held while others are called. */
uint32_t opgp_check(const opgp_keyring *keyring, opgp_verifier *verify, opgp_reporter *report, void *context)
{
    const opgp_key *keys;
    const opgp_job *jobs;
    size_t count;
    uint32_t status = opgp_keys(keyring, &keys, &count);
    status = status == OPGP_DONE ? opgp_jobs(keyring, &jobs, &count) : status;
    for (size_t row = 0; status == OPGP_DONE && row < count; row++) {
        opgp_question question = question_of(keyring, row, &jobs[row], keyring->made);
        status = report(context, row, &jobs[row], verdict_of(&question, verify, context)) == 0 ? OPGP_DONE : OPGP_ENDED;
    }
    return status;
}

/* ---- Judging */

/* The signatures over a document, and what is found of them by a keyring that is merged. */
struct judging {
    const opgp_keyring *keyring;
    const opgp_key *keys; /* of the keyring */
    size_t key_count;
    opgp_job *jobs; /* of the document */
    uint8_t *made;
    opgp_subpacket *subpackets; /* of its signatures, in order, and their data */
    uint8_t *data;
    size_t count, good;
    opgp_verdict found[OPGP_MOST_SIGNATURES];
    uint8_t whys[OPGP_MOST_SIGNATURES];      /* why each isn't believed */
    opgp_cause causes[OPGP_MOST_SIGNATURES]; /* the same, if it is since its key isn't */
    size_t signers[OPGP_MOST_SIGNATURES];    /* the row of its signer's key, where that is so */
    size_t firsts[OPGP_MOST_SIGNATURES + 1]; /* the number of its first subpacket, and behind the last one how many there are */
    bool *has_signer;                        /* of each certificate, whether it says of a good one's key if that is believed */
    uint8_t *verdicts;                       /* on the rows of the keyring, but only of those certificates */
    opgp_place *places;                      /* room for that of each key, */
    uint8_t *of_places;                      /* the why of each place, */
    size_t *rows;                            /* and its key's row */
};

/* Whether the key in this row is the one that made a signature over the document. */
static bool is_signer(const struct judging *it, size_t row, size_t key)
{
    const opgp_key *one = &it->keys[key], *other = &it->keys[it->jobs[row].signer];
    return one->version == other->version && memcmp(one->print, other->print, sizeof one->print) == 0;
}

/* Makes the table of the subpackets of the signatures over a document. */
static uint32_t fill_subpackets(struct judging *it, opgp_document *document)
{
    opgp_sizes sizes = {0, 0};
    uint32_t status = opgp_document_subpackets(document, NULL, 0, NULL, 0, &sizes);
    if (status == OPGP_ROOM) {
        it->subpackets = room_for(sizes.rows, sizeof *it->subpackets);
        it->data = room_for(sizes.bytes, 1);
        status = !it->subpackets || !it->data ? OPGP_MEMORY
                                              : opgp_document_subpackets(document, it->subpackets, (size_t)sizes.rows, it->data,
                                                                         (size_t)sizes.bytes, &sizes);
    }
    for (size_t row = 0, at = 0; status == OPGP_DONE && row <= it->count; row++) {
        while (at < sizes.rows && it->subpackets[at].hang < row) {
            at++;
        }
        it->firsts[row] = at;
    }
    return status;
}

/* Whether two signatures over the document have the same subpackets, in the same areas. */
static bool has_same_subpackets(const struct judging *it, size_t row, size_t other)
{
    size_t count = it->firsts[row + 1] - it->firsts[row];
    bool is_same = count == it->firsts[other + 1] - it->firsts[other];
    for (size_t i = 0; is_same && i < count; i++) {
        const opgp_subpacket *one = &it->subpackets[it->firsts[row] + i], *two = &it->subpackets[it->firsts[other] + i];
        is_same = one->kind == two->kind && one->is_critical == two->is_critical && one->is_hashed == two->is_hashed
                  && one->size == two->size && memcmp(it->data + one->at, it->data + two->at, (size_t)one->size) == 0;
    }
    return is_same;
}

/* Whether two signatures over the document are equal in all that judging looks at. */
static bool is_equal(const struct judging *it, size_t row, size_t other)
{
    const opgp_job *one = &it->jobs[row], *two = &it->jobs[other];
    size_t size = (size_t)(one->sizes[0] + one->sizes[1]) + one->issuer_size;
    return one->signer == two->signer && one->version == two->version && one->kind == two->kind && one->algorithm == two->algorithm
           && one->hash == two->hash && one->sizes[0] == two->sizes[0] && one->sizes[1] == two->sizes[1]
           && one->issuer_size == two->issuer_size && memcmp(one->digest, two->digest, sizeof one->digest) == 0
           && memcmp(it->made + one->at, it->made + two->at, size) == 0 && has_same_subpackets(it, row, other);
}

/* Finds the verdicts on the document's signatures. */
static void find_good(struct judging *it, opgp_verifier *verify, void *context)
{
    for (size_t row = 0; row < it->count; row++) {
        opgp_question question = question_of(it->keyring, row, &it->jobs[row], it->made);
        it->found[row] = verdict_of(&question, verify, context);
        it->good += it->found[row] == OPGP_GOOD;
        it->whys[row] = OPGP_NOT_GOOD;
        it->signers[row] = question.signer ? (size_t)it->jobs[row].signer : it->key_count;
    }
}

/* Whether an equal signer made a good signature in front of this one. */
static bool is_marked(const struct judging *it, size_t row)
{
    for (size_t other = 0; other < row; other++) {
        if (it->found[other] == OPGP_GOOD && it->jobs[other].signer == it->jobs[row].signer) {
            return true;
        }
    }
    return false;
}

/* Whether a signature of a keyring may bind a subkey to its certificate. Where none may, it is unbound, whatever else is found. */
static bool may_bind(const opgp_job *job, const opgp_key *key)
{
    return job->kind == OPGP_SIGNATURE_SUBKEY_BINDING && job->component == key->component && job->why == OPGP_WHY_HASHED && !job->is_bad
           && job->signer != OPGP_NONE;
}

/* Marks the certificates that have the signer of a good signature over the document, and whose own signatures say whether it is believed
 * there, or why not at its first place. Both tables are in the order of the certificates. */
static void mark_signer(struct judging *it, size_t row)
{
    const opgp_keyring *keyring = it->keyring;
    size_t next = 0;
    for (size_t key = (size_t)it->jobs[row].signer; key < it->key_count; key++) {
        uint64_t certificate = it->keys[key].certificate;
        if (!is_signer(it, row, key)) {
            continue;
        }
        bool counts = key == it->jobs[row].signer || it->keys[key].component == OPGP_NONE;
        while (next < keyring->job_sizes.rows && keyring->jobs[next].certificate < certificate) {
            next++;
        }
        for (size_t at = next; !counts && at < keyring->job_sizes.rows && keyring->jobs[at].certificate == certificate; at++) {
            counts = may_bind(&keyring->jobs[at], &it->keys[key]);
        }
        it->has_signer[certificate] |= counts;
    }
}

/* Marks them for each signer of good ones, once. */
static uint32_t mark_signers(struct judging *it)
{
    const opgp_job *jobs;
    size_t count;
    uint32_t status = opgp_jobs(it->keyring, &jobs, &count);
    it->has_signer = room_for(it->key_count ? it->keys[it->key_count - 1].certificate + 1 : 0, sizeof *it->has_signer);
    for (size_t row = 0; status == OPGP_DONE && it->has_signer && row < it->count; row++) {
        if (it->found[row] == OPGP_GOOD && !is_marked(it, row)) {
            mark_signer(it, row);
        }
    }
    return status == OPGP_DONE && !it->has_signer ? OPGP_MEMORY : status;
}

/* The verdict on the signature in a row of a keyring. A key revocation is over the primary key alone, wherever it is (5.2.1.11): so
 * what it hashes is given, where it is one. */
static opgp_verdict verdict_in(const opgp_keyring *it, size_t row, const opgp_revocation *revocation, opgp_verifier *verify,
                               void *context)
{
    opgp_job job = it->jobs[row];
    if (job.why == OPGP_WHY_MISPLACED && revocation) {
        job.why = OPGP_WHY_HASHED;
        job.digest_size = revocation->digest_size;
        memcpy(job.digest, revocation->digest, sizeof job.digest);
        job.is_bad = memcmp(job.digest, job.left, sizeof job.left) != 0;
    }
    opgp_question question = question_of(it, row, &job, it->made);
    return verdict_of(&question, verify, context);
}

/* Whether a signature of a keyring is of the type of key revocations. */
static bool has_revocation(const opgp_keyring *it)
{
    for (size_t row = 0; row < it->job_sizes.rows; row++) {
        if (it->jobs[row].kind == OPGP_SIGNATURE_KEY_REVOCATION) {
            return true;
        }
    }
    return false;
}

/* Makes the table of what the key revocations of a keyring hash, for free(), and those that the verifier is asked by. */
static uint32_t make_revocations(const opgp_keyring *keyring, opgp_revocation **rows, uint64_t *count)
{
    opgp_keyring *it = enter(keyring);
    uint32_t status = want_keys(it);
    status = status == OPGP_DONE ? want_jobs(it) : status;
    *count = 0;
    status = status == OPGP_DONE && has_revocation(it) ? opgp_ring_revocations(&it->ring, NULL, 0, count) : status;
    *rows = status == OPGP_DONE || status == OPGP_ROOM ? room_for(*count, sizeof **rows) : NULL;
    if (status == OPGP_ROOM) {
        status = *rows ? opgp_ring_revocations(&it->ring, *rows, (size_t)*count, count) : OPGP_MEMORY;
    }
    return leave(it, *rows || status != OPGP_DONE ? status : OPGP_MEMORY);
}

/* Whether a signature certifies a user ID or an attribute, or revokes that (types 10 to 13, and 30), and another key made it than the
 * primary one. However good it is, that says nothing of how keys and user IDs stand. */
static bool is_foreign(const opgp_keyring *it, const opgp_job *job, const opgp_key *primary)
{
    bool certifies = job->kind >= OPGP_SIGNATURE_GENERIC_CERTIFICATION && job->kind <= OPGP_SIGNATURE_POSITIVE_CERTIFICATION;
    if (job->signer == OPGP_NONE || !(certifies || job->kind == OPGP_SIGNATURE_CERTIFICATION_REVOCATION)) {
        return false;
    }
    const opgp_key *signer = &it->keys[job->signer];
    return signer->version != primary->version || memcmp(signer->print, primary->print, sizeof primary->print) != 0;
}

/* Finds the verdicts on the rows of a keyring, for free(): of these certificates alone, or of all if that is NULL. Those that say nothing
 * stay undecided. The tables don't change any more, so no lock is held while the verifier is called. */
static uint32_t find_verdicts(const opgp_keyring *keyring, const bool *of_certificate, opgp_verifier *verify, void *context,
                              uint8_t **verdicts)
{
    opgp_revocation *revocations = NULL;
    uint64_t count = 0, next = 0;
    size_t primary = 0; /* the first key of the row's certificate */
    uint32_t status = make_revocations(keyring, &revocations, &count);
    *verdicts = status == OPGP_DONE ? room_for(keyring->job_sizes.rows, sizeof **verdicts) : NULL;
    for (size_t row = 0; *verdicts && row < keyring->job_sizes.rows; row++) {
        bool is_one = next < count && revocations[next].row == row;
        const opgp_job *job = &keyring->jobs[row];
        while (keyring->keys[primary].certificate < job->certificate) {
            primary++;
        }
        bool counts = !of_certificate || of_certificate[job->certificate];
        if (counts && !is_foreign(keyring, job, &keyring->keys[primary])) {
            (*verdicts)[row] = (uint8_t)verdict_in(keyring, row, is_one ? &revocations[next] : NULL, verify, context);
        }
        next += is_one;
    }
    free(revocations);
    return status == OPGP_DONE && !*verdicts ? OPGP_MEMORY : status;
}

/* Finds the places of the key that made a signature over the document; how many they are. */
static size_t find_places(struct judging *it, size_t row)
{
    size_t count = 0;
    for (size_t key = 0; key < it->key_count; key++) {
        if (is_signer(it, row, key)) {
            it->places[count] = (opgp_place){it->keys[key].certificate, it->keys[key].component};
            it->rows[count++] = key;
        }
    }
    return count;
}

/* Whether a signature isn't believed since its key isn't. */
static bool is_of_key(uint8_t why)
{
    return why >= OPGP_IN_FUTURE && why <= OPGP_UNBACKED;
}

/* Finds why a good signature isn't believed: at no place of its key, and then what is so at the first one. An equal one in front of it has
 * the same answer. */
static uint32_t find_why(struct judging *it, opgp_document *document, size_t row, uint32_t policy, uint64_t now)
{
    for (size_t other = 0; other < row; other++) {
        if (it->found[other] == OPGP_GOOD && is_equal(it, row, other)) {
            it->whys[row] = it->whys[other];
            it->signers[row] = it->signers[other];
            it->causes[row] = it->causes[other];
            return OPGP_DONE;
        }
    }
    uint64_t size;
    size_t count = find_places(it, row), best = 0;
    opgp_keyring *keyring = enter(it->keyring);
    uint32_t status = opgp_document_standings(document, &keyring->ring, it->verdicts, (size_t)keyring->job_sizes.rows, policy, row,
                                              it->places, count, now, it->of_places, count, &size);
    for (size_t place = 0; status == OPGP_DONE && place < count && it->of_places[best] != OPGP_BELIEVED; place++) {
        best = it->of_places[place] == OPGP_BELIEVED ? place : 0;
    }
    if (status == OPGP_DONE) {
        it->whys[row] = it->of_places[best];
        it->signers[row] = it->rows[best];
        if (is_of_key(it->whys[row])) {
            const opgp_place *at = &it->places[best];
            status = opgp_ring_cause(&keyring->ring, it->verdicts, (size_t)keyring->job_sizes.rows, policy, at->certificate,
                                     at->component, it->jobs[row].created, now, &it->causes[row]);
        }
    }
    return leave(keyring, status);
}

/* Finds why the good signatures aren't believed. */
static uint32_t find_whys(struct judging *it, opgp_document *document, uint32_t policy, uint64_t now, opgp_verifier *verify, void *context)
{
    uint32_t status = mark_signers(it);
    status = status == OPGP_DONE ? find_verdicts(it->keyring, it->has_signer, verify, context, &it->verdicts) : status;
    status = status == OPGP_DONE ? fill_subpackets(it, document) : status;
    it->places = room_for(it->key_count, sizeof *it->places);
    it->of_places = room_for(it->key_count, sizeof *it->of_places);
    it->rows = room_for(it->key_count, sizeof *it->rows);
    if (status == OPGP_DONE && (!it->places || !it->of_places || !it->rows)) {
        status = OPGP_MEMORY;
    }
    for (size_t row = 0; status == OPGP_DONE && row < it->count; row++) {
        status = it->found[row] == OPGP_GOOD ? find_why(it, document, row, policy, now) : OPGP_DONE;
    }
    return status;
}

/* Finds all of that. */
static uint32_t judge(struct judging *it, opgp_document *document, uint32_t policy, uint64_t now, opgp_verifier *verify,
                      void *context)
{
    uint32_t status = opgp_keys(it->keyring, &it->keys, &it->key_count);
    status = status == OPGP_DONE ? opgp_signatures(document, it->keyring, &it->jobs, &it->count, &it->made) : status;
    if (status == OPGP_DONE) {
        find_good(it, verify, context);
    }
    return status == OPGP_DONE && it->good > 0 ? find_whys(it, document, policy, now, verify, context) : status;
}

/* The question about a signature over the document that is reported: by its signer's key where that is judged. */
static opgp_question reported(const struct judging *it, size_t row)
{
    opgp_question question = question_of(it->keyring, row, &it->jobs[row], it->made);
    question.signer = question.signer ? &it->keys[it->signers[row]] : NULL;
    question.cause = is_of_key(it->whys[row]) ? &it->causes[row] : NULL;
    for (unsigned k = 0; question.signer && k < 4; k++) {
        question.key[k] = opgp_key_field(it->keyring, question.signer, k);
    }
    return question;
}

uint32_t opgp_judge(opgp_document *document, const opgp_keyring *keyring, uint32_t policy, uint64_t now,
                    opgp_verifier *verify, opgp_judge_reporter *report, void *context)
{
    struct judging it = {.count = 0};
    uint32_t status = policy > OPGP_POLICY_ANY ? OPGP_LIMITS : opgp_merged(keyring, &it.keyring);
    status = status == OPGP_DONE ? judge(&it, document, policy, now, verify, context) : status;
    for (size_t row = 0; status == OPGP_DONE && row < it.count; row++) {
        opgp_question question = reported(&it, row);
        status = report(context, &question, it.found[row], it.whys[row]) == 0 ? OPGP_DONE : OPGP_ENDED;
    }
    free(it.jobs);
    free(it.made);
    free(it.subpackets);
    free(it.data);
    free(it.has_signer);
    free(it.verdicts);
    free(it.places);
    free(it.of_places);
    free(it.rows);
    return status;
}

/* Makes the table of how the parts of a keyring stand, for free(). */
static uint32_t make_states(opgp_keyring *it, const uint8_t *verdicts, uint32_t policy, uint64_t at, opgp_state **rows, uint64_t *count)
{
    size_t found = (size_t)it->job_sizes.rows;
    uint32_t status = opgp_ring_states(&it->ring, verdicts, found, policy, at, NULL, 0, count);
    *rows = status == OPGP_DONE || status == OPGP_ROOM ? room_for(*count, sizeof **rows) : NULL;
    if (status == OPGP_ROOM) {
        status = *rows ? opgp_ring_states(&it->ring, verdicts, found, policy, at, *rows, (size_t)*count, count) : OPGP_MEMORY;
    }
    if (status == OPGP_DONE && !*rows) {
        status = OPGP_MEMORY;
    }
    return status;
}

uint32_t opgp_revocations(const opgp_keyring *keyring, opgp_revocation **rows, size_t *count)
{
    uint64_t found = 0;
    uint32_t status = make_revocations(keyring, rows, &found);
    if (status != OPGP_DONE) {
        free(*rows);
        *rows = NULL;
    }
    *count = *rows ? (size_t)found : 0;
    return status;
}

uint32_t opgp_states(const opgp_keyring *keyring, uint32_t policy, uint64_t at, opgp_verifier *verify, void *context,
                     opgp_state **rows, size_t *count)
{
    const opgp_keyring *merged = NULL;
    uint8_t *verdicts = NULL;
    uint64_t found = 0;
    uint32_t status = policy > OPGP_POLICY_ANY ? OPGP_LIMITS : opgp_merged(keyring, &merged);
    status = status == OPGP_DONE ? find_verdicts(merged, NULL, verify, context, &verdicts) : status;
    *rows = NULL;
    if (status == OPGP_DONE) {
        opgp_keyring *it = enter(merged);
        status = leave(it, make_states(it, verdicts, policy, at, rows, &found));
    }
    free(verdicts);
    if (status != OPGP_DONE) {
        free(*rows);
        *rows = NULL;
    }
    *count = *rows ? (size_t)found : 0;
    return status;
}

/* A file of verdicts has more than ROW octets for each of its rows, so that room for so many is nearly always enough. */
uint32_t opgp_read_verdicts(const opgp_keyring *keyring, const uint8_t *file, size_t n, uint8_t **verdicts, size_t *count)
{
    enum { ROW = 32 };
    const uint8_t nothing = 0;
    const opgp_keyring *merged = NULL;
    uint8_t *room = NULL;
    uint64_t wanted = n / ROW;
    uint32_t status = opgp_merged(keyring, &merged);
    if (status != OPGP_DONE) {
        return give(status, room, wanted, verdicts, count);
    }
    opgp_keyring *it = enter(merged);
    status = OPGP_ROOM;
    while (status == OPGP_ROOM) {
        size_t size = (size_t)wanted;
        free(room);
        room = room_for(wanted, 1);
        status = room ? opgp_ring_verdicts(&it->ring, file || n > 0 ? file : &nothing, n, room, size, &wanted) : OPGP_MEMORY;
    }
    return leave(it, give(status, room, wanted, verdicts, count));
}

/* ---- Texts */

const char *opgp_status_text(uint32_t status)
{
    static const char *const texts[] = {
        [OPGP_DONE] = "done",
        [OPGP_REFUSED] = "the input is refused",
        [OPGP_ROOM] = "too little room",
        [OPGP_MEMORY] = "out of memory",
        [OPGP_LIMITS] = "a limit is out of its range",
        [OPGP_CLOSED] = "the handle holds nothing",
        [OPGP_NO_ROW] = "no such row",
        [OPGP_ENDED] = "the input has ended",
        [OPGP_MANY] = "too many signatures",
        [OPGP_GOING] = "the document hasn't ended",
    };
    return status < sizeof texts / sizeof *texts ? texts[status] : "unknown";
}

/* Ends a text of this size if the status is OPGP_DONE; else there is none. */
static char *ended(uint32_t status, char *text, uint64_t size)
{
    if (status != OPGP_DONE) {
        return strcpy(text, "unknown");
    }
    text[size] = '\0';
    return text;
}

char *opgp_name_text(uint32_t table, uint8_t number, char text[OPGP_NAME_ROOM])
{
    uint64_t size = 0;
    uint32_t status = opgp_name(table, number, (uint8_t *)text, OPGP_NAME_ROOM - 1, &size);
    return ended(status, text, size);
}

char *opgp_fault_text(const opgp_fault *fault, char text[OPGP_FAULT_ROOM])
{
    uint64_t size = 0;
    uint32_t status = opgp_fault_line(fault, (uint8_t *)text, OPGP_FAULT_ROOM - 1, &size);
    return ended(status, text, size);
}
