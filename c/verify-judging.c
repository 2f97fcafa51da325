/* What is found of the signatures over a document, by the calls of libopgp and by verify-arithmetic.c. Section numbers are those of
 * RFC 9580. */
#include "verify-judging.h"

#include "verify-hints.h"
#include "verify-words.h"

#include <errno.h>
#include <stdlib.h>
#include <string.h>

/* The most octets of a line that can be allowed. The text of a message is in memory anyway, and real ones have long lines. */
#define MOST_LINE ((uint64_t)1 << 20)

/* What arithmetic said of a signature, and to which question, as octets_of has it. */
struct answer {
    uint8_t *asked;
    size_t size;
    struct finding finding;
};

/* Those that were kept, in order. */
struct answers {
    struct answer *all;
    size_t count, room;
};

struct judging {
    const char *program;
    FILE *(*open)(const char *name);
    enum intake intake;
    bool refuses_malformed;
    opgp_document document;
    opgp_keyring *keyring; /* all that were read */

    uint8_t *text; /* the document of a cleartext message; NULL: it is none */
    size_t text_size;

    opgp_subpacket *subpackets; /* of the document's signatures, in order */
    size_t subpacket_count;

    uint64_t skipped; /* octets outside of the armored blocks of keyrings */

    struct answers of_keyrings, of_document; /* of the first call of opgp_judge */

    /* Of the call of opgp_judge that is made now. */
    struct arithmetic *arithmetic;
    unsigned decisive;
    bool is_again;                        /* it isn't the first one: what arithmetic says of the document's signatures is known */
    bool is_taken[OPGP_MOST_SIGNATURES];  /* what is found of the signature is taken from it */
    size_t next;                          /* the next of the answers on signatures of keyrings */
    struct finding findings[OPGP_MOST_SIGNATURES];

    struct judged rows[OPGP_MOST_SIGNATURES];
    uint64_t homes[OPGP_MOST_SIGNATURES]; /* where a row has a key: the certificate of it, of the keyring merged */
    size_t count;
    char *texts[OPGP_MOST_SIGNATURES]; /* the user IDs, for free() */
    char whys[OPGP_MOST_SIGNATURES][OPGP_NAME_ROOM]; /* why they aren't hashed */
};

/* ---- What is said */

static enum outcome said(const struct judging *it, enum outcome outcome, const char *text)
{
    say(it->program, "%s", text);
    return outcome;
}

/* Says why a call of the library failed. */
static enum outcome failed(const struct judging *it, uint32_t status)
{
    return said(it, STEP_FAILED, opgp_status_text(status));
}

/* Says why a file can't be read, as errno has it. */
static enum outcome cannot_read(const struct judging *it, enum outcome outcome, const char *name)
{
    say(it->program, "can't read '%s': %s", name, strerror(errno));
    return outcome;
}

/* Says why the library didn't take the file of this name. */
static enum outcome refused(const struct judging *it, const char *name, uint32_t status, const opgp_fault *fault)
{
    char text[OPGP_FAULT_ROOM];
    if (status == OPGP_MANY) {
        say(it->program, "'%s': more than %d signatures", name, OPGP_MOST_SIGNATURES);
        return STEP_REFUSED;
    }
    if (status == OPGP_REFUSED) {
        say(it->program, "'%s': %s", name, opgp_fault_text(fault, text));
        return STEP_REFUSED;
    }
    return failed(it, status);
}

/* The same of a file of keys or signatures, with these octets, by a second line where there is one. */
static enum outcome refused_packets(const struct judging *it, const char *name, enum intake intake, const uint8_t *octets, size_t size,
                                    uint32_t status, const opgp_fault *fault)
{
    enum outcome outcome = refused(it, name, status, fault);
    if (status == OPGP_REFUSED) {
        hint_of_fault(it->program, intake, octets, size, fault);
    }
    return outcome;
}

/* ---- Reading */

struct judging *judging_new(const char *program, FILE *(*open)(const char *name), enum intake intake)
{
    struct judging *it = calloc(1, sizeof *it);
    if (it) {
        it->program = program;
        it->open = open;
        it->intake = intake;
    }
    return it;
}

void judging_refuses_malformed(struct judging *it)
{
    it->refuses_malformed = true;
}

static void free_answers(struct answers *it)
{
    for (size_t i = 0; i < it->count; i++) {
        free(it->all[i].asked);
    }
    free(it->all);
}

void judging_free(struct judging *it)
{
    if (it) {
        for (size_t row = 0; row < it->count; row++) {
            free(it->texts[row]);
        }
        free_answers(&it->of_keyrings);
        free_answers(&it->of_document);
        free(it->subpackets);
        free(it->text);
        opgp_close(it->keyring);
        opgp_document_clear(&it->document);
        free(it);
    }
}

/* All octets of the file of this name, for free(). */
static enum outcome read_named(const struct judging *it, const char *name, uint8_t **octets, size_t *size)
{
    FILE *file = it->open(name);
    enum outcome outcome = STEP_DONE;
    if (!file) {
        return cannot_read(it, STEP_MISSING, name);
    }
    *octets = read_all(file, size);
    if (!*octets) {
        outcome = said(it, STEP_FAILED, "out of memory");
    } else if (ferror(file)) {
        outcome = cannot_read(it, STEP_UNREAD, name);
        free(*octets);
    }
    close_named(file);
    return outcome;
}

enum outcome judging_signatures(struct judging *it, const char *name)
{
    size_t size;
    uint8_t *octets;
    opgp_limits usual;
    opgp_fault fault;
    enum outcome outcome = read_named(it, name, &octets, &size);
    if (outcome != STEP_DONE) {
        return outcome;
    }
    opgp_usual_limits(&usual);
    uint32_t status = opgp_document_open(octets, size, OPGP_MODE_AUTO, &usual, &it->document, &fault);
    outcome = status == OPGP_DONE ? STEP_DONE : refused_packets(it, name, INTAKE_NONE, octets, size, status, &fault);
    free(octets);
    return outcome;
}

/* Whether octets that are no cleartext message are another signed one: packets, or an armored text of them. */
static bool is_other_message(const uint8_t *octets, size_t size)
{
    static const char begin[] = "-----BEGIN PGP MESSAGE-----";
    return size > 0 && (octets[0] >= 0x80 || (size >= sizeof begin - 1 && memcmp(octets, begin, sizeof begin - 1) == 0));
}

enum outcome judging_cleartext(struct judging *it, const char *name)
{
    size_t size;
    uint8_t *octets;
    uint64_t text_size = 0;
    opgp_limits limits;
    opgp_fault fault;
    enum outcome outcome = read_named(it, name, &octets, &size);
    if (outcome != STEP_DONE) {
        return outcome;
    }
    opgp_usual_limits(&limits);
    limits.line = MOST_LINE;
    it->text = malloc(size + 1);
    uint32_t status = OPGP_MEMORY;
    if (it->text) {
        status = opgp_cleartext_open(octets, size, &limits, it->text, size, &text_size, &it->document, &fault);
    }
    if (status == OPGP_DONE) {
        it->text_size = (size_t)text_size; /* less than the message has */
        it->text[it->text_size] = '\n';
    } else {
        outcome = refused(it, name, status, &fault);
        if (status == OPGP_REFUSED && is_other_message(octets, size)) {
            said(it, outcome, "of signed messages only cleartext ones are read");
        }
    }
    free(octets);
    return outcome;
}

const uint8_t *judging_text(const struct judging *it, size_t *size)
{
    *size = it->text_size;
    return it->text;
}

static enum outcome read_keyring(struct judging *it, const char *name, opgp_keyring **keyring)
{
    size_t size;
    uint8_t *octets;
    uint64_t skipped = 0;
    opgp_limits limits;
    opgp_fault fault;
    enum outcome outcome = read_named(it, name, &octets, &size);
    if (outcome != STEP_DONE) {
        return outcome;
    }
    opgp_usual_limits(&limits);
    limits.policies |= it->refuses_malformed ? 0 : OPGP_KEEP_MALFORMED;
    uint32_t status = opgp_open(octets, size, &limits, keyring, &fault);
    status = status == OPGP_DONE ? opgp_skipped(*keyring, &skipped) : status;
    it->skipped += skipped;
    outcome = status == OPGP_DONE ? STEP_DONE : refused_packets(it, name, it->intake, octets, size, status, &fault);
    free(octets);
    return outcome;
}

/* Makes the first of these keyrings all of them, in order: neighbours are joined until one is left, so that none is copied often. */
static enum outcome join_all(const struct judging *it, opgp_keyring **keyrings, size_t count)
{
    for (; count > 1; count = (count + 1) / 2) {
        for (size_t i = 0; i + 1 < count; i += 2) {
            opgp_keyring *joined;
            uint32_t status = opgp_join(keyrings[i], keyrings[i + 1], &joined);
            opgp_close(keyrings[i]);
            opgp_close(keyrings[i + 1]);
            keyrings[i] = keyrings[i + 1] = NULL;
            keyrings[i / 2] = joined;
            if (status != OPGP_DONE) {
                return failed(it, status);
            }
        }
        if (count % 2 == 1) {
            keyrings[count / 2] = keyrings[count - 1];
            keyrings[count - 1] = NULL;
        }
    }
    return STEP_DONE;
}

enum outcome judging_keyrings(struct judging *it, const char *const *names, size_t count)
{
    opgp_keyring **keyrings = calloc(count + 1, sizeof *keyrings);
    enum outcome outcome = keyrings ? STEP_DONE : said(it, STEP_FAILED, "out of memory");
    for (size_t i = 0; outcome == STEP_DONE && i < count; i++) {
        outcome = read_keyring(it, names[i], &keyrings[i]);
    }
    outcome = outcome == STEP_DONE ? join_all(it, keyrings, count) : outcome;
    if (outcome == STEP_DONE) {
        it->keyring = keyrings[0];
        keyrings[0] = NULL;
        hint_of_skipped(it->program, it->skipped);
    }
    for (size_t i = 0; keyrings && i < count; i++) {
        opgp_close(keyrings[i]);
    }
    free(keyrings);
    return outcome;
}

/* Gives the document its octets, piece by piece. */
enum outcome judging_document(struct judging *it, const char *name)
{
    static uint8_t piece[1 << 16];
    size_t size = sizeof piece;
    uint32_t status = OPGP_DONE;
    enum outcome outcome = STEP_DONE;
    FILE *file = it->open(name);
    if (!file) {
        return cannot_read(it, STEP_MISSING, name);
    }
    while (outcome == STEP_DONE && status == OPGP_DONE && size == sizeof piece) { /* a shorter piece is the last one */
        size = fread(piece, 1, sizeof piece, file);
        outcome = ferror(file) ? cannot_read(it, STEP_UNREAD, name) : STEP_DONE;
        status = opgp_document_push(&it->document, piece, size);
    }
    close_named(file);
    status = status == OPGP_DONE ? opgp_document_end(&it->document) : status;
    return outcome == STEP_DONE && status != OPGP_DONE ? failed(it, status) : outcome;
}

/* ---- Verdicts */

unsigned decisive_by(uint32_t policy)
{
    return DOUBT_CRITICAL | (policy == OPGP_POLICY_USUAL ? DOUBT_WEAK_HASH | DOUBT_SMALL_KEY : 0);
}

bool is_asked(const opgp_job *job, const opgp_key *signer)
{
    return signer && !job->is_bad && job->why == OPGP_WHY_HASHED && signer->version == job->version;
}

struct finding found_without(const opgp_job *job)
{
    return (struct finding){job->is_bad ? OPGP_BAD : OPGP_UNDECIDED, job->signer == OPGP_NONE ? "absent" : "version", 0};
}

/* Makes the table of the signatures' subpackets. Asked with no room, the call counts how much is wanted. */
static uint32_t make_subpackets(struct judging *it)
{
    opgp_sizes sizes = {0, 0};
    uint32_t status = opgp_document_subpackets(&it->document, NULL, 0, NULL, 0, &sizes);
    if (status == OPGP_ROOM) {
        uint8_t *data = malloc((size_t)sizes.bytes + 1);
        it->subpackets = calloc((size_t)sizes.rows, sizeof *it->subpackets);
        status = !data || !it->subpackets ? OPGP_MEMORY
                                          : opgp_document_subpackets(&it->document, it->subpackets, (size_t)sizes.rows, data,
                                                                     (size_t)sizes.bytes, &sizes);
        free(data);
    }
    it->subpacket_count = status == OPGP_DONE ? (size_t)sizes.rows : 0;
    return status;
}

/* The subpackets of a signature over the document; NULL if it has none. */
static const opgp_subpacket *subpackets_of(const struct judging *it, size_t row, size_t *count)
{
    size_t begin = 0;
    while (begin < it->subpacket_count && it->subpackets[begin].hang < row) {
        begin++;
    }
    size_t end = begin;
    while (end < it->subpacket_count && it->subpackets[end].hang == row) {
        end++;
    }
    *count = end - begin;
    return begin < end ? &it->subpackets[begin] : NULL;
}

/* Puts octets, behind how many they are. */
static uint8_t *put_octets(uint8_t *room, const void *octets, size_t size)
{
    memcpy(room, &size, sizeof size);
    if (size > 0) {
        memcpy(room + sizeof size, octets, size);
    }
    return room + sizeof size + size;
}

/* All that the answer to a question about which there are these doubts depends on, for free(): the doubts, numbers of algorithms, the
 * digest, what the signature's algorithm made, and the key's material. NULL if memory ran out. */
static uint8_t *octets_of(const opgp_question *question, unsigned doubts, size_t *size)
{
    const uint8_t numbers[] = {(uint8_t)doubts, question->job->algorithm, question->job->hash, question->signer->algorithm};
    const opgp_span spans[] = {
        {numbers, sizeof numbers}, {question->job->digest, question->job->digest_size},
        question->made[0],         question->made[1],
        question->key[0],          question->key[1],
        question->key[2],          question->key[3],
    };
    *size = 0;
    for (size_t i = 0; i < sizeof spans / sizeof *spans; i++) {
        *size += sizeof *size + spans[i].size;
    }
    uint8_t *octets = malloc(*size), *end = octets;
    for (size_t i = 0; octets && i < sizeof spans / sizeof *spans; i++) {
        end = put_octets(end, spans[i].octets, spans[i].size);
    }
    return octets;
}

/* Keeps the answer to a question. Where there is no memory for it, it isn't kept: the question can be asked again. */
static void keep_answer(struct answers *it, const opgp_question *question, unsigned doubts, struct finding finding)
{
    if (it->count == it->room) {
        size_t room = 2 * it->room + 16;
        struct answer *more = realloc(it->all, room * sizeof *more);
        if (!more) {
            return;
        }
        it->all = more;
        it->room = room;
    }
    struct answer answer = {NULL, 0, finding};
    answer.asked = octets_of(question, doubts, &answer.size);
    if (answer.asked) {
        it->all[it->count++] = answer;
    }
}

/* Finds the answer to a question among those kept, from this one on, which is then the next one; false if it isn't there. */
static bool is_known(const struct answers *it, size_t *next, const opgp_question *question, unsigned doubts, struct finding *found)
{
    size_t size;
    uint8_t *asked = octets_of(question, doubts, &size);
    bool is_found = false;
    while (asked && !is_found && *next < it->count) {
        const struct answer *one = &it->all[(*next)++];
        is_found = one->size == size && memcmp(one->asked, asked, size) == 0;
        *found = is_found ? one->finding : *found;
    }
    free(asked);
    return is_found;
}

/* Asks the key of a signature of a keyring: the rule has doubts of its own about those. A later call of opgp_judge asks in the order of the
 * first one. */
static opgp_verdict verify_of_keyring(struct judging *it, const opgp_question *question)
{
    struct finding found = {OPGP_UNDECIDED, NULL, 0};
    if (!it->is_again || !is_known(&it->of_keyrings, &it->next, question, 0, &found)) {
        found = arithmetic_of(it->arithmetic, question, 0, 0);
    }
    if (!it->is_again) {
        keep_answer(&it->of_keyrings, question, 0, found);
    }
    return found.verdict;
}

/* Asks the key of a signature over the document, about which doubts decide; of equal ones once. */
static struct finding found_of_document(struct judging *it, const opgp_question *question)
{
    size_t count, next = 0;
    const opgp_subpacket *subpackets = subpackets_of(it, question->row, &count);
    unsigned doubts = doubts_of(question->job, subpackets, count);
    struct finding found = {OPGP_UNDECIDED, NULL, doubts};
    if (!is_known(&it->of_document, &next, question, doubts, &found)) {
        found = arithmetic_of(it->arithmetic, question, doubts, it->decisive);
        keep_answer(&it->of_document, question, doubts, found);
    }
    return found;
}

/* Finds the verdict on a signature. One over the document is good only in a call of opgp_judge from which it is taken. */
static opgp_verdict verify(void *context, const opgp_question *question)
{
    struct judging *it = context;
    if (memory_ran_out()) {
        return OPGP_UNDECIDED;
    }
    if (question->job->certificate != OPGP_NONE) {
        return verify_of_keyring(it, question);
    }
    if (!it->is_again) {
        it->findings[question->row] = found_of_document(it, question);
    }
    return it->is_taken[question->row] ? it->findings[question->row].verdict : OPGP_UNDECIDED;
}

/* Writes octets in hexadecimal, and a NUL. */
static void put_digits(char *text, const uint8_t *octets, size_t size)
{
    for (size_t i = 0; i < size; i++) {
        sprintf(text + 2 * i, "%02X", octets[i]);
    }
    text[2 * size] = 0;
}

/* How many bits an integer has. */
static size_t bits_of(opgp_span integer)
{
    while (integer.size > 0 && integer.octets[0] == 0) {
        integer.octets++;
        integer.size--;
    }
    size_t bits = 8 * integer.size;
    for (unsigned first = bits > 0 ? integer.octets[0] : 128; first < 128; first *= 2) {
        bits--;
    }
    return bits;
}

/* The name that programs have for the curve of an object identifier (9.2). */
static const char *curve_name_of(opgp_span identifier)
{
    static const struct {
        const char *name, *octets;
    } curves[] = {
        {"nistp256", "\x2A\x86\x48\xCE\x3D\x03\x01\x07"},
        {"nistp384", "\x2B\x81\x04\x00\x22"},
        {"nistp521", "\x2B\x81\x04\x00\x23"},
        {"brainpoolP256r1", "\x2B\x24\x03\x03\x02\x08\x01\x01\x07"},
        {"brainpoolP384r1", "\x2B\x24\x03\x03\x02\x08\x01\x01\x0B"},
        {"brainpoolP512r1", "\x2B\x24\x03\x03\x02\x08\x01\x01\x0D"},
        {"secp256k1", "\x2B\x81\x04\x00\x0A"},
        {"ed25519", "\x2B\x06\x01\x04\x01\xDA\x47\x0F\x01"},
    };
    static const size_t sizes[] = {8, 5, 5, 9, 9, 9, 5, 9};
    for (size_t i = 0; i < sizeof curves / sizeof *curves; i++) {
        if (identifier.size == sizes[i] && memcmp(identifier.octets, curves[i].octets, sizes[i]) == 0) {
            return curves[i].name;
        }
    }
    return "unknown";
}

/* Writes the name of a key's algorithm, with its size in bits where it has several. */
static void put_key_name(char text[KEY_NAME_ROOM], const opgp_question *question)
{
    switch (question->signer->algorithm) {
    case OPGP_KEY_RSA:
    case OPGP_KEY_RSA_SIGN_ONLY: snprintf(text, KEY_NAME_ROOM, "rsa%zu", bits_of(question->key[0])); return;
    case OPGP_KEY_DSA: snprintf(text, KEY_NAME_ROOM, "dsa%zu", bits_of(question->key[0])); return;
    case OPGP_KEY_ECDSA:
    case OPGP_KEY_EDDSA_LEGACY: snprintf(text, KEY_NAME_ROOM, "%s", curve_name_of(question->key[0])); return;
    case OPGP_KEY_ED25519: strcpy(text, "ed25519"); return;
    case OPGP_KEY_ED448: strcpy(text, "ed448"); return;
    default: strcpy(text, "unknown");
    }
}

/* When a signature with these subpackets expires; 0: never. Of several times the earliest counts, as for the rule. */
static uint64_t expiry_of(const opgp_job *job, const opgp_subpacket *subpackets, size_t count)
{
    uint64_t least = 0;
    for (size_t i = 0; i < count; i++) {
        const opgp_subpacket *one = &subpackets[i];
        bool counts = one->kind == OPGP_SUBPACKET_EXPIRATION_TIME && one->is_hashed && one->form == OPGP_FORM_NUMBER && one->numbers[0] > 0;
        if (counts && (least == 0 || one->numbers[0] < least)) {
            least = one->numbers[0];
        }
    }
    return least > 0 ? job->created + least : 0;
}

/* Fills the row of a signature with what is said by it and its key. */
static void fill_row(struct judging *it, const opgp_question *question)
{
    const opgp_job *job = question->job;
    const opgp_key *signer = question->signer;
    size_t count;
    const opgp_subpacket *subpackets = subpackets_of(it, question->row, &count);
    struct judged *row = &it->rows[question->row];
    row->number = question->row;
    row->version = job->version;
    row->kind = job->kind;
    row->algorithm = job->algorithm;
    row->hash = job->hash;
    row->is_hashed = job->why == OPGP_WHY_HASHED;
    memcpy(row->digest, job->digest, sizeof row->digest);
    row->is_dated = job->is_dated;
    row->made = job->created;
    row->expires = expiry_of(job, subpackets, count);
    if (signer) {
        put_digits(row->key, signer->print, signer->print_size);
        put_digits(row->key_id, signer->key_id, sizeof signer->key_id);
        put_key_name(row->key_name, question);
    }
}

/* Takes what was found of a signature: in the first call all of it, in a later one whether it is believed. opgp_judge reports it by the key
 * in that certificate by whose signatures it is believed. */
static int take(void *context, const opgp_question *question, opgp_verdict verdict, uint8_t why)
{
    struct judging *it = context;
    struct judged *row = &it->rows[question->row];
    if (memory_ran_out()) {
        return 1;
    }
    const opgp_job *job = question->job;
    if (!it->is_again) {
        fill_row(it, question);
        struct finding found = is_asked(job, question->signer) ? it->findings[question->row] : found_without(job);
        row->verdict = verdict;
        row->why = row->is_hashed ? found.why : opgp_name_text(OPGP_WHYS, job->why, it->whys[question->row]);
        it->count = question->row + 1;
    }
    if (it->is_taken[question->row]) {
        row->standing = verdict == OPGP_GOOD ? why : OPGP_NOT_GOOD;
        row->cause = question->cause ? *question->cause : (opgp_cause){.why = OPGP_BELIEVED};
        it->homes[question->row] = question->signer ? question->signer->certificate : OPGP_NONE;
    }
    return 0;
}

/* Calls opgp_judge. libcrypto's keys are those of one call: the rows of the next one's table may stand where those of this one did. */
static enum outcome judge(struct judging *it, uint32_t policy, uint64_t now)
{
    it->decisive = decisive_by(policy);
    it->next = 0;
    it->arithmetic = arithmetic_new();
    uint32_t status = it->arithmetic ? opgp_judge(&it->document, it->keyring, policy, now, verify, take, it) : OPGP_MEMORY;
    arithmetic_free(it->arithmetic);
    it->arithmetic = NULL;
    if (status == OPGP_ENDED || (status == OPGP_DONE && memory_ran_out())) {
        return said(it, STEP_FAILED, "out of memory");
    }
    return status == OPGP_DONE ? STEP_DONE : failed(it, status);
}

/* Takes the names of issuers, which the rows of opgp_judge don't have. */
static uint32_t take_issuers(struct judging *it)
{
    opgp_job *jobs;
    uint8_t *made;
    size_t count;
    uint32_t status = opgp_signatures(&it->document, NULL, &jobs, &count, &made);
    for (size_t i = 0; status == OPGP_DONE && i < count && i < it->count; i++) {
        const uint8_t *name = made + jobs[i].at + jobs[i].sizes[0] + jobs[i].sizes[1];
        size_t size = jobs[i].issuer_size;
        put_digits(it->rows[i].issuer, name, size);
        if (!it->rows[i].key_id[0] && size >= 8) {
            put_digits(it->rows[i].key_id, size == 20 ? name + 12 : name, 8);
        }
    }
    free(jobs);
    free(made);
    return status;
}

enum outcome judging_verdicts(struct judging *it, uint32_t policy, uint64_t now)
{
    uint32_t status = make_subpackets(it);
    it->is_again = false;
    for (size_t row = 0; row < OPGP_MOST_SIGNATURES; row++) {
        it->is_taken[row] = true;
    }
    return status == OPGP_DONE ? judge(it, policy, now) : failed(it, status);
}

/* From the next call of opgp_judge those of the signatures that are left are taken that were made then. */
static void take_made(struct judging *it, bool is_left[OPGP_MOST_SIGNATURES], uint64_t made)
{
    for (size_t row = 0; row < it->count; row++) {
        it->is_taken[row] = is_left[row] && it->rows[row].made == made;
        is_left[row] = is_left[row] && !it->is_taken[row];
    }
}

enum outcome judging_ahead(struct judging *it, uint32_t policy, uint64_t now, uint64_t most)
{
    bool is_left[OPGP_MOST_SIGNATURES] = {false};
    enum outcome outcome = STEP_DONE;
    for (size_t i = 0; i < it->count; i++) {
        const struct judged *row = &it->rows[i];
        bool is_future = row->verdict == OPGP_GOOD && row->standing == OPGP_IN_FUTURE;
        is_left[i] = is_future && row->made > now && row->made - now <= most;
    }
    it->is_again = true;
    for (size_t i = 0; outcome == STEP_DONE && i < it->count; i++) {
        if (is_left[i]) {
            take_made(it, is_left, it->rows[i].made);
            outcome = judge(it, policy, it->rows[i].made);
        }
    }
    return outcome;
}

/* ---- Names */

/* The verdicts on the rows of a certificate, by arithmetic alone. */
struct verdicts {
    const struct judging *judging;
    struct arithmetic *arithmetic;
    size_t next; /* the next of the answers that are kept */
    uint8_t *found;
};

/* Asks the key of a signature, unless it was asked just that before, since arithmetic takes longer than all else. The signatures of a
 * certificate come in one order: behind one that isn't found none is looked for, so that the work is linear. */
static opgp_verdict verify_own(void *context, const opgp_question *question)
{
    struct verdicts *it = context;
    if (memory_ran_out()) {
        return OPGP_UNDECIDED;
    }
    struct finding found = {OPGP_UNDECIDED, NULL, 0};
    if (!is_known(&it->judging->of_keyrings, &it->next, question, 0, &found)) {
        found = arithmetic_of(it->arithmetic, question, 0, 0);
    }
    it->found[question->row] = (uint8_t)found.verdict;
    return found.verdict;
}

/* Whether the certification in a row is heard at a time, as the rule has it: no doubt decides, no hashed subpacket is malformed, it was made by
 * then, at one time, and it hasn't expired; and whether it marks its user ID as primary (5.2.3.27). One that is older than the key needn't be
 * looked for: those that certify the user ID are newer. */
static uint32_t find_mark(const opgp_keyring *keyring, size_t row, uint32_t policy, uint64_t now, bool *is_heard, bool *marks)
{
    const opgp_subpacket *subpackets;
    const opgp_job *jobs;
    size_t count, job_count;
    uint32_t status = opgp_jobs(keyring, &jobs, &job_count);
    status = status == OPGP_DONE ? opgp_subpackets_of(keyring, row, &subpackets, &count) : status;
    *is_heard = *marks = false;
    if (status == OPGP_DONE) {
        const opgp_job *job = &jobs[row];
        uint64_t expiry = expiry_of(job, subpackets, count);
        bool is_doubted = doubts_of(job, subpackets, count) & decisive_by(policy);
        for (size_t i = 0; i < count; i++) {
            bool is_mark = subpackets[i].kind == OPGP_SUBPACKET_PRIMARY_USER_ID && subpackets[i].is_hashed;
            *marks = *marks || (is_mark && subpackets[i].numbers[0] > 0);
            is_doubted = is_doubted || (subpackets[i].is_hashed && subpackets[i].meaning == 1);
        }
        *is_heard = !is_doubted && job->is_dated && job->created <= now && (expiry == 0 || now < expiry);
    }
    return status;
}

/* How much a user ID is to be the primary one, by the newest certification of it by the primary key, which is that of the first row: more
 * where that marks it so, and the newer it is. The rows from the next one on are looked at, which are in the order of the components. */
static uint32_t rank_of(const opgp_keyring *keyring, uint64_t component, size_t *next, const uint8_t *verdicts, uint32_t policy,
                        uint64_t now, uint64_t *rank)
{
    const opgp_job *jobs;
    size_t count;
    uint64_t newest = 0;
    uint32_t status = opgp_jobs(keyring, &jobs, &count);
    while (*next < count && jobs[*next].component + 1 < component + 1) {
        ++*next;
    }
    for (; status == OPGP_DONE && *next < count && jobs[*next].component == component; ++*next) {
        const opgp_job *job = &jobs[*next];
        bool is_kind = job->kind >= OPGP_SIGNATURE_GENERIC_CERTIFICATION && job->kind <= OPGP_SIGNATURE_POSITIVE_CERTIFICATION;
        bool counts = is_kind && job->signer == 0 && verdicts[*next] == OPGP_GOOD;
        bool is_heard = false, marks = false;
        if (counts && job->created >= newest) {
            status = find_mark(keyring, *next, policy, now, &is_heard, &marks);
        }
        if (is_heard) {
            newest = job->created;
            *rank = newest | (marks ? (uint64_t)1 << 32 : 0);
        }
    }
    return status;
}

/* Copies the text of the user ID of a component, for free(). */
static uint32_t copy_user_id(const opgp_keyring *keyring, uint64_t component, char **text, size_t *size)
{
    const opgp_packet *packets;
    size_t count;
    uint32_t status = opgp_packets(keyring, &packets, &count);
    for (size_t i = 0; status == OPGP_DONE && i < count; i++) {
        if (packets[i].component == component && packets[i].hang == OPGP_NONE && packets[i].kind == OPGP_PACKET_USER_ID) {
            opgp_span body = opgp_body(keyring, &packets[i]);
            *text = malloc(body.size + 1);
            if (!*text) {
                return OPGP_MEMORY;
            }
            memcpy(*text, body.octets, body.size);
            *size = body.size;
            return OPGP_DONE;
        }
    }
    return status;
}

/* Finds the text of the primary user ID of a keyring that is one certificate, by how its parts stand and the verdicts on its rows. */
static uint32_t pick_user_id(const opgp_keyring *keyring, const opgp_state *states, size_t state_count, const uint8_t *verdicts,
                             uint32_t policy, uint64_t now, char **text, size_t *size)
{
    const opgp_packet *packets;
    size_t packet_count = 0, next = 0;
    uint64_t best = 0, found = OPGP_NONE;
    uint32_t status = opgp_packets(keyring, &packets, &packet_count);
    for (size_t i = 0; status == OPGP_DONE && i < packet_count; i++) {
        bool is_user_id = packets[i].kind == OPGP_PACKET_USER_ID && packets[i].hang == OPGP_NONE;
        /* The state of the component behind that of the primary key. */
        if (is_user_id && packets[i].component + 1 < state_count && states[packets[i].component + 1].why == OPGP_BELIEVED) {
            uint64_t rank = 0;
            status = rank_of(keyring, packets[i].component, &next, verdicts, policy, now, &rank);
            if (found == OPGP_NONE || rank > best) {
                best = rank;
                found = packets[i].component;
            }
        }
    }
    return status == OPGP_DONE && found != OPGP_NONE ? copy_user_id(keyring, found, text, size) : status;
}

/* The same, with what it takes. */
static uint32_t find_user_id(const struct judging *it, const opgp_keyring *keyring, uint32_t policy, uint64_t now, char **text,
                             size_t *size)
{
    const opgp_job *jobs;
    opgp_state *states = NULL;
    size_t count, state_count = 0;
    uint32_t status = opgp_jobs(keyring, &jobs, &count);
    struct verdicts verdicts = {it, NULL, 0, NULL};
    if (status == OPGP_DONE) {
        verdicts.arithmetic = arithmetic_new();
        verdicts.found = calloc(count + 1, 1);
        status = verdicts.arithmetic && verdicts.found
                     ? opgp_states(keyring, policy, now, verify_own, &verdicts, &states, &state_count)
                     : OPGP_MEMORY;
    }
    status = status == OPGP_DONE ? pick_user_id(keyring, states, state_count, verdicts.found, policy, now, text, size) : status;
    status = status == OPGP_DONE && memory_ran_out() ? OPGP_MEMORY : status;
    arithmetic_free(verdicts.arithmetic);
    free(verdicts.found);
    free(states);
    return status;
}

/* Names the primary key and the user ID of a row's certificate, one of this keyring's, which is merged. */
static uint32_t name_row(struct judging *it, size_t row, const opgp_keyring *merged, uint32_t policy, uint64_t now)
{
    const opgp_key *keys;
    size_t count;
    opgp_keyring *one = NULL;
    struct judged *judged = &it->rows[row];
    for (size_t other = 0; other < row; other++) {
        if (it->homes[other] == it->homes[row] && it->rows[other].primary[0]) {
            strcpy(judged->primary, it->rows[other].primary);
            judged->user_id = it->rows[other].user_id;
            judged->user_id_size = it->rows[other].user_id_size;
            return OPGP_DONE;
        }
    }
    uint32_t status = opgp_keys_of(merged, it->homes[row], &keys, &count);
    if (status == OPGP_DONE) {
        put_digits(judged->primary, keys[0].print, keys[0].print_size);
        status = opgp_certificate(merged, it->homes[row], &one);
    }
    status = status == OPGP_DONE ? find_user_id(it, one, policy, now, &it->texts[row], &judged->user_id_size) : status;
    judged->user_id = it->texts[row] ? it->texts[row] : "";
    opgp_close(one);
    return status;
}

enum outcome judging_names(struct judging *it, uint32_t policy, uint64_t now)
{
    const opgp_keyring *merged = NULL;
    uint32_t status = take_issuers(it);
    status = status == OPGP_DONE ? opgp_merged(it->keyring, &merged) : status;
    for (size_t row = 0; status == OPGP_DONE && row < it->count; row++) {
        it->rows[row].user_id = "";
        status = it->homes[row] != OPGP_NONE ? name_row(it, row, merged, policy, now) : OPGP_DONE;
    }
    return status == OPGP_DONE ? STEP_DONE : failed(it, status);
}

const struct judged *judging_rows(const struct judging *it, size_t *count)
{
    *count = it->count;
    return it->rows;
}
