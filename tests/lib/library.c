/* Reads inputs through libopgp, each in several ways. On standard input each comes behind its number of octets, as four octets,
 * big-endian. Words are ways: a number N is pieces of N octets, 0 is one call, `odd` is pieces of 1, 3, 9 and so on up to 729
 * octets, again and again, and `long` is pieces of 1 octet within lines of up to 2^20; `normalise`, `merge`, `first` and `end` (its first and its last certificate), `twice` (joined with itself)
 * and `chosen` (own signatures, no attributes, the first user ID) are keyrings that are made of that of one call; `armor` is its armor,
 * `last` what the last signature hashes, `whole` what each of them hashes and `rows` the lines of their rows, as the program writes both.
 * Standard output has for each input and each way, both behind their sizes as those of inputs: the lines of the keys, or else the line of
 * the fault or status; and the octets of the packets. */
#define _POSIX_C_SOURCE 200809L

#include <opgp.h>

#include <inttypes.h>
#include <stdio.h>
#include <stdlib.h>
#include <string.h>

enum { LARGEST_ODD = 729, LONGEST_LINE = 1 << 20 };

static void fail(const char *what)
{
    fprintf(stderr, "tests/lib/library.c: %s failed\n", what);
    exit(3);
}

static void *some(void *given, const char *what)
{
    if (!given) {
        fail(what);
    }
    return given;
}

/* A text that grows. */
struct text {
    FILE *file;
    char *octets;
    size_t size;
};

static void begin(struct text *text)
{
    text->file = some(open_memstream(&text->octets, &text->size), "open_memstream");
}

/* Writes the text behind its size, and frees it. */
static void end(struct text *text)
{
    if (fclose(text->file) != 0) {
        fail("a text");
    }
    uint8_t size[4] = {(uint8_t)(text->size >> 24), (uint8_t)(text->size >> 16), (uint8_t)(text->size >> 8), (uint8_t)text->size};
    fwrite(size, 1, sizeof size, stdout);
    fwrite(text->octets, 1, text->size, stdout);
    free(text->octets);
}

static void print_key(FILE *file, const opgp_key *key)
{
    fprintf(file, "%s v%u alg %u created %" PRIu32 " ", key->component == OPGP_NONE ? "pub" : "sub", key->version, key->algorithm,
            key->created);
    for (size_t i = 0; i < key->print_size; i++) {
        fprintf(file, "%02X", key->print[i]);
    }
    fputc(' ', file);
    for (size_t i = 0; i < sizeof key->key_id; i++) {
        fprintf(file, "%02X", key->key_id[i]);
    }
    fputc('\n', file);
}

#define ROWS_BY(NAME, CALL, TYPE)                                       \
    static const TYPE *NAME(const opgp_keyring *keyring, size_t *count) \
    {                                                                   \
        const TYPE *rows;                                               \
        if (CALL(keyring, &rows, count) != OPGP_DONE) {                 \
            fail(#CALL);                                                \
        }                                                               \
        return rows;                                                    \
    }

ROWS_BY(packets_in, opgp_packets, opgp_packet)
ROWS_BY(keys_in, opgp_keys, opgp_key)
ROWS_BY(jobs_in, opgp_jobs, opgp_job)

/* The data of each subpacket stands right behind that of the one before, and its fields behind the octets of its numbers; they end
 * where the data does, but for the octet 0 behind a text. Each has the place of its signature. */
static void hold_subpackets(const opgp_keyring *keyring)
{
    static const uint8_t of_numbers[] = {0, 4, 1, 2, 0, 0, 2, 0, 8, 1, 2, 0, 1, 0};
    uint64_t data = 0;
    size_t jobs;
    const opgp_job *first = jobs_in(keyring, &jobs);
    for (size_t row = 0; row < jobs; row++) {
        const opgp_job *job = &first[row];
        size_t count;
        const opgp_subpacket *rows;
        if (opgp_subpackets_of(keyring, row, &rows, &count) != OPGP_DONE) {
            fail("opgp_subpackets_of");
        }
        for (size_t number = 0; number < count; number++) {
            const opgp_subpacket *it = &rows[number];
            uint64_t fields = it->field_sizes[0] + it->field_sizes[1];
            uint64_t end = it->at + it->size - (it->form == OPGP_FORM_ENDED_TEXT);
            if (it->at != data || it->form >= sizeof of_numbers || it->fields_at != it->at + of_numbers[it->form]
                || (it->form != OPGP_FORM_NONE && it->fields_at + fields != end) || (it->form == OPGP_FORM_NONE && fields != 0)
                || it->certificate != job->certificate || it->component != job->component || it->hang != job->hang
                || it->nested != job->nested) {
                fail("the place of a subpacket");
            }
            data += it->size;
        }
    }
}

/* The fields of each row stand right behind those of the row before, also of a row that has none. */
static void hold_places(const opgp_keyring *keyring)
{
    uint64_t packets = 0, keys = 0, jobs = 0;
    size_t count;
    const opgp_packet *packet = packets_in(keyring, &count);
    for (size_t number = 0; number < count; packets += packet[number++].size) {
        if (packet[number].at != packets) {
            fail("the place of a packet");
        }
    }
    const opgp_key *first_key = keys_in(keyring, &count);
    for (size_t number = 0; number < count; number++) {
        const opgp_key *key = &first_key[number];
        if (key->at != keys) {
            fail("the place of a key");
        }
        keys += key->sizes[0] + key->sizes[1] + key->sizes[2] + key->sizes[3];
    }
    const opgp_job *first_job = jobs_in(keyring, &count);
    for (size_t number = 0; number < count; number++) {
        const opgp_job *job = &first_job[number];
        if (job->at != jobs) {
            fail("the place of a signature");
        }
        jobs += job->sizes[0] + job->sizes[1] + job->issuer_size;
    }
    hold_subpackets(keyring);
}

/* What a way finds. */
struct found {
    struct text lines, octets;
    size_t parts;
};

/* Adds a keyring, which is closed. */
static void add(struct found *found, opgp_keyring *keyring)
{
    uint8_t *octets;
    size_t size;
    hold_places(keyring);
    found->parts++;
    size_t keys;
    const opgp_key *first = keys_in(keyring, &keys);
    for (size_t number = 0; number < keys; number++) {
        print_key(found->lines.file, &first[number]);
    }
    if (opgp_write(keyring, false, &octets, &size) != OPGP_DONE) {
        fail("opgp_write");
    }
    fwrite(octets, 1, size, found->octets.file);
    free(octets);
    opgp_close(keyring);
}

/* Lets go what was found of an input that isn't a keyring: the line says why. */
static void refuse(struct found *found, uint32_t status, const opgp_fault *fault)
{
    char line[OPGP_FAULT_ROOM];
    for (struct text *it = &found->lines; it; it = it == &found->lines ? &found->octets : NULL) {
        fclose(it->file);
        free(it->octets);
        begin(it);
    }
    fprintf(found->lines.file, "%s\n", status == OPGP_REFUSED ? opgp_fault_text(fault, line) : opgp_status_text(status));
}

static void in_one_call(struct found *found, const uint8_t *in, size_t n)
{
    opgp_keyring *keyring;
    opgp_fault fault;
    uint32_t status = opgp_open(in, n, NULL, &keyring, &fault);
    if (status == OPGP_DONE) {
        add(found, keyring);
    } else {
        refuse(found, status, &fault);
    }
}

/* Adds the parts that wait; OPGP_DONE when none does. */
static uint32_t take_all(struct found *found, opgp_reader *reader)
{
    opgp_keyring *part;
    uint32_t status;
    while ((status = opgp_take(reader, &part)) == OPGP_DONE) {
        add(found, part);
    }
    return status == OPGP_NO_ROW ? OPGP_DONE : status;
}

/* In pieces of this size (0: of odd sizes), with lines of up to so many octets (0: the usual limit). */
static void in_pieces(struct found *found, const uint8_t *in, size_t n, size_t piece, uint64_t line)
{
    opgp_limits limits;
    opgp_reader reader = {0};
    opgp_fault fault;
    size_t odd = 1;
    opgp_usual_limits(&limits);
    limits.line = line ? line : limits.line;
    uint32_t status = opgp_reader_open(&limits, &reader);
    for (size_t at = 0; at < n && status == OPGP_DONE; odd = odd == LARGEST_ODD ? 1 : 3 * odd) {
        size_t size = piece ? piece : odd;
        size = size < n - at ? size : n - at;
        status = opgp_reader_push(&reader, in + at, size);
        at += size;
        status = status == OPGP_DONE ? take_all(found, &reader) : status;
    }
    size_t early = found->parts;
    status = status == OPGP_DONE ? opgp_reader_end(&reader, &fault) : status;
    status = status == OPGP_DONE ? take_all(found, &reader) : status;
    /* A part is ready once the next one has begun: only the last one waits for the end. */
    if (status == OPGP_DONE && found->parts > early + 1) {
        fail("a part before the end");
    }
    opgp_reader_close(reader);
    if (status != OPGP_DONE) {
        refuse(found, status, &fault);
    }
}

/* Adds a keyring that is made, if it could be. */
static void add_made(struct found *found, uint32_t status, opgp_keyring *made)
{
    if (status == OPGP_DONE) {
        add(found, made);
    } else {
        refuse(found, status, NULL);
    }
}

/* Adds what each signature hashes that is hashed, behind a line with its row and how much that is. */
static void add_whole(struct found *found, opgp_keyring *keyring)
{
    size_t jobs;
    const opgp_job *first = jobs_in(keyring, &jobs);
    for (size_t row = 0; row < jobs; row++) {
        uint8_t *octets;
        size_t size;
        uint32_t status = opgp_octets(keyring, row, &octets, &size);
        if ((status != OPGP_DONE) != (first[row].why != OPGP_WHY_HASHED) || (status != OPGP_DONE && status != OPGP_NO_ROW)) {
            fail("opgp_octets");
        }
        if (status == OPGP_DONE) {
            fprintf(found->octets.file, "row %zu length %zu\n", row, size);
            fwrite(octets, 1, size, found->octets.file);
        }
        free(octets);
    }
}

/* What a row's line is made of. */
struct lines {
    FILE *file;
    const opgp_key *keys;
};

static void print_place(FILE *file, const char *word, uint64_t number)
{
    if (number == OPGP_NONE) {
        fprintf(file, " %s -", word);
    } else {
        fprintf(file, " %s %" PRIu64, word, number);
    }
}

static int print_row(void *context, size_t row, const opgp_job *job, opgp_verdict verdict)
{
    const struct lines *lines = context;
    char why[OPGP_NAME_ROOM];
    fprintf(lines->file, "row %zu", row);
    print_place(lines->file, "cert", job->certificate);
    print_place(lines->file, "part", job->component);
    print_place(lines->file, "hang", job->hang);
    print_place(lines->file, "nested", job->nested);
    if (job->why != 0) {
        fprintf(lines->file, " : none %s\n", opgp_name_text(OPGP_WHYS, job->why, why));
        return 0;
    }
    fprintf(lines->file, " : asked type %02X hash %u signer ", job->kind, job->hash);
    if (job->signer == OPGP_NONE) {
        fputc('-', lines->file);
    } else {
        for (size_t i = 0; i < 8; i++) {
            fprintf(lines->file, "%02X", lines->keys[job->signer].key_id[i]);
        }
    }
    fprintf(lines->file, " digest %02X%02X verdict %s\n", job->digest[0], job->digest[1], verdict == OPGP_BAD ? "bad" : "undecided");
    return 0;
}

/* Adds the armor of a keyring. */
static void add_armor(struct found *found, opgp_keyring *keyring)
{
    uint8_t *text;
    size_t size;
    if (opgp_write(keyring, true, &text, &size) != OPGP_DONE) {
        fail("opgp_write");
    }
    fwrite(text, 1, size, found->octets.file);
    free(text);
}

/* Adds what the last signature hashes, if there is one that is hashed. */
static void add_last(struct found *found, opgp_keyring *keyring)
{
    uint8_t *octets;
    size_t size;
    size_t jobs;
    jobs_in(keyring, &jobs);
    uint32_t status = opgp_octets(keyring, jobs - 1, &octets, &size);
    if (status == OPGP_DONE) {
        fwrite(octets, 1, size, found->octets.file);
        free(octets);
    } else {
        refuse(found, status, NULL);
    }
}

/* What is made of the keyring of one call. */
static void make(struct found *found, const char *way, const uint8_t *in, size_t n)
{
    opgp_keyring *keyring, *made = NULL;
    opgp_fault fault;
    uint32_t status = opgp_open(in, n, NULL, &keyring, &fault);
    if (status != OPGP_DONE) {
        refuse(found, status, &fault);
        return;
    }
    if (strchr("lawr", way[0])) {
        size_t keys;
        struct lines lines = {found->octets.file, keys_in(keyring, &keys)};
        if (strcmp(way, "last") == 0) {
            add_last(found, keyring);
        } else if (strcmp(way, "armor") == 0) {
            add_armor(found, keyring);
        } else if (strcmp(way, "whole") == 0) {
            add_whole(found, keyring);
        } else if (opgp_check(keyring, NULL, print_row, &lines) != OPGP_DONE) {
            fail("opgp_check");
        }
        opgp_close(keyring);
        return;
    }
    if (strcmp(way, "normalise") == 0) {
        status = opgp_normalise(keyring, &made);
    } else if (strcmp(way, "merge") == 0) {
        status = opgp_merge(keyring, &made);
    } else if (strcmp(way, "first") == 0) {
        status = opgp_certificate(keyring, 0, &made);
    } else if (strcmp(way, "chosen") == 0) {
        const uint64_t first = 0;
        status = opgp_choose(keyring, true, true, &first, 1, &made);
    } else if (strcmp(way, "end") == 0) {
        size_t certificates;
        status = opgp_certificate_count(keyring, &certificates);
        status = status == OPGP_DONE ? opgp_certificate(keyring, certificates - 1, &made) : status;
    } else {
        status = opgp_join(keyring, keyring, &made);
    }
    add_made(found, status, made);
    opgp_close(keyring);
}

static void read_by(const char *way, const uint8_t *in, size_t n)
{
    struct found found = {.parts = 0};
    begin(&found.lines);
    begin(&found.octets);
    if (strcmp(way, "0") == 0) {
        in_one_call(&found, in, n);
    } else if (strcmp(way, "long") == 0) {
        in_pieces(&found, in, n, 1, LONGEST_LINE);
    } else if (strchr("nmfetlawrc", way[0])) {
        make(&found, way, in, n);
    } else {
        in_pieces(&found, in, n, strcmp(way, "odd") == 0 ? 0 : strtoul(way, NULL, 10), 0);
    }
    end(&found.lines);
    end(&found.octets);
}

int main(int argc, char **argv)
{
    uint8_t size[4];
    while (fread(size, 1, sizeof size, stdin) == sizeof size) {
        size_t n = (size_t)size[0] << 24 | (size_t)size[1] << 16 | (size_t)size[2] << 8 | size[3];
        uint8_t *in = some(malloc(n + 1), "malloc");
        if (fread(in, 1, n, stdin) != n) {
            fail("reading");
        }
        for (int i = 1; i < argc; i++) {
            read_by(argv[i], in, n);
        }
        free(in);
    }
    return fflush(stdout) || ferror(stdout) ? 3 : 0;
}
