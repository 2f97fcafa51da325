/* Verifies the signatures of a keyring by OpenSSL's libcrypto: a line for each, as `opgp check` writes it, with the verdict good,
 * bad or undecided, and after undecided why. With --signature it judges detached signatures over a document (10.4) by the keys of
 * keyrings: a line for each, as `opgp digest` writes it, and after good why it isn't to be believed, if it isn't. With --cleartext it
 * does so with a message that has its document (7). Under the names of other programs it does that with their command lines. With
 * --verdicts it writes a file of verdicts, which other programs take for those on a keyring. Section numbers are those of RFC 9580.
 *
 * Of a keyring `good` says that the issuer's key made the signature over what `opgp octets` writes, and nothing of whether the
 * signature, the key or what it certifies is valid: expiries, revocations and key flags aren't looked at.
 *
 * verify-arithmetic.c asks libcrypto, verify-judging.c has signatures over documents judged, and verify-names.c has the other names.
 * Here are the rows of a keyring, the threads that go over them, lines and the command line. */
#define _GNU_SOURCE /* for sched_getaffinity */
#include <opgp.h>

#include "verify-arithmetic.h"
#include "verify-causes.h"
#include "verify-hints.h"
#include "verify-judging.h"
#include "verify-names.h"
#include "verify-output.h"
#include "verify-states.h"
#include "verify-words.h"

#include <errno.h>
#include <inttypes.h>
#include <pthread.h>
#include <sched.h>
#include <stdatomic.h>
#include <stdlib.h>
#include <string.h>
#include <unistd.h>

/* The most threads that verify, and of how many rows a key is asked for each of them, so that starting it takes less time than it
 * saves; and how many of those rows a thread takes at a time, so that all of them end together. */
enum { MOST_JOBS = 64, OF_THREAD = 64, PORTION = 16 };

struct run {
    const opgp_keyring *keyring;
    const opgp_key *keys;
    const opgp_job *jobs;
    size_t key_count, job_count;
    unsigned decisive;        /* the doubts that leave a signature undecided */
    struct finding *findings; /* of each row */
    opgp_job *revocations;    /* of key revocations behind another part, hashed as they are: over the primary key alone (5.2.1.11) */
    size_t *misplaced;        /* the rows of these */
    size_t misplaced_count;
    size_t *asked;            /* the rows of which a key is asked, those of one key together */
    size_t asked_count;
    atomic_size_t taken;      /* how many of those a thread has taken */
};

/* ---- Rows */

/* The issuer's key of a row; NULL if it isn't there. */
static const opgp_key *signer_of(const struct run *run, size_t row)
{
    return run->jobs[row].signer == OPGP_NONE ? NULL : &run->keys[run->jobs[row].signer];
}

/* The job of a row, as its key is asked; it may differ from that in the table. */
static const opgp_job *asked_job(const struct run *run, size_t row)
{
    size_t low = 0, high = run->misplaced_count;
    while (low < high) {
        size_t middle = low + (high - low) / 2;
        if (run->misplaced[middle] < row) {
            low = middle + 1;
        } else {
            high = middle;
        }
    }
    return low < run->misplaced_count && run->misplaced[low] == row ? &run->revocations[low] : &run->jobs[row];
}

/* Finds the key revocations that stand behind another part; false if memory ran out. */
static bool find_revocations(struct run *run)
{
    opgp_revocation *rows;
    size_t count;
    bool is_done = opgp_revocations(run->keyring, &rows, &count) == OPGP_DONE;
    run->revocations = is_done ? calloc(count + 1, sizeof *run->revocations) : NULL;
    run->misplaced = run->revocations ? calloc(count + 1, sizeof *run->misplaced) : NULL;
    for (size_t i = 0; run->misplaced && i < count; i++) {
        opgp_job job = run->jobs[rows[i].row];
        if (job.why == OPGP_WHY_MISPLACED) {
            job.why = OPGP_WHY_HASHED;
            job.digest_size = rows[i].digest_size;
            memcpy(job.digest, rows[i].digest, sizeof job.digest);
            job.is_bad = memcmp(job.digest, job.left, sizeof job.left) != 0;
            run->revocations[run->misplaced_count] = job;
            run->misplaced[run->misplaced_count++] = (size_t)rows[i].row;
        }
    }
    free(rows);
    return run->misplaced;
}

/* Finds what there is to find of each row without its key, and counts the rows of which one is asked: in all, and those of each key, by
 * its row. False if memory ran out. */
static bool find_doubts(struct run *run, size_t *counts)
{
    for (size_t row = 0; row < run->job_count; row++) {
        const opgp_subpacket *subpackets;
        size_t count;
        const opgp_job *job = asked_job(run, row);
        run->findings[row] = found_without(job);
        if (is_asked(job, signer_of(run, row))) {
            if (opgp_subpackets_of(run->keyring, row, &subpackets, &count) != OPGP_DONE) {
                return false;
            }
            run->findings[row].doubts = doubts_of(job, subpackets, count);
            counts[job->signer]++;
            run->asked_count++;
        }
    }
    return true;
}

/* Puts the rows of which a key is asked in the order of these keys, so that each is made once and then asked all that it is asked;
 * false if memory ran out. */
static bool order_rows(struct run *run)
{
    size_t *places = calloc(run->key_count + 1, sizeof *places), place = 0;
    if (places && find_doubts(run, places)) {
        run->asked = calloc(run->asked_count + 1, sizeof *run->asked);
    }
    for (size_t key = 0; run->asked && key < run->key_count; key++) {
        size_t count = places[key];
        places[key] = place;
        place += count;
    }
    for (size_t row = 0; run->asked && row < run->job_count; row++) {
        if (is_asked(asked_job(run, row), signer_of(run, row))) {
            run->asked[places[run->jobs[row].signer]++] = row;
        }
    }
    free(places);
    return run->asked;
}

/* Asks the key of a row. No call is made on a handle, and none on the keyring that would make a table. */
static void ask(struct run *run, size_t row, struct arithmetic *arithmetic)
{
    const opgp_job *job = asked_job(run, row);
    struct finding *finding = &run->findings[row];
    opgp_question question = {.row = row, .job = job, .signer = signer_of(run, row)};
    for (unsigned k = 0; k < 4; k++) {
        question.key[k] = opgp_key_field(run->keyring, question.signer, k);
    }
    for (unsigned k = 0; k < 2; k++) {
        question.made[k] = opgp_job_field(run->keyring, job, k);
    }
    *finding = arithmetic_of(arithmetic, &question, finding->doubts, run->decisive);
}

/* ---- Threads */

/* What each thread does: takes a portion of the rows, as long as there are some, and asks their keys. */
static void *work(void *context)
{
    struct run *run = context;
    struct arithmetic *arithmetic = arithmetic_new();
    size_t begin = 0;
    while (arithmetic && !memory_ran_out() && (begin = atomic_fetch_add(&run->taken, PORTION)) < run->asked_count) {
        size_t end = run->asked_count - begin < PORTION ? run->asked_count : begin + PORTION;
        for (size_t i = begin; i < end && !memory_ran_out(); i++) {
            ask(run, run->asked[i], arithmetic);
        }
    }
    arithmetic_free(arithmetic);
    return NULL;
}

/* How many processors this process may use. */
static size_t processors(void)
{
    cpu_set_t set;
    long count = sched_getaffinity(0, sizeof set, &set) == 0 ? CPU_COUNT(&set) : sysconf(_SC_NPROCESSORS_ONLN);
    return count < 1 ? 1 : (size_t)count;
}

/* Finds what is to be found of each row, by this many threads at most, of which this one is one; false if memory ran out. Where a
 * thread can't be started, those that are there do its work. */
static bool is_checked(struct run *run, size_t jobs)
{
    pthread_t others[MOST_JOBS];
    size_t started = 0;
    if (!find_revocations(run) || !order_rows(run)) {
        return false;
    }
    size_t wanted = run->asked_count / OF_THREAD < jobs ? run->asked_count / OF_THREAD : jobs;
    if (wanted > 1) {
        arithmetic_for_threads();
    }
    while (started + 1 < wanted && pthread_create(&others[started], NULL, work, run) == 0) {
        started++;
    }
    work(run);
    while (started > 0) {
        pthread_join(others[--started], NULL);
    }
    return !memory_ran_out();
}

/* ---- Lines */

/* A word and a number, or - for none. */
static void print_number(const char *word, uint64_t number)
{
    if (number == OPGP_NONE) {
        printf(" %s -", word);
    } else {
        printf(" %s %" PRIu64, word, number);
    }
}

/* Where the signature in a row is. */
static void print_place(const opgp_job *job, size_t row)
{
    printf("row %zu cert %" PRIu64, row, job->certificate);
    print_number("part", job->component);
    print_number("hang", job->hang);
    print_number("nested", job->nested);
}

/* Writes what is found of a signature. */
static void print_verdict(const struct finding *finding)
{
    static const char *const words[] = {"undecided", "good", "bad"};
    printf(" verdict %s", words[finding->verdict]);
    if (finding->verdict == OPGP_UNDECIDED) {
        printf(" %s", finding->why);
    }
}

/* Writes what is asked of a signature, with its signer's key ID and how its digest begins, and what is found. */
static void print_asked(uint8_t kind, uint8_t hash, const char *signer, const uint8_t digest[2], const struct finding *finding)
{
    printf(" : asked type %02X hash %u signer %s digest %02X%02X", kind, hash, signer, digest[0], digest[1]);
    print_verdict(finding);
}

/* Writes all of the line of the signature in a row but its end. Its signer is NULL if it isn't there. */
static void print_row(const opgp_job *job, size_t row, const opgp_key *signer, const struct finding *finding)
{
    char why[OPGP_NAME_ROOM], name[KEY_ID_ROOM] = "-";
    print_place(job, row);
    if (job->why != OPGP_WHY_HASHED) {
        printf(" : none %s", opgp_name_text(OPGP_WHYS, job->why, why));
        return;
    }
    for (size_t i = 0; signer && i < sizeof signer->key_id; i++) {
        snprintf(name + 2 * i, 3, "%02X", signer->key_id[i]);
    }
    print_asked(job->kind, job->hash, name, job->digest, finding);
}

/* ---- The program */

static int said(int status, const char *text)
{
    fprintf(stderr, "opgp-verify: %s\n", text);
    return status;
}

/* What the command line asks for. */
struct task {
    const char *name; /* of the keyring, or of the document; NULL or -: standard input */
    const char *policy, *require, *jobs, *at, *malformed, *hints;
    bool is_quiet;         /* no line for people */
    bool wants_states;     /* how the parts of the keyring stand, in place of its signatures */
    bool wants_verdicts;   /* a file of verdicts on them: by arithmetic alone, and for this keyring alone */
    const char *signature; /* the file of the signatures over the document; NULL: those of the keyring, or */
    bool is_message;       /* the document is a cleartext message, which has them */
    const char *output;    /* the file for the document of that; NULL: it isn't written */
    const char **keyrings; /* the files of the keyrings that have their signers */
    size_t keyring_count;
};

/* The number of jobs that a word is; 0 if it is none. */
static size_t jobs_in(const char *word)
{
    size_t digits = strspn(word, "0123456789");
    unsigned long number = digits > 0 && word[digits] == 0 ? strtoul(word, NULL, 10) : 0;
    return number <= MOST_JOBS ? (size_t)number : 0;
}

static bool is_jobs(const char *word)
{
    return jobs_in(word) > 0;
}

static bool is_time(const char *word)
{
    return time_in(word) != OPGP_NONE;
}

static uint64_t now_of(const struct task *task)
{
    return task->at ? time_in(task->at) : present_time();
}

/* How many threads verify. */
static size_t jobs_of(const struct task *task)
{
    size_t usual = processors();
    return task->jobs ? jobs_in(task->jobs) : usual < MOST_JOBS ? usual : MOST_JOBS;
}

/* Whether a keyring with a malformed signature is refused. Else that is kept: nothing is ever hashed of it, or believed by it. */
static bool refuses_malformed(const struct task *task)
{
    return task->malformed && strcmp(task->malformed, "refuse") == 0;
}

/* Whether no doubt about a signature decides. */
static bool has_no_policy(const struct task *task)
{
    return task->policy && strcmp(task->policy, "none") == 0;
}

static uint32_t policy_of(const struct task *task)
{
    return !task->policy || strcmp(task->policy, "usual") == 0 ? OPGP_POLICY_USUAL : OPGP_POLICY_ANY;
}

/* Writes the first line of a file of verdicts: on which keyring they are, and how many; false if memory ran out. */
static bool print_heading(const struct run *run)
{
    uint8_t *octets, digest[SHA256_SIZE];
    size_t size;
    bool is_done = opgp_write(run->keyring, false, &octets, &size) == OPGP_DONE && arithmetic_sha256(octets, size, digest);
    if (is_done) {
        printf("verdicts by arithmetic of keyring sha256 ");
        for (size_t i = 0; i < sizeof digest; i++) {
            printf("%02X", digest[i]);
        }
        printf(" rows %zu\n", run->job_count);
    }
    free(octets);
    return is_done;
}

/* Writes the lines, and on standard error how many signatures are good and so on; the exit status. */
static int told(const struct run *run, const struct task *task)
{
    size_t counts[3] = {0, 0, 0}, unhashed = 0;
    if (task->wants_verdicts && !print_heading(run)) {
        return said(3, "out of memory");
    }
    for (size_t row = 0; row < run->job_count; row++) {
        bool is_hashed = run->jobs[row].why == OPGP_WHY_HASHED;
        print_row(&run->jobs[row], row, signer_of(run, row), &run->findings[row]);
        if (asked_job(run, row) != &run->jobs[row]) {
            print_verdict(&run->findings[row]);
        }
        putchar('\n');
        unhashed += !is_hashed;
        counts[run->findings[row].verdict] += is_hashed;
    }
    if (fflush(stdout) || ferror(stdout)) {
        return said(3, "write failed");
    }
    fprintf(stderr, "opgp-verify: %zu good, %zu bad, %zu undecided, %zu not hashed\n", counts[OPGP_GOOD], counts[OPGP_BAD],
            counts[OPGP_UNDECIDED], unhashed);
    bool is_wanting = counts[OPGP_BAD] > 0 || (task->require && counts[OPGP_GOOD] == 0);
    return is_wanting && !task->wants_verdicts ? 1 : 0; /* a file of verdicts is whole, whatever it says */
}

/* What was found of the signature of a question; all of the keyring's were asked about. */
static opgp_verdict found_of(void *context, const opgp_question *question)
{
    const struct run *run = context;
    return run->findings[question->row].verdict;
}

/* Writes how the parts of the keyring stand, and on standard error how many keys are usable and so on; the exit status. */
static int told_states(struct run *run, const struct task *task)
{
    opgp_state *states;
    size_t count;
    struct state_counts counts = {{0}};
    uint32_t status = opgp_states(run->keyring, policy_of(task), now_of(task), found_of, run, &states, &count);
    status = status == OPGP_DONE ? print_states(run->keyring, states, count, &counts) : status;
    free(states);
    if (status != OPGP_DONE) {
        return said(3, opgp_status_text(status));
    }
    if (fflush(stdout) || ferror(stdout)) {
        return said(3, "write failed");
    }
    fprintf(stderr, "opgp-verify: %zu usable, %zu revoked, %zu early, %zu unbound, %zu expired, %zu no-use\n", counts.of[0],
            counts.of[1], counts.of[2], counts.of[3], counts.of[4], counts.of[5]);
    return 0;
}

/* Verifies the rows, and writes all lines if nothing failed. */
static int verified(struct run *run, const struct task *task)
{
    int status = 3;
    bool is_bare = task->wants_states || task->wants_verdicts || has_no_policy(task); /* the rule has doubts of its own */
    run->decisive = is_bare ? 0 : decisive_by(policy_of(task));
    if (opgp_keys(run->keyring, &run->keys, &run->key_count) == OPGP_DONE
        && opgp_jobs(run->keyring, &run->jobs, &run->job_count) == OPGP_DONE) {
        run->findings = calloc(run->job_count + 1, sizeof *run->findings);
    }
    if (!run->findings || !is_checked(run, jobs_of(task))) {
        said(status, "out of memory");
    } else {
        status = task->wants_states ? told_states(run, task) : told(run, task);
    }
    free(run->findings);
    free(run->revocations);
    free(run->misplaced);
    free(run->asked);
    return status;
}

/* Says why a file can't be read, as errno has it. */
static int cannot_read(const char *name)
{
    say("opgp-verify", "can't read '%s': %s", name, strerror(errno));
    return 3;
}

/* Parses a keyring; 0, or the exit status, and standard error says why. */
static int opened(const uint8_t *octets, size_t size, const struct task *task, opgp_keyring **keyring)
{
    uint64_t skipped = 0;
    opgp_limits limits;
    opgp_fault fault;
    char text[OPGP_FAULT_ROOM];
    opgp_usual_limits(&limits);
    limits.policies |= refuses_malformed(task) ? 0 : OPGP_KEEP_MALFORMED;
    uint32_t status = octets ? opgp_open(octets, size, &limits, keyring, &fault) : OPGP_MEMORY;
    if (status == OPGP_REFUSED) {
        fprintf(stderr, "%s\n", opgp_fault_text(&fault, text));
        hint_of_fault("opgp-verify", INTAKE_ONE, octets, size, &fault);
        return 1;
    }
    status = status == OPGP_DONE ? opgp_skipped(*keyring, &skipped) : status;
    hint_of_skipped("opgp-verify", skipped);
    return status == OPGP_DONE ? 0 : said(3, opgp_status_text(status));
}

/* Opens the keyring of this name, and verifies its signatures. */
static int verified_keyring(const char *name, const struct task *task)
{
    size_t size;
    opgp_keyring *keyring = NULL;
    const opgp_keyring *judged = NULL;
    FILE *file = open_named(name);
    if (!file) {
        return cannot_read(name);
    }
    uint8_t *octets = read_all(file, &size);
    int status = octets && ferror(file) ? said(3, "read failed") : opened(octets, size, task, &keyring);
    free(octets);
    close_named(file);
    if (status == 0 && (task->wants_states || task->wants_verdicts)) { /* one copy of a certificate may lack a revocation */
        uint32_t merging = opgp_merged(keyring, &judged);
        status = merging == OPGP_DONE ? 0 : said(3, opgp_status_text(merging));
    }
    if (status == 0) {
        struct run run = {.keyring = judged ? judged : keyring};
        status = verified(&run, task);
    }
    opgp_close(keyring);
    return status;
}

/* ---- Signatures over a document */

/* The exit status for what became of a step. */
static int status_of(enum outcome outcome)
{
    return outcome == STEP_DONE ? 0 : outcome == STEP_REFUSED ? 1 : 3;
}

/* The exit status for what was found: 0 if none is bad, and one is good and believed. */
static int status_of_document(const struct judging *judging)
{
    size_t count, good = 0, bad = 0;
    const struct judged *rows = judging_rows(judging, &count);
    for (const struct judged *row = rows; row < rows + count; row++) {
        good += row->verdict == OPGP_GOOD && row->standing == OPGP_BELIEVED;
        bad += row->verdict == OPGP_BAD && row->is_hashed;
    }
    return bad > 0 || good == 0 ? 1 : 0;
}

/* Writes the lines of what was found, and on standard error how many signatures are good and so on; the exit status. */
static int told_of_document(const struct judging *judging)
{
    size_t counts[3] = {0, 0, 0}, unhashed = 0, unbelieved = 0, count;
    const struct judged *rows = judging_rows(judging, &count);
    for (const struct judged *row = rows; row < rows + count; row++) {
        const struct finding found = {row->verdict, row->why, 0};
        bool is_unbelieved = row->verdict == OPGP_GOOD && row->standing != OPGP_BELIEVED;
        printf("signature %zu", row->number);
        if (row->is_hashed) {
            print_asked(row->kind, row->hash, row->key[0] ? row->key_id : "-", row->digest, &found);
        } else {
            printf(" : none %s", row->why);
        }
        if (is_unbelieved) {
            char word[OPGP_NAME_ROOM];
            printf(" unbelieved %s", opgp_name_text(OPGP_UNBELIEVED, row->standing, word));
            if (row->cause.why != OPGP_BELIEVED) {
                print_cause(stdout, &row->cause);
            }
        }
        putchar('\n');
        unhashed += !row->is_hashed;
        unbelieved += is_unbelieved;
        counts[row->verdict] += row->is_hashed && !is_unbelieved;
    }
    if (fflush(stdout) || ferror(stdout)) {
        return said(3, "write failed");
    }
    fprintf(stderr, "opgp-verify: %zu good, %zu unbelieved, %zu bad, %zu undecided, %zu not hashed\n", counts[OPGP_GOOD], unbelieved,
            counts[OPGP_BAD], counts[OPGP_UNDECIDED], unhashed);
    for (const struct judged *row = rows; row < rows + count; row++) {
        if (row->verdict == OPGP_GOOD && row->cause.why != OPGP_BELIEVED) {
            explain_cause("opgp-verify", &row->cause);
        }
    }
    return status_of_document(judging);
}

/* Says why a file can't be written, as errno has it. */
static int cannot_write(const char *name)
{
    say("opgp-verify", "can't write '%s': %s", name, strerror(errno));
    return 3;
}

/* The same, and writes the document of a message, if there is a file for it: that gets its name behind the lines, and only with 0. */
static int told_of_message(const struct judging *judging, const struct task *task)
{
    size_t size;
    struct output output = {0};
    const uint8_t *text = judging_text(judging, &size);
    if (task->output && status_of_document(judging) == 0 && !output_write(&output, task->output, text, size, false, true)) {
        return cannot_write(task->output);
    }
    int status = told_of_document(judging);
    if (status == 0 && !output_keep(&output)) {
        status = cannot_write(task->output);
    }
    output_end(&output);
    return status;
}

/* Reads the signatures, then the keyrings, then the document, and judges. */
static int verified_document(const char *name, const struct task *task)
{
    if (task->output && is_taken(task->output)) {
        errno = EEXIST;
        return cannot_write(task->output);
    }
    struct judging *judging = judging_new("opgp-verify", open_named, INTAKE_OPTIONS);
    if (!judging) {
        return said(3, "out of memory");
    }
    if (refuses_malformed(task)) {
        judging_refuses_malformed(judging);
    }
    enum outcome outcome = task->is_message ? judging_cleartext(judging, name) : judging_signatures(judging, task->signature);
    outcome = outcome == STEP_DONE ? judging_keyrings(judging, task->keyrings, task->keyring_count) : outcome;
    outcome = outcome == STEP_DONE && !task->is_message ? judging_document(judging, name) : outcome;
    outcome = outcome == STEP_DONE ? judging_verdicts(judging, policy_of(task), now_of(task)) : outcome;
    int status = outcome == STEP_DONE ? told_of_message(judging, task) : status_of(outcome);
    judging_free(judging);
    return status;
}

/* ---- The command line */

#define USAGE "Usage: opgp-verify [OPTIONS] [FILE]\n"
#define OF_DOCUMENTS "opgp-verify [OPTIONS] --signature <SIG> --keyring <FILE>... [DOCUMENT]\n"
#define OF_MESSAGES "opgp-verify [OPTIONS] --cleartext --keyring <FILE>... [MESSAGE]\n"
#define MORE "\nFor more information, try '--help'.\n"

static const char help[] =
    "Verifies the signatures of the keyring in FILE, or on standard input, by OpenSSL's libcrypto; or with\n"
    "--signature judges detached signatures over the DOCUMENT, or standard input, by the keys of keyrings; or\n"
    "with --cleartext those in the MESSAGE over its text\n"
    "\n" USAGE "       " OF_DOCUMENTS "       " OF_MESSAGES "\n"
    "Options:\n"
    "      --signature <SIG>  the file of the signatures, 64 at most; '-' is standard input\n"
    "      --cleartext        the file is a message in the cleartext signature framework, such as InRelease\n"
    "      --output <FILE>    write its text to this file, which must not exist, if the exit status is 0\n"
    "      --keyring <FILE>   a keyring with the signers, one for each time that this is given; or '-'\n"
    "      --state            how each key, user ID and attribute of the keyring stands\n"
    "      --verdicts         a file of verdicts on the keyring, by arithmetic alone, for 'opgp state --verdicts' and\n"
    "                         'opgp write --bound --verdicts'; its first line says on which keyring they are\n"
    "      --at <TIME>        the present time for --signature, --cleartext and --state: seconds since 1970, or\n"
    "                         a date in UTC, such as 2026-11-20 or 2026-11-20T08:30:00Z [default: the clock's]\n"
    "      --policy <POLICY>  usual: SHA-1, RSA keys of fewer than 2048 bits and other keys of less than\n"
    "                         112 bits of strength are undecided, and bind no key with --signature or\n"
    "                         --state; any: they are verified too; none: so is what has an unknown critical\n"
    "                         subpacket [default: usual] [possible values: usual, any, none]\n"
    "      --require <WHAT>   good: end with 1 where no signature is good [possible values: good]\n"
    "      --malformed <HOW>  keep or refuse keyrings with malformed signatures, by which nothing is ever\n"
    "                         believed [default: keep] [possible values: keep, refuse]\n"
    "      --hints <WHEN>     when to say what a refused input seems to be, and why a key isn't believed: auto is\n"
    "                         where standard error is a terminal [default: auto] [possible values: auto, always,\n"
    "                         never]\n"
    "      --quiet            the same as '--hints never'\n"
    "      --jobs <N>         how many threads verify a keyring, 1 to 64 [default: as many as there are\n"
    "                         processors]\n"
    "  -V, --version          Print the version\n"
    "  -h, --help             Print this help\n"
    "\n"
    "A line for each signature, as 'opgp check' writes it, or 'opgp digest' of one over a document, with\n"
    "its verdict: good, bad, or undecided and why; and on standard error how many are good and so on.\n"
    "Of a keyring good is arithmetic: whether a key has expired, is revoked or may sign isn't judged. With\n"
    "--signature and --cleartext it is: a good one whose key isn't to be believed is 'good unbelieved' and\n"
    "why. --state writes what 'opgp state' does: what each key is of use for, from when until when, or why it isn't.\n"
    "Exit status: 0 no signature is bad, of no signatures too, or with --state and --verdicts all is written; 1\n"
    "one is bad, or none is good where that is required, or with --signature and --cleartext none is good and\n"
    "believed, or an input is refused; 2 the command line is invalid, or help was asked for; 3 reading, writing or\n"
    "memory failed.\n";

/* How to use the program for what the words name so far. */
static const char *usage_of(const struct task *task)
{
    bool is_of_keyring = task->wants_states || task->wants_verdicts;
    if (task->is_message && !is_of_keyring) {
        return "Usage: " OF_MESSAGES;
    }
    return !is_of_keyring && (task->signature || task->at || task->keyring_count > 0) ? "Usage: " OF_DOCUMENTS : USAGE;
}

/* Says what is wrong with a word, between two texts. */
static int wrong(const struct task *task, const char *front, const char *word, const char *end)
{
    fprintf(stderr, "error: %s'", front);
    put_word(stderr, word);
    fprintf(stderr, "'%s\n\n%s%s", end, usage_of(task), MORE);
    return 2;
}

/* An option that has a value: its name, as the help shows it, the values that it takes, or whether it takes one and what it says of
 * another, if not any; and where its value goes. */
struct option {
    const char *name, *shown, *values[3];
    bool (*takes)(const char *value);
    const char *otherwise, **value;
};

/* Whether a word is this option, alone or with its value behind a sign of equality. */
static bool is_option_word(const struct option *option, const char *word)
{
    size_t size = strlen(option->name);
    return strncmp(word, option->name, size) == 0 && (word[size] == 0 || word[size] == '=');
}

/* Says what is wrong with the value of an option. */
static int wrong_value(const struct option *option, const char *value)
{
    if (value) {
        fputs("error: invalid value '", stderr);
        put_word(stderr, value);
        fprintf(stderr, "' for '%s'", option->shown);
    }
    if (value && option->takes) {
        bool is_date = option->takes == is_time && may_be_date(value);
        fputs(": ", stderr);
        put_word(stderr, value);
        fprintf(stderr, " %s", is_date ? "may be a date: write that with hyphens, and seconds since 1970 behind an @" : option->otherwise);
    }
    if (value) {
        fputc('\n', stderr);
    } else {
        fprintf(stderr, "error: a value is required for '%s' but none was supplied\n", option->shown);
    }
    if (option->values[0]) {
        fprintf(stderr, "  [possible values: %s", option->values[0]);
        for (size_t i = 1; i < 3 && option->values[i]; i++) {
            fprintf(stderr, ", %s", option->values[i]);
        }
        fputs("]\n", stderr);
    }
    fputs(MORE, stderr);
    return 2;
}

/* Takes an option's value, which may be in the next word; 0, or the exit status that ends the program. */
static int take_value(const struct task *task, const struct option *option, char ***words)
{
    size_t size = strlen(option->name);
    const char *word = **words, *next = (*words)[1], *value = word[size] == '=' ? word + size + 1 : NULL;
    bool takes_any = !option->values[0] && !option->takes;
    if (!value && next && (next[0] != '-' || (takes_any && is_input(next)))) {
        value = *++*words;
    }
    if (*option->value) {
        return wrong(task, "the argument ", option->shown, " cannot be used multiple times");
    }
    if (!value || !value[0]) {
        return wrong_value(option, NULL);
    }
    bool is_taken = takes_any || (option->takes && option->takes(value));
    for (size_t i = 0; i < 3; i++) {
        is_taken = is_taken || (option->values[i] && strcmp(value, option->values[i]) == 0);
    }
    if (!is_taken) {
        return wrong_value(option, value);
    }
    *option->value = value;
    return 0;
}

/* Takes a word that is an option, and its value; 0, or the exit status that ends the program. */
static int take_option(struct task *task, char ***words)
{
    const struct option options[] = {
        {"--policy", "--policy <POLICY>", {"usual", "any", "none"}, NULL, NULL, &task->policy},
        {"--require", "--require <WHAT>", {"good", NULL}, NULL, NULL, &task->require},
        {"--malformed", "--malformed <HOW>", {"keep", "refuse", NULL}, NULL, NULL, &task->malformed},
        {"--jobs", "--jobs <N>", {NULL, NULL}, is_jobs, "is not in 1..=64", &task->jobs},
        {"--hints", "--hints <WHEN>", {"auto", "always", "never"}, NULL, NULL, &task->hints},
        {"--at", "--at <TIME>", {NULL, NULL}, is_time, "is no time: seconds since 1970 or a date, 2026-11-20T08:30:00Z", &task->at},
        {"--signature", "--signature <SIG>", {NULL, NULL}, NULL, NULL, &task->signature},
        {"--output", "--output <FILE>", {NULL, NULL}, NULL, NULL, &task->output},
        {"--keyring", "--keyring <FILE>", {NULL, NULL}, NULL, NULL, &task->keyrings[task->keyring_count]},
    };
    const struct {
        const char *name;
        bool *is_there;
    } alone[] = {{"--state", &task->wants_states},
                 {"--verdicts", &task->wants_verdicts},
                 {"--cleartext", &task->is_message},
                 {"--quiet", &task->is_quiet}};
    for (size_t i = 0; i < sizeof alone / sizeof *alone; i++) {
        if (strcmp(**words, alone[i].name) == 0) {
            bool is_second = *alone[i].is_there;
            *alone[i].is_there = true;
            return is_second ? wrong(task, "the argument ", alone[i].name, " cannot be used multiple times") : 0;
        }
    }
    for (size_t i = 0; i < sizeof options / sizeof *options; i++) {
        if (is_option_word(&options[i], **words)) {
            int status = take_value(task, &options[i], words);
            task->keyring_count += task->keyrings[task->keyring_count] ? 1 : 0;
            return status;
        }
    }
    return wrong(task, "unexpected argument ", **words, " found");
}

/* Says what contradicts a file of verdicts; 0 if nothing does. */
static int wrong_verdicts(const struct task *task)
{
    const struct {
        bool is_there;
        const char *end;
    } others[] = {
        {task->policy, " cannot be used with '--policy <POLICY>'"},
        {task->wants_states, " cannot be used with '--state'"},
        {task->signature, " cannot be used with '--signature <SIG>'"},
        {task->is_message, " cannot be used with '--cleartext'"},
        {task->keyring_count > 0, " cannot be used with '--keyring <FILE>'"},
        {task->at, " cannot be used with '--at <TIME>'"},
        {task->require, " cannot be used with '--require <WHAT>'"},
    };
    for (size_t i = 0; i < sizeof others / sizeof *others; i++) {
        if (others[i].is_there) {
            return wrong(task, "the argument ", "--verdicts", others[i].end);
        }
    }
    return 0;
}

/* Says what is wrong with the task as a whole; 0 if nothing is. */
static int wrong_task(const struct task *task)
{
    size_t inputs = !task->name || is_input(task->name) ? 1 : 0;
    bool judges = task->signature || task->is_message;
    int status = task->wants_verdicts ? wrong_verdicts(task) : 0;
    if (status != 0) {
        return status;
    }
    if (task->at && !judges && !task->wants_states) {
        return wrong(task, "the argument ", "--at <TIME>", " cannot be used without '--signature <SIG>', '--cleartext' or '--state'");
    }
    if (task->is_message && (task->signature || task->wants_states)) {
        return wrong(task, "the argument ", "--cleartext",
                     task->signature ? " cannot be used with '--signature <SIG>'" : " cannot be used with '--state'");
    }
    if (task->output && (!task->is_message || strcmp(task->output, "-") == 0)) {
        return wrong(task, "the argument ", "--output <FILE>",
                     task->is_message ? " cannot be standard output, where the lines are" : " cannot be used without '--cleartext'");
    }
    if (task->wants_states && (task->signature || task->keyring_count > 0 || task->require)) {
        return wrong(task, "the argument ", "--state",
                     task->require ? " cannot be used with '--require <WHAT>'"
                                   : " cannot be used with '--signature <SIG>' and '--keyring <FILE>'");
    }
    if (has_no_policy(task) && (judges || task->wants_states)) {
        return wrong(task, "the argument ", "--policy none", " is for the signatures of a keyring alone");
    }
    if (!judges && task->keyring_count == 0) {
        return 0;
    }
    if (!judges || task->keyring_count == 0) {
        fprintf(stderr, "error: the following required arguments were not provided:\n  %s\n\n%s" MORE,
                judges ? "--keyring <FILE>" : "--signature <SIG>", usage_of(task));
        return 2;
    }
    inputs += task->signature && is_input(task->signature) ? 1 : 0;
    for (size_t i = 0; i < task->keyring_count; i++) {
        inputs += is_input(task->keyrings[i]);
    }
    return inputs > 1 ? wrong(task, "standard input ", "-", " cannot be used multiple times: it is the document if there is no other") : 0;
}

/* Takes the words of the command line; 0, or the exit status that ends the program. */
static int take_words(struct task *task, char **words)
{
    bool has_options = true;
    for (int status = 0; *words; words++) {
        bool is_option = has_options && (*words)[0] == '-' && (*words)[1] != 0;
        if (is_option && strcmp(*words, "--") == 0) {
            has_options = false;
        } else if (is_option) {
            status = take_option(task, &words);
        } else if (task->name) {
            status = wrong(task, "unexpected argument ", *words, " found");
        } else {
            task->name = *words;
        }
        if (status != 0) {
            return status;
        }
    }
    return wrong_task(task);
}

/* Whether a word before -- is one of these. */
static bool has_word(char **words, const char *short_form, const char *long_form)
{
    for (; *words && strcmp(*words, "--") != 0; words++) {
        if (strcmp(*words, short_form) == 0 || strcmp(*words, long_form) == 0) {
            return true;
        }
    }
    return false;
}

/* Does what the words of the command line ask for. */
static int done(struct task *task, char **words)
{
    int status = take_words(task, words);
    if (status != 0) {
        return status;
    }
    if (task->is_quiet || task->hints) {
        bool is_always = !task->is_quiet && strcmp(task->hints, "always") == 0;
        bool is_auto = !task->is_quiet && strcmp(task->hints, "auto") == 0;
        set_hints(is_always ? HINTS_ALWAYS : is_auto ? HINTS_AUTO : HINTS_NEVER);
    }
    if (!arithmetic_stands()) {
        return said(3, "out of memory");
    }
    const char *name = task->name ? task->name : "-";
    return task->signature || task->is_message ? verified_document(name, task) : verified_keyring(name, task);
}

int main(int argc, char **argv)
{
    char **words = argv + (argc > 0);
    if (opgp_abi() != OPGP_ABI) {
        return said(3, "the library is of another version");
    }
    static char line[BUFSIZ];
    setvbuf(stderr, line, _IOLBF, sizeof line); /* a line in one call */
    arithmetic_begin();
    dialect *other = argc > 0 ? dialect_of(argv[0]) : NULL;
    if (other) {
        return other(words);
    }
    if (has_word(words, "-h", "--help")) {
        fputs(help, stderr);
        return 2;
    }
    if (has_word(words, "-V", "--version")) {
        printf("opgp-verify %s, by %s\n", OPGP_VERSION, arithmetic_version());
        return fflush(stdout) ? said(3, "write failed") : 0;
    }
    struct task task = {.keyrings = calloc((size_t)argc + 1, sizeof(char *))};
    int status = task.keyrings ? done(&task, words) : said(3, "out of memory");
    free(task.keyrings);
    return status;
}
