/* opgp-sqv: the words, lines and statuses of Sequoia's sqv. */
#include "verify-dialects.h"
#include "verify-words.h"

#include <errno.h>
#include <stdlib.h>
#include <string.h>

enum { KEYRING, SIGNATURE_FILE, CLEARTEXT, MESSAGE, OUTPUT, SIGNATURES, NOT_BEFORE, NOT_AFTER, AS_OF, VERBOSE, VERSION, HELP, ALL };

static const struct option options[] = {
    [KEYRING] = {"--keyring", NULL, true, true},
    [SIGNATURE_FILE] = {"--signature-file", NULL, true, false},
    [CLEARTEXT] = {"--cleartext", NULL, false, false},
    [MESSAGE] = {"--message", NULL, false, false},
    [OUTPUT] = {"--output", NULL, true, false},
    [SIGNATURES] = {"--signatures", "-n", true, false},
    [NOT_BEFORE] = {"--not-before", NULL, true, false},
    [NOT_AFTER] = {"--not-after", NULL, true, false},
    [AS_OF] = {"--policy-as-of", NULL, true, false},
    [VERBOSE] = {"--verbose", "-v", false, true},
    [VERSION] = {"--version", "-V", false, true},
    [HELP] = {"--help", "-h", false, true},
};

static const char help[] =
    "Verifies detached signatures, or a cleartext message, with the command line of Sequoia's sqv\n\n"
    "Usage: opgp-sqv [OPTIONS] --keyring <FILE>... [--signature-file] <SIG> <DATA>\n"
    "       opgp-sqv [OPTIONS] --keyring <FILE>... --cleartext [--output <FILE>] <MESSAGE>\n\n"
    "Options:\n"
    "      --keyring <FILE>         a keyring with the signers, one for each time that this is given\n"
    "      --signature-file <SIG>   the file of the signatures\n"
    "      --cleartext              verify a cleartext message\n"
    "      --output <FILE>          write its document to this file, which must not exist, if there are enough\n"
    "  -n, --signatures <N>         how many certificates must have signed [default: 1]\n"
    "      --not-before <TIME>      when a signature may be made at the earliest\n"
    "      --not-after <TIME>       and at the latest [default: now]\n"
    "      --policy-as-of <TIME>    has no effect\n"
    "  -v, --verbose                say on standard error what was found of each signature\n"
    "  -V, --version                Print the version\n"
    "  -h, --help                   Print this help\n\n"
    "Writes the primary fingerprint of each certificate with a good and believed signature. Exit status: 0 there\n"
    "are enough of them; 1 there aren't, or an input can't be read or is refused; 2 the command line is invalid.\n";

/* Counts the certificates whose signatures are accepted, each once, and writes them to a file, if there is one. */
static size_t certificates(const struct judging *judging, const struct window *window, FILE *file)
{
    size_t count, accepted = 0;
    const struct judged *rows = judging_rows(judging, &count);
    for (size_t i = 0; i < count; i++) {
        bool counts = is_believed(&rows[i]) && !outside(&rows[i], window);
        for (size_t other = 0; counts && other < i; other++) {
            bool counted = is_believed(&rows[other]) && !outside(&rows[other], window);
            counts = !(counted && strcmp(rows[other].primary, rows[i].primary) == 0);
        }
        if (counts && file) {
            fprintf(file, "%s\n", rows[i].primary);
        }
        accepted += counts;
    }
    return accepted;
}

/* Writes the certificates whose signatures are accepted; the exit status. */
static int tell_sqv(const struct words *words, const struct judging *judging, const struct window *window, size_t wanted)
{
    size_t count, accepted = certificates(judging, window, stdout);
    const struct judged *rows = judging_rows(judging, &count);
    for (size_t i = 0; i < count && (accepted < wanted || count_of(words, VERBOSE) > 0); i++) {
        explain(words->program, &rows[i], outside(&rows[i], window));
    }
    if (accepted < wanted) {
        said(words->program, 1, "%zu of %zu wanted certificates have a good and believed signature", accepted, wanted);
    }
    return ended(words->program, stdout, accepted < wanted ? 1 : 0);
}

/* The same, with the document of a message, if there is a file for it: that is written before, and gets its name behind that. */
static int tell_and_write(const struct words *words, const struct judging *judging, const struct window *window, size_t wanted)
{
    struct output output;
    bool is_enough = certificates(judging, window, NULL) >= wanted;
    int status = written(words->program, judging, is_enough ? value_of(words, OUTPUT) : NULL, false, false, &output);
    status = status == 0 ? tell_sqv(words, judging, window, wanted) : status;
    return kept(words->program, &output, status);
}

/* How many certificates are wanted; below 1 where a word is no number. */
static long wanted_by(const struct words *words)
{
    const char *number = value_of(words, SIGNATURES);
    return number ? number_in(number) : 1;
}

/* Looks at what is read and written; 0, or the exit status. */
static int wrong_files(const struct words *words)
{
    const struct program *program = words->program;
    size_t count;
    const char *output = value_of(words, OUTPUT);
    bool is_message = count_of(words, CLEARTEXT) > 0, has_signatures = count_of(words, SIGNATURE_FILE) > 0;
    operands_of(words, &count);
    if (count_of(words, MESSAGE) > 0) {
        return said(program, 2, "'--message' isn't supported: of signed messages only cleartext ones are read");
    }
    if (is_message && has_signatures) {
        return said(program, 2, "'--cleartext' is without '--signature-file': the message has the signatures");
    }
    if (output && !is_message) {
        return said(program, 2, "'--output' is for '--cleartext'");
    }
    if (output && strcmp(output, "-") == 0) {
        return said(program, 2, "'--output' is a file: standard output has fingerprints");
    }
    if (count != (has_signatures || is_message ? 1 : 2) || count_of(words, KEYRING) == 0) {
        return said(program, 2, is_message ? "wanted are '--keyring <FILE>' and a message"
                                           : "wanted are '--keyring <FILE>', a file of signatures and one of data");
    }
    return output && is_taken(output) ? said(program, 1, "can't write '%s': %s", output, strerror(EEXIST)) : 0;
}

/* Does what the words ask for. */
static int sqv_verify(const struct words *words)
{
    const struct program *program = words->program;
    size_t count;
    const char *const *operands = operands_of(words, &count);
    const char *signatures = value_of(words, SIGNATURE_FILE), *as_of = value_of(words, AS_OF);
    const bool is_message = count_of(words, CLEARTEXT) > 0;
    const long wanted = wanted_by(words);
    struct window window;
    int status = take_window(words, NOT_BEFORE, NOT_AFTER, false, &window);
    if (status == 0 && wanted < 1) {
        status = said(program, 2, "'%s' of '--signatures' is no number from 1 on", value_of(words, SIGNATURES));
    }
    if (status == 0 && as_of && foreign_time_in(as_of, false) == OPGP_NONE) {
        status = said(program, 2, "'%s' of '--policy-as-of' is no time", as_of);
    }
    status = status == 0 ? wrong_files(words) : status;
    if (status != 0) {
        return status;
    }
    struct inputs inputs = {.signatures = signatures ? signatures : is_message ? NULL : operands[0],
                            .document = operands[count - 1],
                            .keyrings = all_of(words, KEYRING),
                            .keyring_count = count_of(words, KEYRING),
                            .open = open_named};
    if (inputs_named(&inputs) > 1) {
        return said(program, 2, "standard input is named twice");
    }
    struct judging *judging = NULL;
    bool are_signatures;
    status = judged(program, &inputs, &judging, &are_signatures);
    status = status == 0 ? tell_and_write(words, judging, &window, (size_t)wanted) : status;
    judging_free(judging);
    return status;
}

int sqv(char **next)
{
    static const struct program program = {"opgp-sqv", options, ALL, 2, 2, 1, 1, 1, 1};
    struct words words;
    int status = take_words(&words, &program, next);
    if (status == 0 && (count_of(&words, HELP) > 0 || count_of(&words, VERSION) > 0)) {
        if (count_of(&words, HELP) > 0) {
            fputs(help, stdout);
        } else {
            printf("opgp-sqv %s, by %s\n", OPGP_VERSION, arithmetic_version());
        }
        status = ended(&program, stdout, 0);
    } else if (status == 0) {
        status = sqv_verify(&words);
    }
    free(words.values);
    return status;
}
