/* opgp-sopv: the words, lines and statuses of sopv, the part of draft-dkg-openpgp-stateless-cli that verifies. */
#define _GNU_SOURCE /* for fmemopen and open_memstream */
#include "verify-dialects.h"
#include "verify-words.h"

#include <errno.h>
#include <stdlib.h>
#include <string.h>
#include <unistd.h>

/* The options of `inline-verify`, of which `verify` has all but the last, and those of `version`. */
enum { VERIFY_HELP, NOT_BEFORE, NOT_AFTER, VERIFY_DEBUG, VERIFY_ALL, VERIFICATIONS_OUT = VERIFY_ALL, INLINE_ALL };
enum { VERSION_HELP, EXTENDED, BACKEND, SPEC, SOPV, VERSION_DEBUG, VERSION_ALL };

/* Exit statuses of sop. */
enum {
    SOP_FAILED = 1,
    SOP_NO_SIGNATURE = 3,
    SOP_MISSING_ARGUMENT = 19,
    SOP_UNSUPPORTED_OPTION = 37,
    SOP_BAD_DATA = 41,
    SOP_OUTPUT_EXISTS = 59,
    SOP_MISSING_INPUT = 61,
    SOP_UNSUPPORTED_SUBCOMMAND = 69,
    SOP_UNSUPPORTED_PREFIX = 71,
    SOP_AMBIGUOUS_INPUT = 73,
    SOP_INCOMPATIBLE_OPTIONS = 83
};

#define SOP_STATUSES SOP_UNSUPPORTED_OPTION, SOP_MISSING_ARGUMENT, SOP_MISSING_INPUT, SOP_FAILED, SOP_BAD_DATA, SOP_FAILED

static const struct option verify_options[] = {
    [VERIFY_HELP] = {"--help", "-h", false, true},
    [NOT_BEFORE] = {"--not-before", NULL, true, false},
    [NOT_AFTER] = {"--not-after", NULL, true, false},
    [VERIFY_DEBUG] = {"--debug", NULL, false, true},
    [VERIFICATIONS_OUT] = {"--verifications-out", NULL, true, false},
};

static const struct option version_options[] = {
    [VERSION_HELP] = {"--help", "-h", false, true},
    [EXTENDED] = {"--extended", NULL, false, true},
    [BACKEND] = {"--backend", NULL, false, true},
    [SPEC] = {"--sop-spec", NULL, false, true},
    [SOPV] = {"--sopv", NULL, false, true},
    [VERSION_DEBUG] = {"--debug", NULL, false, true},
};

static const char help[] =
    "Verifies detached signatures over standard input, or a cleartext message on it, with the command line of sopv\n"
    "(the part of the Stateless OpenPGP Command Line Interface that verifies)\n\n"
    "Usage: opgp-sopv verify [--not-before=TIME] [--not-after=TIME] [--] SIGNATURES CERTS... < DATA\n"
    "       opgp-sopv inline-verify [--not-before=TIME] [--not-after=TIME] [--verifications-out=FILE] [--] CERTS...\n"
    "                 < MESSAGE > DATA\n"
    "       opgp-sopv version [--extended|--backend|--sop-spec|--sopv]\n\n"
    "SIGNATURES and CERTS are files, @ENV:NAME (an environment variable) or @FD:N (a file descriptor). A TIME is\n"
    "'now', '-' for none, a date, such as 2026-11-20T08:30:00Z, or '@' and seconds since 1970.\n"
    "A line for each good and believed signature: when it was made, the fingerprints of its key and of the\n"
    "primary key, and its mode; of a message they go to FILE, which must not exist, or @FD:N, and its document is\n"
    "written if there is one. Exit status: 0 there is one; 3 there is none; 19 an argument is missing; 37 an\n"
    "option isn't supported; 41 an input isn't of its kind; 59 FILE exists; 61 an input isn't there; 69 a\n"
    "subcommand isn't supported; 71, 73 a name in @ isn't one, or is a file too; 1 reading, writing or memory\n"
    "failed.\n";

static int print_help(const struct program *program)
{
    fputs(help, stdout);
    return ended(program, stdout, 0);
}

/* Opens what SIGNATURES, CERTS or - name. */
static FILE *open_of_sop(const char *name)
{
    if (strncmp(name, "@ENV:", 5) == 0) {
        char *value = getenv(name + 5);
        if (!value) {
            errno = ENOENT;
            return NULL;
        }
        return value[0] ? fmemopen(value, strlen(value), "rb") : fopen("/dev/null", "rb");
    }
    if (strncmp(name, "@FD:", 4) == 0) {
        long number = number_in(name + 4);
        int copy = number >= 0 ? dup((int)number) : -1;
        FILE *file = copy >= 0 ? fdopen(copy, "rb") : NULL;
        errno = number < 0 ? ENOENT : errno;
        return file;
    }
    return open_named(name);
}

/* Looks at the name of an input; 0, or the exit status. */
static int wrong_name(const struct program *program, const char *name)
{
    if (is_input(name) || (strncmp(name, "@FD:", 4) == 0 && number_in(name + 4) == 0)) {
        return said(program, SOP_MISSING_INPUT, "'%s': standard input is the document", name);
    }
    if (name[0] == '@' && access(name, F_OK) == 0) {
        return said(program, SOP_AMBIGUOUS_INPUT, "'%s' is a file too: write './%s' for that", name, name);
    }
    if (name[0] == '@' && strncmp(name, "@ENV:", 5) != 0 && strncmp(name, "@FD:", 4) != 0) {
        return said(program, SOP_UNSUPPORTED_PREFIX, "'%s': only @ENV: and @FD: are known", name);
    }
    return 0;
}

/* Writes the verifications to a file, if there is one; the exit status, but for what is wrong with that file. */
static int tell_sopv(const struct words *words, const struct judging *judging, const struct window *window, FILE *file)
{
    size_t count, accepted = 0;
    const struct judged *rows = judging_rows(judging, &count);
    for (const struct judged *row = rows; row < rows + count; row++) {
        char made[TIME_ROOM];
        if (is_believed(row) && !outside(row, window)) {
            fprintf(file, "%s %s %s mode:%s\n", time_text(row->made, "%Y-%m-%dT%H:%M:%SZ", made), row->key, row->primary,
                   row->kind == OPGP_SIGNATURE_TEXT ? "text" : "binary");
            accepted++;
        }
    }
    for (const struct judged *row = rows; row < rows + count && (accepted == 0 || count_of(words, VERIFY_DEBUG) > 0); row++) {
        explain(words->program, row, outside(row, window));
    }
    if (accepted == 0) {
        return said(words->program, SOP_NO_SIGNATURE, "no signature is good and believed");
    }
    return 0;
}

/* Does what the words behind `verify` ask for. */
static int sopv_verify(const struct words *words)
{
    size_t count;
    const char *const *operands = operands_of(words, &count);
    struct window window;
    struct judging *judging = NULL;
    bool are_signatures;
    int status = take_window(words, NOT_BEFORE, NOT_AFTER, true, &window);
    if (status == 0 && count < 2) {
        status = said(words->program, SOP_MISSING_ARGUMENT, "SIGNATURES and CERTS are wanted");
    }
    for (size_t i = 0; status == 0 && i < count; i++) {
        status = wrong_name(words->program, operands[i]);
    }
    if (status == 0) {
        const struct inputs inputs = {operands[0], "-", operands + 1, count - 1, open_of_sop, INTAKE_OPERANDS, 0};
        status = judged(words->program, &inputs, &judging, &are_signatures);
        status = status == 0 ? tell_sopv(words, judging, &window, stdout) : status;
        status = status == 0 ? ended(words->program, stdout, 0) : status;
        judging_free(judging);
    }
    return status;
}

/* Looks at the name of an output; 0, or the exit status. */
static int wrong_output(const struct program *program, const char *name)
{
    long number = strncmp(name, "@FD:", 4) == 0 ? number_in(name + 4) : -1;
    if (is_taken(name)) {
        int status = name[0] == '@' ? SOP_AMBIGUOUS_INPUT : SOP_OUTPUT_EXISTS;
        return said(program, status, "'%s' is there already", name);
    }
    if (name[0] == '@' && strncmp(name, "@FD:", 4) != 0) {
        return said(program, SOP_UNSUPPORTED_PREFIX, "'%s': only @FD: is known for an output", name);
    }
    if (name[0] == '@' && (number < 0 || number == 1)) {
        const char *why = number < 0 ? "no descriptor" : "the document goes to standard output";
        return said(program, SOP_UNSUPPORTED_OPTION, "'%s': %s", name, why);
    }
    return 0;
}

/* Writes the verifications and the document: where one of them can't be written, the file of the former isn't there. */
static int put_message(const struct words *words, const struct judging *judging, const char *verifications, size_t size)
{
    const struct program *program = words->program;
    const char *name = value_of(words, VERIFICATIONS_OUT);
    struct output output = {0};
    size_t text_size;
    const uint8_t *text = judging_text(judging, &text_size);
    if (name && name[0] == '@') {
        int copy = dup((int)number_in(name + 4));
        FILE *file = copy >= 0 ? fdopen(copy, "w") : NULL;
        bool is_put = file && fwrite(verifications, 1, size, file) == size;
        if (!file || fclose(file) != 0 || !is_put) {
            return said(program, SOP_FAILED, "can't write '%s': %s", name, strerror(errno));
        }
    } else if (name && !output_write(&output, name, (const uint8_t *)verifications, size, false, false)) {
        return said(program, SOP_FAILED, "can't write '%s': %s", name, strerror(errno));
    }
    fwrite(text, 1, text_size, stdout);
    return kept(program, &output, ended(program, stdout, 0));
}

/* Judges a message by the keys in these files, and writes what is to be written. */
static int inline_verified(const struct words *words, const char *const *certs, size_t count, const struct window *window)
{
    const struct inputs inputs = {NULL, "-", certs, count, open_of_sop, INTAKE_OPERANDS, 0};
    struct judging *judging = NULL;
    char *verifications = NULL;
    size_t size = 0;
    bool are_signatures;
    int status = judged(words->program, &inputs, &judging, &are_signatures);
    FILE *file = status == 0 ? open_memstream(&verifications, &size) : NULL;
    if (status == 0) {
        status = file ? tell_sopv(words, judging, window, file) : said(words->program, SOP_FAILED, "out of memory");
    }
    if (file) {
        bool is_whole = !ferror(file);
        is_whole = fclose(file) == 0 && is_whole && verifications;
        status = status == 0 && !is_whole ? said(words->program, SOP_FAILED, "out of memory") : status;
    }
    status = status == 0 ? put_message(words, judging, verifications, size) : status;
    free(verifications);
    judging_free(judging);
    return status;
}

/* Does what the words behind `inline-verify` ask for. */
static int sopv_inline_verify(const struct words *words)
{
    size_t count;
    const char *const *operands = operands_of(words, &count);
    const char *name = value_of(words, VERIFICATIONS_OUT);
    struct window window;
    int status = take_window(words, NOT_BEFORE, NOT_AFTER, true, &window);
    if (status == 0 && count < 1) {
        status = said(words->program, SOP_MISSING_ARGUMENT, "CERTS are wanted");
    }
    for (size_t i = 0; status == 0 && i < count; i++) {
        status = wrong_name(words->program, operands[i]);
    }
    status = status == 0 && name ? wrong_output(words->program, name) : status;
    return status == 0 ? inline_verified(words, operands, count, &window) : status;
}

/* Does what the words behind `version` ask for. */
static int sopv_version(const struct words *words)
{
    size_t count, asked = 0;
    const char *const *operands = operands_of(words, &count);
    for (size_t i = EXTENDED; i <= SOPV; i++) {
        asked += count_of(words, i) > 0;
    }
    if (count > 0) {
        return said(words->program, SOP_UNSUPPORTED_OPTION, "'%s' isn't wanted", operands[0]);
    }
    if (asked > 1) {
        return said(words->program, SOP_INCOMPATIBLE_OPTIONS, "only one of these options may be there");
    }
    if (count_of(words, BACKEND) > 0) {
        puts("libopgp " OPGP_VERSION);
    } else if (count_of(words, SPEC) > 0) {
        puts("~draft-dkg-openpgp-stateless-cli-11");
    } else if (count_of(words, SOPV) > 0) {
        return said(words->program, SOP_UNSUPPORTED_OPTION, "sopv isn't there whole: of signed messages only cleartext ones are read");
    } else {
        puts("opgp-sopv " OPGP_VERSION);
    }
    if (count_of(words, EXTENDED) > 0) {
        printf("libopgp %s\n%s\n", OPGP_VERSION, arithmetic_version());
    }
    return ended(words->program, stdout, 0);
}

int sopv(char **next)
{
    static const struct {
        const char *name;
        struct program program;
        int (*does)(const struct words *words);
    } subcommands[] = {
        {"verify", {"opgp-sopv", verify_options, VERIFY_ALL, SOP_STATUSES}, sopv_verify},
        {"inline-verify", {"opgp-sopv", verify_options, INLINE_ALL, SOP_STATUSES}, sopv_inline_verify},
        {"version", {"opgp-sopv", version_options, VERSION_ALL, SOP_STATUSES}, sopv_version},
    };
    const struct program *usual = &subcommands[0].program;
    const size_t all = sizeof subcommands / sizeof *subcommands;
    size_t at = 0;
    struct words words;
    while (*next && strcmp(*next, "--debug") == 0) {
        next++;
    }
    if (!*next) {
        return said(usual, SOP_MISSING_ARGUMENT, "a subcommand is wanted: verify, inline-verify or version");
    }
    if (strcmp(*next, "--help") == 0 || strcmp(*next, "-h") == 0 || strcmp(*next, "help") == 0) {
        return print_help(usual);
    }
    while (at < all && strcmp(*next, subcommands[at].name) != 0) {
        at++;
    }
    if (at == all) {
        bool is_option_word = (*next)[0] == '-';
        return said(usual, is_option_word ? SOP_UNSUPPORTED_OPTION : SOP_UNSUPPORTED_SUBCOMMAND, "unknown %s '%s'",
                    is_option_word ? "option" : "subcommand", *next);
    }
    int status = take_words(&words, &subcommands[at].program, next + 1);
    if (status == 0) {
        status = count_of(&words, VERIFY_HELP) > 0 ? print_help(usual) : subcommands[at].does(&words);
    }
    free(words.values);
    return status;
}
