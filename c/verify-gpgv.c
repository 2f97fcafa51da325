/* opgp-gpgv: the words, status lines and exit statuses of GnuPG's gpgv. It differs from that where a key is revoked or has expired: there
 * is no VALIDSIG then, and the exit status isn't 0. */
#define _GNU_SOURCE /* for fdopen */
#include "verify-dialects.h"
#include "verify-words.h"

#include <ctype.h>
#include <inttypes.h>
#include <stdlib.h>
#include <string.h>

enum {
    KEYRING,
    STATUS_FD,
    OUTPUT,
    WEAK_DIGEST,
    ASSERTED,
    IGNORE_TIME,
    HOME_FOLDER,
    DUMP,
    VERSION,
    HELP,
    OF_NO_EFFECT
};

static const struct option options[] = {
    [KEYRING] = {"--keyring", NULL, true, true},
    [STATUS_FD] = {"--status-fd", NULL, true, false},
    [OUTPUT] = {"--output", "-o", true, false},
    [WEAK_DIGEST] = {"--weak-digest", NULL, true, true},
    [ASSERTED] = {"--assert-pubkey-algo", NULL, true, true},
    [IGNORE_TIME] = {"--ignore-time-conflict", NULL, false, true},
    [HOME_FOLDER] = {"--homedir", NULL, true, true},
    [DUMP] = {"--dump-options", NULL, false, true},
    [VERSION] = {"--version", NULL, false, true},
    [HELP] = {"--help", "-h", false, true},
    [OF_NO_EFFECT] = {"--keyid-format", NULL, true, true},
    {"--verbose", "-v", false, true},
    {"--quiet", "-q", false, true},
    {"--batch", NULL, false, true},
    {"--verify", NULL, false, true},
    {"--no-options", NULL, false, true},
    {"--no-default-keyring", NULL, false, true},
    {"--no-auto-check-trustdb", NULL, false, true},
    {"--always-trust", NULL, false, true},
    {"--no-*-warning", NULL, false, true},
};

static const char help[] =
    "Verifies detached signatures, or a cleartext message, with the command line and the status lines of GnuPG's\n"
    "gpgv\n\n"
    "Usage: opgp-gpgv [OPTIONS] <SIG> <DATA>\n"
    "       opgp-gpgv [OPTIONS] [--output <FILE>] [MESSAGE]\n\n"
    "Options:\n"
    "      --keyring <FILE>             a keyring with the signers, one for each time that this is given; without\n"
    "                                   a slash it is in the home folder [default: that which OPGP_KEYRING names]\n"
    "      --homedir <FOLDER>           that folder [default: GNUPGHOME, or ~/.gnupg]\n"
    "      --status-fd <N>              the descriptor for status lines\n"
    "  -o, --output <FILE>              write the message's document to this file, or '-', if all signatures are\n"
    "                                   good and believed\n"
    "      --weak-digest <HASH>         don't accept signatures by this hash algorithm, such as SHA1\n"
    "      --assert-pubkey-algo <LIST>  accept signatures by keys of these algorithms alone, such as\n"
    "                                   '>=rsa2048,ed25519'\n"
    "      --ignore-time-conflict       judge a signature that was made after the present time, by a day at\n"
    "                                   most, as at the time when it was made\n"
    "      --dump-options               Print the options\n"
    "      --version                    Print the version\n"
    "  -h, --help                       Print this help\n\n"
    "Other options of gpg and gpgv that clients give have no effect. Exit status: 0 all signatures are good and\n"
    "believed; 1 one is bad or isn't to be believed, also since its key is revoked or expired; 2 an input is\n"
    "refused, a key is missing, the command line is invalid, or reading, writing or memory failed.\n";

/* What a signature must be besides good and believed. */
struct demands {
    bool is_weak[256]; /* of each hash algorithm */
    const char *const *algorithms;
    size_t count; /* of these lists */
};

/* Whether two texts are the same, in letters of any case. */
static bool is_same_text(const char *one, const char *other, size_t size)
{
    for (size_t i = 0; i < size; i++) {
        if (tolower((unsigned char)one[i]) != tolower((unsigned char)other[i])) {
            return false;
        }
    }
    return true;
}

/* Takes the names of weak hash algorithms; 0, or the exit status. */
static int take_weak(const struct words *words, struct demands *demands)
{
    static const struct {
        const char *name;
        uint8_t number;
    } hashes[] = {{"MD5", OPGP_HASH_MD5},       {"SHA1", OPGP_HASH_SHA1},     {"RIPEMD160", OPGP_HASH_RIPEMD160},
                  {"SHA224", OPGP_HASH_SHA224}, {"SHA256", OPGP_HASH_SHA256}, {"SHA384", OPGP_HASH_SHA384},
                  {"SHA512", OPGP_HASH_SHA512}};
    for (size_t i = 0; i < count_of(words, WEAK_DIGEST); i++) {
        const char *name = all_of(words, WEAK_DIGEST)[i];
        size_t at = 0, all = sizeof hashes / sizeof *hashes;
        while (at < all && (strlen(name) != strlen(hashes[at].name) || !is_same_text(name, hashes[at].name, strlen(name)))) {
            at++;
        }
        if (at == all) {
            return said(words->program, 2, "'%s' of '--weak-digest' is no hash algorithm", name);
        }
        demands->is_weak[hashes[at].number] = true;
    }
    return 0;
}

/* A word of a list of algorithms: a comparison, letters, and a number, with what is behind it. */
struct algorithm {
    const char *how, *name;
    size_t compared, size, letters;
    unsigned long number;
};

/* Reads the next word of a list, from *at on; false at its end. */
static bool next_algorithm(const char **at, struct algorithm *word)
{
    word->how = *at + strspn(*at, ", ");
    word->compared = strspn(word->how, "<>=");
    word->name = word->how + word->compared;
    word->size = strcspn(word->name, ", ");
    word->letters = strcspn(word->name, "0123456789, ");
    word->number = strtoul(word->name + word->letters, NULL, 10);
    *at = word->name + word->size;
    return *at > word->how;
}

/* Whether a word of a list is one: =, <, >, <=, >= or nothing, letters, and behind < and > a number. */
static bool is_algorithm(const struct algorithm *word)
{
    bool is_equal = word->compared == 0 || (word->compared == 1 && word->how[0] == '=');
    bool is_order = word->how[0] != '=' && (word->compared == 1 || (word->compared == 2 && word->how[1] == '='));
    return word->letters > 0 && (is_equal || (is_order && word->letters < word->size));
}

/* Whether a key's algorithm is what a word of a list names. */
static bool is_named_by(const char *key_name, const struct algorithm *word)
{
    const char *at = key_name;
    struct algorithm key;
    next_algorithm(&at, &key);
    if (word->compared == 0 || word->how[0] == '=') {
        return key.size == word->size && is_same_text(key.name, word->name, key.size);
    }
    if (key.letters != word->letters || key.letters == key.size || !is_same_text(key.name, word->name, key.letters)) {
        return false;
    }
    bool is_exact = word->compared == 2 && key.number == word->number;
    return is_exact || (word->how[0] == '>' ? key.number > word->number : key.number < word->number);
}

/* Takes the lists of algorithms; 0, or the exit status. */
static int take_algorithms(const struct words *words, struct demands *demands)
{
    demands->algorithms = all_of(words, ASSERTED);
    demands->count = count_of(words, ASSERTED);
    for (size_t i = 0; i < demands->count; i++) {
        const char *at = demands->algorithms[i];
        struct algorithm word;
        size_t count = 0;
        while (next_algorithm(&at, &word)) {
            count++;
            if (!is_algorithm(&word)) {
                count = 0;
                break;
            }
        }
        if (count == 0) {
            return said(words->program, 2, "'%s' of '--assert-pubkey-algo' is no list of algorithms", demands->algorithms[i]);
        }
    }
    return 0;
}

/* Whether the lists of algorithms, if there are any, name that of the key. */
static bool is_asserted(const struct judged *row, const struct demands *demands)
{
    bool is_named = demands->count == 0;
    for (size_t i = 0; i < demands->count; i++) {
        const char *at = demands->algorithms[i];
        struct algorithm word;
        while (next_algorithm(&at, &word)) {
            is_named = is_named || is_named_by(row->key_name, &word);
        }
    }
    return is_named;
}

/* Why a signature that is good and believed isn't accepted; NULL: it is. */
static const char *lacking(const struct judged *row, const struct demands *demands)
{
    return demands->is_weak[row->hash] ? "weak-digest" : is_asserted(row, demands) ? NULL : "algorithm";
}

/* Writes a status line about a key, with the text of its user ID. */
static void tell_key(FILE *status, const char *word, const struct judged *row)
{
    fprintf(status, "[GNUPG:] %s %s ", word, row->key_id[0] ? row->key_id : "0000000000000000");
    if (row->user_id_size > 0) {
        put_text(status, row->user_id, row->user_id_size);
    } else {
        fputs("[?]", status);
    }
    fputc('\n', status);
}

/* Whether no keyring has the signer's key: also where the signature is bad all the same, since its digest doesn't begin as it says. */
static bool is_missing(const struct judged *row)
{
    return is_absent(row) || (row->verdict == OPGP_BAD && !row->key[0]);
}

/* The code of ERRSIG, as gpgv 2.2 has it for each: that a key is missing, isn't meant to sign, or isn't bound; that times don't fit; that
 * the type isn't supported; that the key is refused otherwise; or, for the rest, that an algorithm isn't supported. */
static int error_code(const struct judged *row, bool is_refused)
{
    enum { GENERAL = 1, NO_ALGORITHM = 4, BAD_KEY = 6, NO_KEY = 9, NO_TYPE = 32, TIMES = 39, NO_USE = 125 };
    if (is_missing(row)) {
        return NO_KEY;
    }
    if (row->verdict != OPGP_GOOD || is_refused) {
        return !row->is_hashed && strcmp(row->why, "kind") == 0 ? NO_TYPE : NO_ALGORITHM;
    }
    switch (row->standing) {
    case OPGP_NOT_SIGNING:
        return NO_USE;
    case OPGP_UNBOUND:
        return BAD_KEY;
    case OPGP_EARLY:
    case OPGP_UNDATED:
    case OPGP_IN_FUTURE:
        return TIMES;
    default:
        return GENERAL;
    }
}

/* Writes the status lines of a signature that isn't verified, or not believed for another reason than time and revocation. */
static void tell_error(FILE *status, const struct judged *row, bool is_refused)
{
    const char *name = row->key[0] ? row->key : strlen(row->issuer) > 16 ? row->issuer : "-";
    const char *key_id = row->key_id[0] ? row->key_id : "0000000000000000";
    fprintf(status, "[GNUPG:] ERRSIG %s %u %u %02X %" PRIu64 " %d %s\n", key_id, row->algorithm, row->hash, row->kind,
            row->is_dated ? row->made : 0, error_code(row, is_refused), name);
    if (is_missing(row)) {
        fprintf(status, "[GNUPG:] NO_PUBKEY %s\n", key_id);
    }
}

/* Writes the status lines of a signature that is good and believed. */
static void tell_good(FILE *status, const struct judged *row)
{
    char date[TIME_ROOM];
    tell_key(status, "GOODSIG", row);
    fprintf(status, "[GNUPG:] VALIDSIG %s %s %" PRIu64 " %" PRIu64 " %u 0 %u %u %02X %s\n", row->key,
            time_text(row->made, "%Y-%m-%d", date), row->made, row->expires, row->version, row->algorithm, row->hash, row->kind,
            row->primary);
    fputs("[GNUPG:] TRUST_UNDEFINED 0 pgp\n", status);
}

/* Writes the status lines of a signature. */
static void tell_row(FILE *status, const struct judged *row, const struct demands *demands)
{
    fputs("[GNUPG:] NEWSIG\n", status);
    if (is_believed(row)) {
        const char *refusal = lacking(row, demands);
        if (demands->count > 0) {
            fprintf(status, "[GNUPG:] ASSERT_PUBKEY_ALGO %s %d %s\n", row->key, is_asserted(row, demands), row->key_name);
        }
        if (refusal) {
            tell_error(status, row, true);
        } else {
            tell_good(status, row);
        }
    } else if (row->verdict == OPGP_BAD && !is_missing(row)) {
        tell_key(status, "BADSIG", row);
    } else if (row->verdict == OPGP_GOOD && row->standing == OPGP_LAPSED) {
        tell_key(status, "EXPSIG", row);
    } else if (row->verdict == OPGP_GOOD && row->standing == OPGP_EXPIRED) {
        tell_key(status, "EXPKEYSIG", row);
    } else if (row->verdict == OPGP_GOOD && row->standing == OPGP_REVOKED) {
        tell_key(status, "REVKEYSIG", row);
    } else {
        tell_error(status, row, false);
    }
}

/* Writes what was found; the exit status. `status` is NULL where no status lines are wanted. */
static int tell_gpgv(const struct program *program, const struct judging *judging, FILE *status, const struct demands *demands)
{
    size_t count, absent = 0, refused = 0;
    const struct judged *rows = judging_rows(judging, &count);
    for (const struct judged *row = rows; row < rows + count; row++) {
        const char *refusal = lacking(row, demands);
        if (status) {
            tell_row(status, row, demands);
        }
        explain(program, row, refusal);
        absent += is_absent(row);
        refused += !is_absent(row) && (!is_believed(row) || refusal);
    }
    int found = refused > 0 ? 1 : absent > 0 || count == 0 ? 2 : 0;
    return status ? ended(program, status, found) : found;
}

/* Opens what status lines go to, if they are wanted; 0, or the exit status. */
static int open_status(const struct words *words, FILE **status)
{
    const char *word = value_of(words, STATUS_FD);
    long number = word ? number_in(word) : -1;
    if (!word) {
        return 0;
    }
    *status = number == 1 ? stdout : number == 2 ? stderr : number > 2 ? fdopen((int)number, "w") : NULL;
    return *status ? 0 : said(words->program, 2, "'%s' of '--status-fd' is no descriptor to write to", word);
}

/* Says that there is no signature to verify. */
static int no_data(FILE *status, int found)
{
    if (status) {
        fputs("[GNUPG:] NODATA 1\n", status);
        fflush(status);
    }
    return found;
}

/* Writes the document of a message; the exit status. As with gpgv, its last line has an end too, which isn't signed: programs look for
 * that. And a file that is there is replaced. */
static int put_document(const struct program *program, const struct judging *judging, const char *name)
{
    size_t size;
    struct output output;
    const uint8_t *text = judging_text(judging, &size);
    if (strcmp(name, "-") == 0) {
        fwrite(text, 1, size + 1, stdout);
        return ended(program, stdout, 0);
    }
    int found = written(program, judging, name, true, true, &output);
    return kept(program, &output, found);
}

/* Where a keyring is looked for: the folder, and what stands between that and the name. */
struct place {
    const char *folder, *between;
};

/* Where GnuPG looks for a keyring of this name: behind ~/ in the user's folder; without a slash in GnuPG's own, which is never the current
 * one; else where it says. Empty texts say that, and no folder that there is none. */
static struct place place_of(const struct words *words, const char **name)
{
    const char *user = getenv("HOME"), *own = getenv("GNUPGHOME");
    size_t given = count_of(words, HOME_FOLDER);
    if (strncmp(*name, "~/", 2) == 0) {
        *name += 2;
        return (struct place){user, "/"};
    }
    if (strchr(*name, '/') || is_input(*name)) {
        return (struct place){"", ""};
    }
    if (given > 0 || (own && own[0])) {
        return (struct place){given > 0 ? all_of(words, HOME_FOLDER)[given - 1] : own, "/"};
    }
    return (struct place){user, "/.gnupg/"};
}

/* Puts the file of a keyring of this name at *file, for free(); 0, or the exit status. */
static int find_keyring(const struct words *words, const char *name, char **file)
{
    const char *rest = name;
    const struct place place = place_of(words, &rest);
    if (!place.folder || (place.between[0] && !place.folder[0])) {
        return said(words->program, 2, "'%s' of '--keyring' is in the home folder: give --homedir, or set HOME", name);
    }
    size_t size = strlen(place.folder) + strlen(place.between) + strlen(rest) + 1;
    *file = malloc(size);
    if (!*file) {
        return said(words->program, 2, "out of memory");
    }
    snprintf(*file, size, "%s%s%s", place.folder, place.between, rest);
    return 0;
}

static void free_all(char **texts, size_t count)
{
    for (size_t i = 0; texts && i < count; i++) {
        free(texts[i]);
    }
    free(texts);
}

/* Verifies by these keyrings with these demands, and writes status lines, if they are wanted. */
static int verified_by(const struct words *words, const struct demands *demands, FILE *status, const char *const *keyrings,
                       size_t keyring_count)
{
    const struct program *program = words->program;
    const char *output = value_of(words, OUTPUT);
    size_t count;
    const char *const *operands = operands_of(words, &count);
    if (count > 2) {
        return said(program, 2, "'%s' isn't wanted: a document is one file", operands[2]);
    }
    if (count == 2 && output) {
        return said(program, 2, "'--output' is for signed messages: detached signatures have none");
    }
    const struct inputs inputs = {.signatures = count == 2 ? operands[0] : NULL,
                                  .document = count > 0 ? operands[count - 1] : "-",
                                  .keyrings = keyrings,
                                  .keyring_count = keyring_count,
                                  .open = open_named,
                                  .ahead = count_of(words, IGNORE_TIME) > 0 ? 24 * 60 * 60 : 0};
    if (inputs_named(&inputs) > 1) {
        return said(program, 2, "standard input is named twice");
    }
    struct judging *judging = NULL;
    bool are_signatures;
    int found = judged(program, &inputs, &judging, &are_signatures);
    found = !are_signatures ? no_data(status, found) : found == 0 ? tell_gpgv(program, judging, status, demands) : found;
    found = found == 0 && output ? put_document(program, judging, output) : found;
    judging_free(judging);
    return found;
}

/* The same by the keyrings that are named. */
static int gpgv_verify(const struct words *words, const struct demands *demands, FILE *status)
{
    const char *usual = getenv("OPGP_KEYRING");
    size_t count = count_of(words, KEYRING);
    if (count == 0) {
        return usual && usual[0] ? verified_by(words, demands, status, &usual, 1)
                                 : said(words->program, 2, "no keyring: give --keyring, or set OPGP_KEYRING");
    }
    char **files = calloc(count, sizeof *files);
    int found = files ? 0 : said(words->program, 2, "out of memory");
    for (size_t i = 0; found == 0 && i < count; i++) {
        found = find_keyring(words, all_of(words, KEYRING)[i], &files[i]);
    }
    found = found == 0 ? verified_by(words, demands, status, (const char *const *)files, count) : found;
    free_all(files, count);
    return found;
}

/* Prints what there is to print of the program itself; false if that isn't asked for. */
static bool is_about_gpgv(const struct words *words)
{
    if (count_of(words, HELP) > 0) {
        fputs(help, stdout);
    } else if (count_of(words, VERSION) > 0) {
        printf("opgp-gpgv %s, by %s\n", OPGP_VERSION, arithmetic_version());
    } else if (count_of(words, DUMP) > 0) {
        for (size_t i = 0; i < words->program->option_count; i++) {
            if (!strchr(words->program->options[i].name, '*')) {
                puts(words->program->options[i].name);
            }
        }
    } else {
        return false;
    }
    return true;
}

int gpgv(char **next)
{
    static const struct program program = {"opgp-gpgv", options, sizeof options / sizeof *options, 2, 2, 2, 2, 2, 2};
    struct words words;
    struct demands demands = {.count = 0};
    FILE *status = NULL;
    int found = take_words(&words, &program, next);
    if (found == 0 && is_about_gpgv(&words)) {
        found = ended(&program, stdout, 0);
    } else {
        found = found == 0 ? take_weak(&words, &demands) : found;
        found = found == 0 ? take_algorithms(&words, &demands) : found;
        found = found == 0 ? open_status(&words, &status) : found;
        found = found == 0 ? gpgv_verify(&words, &demands, status) : found;
    }
    free(words.values);
    return found;
}
