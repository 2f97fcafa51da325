/* What opgp-sopv, opgp-sqv and opgp-gpgv have in common, and which of them a name is. */
#include "verify-dialects.h"

#include "verify-causes.h"
#include "verify-words.h"

#include <errno.h>
#include <string.h>

/* The exit status for a step that isn't done. */
static int status_of(const struct program *program, enum outcome outcome)
{
    switch (outcome) {
    case STEP_MISSING: return program->missing;
    case STEP_UNREAD: return program->unread;
    case STEP_REFUSED: return program->refused;
    default: return program->failed;
    }
}

int judged(const struct program *program, const struct inputs *inputs, struct judging **judging, bool *are_signatures)
{
    const uint64_t now = present_time();
    *are_signatures = true;
    *judging = arithmetic_stands() ? judging_new(program->name, inputs->open, inputs->intake) : NULL;
    if (!*judging) {
        return said(program, program->failed, "out of memory");
    }
    bool is_message = !inputs->signatures;
    enum outcome outcome = is_message ? judging_cleartext(*judging, inputs->document) : judging_signatures(*judging, inputs->signatures);
    *are_signatures = outcome != STEP_REFUSED;
    outcome = outcome == STEP_DONE ? judging_keyrings(*judging, inputs->keyrings, inputs->keyring_count) : outcome;
    outcome = outcome == STEP_DONE && !is_message ? judging_document(*judging, inputs->document) : outcome;
    outcome = outcome == STEP_DONE ? judging_verdicts(*judging, OPGP_POLICY_USUAL, now) : outcome;
    if (inputs->ahead > 0) {
        outcome = outcome == STEP_DONE ? judging_ahead(*judging, OPGP_POLICY_USUAL, now, inputs->ahead) : outcome;
    }
    outcome = outcome == STEP_DONE ? judging_names(*judging, OPGP_POLICY_USUAL, now) : outcome;
    return outcome == STEP_DONE ? 0 : status_of(program, outcome);
}

size_t inputs_named(const struct inputs *inputs)
{
    size_t count = (size_t)(inputs->signatures && is_input(inputs->signatures)) + is_input(inputs->document);
    for (size_t i = 0; i < inputs->keyring_count; i++) {
        count += is_input(inputs->keyrings[i]);
    }
    return count;
}

bool is_believed(const struct judged *row)
{
    return row->verdict == OPGP_GOOD && row->standing == OPGP_BELIEVED;
}

bool is_absent(const struct judged *row)
{
    return row->verdict == OPGP_UNDECIDED && row->is_hashed && strcmp(row->why, "absent") == 0;
}

int written(const struct program *program, const struct judging *judging, const char *name, bool has_end, bool may_replace,
            struct output *output)
{
    size_t size;
    const uint8_t *text = judging_text(judging, &size);
    *output = (struct output){0};
    bool is_fine = !name || output_write(output, name, text, size + has_end, may_replace, false);
    return is_fine ? 0 : said(program, program->failed, "can't write '%s': %s", name, strerror(errno));
}

int kept(const struct program *program, struct output *output, int status)
{
    const char *name = output->name;
    if (status == 0 && !output_keep(output)) {
        status = said(program, program->failed, "can't write '%s': %s", name, strerror(errno));
    }
    output_end(output);
    return status;
}

const char *outside(const struct judged *row, const struct window *window)
{
    return row->made < window->begin ? "before" : row->made > window->end ? "after" : NULL;
}

int take_window(const struct words *words, size_t before, size_t after, bool has_none, struct window *window)
{
    const size_t options[] = {before, after};
    uint64_t *const ends[] = {&window->begin, &window->end};
    *window = (struct window){0, OPGP_NONE};
    for (size_t i = 0; i < 2; i++) {
        const char *word = value_of(words, options[i]);
        if (!word || (has_none && strcmp(word, "-") == 0)) {
            continue;
        }
        *ends[i] = strcmp(word, "now") == 0 ? present_time() : foreign_time_in(word, i == 1);
        if (*ends[i] == OPGP_NONE) {
            const struct program *program = words->program;
            return said(program, program->unknown, "'%s' of '%s' is no time: a date, such as 2026-11-20T08:30:00Z, or seconds since 1970, as @1763629200", word,
                        program->options[options[i]].name);
        }
    }
    return 0;
}

void explain(const struct program *program, const struct judged *row, const char *refusal)
{
    char made[TIME_ROOM];
    const char *key = row->key[0] ? row->key : row->issuer[0] ? row->issuer : "-";
    fprintf(stderr, "%s: signature %zu type %02X hash %u made %s key %s certificate %s : ", program->name, row->number, row->kind,
            row->hash, row->is_dated ? time_text(row->made, "%Y-%m-%dT%H:%M:%SZ", made) : "-", key, row->primary[0] ? row->primary : "-");
    if (!row->is_hashed) {
        fprintf(stderr, "none %s", row->why);
    } else if (row->verdict == OPGP_BAD) {
        fputs("bad", stderr);
    } else if (row->verdict != OPGP_GOOD) {
        fprintf(stderr, "undecided %s", row->why);
    } else if (row->standing != OPGP_BELIEVED) {
        char word[OPGP_NAME_ROOM];
        fprintf(stderr, "good unbelieved %s", opgp_name_text(OPGP_UNBELIEVED, row->standing, word));
        if (row->cause.why != OPGP_BELIEVED) {
            print_cause(stderr, &row->cause);
        }
    } else if (refusal) {
        fprintf(stderr, "good refused %s", refusal);
    } else {
        fputs("good", stderr);
    }
    if (row->user_id_size > 0) {
        fputs(" \"", stderr);
        put_text(stderr, row->user_id, row->user_id_size);
        fputc('"', stderr);
    }
    fputc('\n', stderr);
    if (row->verdict == OPGP_GOOD && row->cause.why != OPGP_BELIEVED) {
        explain_cause(program->name, &row->cause);
    }
}

dialect *dialect_of(const char *started)
{
    static const struct {
        const char *name;
        dialect *does;
    } names[] = {{"sopv", sopv}, {"sqv", sqv}, {"gpgv", gpgv}};
    const char *slash = strrchr(started, '/'), *name = slash ? slash + 1 : started;
    name = strncmp(name, "opgp-", 5) == 0 ? name + 5 : name;
    for (size_t i = 0; i < sizeof names / sizeof *names; i++) {
        if (strcmp(name, names[i].name) == 0) {
            return names[i].does;
        }
    }
    return NULL;
}
