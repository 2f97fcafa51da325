/* The words of a command line. */
#include "verify-options.h"

#include "verify-words.h"

#include <stdarg.h>
#include <stdlib.h>
#include <string.h>

int said(const struct program *program, int status, const char *form, ...)
{
    va_list values;
    va_start(values, form);
    say_as(program->name, form, values);
    va_end(values);
    return status;
}

const char *const *all_of(const struct words *words, size_t option)
{
    return words->values + option * words->room;
}

size_t count_of(const struct words *words, size_t option)
{
    return words->counts[option];
}

const char *value_of(const struct words *words, size_t option)
{
    return count_of(words, option) > 0 ? all_of(words, option)[0] : NULL;
}

const char *const *operands_of(const struct words *words, size_t *count)
{
    *count = count_of(words, words->program->option_count);
    return all_of(words, words->program->option_count);
}

static void add(struct words *words, size_t option, const char *value)
{
    words->values[option * words->room + words->counts[option]++] = value;
}

/* Whether a word of this size, without its value, is an option. */
static bool is_option(const struct option *option, const char *word, size_t size)
{
    size_t whole = strlen(option->name), front = strcspn(option->name, "*");
    if (front < whole) {
        return size > whole - 1 && strncmp(word, option->name, front) == 0
               && strncmp(word + size - (whole - front - 1), option->name + front + 1, whole - front - 1) == 0;
    }
    return (size == whole && strncmp(word, option->name, size) == 0)
           || (option->other && size == strlen(option->other) && strncmp(word, option->other, size) == 0);
}

/* Takes an option and its value, which may be in the next word; 0, or the exit status. */
static int take_option(struct words *words, char ***next)
{
    const struct program *program = words->program;
    const char *word = **next, *value = word[1] == '-' ? strchr(word, '=') : NULL;
    size_t size = value ? (size_t)(value - word) : strlen(word), at = 0;
    while (at < program->option_count && !is_option(&program->options[at], word, size)) {
        at++;
    }
    if (at == program->option_count) {
        return said(program, program->unknown, "unknown option '%.*s'", (int)size, word);
    }
    const struct option *option = &program->options[at];
    if (!option->has_value && value) {
        return said(program, program->unknown, "the option '%.*s' has no value", (int)size, word);
    }
    if (count_of(words, at) > 0 && !option->may_repeat) {
        return said(program, program->unknown, "the option '%s' is there twice", option->name);
    }
    if (option->has_value && !value && (*next)[1]) {
        value = *++*next;
    } else if (value) {
        value++;
    }
    if (option->has_value && (!value || !value[0])) {
        return said(program, program->wanting, "the option '%s' wants a value", option->name);
    }
    add(words, at, value ? value : word);
    return 0;
}

int take_words(struct words *words, const struct program *program, char **next)
{
    size_t count = 0;
    while (next[count]) {
        count++;
    }
    *words = (struct words){.program = program, .room = count + 1};
    words->values = calloc((program->option_count + 1) * words->room, sizeof *words->values);
    if (!words->values) {
        return said(program, program->failed, "out of memory");
    }
    bool has_options = true;
    for (int status = 0; *next; next++) {
        bool may_be = has_options && (*next)[0] == '-' && (*next)[1] != 0;
        if (may_be && strcmp(*next, "--") == 0) {
            has_options = false;
        } else if (may_be) {
            status = take_option(words, &next);
        } else {
            add(words, program->option_count, *next);
        }
        if (status != 0) {
            return status;
        }
    }
    return 0;
}

long number_in(const char *word)
{
    size_t digits = strspn(word, "0123456789");
    return digits > 0 && digits < 10 && word[digits] == 0 ? strtol(word, NULL, 10) : -1;
}

int ended(const struct program *program, FILE *file, int status)
{
    return fflush(file) || ferror(file) ? said(program, program->failed, "write failed") : status;
}
