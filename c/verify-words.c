/* Names of files, times, and what is said of them. */
#define _DEFAULT_SOURCE /* for timegm */
#include "verify-words.h"

#include <opgp.h>

#include <stdlib.h>
#include <string.h>
#include <time.h>

bool is_input(const char *name)
{
    static const char *const names[] = {"-", "/dev/stdin", "/dev/fd/0", "/proc/self/fd/0"};
    for (size_t i = 0; i < sizeof names / sizeof *names; i++) {
        if (strcmp(name, names[i]) == 0) {
            return true;
        }
    }
    return false;
}

FILE *open_named(const char *name)
{
    return is_input(name) ? stdin : fopen(name, "rb");
}

void close_named(FILE *file)
{
    if (file != stdin) {
        fclose(file);
    }
}

uint8_t *read_all(FILE *file, size_t *size)
{
    size_t room = 1 << 16;
    uint8_t *octets = malloc(room);
    *size = 0;
    while (octets && (*size += fread(octets + *size, 1, room - *size, file)) == room) {
        uint8_t *more = room <= SIZE_MAX / 2 ? realloc(octets, 2 * room) : NULL;
        if (!more) {
            free(octets);
        }
        octets = more;
        room *= 2;
    }
    return octets;
}

/* So many seconds since 1970 as these digits say; OPGP_NONE if they are none, or too many. */
static uint64_t seconds_in(const char *digits)
{
    size_t count = strspn(digits, "0123456789");
    return count > 0 && count < 19 && digits[count] == 0 ? strtoull(digits, NULL, 10) : OPGP_NONE;
}

/* Takes a number of two digits, up to `most`, behind a sign if there is to be one; false if it isn't there. */
static bool take_pair(const char **at, char sign, int most, int *number)
{
    const char *digits = *at + (sign && **at == sign);
    if ((sign && **at != sign) || strspn(digits, "0123456789") < 2) {
        return false;
    }
    *number = (digits[0] - '0') * 10 + digits[1] - '0';
    *at = digits + 2;
    return *number <= most;
}

/* The same of one that needn't be there. */
static bool may_take_pair(const char **at, char sign, int most, int *number)
{
    bool is_there = sign ? **at == sign : strspn(*at, "0123456789") > 0;
    return !is_there || take_pair(at, sign, most, number);
}

/* Takes an offset from UTC (Z, +01:00, +0100 or +01), in seconds; false if what is there is none. */
static bool take_offset(const char **at, long *offset)
{
    int hours, minutes = 0;
    bool is_behind = **at == '-';
    *offset = 0;
    if (**at == 'Z') {
        ++*at;
        return true;
    }
    if ((!is_behind && **at != '+') || !take_pair(at, **at, 23, &hours)) {
        return false;
    }
    bool is_whole = may_take_pair(at, **at == ':' ? ':' : 0, 59, &minutes);
    *offset = (is_behind ? -60L : 60L) * (60 * hours + minutes);
    return is_whole;
}

/* Takes a time of day, as 08, 08:30 or 08:30:00, or without colons, and an offset, if it is there; false if what is there is none. */
static bool take_time_of_day(const char **at, char colon, struct tm *date, long *offset)
{
    return take_pair(at, 0, 23, &date->tm_hour) && may_take_pair(at, colon, 59, &date->tm_min)
           && may_take_pair(at, colon, 59, &date->tm_sec) && (**at == 0 || take_offset(at, offset));
}

/* A date is one if the calendar has it: it is the same when it is made of the seconds again. */
static uint64_t date_in(const char *word, bool is_end)
{
    const char *at = word;
    struct tm date = {.tm_mday = 0}, again;
    int front, rear;
    long offset = 0;
    if (!take_pair(&at, 0, 99, &front) || !take_pair(&at, 0, 99, &rear)) {
        return OPGP_NONE;
    }
    const bool is_parted = *at == '-';
    if (!take_pair(&at, is_parted ? '-' : 0, 12, &date.tm_mon) || !take_pair(&at, is_parted ? '-' : 0, 31, &date.tm_mday)) {
        return OPGP_NONE;
    }
    date.tm_year = 100 * front + rear - 1900;
    date.tm_mon--;
    const bool is_day = *at == 0;
    if (!is_day && (*at++ != 'T' || !take_time_of_day(&at, is_parted ? ':' : 0, &date, &offset) || *at != 0)) {
        return OPGP_NONE;
    }
    const struct tm said = date;
    time_t found = timegm(&date);
    bool is_one = gmtime_r(&found, &again) && again.tm_year == said.tm_year && again.tm_mon == said.tm_mon && again.tm_mday == said.tm_mday;
    found -= offset;
    return is_one && found >= 0 ? (uint64_t)found + (is_day && is_end ? 24 * 60 * 60 - 1 : 0) : OPGP_NONE;
}

uint64_t foreign_time_in(const char *word, bool is_end)
{
    return word[0] == '@' ? seconds_in(word + 1) : date_in(word, is_end);
}

bool may_be_date(const char *word)
{
    int month, day;
    if (strspn(word, "0123456789") != 8 || word[8] != 0) {
        return false;
    }
    const char *at = word + 4;
    return take_pair(&at, 0, 12, &month) && take_pair(&at, 0, 31, &day) && month > 0 && day > 0;
}

uint64_t time_in(const char *word)
{
    if (word[0] == '@' || word[strspn(word, "0123456789")] == 0) {
        return may_be_date(word) ? OPGP_NONE : seconds_in(word + (word[0] == '@'));
    }
    size_t size = strlen(word);
    bool is_day = size == sizeof "2026-11-20" - 1, is_second = size == sizeof "2026-11-20T08:30:00Z" - 1 && word[size - 1] == 'Z';
    return (is_day || is_second) && word[4] == '-' ? date_in(word, false) : OPGP_NONE;
}

uint64_t present_time(void)
{
    time_t clock = time(NULL);
    return clock < 0 ? 0 : (uint64_t)clock;
}

char *time_text(uint64_t seconds, const char *form, char text[TIME_ROOM])
{
    time_t found = (time_t)seconds;
    struct tm date;
    if (!gmtime_r(&found, &date) || strftime(text, TIME_ROOM, form, &date) == 0) {
        strcpy(text, "-");
    }
    return text;
}

/* Whether this character of two or three octets turns the direction of the text behind it: U+061C, U+200E and U+200F, U+202A to U+202E, U+2066
 * to U+2069. */
static bool turns_direction(const unsigned char *text, size_t size)
{
    if (size == 2) {
        return text[0] == 0xD8 && text[1] == 0x9C;
    }
    bool is_mark = text[1] == 0x80 && (text[2] == 0x8E || text[2] == 0x8F || (text[2] >= 0xAA && text[2] <= 0xAE));
    return size == 3 && text[0] == 0xE2 && (is_mark || (text[1] == 0x81 && text[2] >= 0xA6 && text[2] <= 0xA9));
}

/* How many octets the character has that a text in UTF-8 begins with; 0 if that isn't one, or is a control character, one that turns the
 * direction, or %. */
static size_t character_size(const unsigned char *text, size_t size)
{
    static const struct {
        unsigned char first, last, least, most; /* of the first octet, and of the second one */
        size_t size;
    } forms[] = {
        {0xC2, 0xC2, 0xA0, 0xBF, 2}, {0xC3, 0xDF, 0x80, 0xBF, 2}, {0xE0, 0xE0, 0xA0, 0xBF, 3}, {0xE1, 0xEC, 0x80, 0xBF, 3},
        {0xED, 0xED, 0x80, 0x9F, 3}, {0xEE, 0xEF, 0x80, 0xBF, 3}, {0xF0, 0xF0, 0x90, 0xBF, 4}, {0xF1, 0xF3, 0x80, 0xBF, 4},
        {0xF4, 0xF4, 0x80, 0x8F, 4},
    };
    if (text[0] < 0x80) {
        return text[0] >= 0x20 && text[0] != 0x7F && text[0] != '%' ? 1 : 0;
    }
    for (size_t i = 0; i < sizeof forms / sizeof *forms; i++) {
        if (text[0] >= forms[i].first && text[0] <= forms[i].last && size >= forms[i].size) {
            bool fits = text[1] >= forms[i].least && text[1] <= forms[i].most;
            for (size_t k = 2; k < forms[i].size; k++) {
                fits = fits && text[k] >= 0x80 && text[k] <= 0xBF;
            }
            return fits && !turns_direction(text, forms[i].size) ? forms[i].size : 0;
        }
    }
    return 0;
}

void put_text(FILE *file, const char *text, size_t size)
{
    const unsigned char *at = (const unsigned char *)text, *end = at + size;
    while (at < end) {
        size_t whole = character_size(at, (size_t)(end - at));
        if (whole > 0) {
            fwrite(at, 1, whole, file);
            at += whole;
        } else {
            fprintf(file, "%%%02X", *at++);
        }
    }
}

void put_word(FILE *file, const char *word)
{
    put_text(file, word, strlen(word));
}

void say_as(const char *program, const char *form, va_list values)
{
    static char line[1 << 13]; /* what is longer is cut */
    int size = vsnprintf(line, sizeof line, form, values);
    fprintf(stderr, "%s: ", program);
    put_text(stderr, line, size < 0 ? 0 : (size_t)size < sizeof line ? (size_t)size : sizeof line - 1);
    fputc('\n', stderr);
}

void say(const char *program, const char *form, ...)
{
    va_list values;
    va_start(values, form);
    say_as(program, form, values);
    va_end(values);
}
