/* What the command lines of opgp-verify and of its other names have in common: names of files, times, and how they are said. */
#ifndef OPGP_VERIFY_WORDS_H
#define OPGP_VERIFY_WORDS_H

#include <stdarg.h>
#include <stdbool.h>
#include <stdint.h>
#include <stdio.h>

/* Whether this names standard input. */
bool is_input(const char *name);

/* The file of this name to read, standard input too, for close_named; NULL, with errno, if it can't be opened. */
FILE *open_named(const char *name);
void close_named(FILE *file);

/* All octets of a file, for free(); NULL if memory ran out. If reading fails, ferror says so. */
uint8_t *read_all(FILE *file, size_t *size);

/* The time that a word of opgp-verify is, in seconds since 1970: so many of them, also behind an @, or a UTC date, such as 2026-11-20 or
 * 2026-11-20T08:30:00Z; OPGP_NONE if it is none. Eight digits that may be a date are none: other programs take them for one. */
uint64_t time_in(const char *word);
bool may_be_date(const char *word);

/* The same of a word for one of the other names, which is read as the programs do whose names these are: a date by ISO 8601, also in its
 * basic form and with an offset from UTC, 20261120T093000+0100; seconds behind an @ alone. Of a date without a time of day it is the first
 * second, or with is_end the last one. */
uint64_t foreign_time_in(const char *word, bool is_end);

/* The present time; where the clock has none, the first one, at which nothing is believed. */
uint64_t present_time(void);

/* Room for a time, and its NUL. */
enum { TIME_ROOM = sizeof "9999-12-31T23:59:59Z" + 16 };

/* Writes a time as a date in UTC, by a form as of strftime, and returns text. */
char *time_text(uint64_t seconds, const char *form, char text[TIME_ROOM]);

/* Writes a text of somebody else's, or a word of the command line: an octet of a control character, of one that turns the direction of text,
 * of % or of what isn't UTF-8 as % and its number in hexadecimal. */
void put_text(FILE *file, const char *text, size_t size);
void put_word(FILE *file, const char *word);

/* Says a line on standard error, behind the name of the program. It is written as put_text writes it, so a name can't steer a terminal. */
__attribute__((format(printf, 2, 3))) void say(const char *program, const char *form, ...);
__attribute__((format(printf, 2, 0))) void say_as(const char *program, const char *form, va_list values);

#endif
