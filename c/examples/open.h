/* Opens the keyring of a file, or says why not: for the programs here. */
#ifndef OPGP_EXAMPLES_OPEN_H
#define OPGP_EXAMPLES_OPEN_H

#include <opgp.h>

#include <stdio.h>
#include <stdlib.h>

/* All octets of a file, for free(); NULL if memory ran out. If reading fails, ferror says so. */
static uint8_t *read_whole(FILE *file, size_t *size)
{
    size_t room = 1 << 16;
    uint8_t *octets = malloc(room);
    *size = 0;
    while (octets) {
        *size += fread(octets + *size, 1, room - *size, file);
        if (*size < room) {
            return octets;
        }
        uint8_t *more = room <= SIZE_MAX / 2 ? realloc(octets, 2 * room) : NULL;
        if (!more) {
            free(octets);
        }
        octets = more;
        room *= 2;
    }
    return NULL;
}

/* The keyring of a file, for opgp_close; without limits the usual ones hold. If it can't be read, this says why on standard error, and gives
 * the exit status of `opgp`: 1 if the input is refused, 3 if reading failed or memory ran out. */
static opgp_keyring *open_whole(FILE *file, const char *program, const opgp_limits *limits, int *exit_status)
{
    size_t size;
    uint8_t *octets = read_whole(file, &size);
    opgp_keyring *keyring = NULL;
    opgp_fault fault;
    char text[OPGP_FAULT_ROOM];

    *exit_status = 3;
    if (octets && ferror(file)) {
        fprintf(stderr, "%s: read failed\n", program);
    } else {
        uint32_t status = octets ? opgp_open(octets, size, limits, &keyring, &fault) : OPGP_MEMORY;
        if (status == OPGP_DONE) {
            *exit_status = 0;
        } else if (status == OPGP_REFUSED) {
            *exit_status = 1;
            fprintf(stderr, "%s\n", opgp_fault_text(&fault, text));
        } else {
            fprintf(stderr, "%s: %s\n", program, opgp_status_text(status));
        }
    }
    free(octets);
    return keyring;
}

#endif
