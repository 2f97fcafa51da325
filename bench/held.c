/* Copies standard input to standard output once it has ended: what comes is held in pieces of a megabyte, as `write` holds its text.
   It ends with 1 where reading, writing or memory fails. */
#include <stdlib.h>
#include <unistd.h>

enum { SIZE = 1 << 20 };

struct piece {
    struct piece *next;
    size_t used;
    unsigned char octets[SIZE];
};

int main(void) {
    struct piece *first = NULL, **behind = &first, *last = NULL;
    for (;;) {
        if (last == NULL || last->used == SIZE) {
            last = malloc(sizeof *last);
            if (last == NULL) return 1;
            last->next = NULL;
            last->used = 0;
            *behind = last;
            behind = &last->next;
        }
        ssize_t count = read(STDIN_FILENO, last->octets + last->used, SIZE - last->used);
        if (count < 0) return 1;
        if (count == 0) break;
        last->used += (size_t)count;
    }
    for (struct piece *it = first; it != NULL; it = it->next)
        for (size_t at = 0; at < it->used;) {
            ssize_t count = write(STDOUT_FILENO, it->octets + at, it->used - at);
            if (count < 0) return 1;
            at += (size_t)count;
        }
    return 0;
}
