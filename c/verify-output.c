/* A file is written beside its place, flushed to its device if that is wanted, and renamed: so it is there as a whole or not at all,
 * whenever the program ends. One that is killed before that may leave a file .opgp-*, which isn't at the name. */
#define _GNU_SOURCE /* for renameat2 */
#include "verify-output.h"

#include <errno.h>
#include <fcntl.h>
#include <stdio.h>
#include <stdlib.h>
#include <string.h>
#include <sys/stat.h>
#include <unistd.h>

bool is_taken(const char *name)
{
    struct stat found;
    return lstat(name, &found) == 0;
}

static bool write_all(int file, const uint8_t *octets, size_t size)
{
    while (size > 0) {
        ssize_t written = write(file, octets, size);
        if (written < 0 && errno != EINTR) {
            return false;
        }
        octets += written < 0 ? 0 : written;
        size -= written < 0 ? 0 : (size_t)written;
    }
    return true;
}

/* Closes a file; whether all went well until then, and now. */
static bool closed(int file, bool is_fine)
{
    int why = errno;
    bool is_closed = close(file) == 0;
    errno = is_fine ? errno : why;
    return is_fine && is_closed;
}

/* Frees what is held, with errno as it was. */
static void clear(struct output *it)
{
    int why = errno;
    free(it->place);
    free(it->temporary);
    *it = (struct output){0};
    errno = why;
}

/* The name of a temporary file in the folder of a place, for mkstemp and free(); NULL if memory ran out. */
static char *beside(const char *place)
{
    static const char name[] = ".opgp-XXXXXX";
    const char *slash = strrchr(place, '/');
    size_t front = slash ? (size_t)(slash - place) + 1 : 0;
    char *made = malloc(front + sizeof name);
    if (made) {
        memcpy(made, place, front);
        memcpy(made + front, name, sizeof name);
    }
    return made;
}

/* The mode of a file that is new. */
static mode_t new_mode(void)
{
    mode_t mask = umask(0);
    umask(mask);
    return 0666 & ~mask;
}

bool output_write(struct output *it, const char *name, const uint8_t *octets, size_t size, bool may_replace, bool is_flushed)
{
    struct stat found;
    bool is_there = may_replace && stat(name, &found) == 0;
    *it = (struct output){name, NULL, NULL, octets, size, may_replace};
    if (is_there && S_ISDIR(found.st_mode)) {
        errno = EISDIR;
        return false;
    }
    if (is_there && !S_ISREG(found.st_mode)) {
        return true;
    }
    it->place = is_there ? realpath(name, NULL) : strdup(name);
    it->temporary = it->place ? beside(it->place) : NULL;
    int file = it->temporary ? mkstemp(it->temporary) : -1;
    if (file < 0) {
        clear(it);
        return false;
    }
    mode_t mode = is_there ? found.st_mode & 0777 : new_mode();
    bool is_fine = fchmod(file, mode) == 0 && write_all(file, octets, size) && (!is_flushed || fsync(file) == 0);
    is_fine = closed(file, is_fine);
    if (!is_fine) {
        output_end(it);
    }
    return is_fine;
}

/* Gives a file a name at which nothing is. */
static bool is_renamed(const char *from, const char *name)
{
#ifdef RENAME_NOREPLACE
    if (renameat2(AT_FDCWD, from, AT_FDCWD, name, RENAME_NOREPLACE) == 0) {
        return true;
    }
    if (errno != EINVAL && errno != ENOSYS) {
        return false;
    }
#endif
    return link(from, name) == 0 && unlink(from) == 0;
}

bool output_keep(struct output *it)
{
    bool is_kept = true;
    if (it->temporary) {
        is_kept = it->may_replace ? rename(it->temporary, it->place) == 0 : is_renamed(it->temporary, it->place);
    } else if (it->name) {
        int file = open(it->name, O_WRONLY | O_CLOEXEC);
        is_kept = file >= 0 && closed(file, write_all(file, it->octets, it->size));
    }
    if (is_kept) {
        clear(it);
    } else {
        output_end(it);
    }
    return is_kept;
}

void output_end(struct output *it)
{
    int why = errno;
    if (it->temporary) {
        unlink(it->temporary);
    }
    errno = why;
    clear(it);
}
