// Preloaded by tests/program/devices.py alone: counts the program's allocations, its reads of standard input and its writes to standard
// output, and fails or shortens those that the environment names by their number, from 1 (0 or nothing: none).
//   REFUSE         the allocation that fails. An allocation is a call of malloc or realloc, by which std's heap makes each
//   READ_FAILS     the read that fails, with the errno READ_ERROR
//   READ_MOST      the most octets that a read gives
//   WRITE_FAILS    the write that fails, with the errno WRITE_ERROR, or takes nothing where that is 0
//   WRITE_MOST     the most octets that a write takes
//   SPOOL_FAILS    the call about the file of --spool that fails, with the errno SPOOL_ERROR: that makes it, takes its name away, writes
//                  it, goes back to its beginning or reads it; where that is 0, a write takes nothing, a read gives nothing, and the others
//                  do as ever
//   SPOOL_MOST     the most octets that such a write takes, and such a read gives
// As the program ends, the four counts go to descriptor 9.
#include <errno.h>
#include <fcntl.h>
#include <stdarg.h>
#include <stdio.h>
#include <stdlib.h>
#include <sys/syscall.h>
#include <unistd.h>

void *__libc_malloc(size_t size);
void *__libc_realloc(void *block, size_t size);

static long refuse, read_fails, read_error, read_most, write_fails, write_error, write_most;
static long spool_fails, spool_error, spool_most;
static long growths, reads, writes, spools;
static int counts, spool = -1;

static long number(const char *name) {
    const char *it = getenv(name);
    return it ? atol(it) : 0;
}

static int refuses(void) {
    if (!counts || ++growths != refuse) return 0;
    errno = ENOMEM;
    return 1;
}

void *malloc(size_t size) { return refuses() ? NULL : __libc_malloc(size); }

void *realloc(void *block, size_t size) { return refuses() ? NULL : __libc_realloc(block, size); }

// Whether the next call about the spool fails.
static int spool_breaks(void) {
    if (++spools != spool_fails) return 0;
    errno = (int)spool_error;
    return 1;
}

static int make(const char *path, int how, unsigned mode) {
    int is_new = counts && (how & O_CREAT) && (how & O_EXCL);
    if (is_new && spool_breaks() && spool_error) return -1;
    int file = (int)syscall(SYS_openat, AT_FDCWD, path, how, mode);
    if (is_new && file >= 0) spool = file;
    return file;
}

int open(const char *path, int how, ...) {
    va_list more;
    va_start(more, how);
    unsigned mode = (how & O_CREAT) ? va_arg(more, unsigned) : 0;
    va_end(more);
    return make(path, how, mode);
}

int open64(const char *path, int how, ...) {
    va_list more;
    va_start(more, how);
    unsigned mode = (how & O_CREAT) ? va_arg(more, unsigned) : 0;
    va_end(more);
    return make(path, how, mode);
}

int unlink(const char *path) {
    if (counts && spool_breaks() && spool_error) return -1;
    return (int)syscall(SYS_unlink, path);
}

off_t lseek(int file, off_t at, int from) {
    if (counts && file == spool && spool_breaks() && spool_error) return -1;
    return syscall(SYS_lseek, file, at, from);
}

ssize_t read(int file, void *octets, size_t most) {
    if (file == spool && counts) {
        if (spool_breaks()) return spool_error ? -1 : 0;
        if (spool_most > 0 && most > (size_t)spool_most) most = (size_t)spool_most;
    }
    if (file == 0 && counts) {
        if (++reads == read_fails) {
            errno = (int)read_error;
            return -1;
        }
        if (read_most > 0 && most > (size_t)read_most) most = (size_t)read_most;
    }
    return syscall(SYS_read, file, octets, most);
}

static ssize_t put(int file, const void *octets, size_t size) {
    if (file == spool && counts) {
        if (spool_breaks()) return spool_error ? -1 : 0;
        if (spool_most > 0 && size > (size_t)spool_most) size = (size_t)spool_most;
    }
    if (file == 1 && counts) {
        if (++writes == write_fails) {
            errno = (int)write_error;
            return write_error ? -1 : 0;
        }
        if (write_most > 0 && size > (size_t)write_most) size = (size_t)write_most;
    }
    return syscall(SYS_write, file, octets, size);
}

ssize_t write(int file, const void *octets, size_t size) { return put(file, octets, size); }

ssize_t __write(int file, const void *octets, size_t size) { return put(file, octets, size); }

__attribute__((constructor)) static void start(void) {
    refuse = number("REFUSE");
    read_fails = number("READ_FAILS");
    read_error = number("READ_ERROR");
    read_most = number("READ_MOST");
    write_fails = number("WRITE_FAILS");
    write_error = number("WRITE_ERROR");
    write_most = number("WRITE_MOST");
    spool_fails = number("SPOOL_FAILS");
    spool_error = number("SPOOL_ERROR");
    spool_most = number("SPOOL_MOST");
    counts = 1;
}

__attribute__((destructor)) static void end(void) {
    counts = 0;
    dprintf(9, "%ld %ld %ld %ld\n", growths, reads, writes, spools);
}
