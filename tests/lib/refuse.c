// Preloaded by tests/crates/refused_growth.sh alone: counts the allocations of a test, and fails the one that REFUSE numbers (0: none).
// An allocation is a call of malloc or realloc: std's heap (rattle_alloc, rattle_realloc) makes each by one of them, and nothing
// else in a test's binary calls them. At the end of the test, the number of its allocations goes to descriptor 9.
#include <errno.h>
#include <stdio.h>
#include <stdlib.h>

void *__libc_malloc(size_t size);
void *__libc_realloc(void *block, size_t size);

static long refused, growths;
static int counts;

static int refuses(void) {
    if (!counts || __atomic_add_fetch(&growths, 1, __ATOMIC_RELAXED) != refused) return 0;
    errno = ENOMEM;
    return 1;
}

void *malloc(size_t size) { return refuses() ? NULL : __libc_malloc(size); }

void *realloc(void *block, size_t size) { return refuses() ? NULL : __libc_realloc(block, size); }

__attribute__((constructor)) static void start(void) {
    const char *number = getenv("REFUSE");
    refused = number ? atol(number) : 0;
    counts = 1;
}

__attribute__((destructor)) static void end(void) {
    counts = 0;
    dprintf(9, "%ld\n", growths);
}
