// Preloaded by tests/bindings/verify.py alone: counts the threads that a program asks for, and refuses those behind the first ones, of
// which THREADS says how many. At the end of the program, the number of all goes to descriptor 9.
#define _GNU_SOURCE
#include <dlfcn.h>
#include <errno.h>
#include <pthread.h>
#include <stdio.h>
#include <stdlib.h>

static long asked;

int pthread_create(pthread_t *thread, const pthread_attr_t *attributes, void *(*work)(void *), void *context) {
    int (*create)(pthread_t *, const pthread_attr_t *, void *(*)(void *), void *) =
        (int (*)(pthread_t *, const pthread_attr_t *, void *(*)(void *), void *))dlsym(RTLD_NEXT, "pthread_create");
    const char *number = getenv("THREADS");
    return ++asked > (number ? atol(number) : 0) ? EAGAIN : create(thread, attributes, work, context);
}

__attribute__((destructor)) static void end(void) { dprintf(9, "%ld\n", asked); }
