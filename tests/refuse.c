/*
 * Refuses one thing that a program asks for, which is started with this library preloaded: the allocation of the number REFUSE_AT, counted
 * over malloc and realloc of all its threads from 1 on, or the thread of the number SPAWN_AT. The file that MET_AT names is made as it is
 * refused; a program that ends and made no such file never came so far. Where a number isn't given, or is 0, nothing of its kind is refused.
 *
 *     cc -shared -fPIC -o refuse.so refuse.c -ldl
 */
#define _GNU_SOURCE
#include <dlfcn.h>
#include <errno.h>
#include <fcntl.h>
#include <pthread.h>
#include <stdatomic.h>
#include <stdlib.h>
#include <unistd.h>

/* How many were asked for, and which one is refused: 0 for none, -1 before that was looked up. */
struct counted {
    const char *name;
    atomic_long asked, refused;
};

static struct counted allocations = {"REFUSE_AT", 0, -1}, threads = {"SPAWN_AT", 0, -1};

/* Whether this one is refused. */
static int refuse(struct counted *kind) {
    long refused = atomic_load(&kind->refused);
    if (refused < 0) {
        const char *at = getenv(kind->name);
        refused = at ? atol(at) : 0;
        atomic_store(&kind->refused, refused);
    }
    if (refused == 0 || atomic_fetch_add(&kind->asked, 1) + 1 != refused)
        return 0;
    const char *met = getenv("MET_AT");
    if (met)
        close(open(met, O_CREAT | O_WRONLY, 0600));
    return 1;
}

void *malloc(size_t size) {
    static void *(*next)(size_t);
    if (!next)
        next = (void *(*)(size_t))dlsym(RTLD_NEXT, "malloc");
    if (!refuse(&allocations))
        return next(size);
    errno = ENOMEM;
    return NULL;
}

void *realloc(void *old, size_t size) {
    static void *(*next)(void *, size_t);
    if (!next)
        next = (void *(*)(void *, size_t))dlsym(RTLD_NEXT, "realloc");
    if (!refuse(&allocations))
        return next(old, size);
    errno = ENOMEM;
    return NULL;
}

int pthread_create(pthread_t *thread, const pthread_attr_t *attributes, void *(*start)(void *), void *argument) {
    static int (*next)(pthread_t *, const pthread_attr_t *, void *(*)(void *), void *);
    if (!next)
        next = (int (*)(pthread_t *, const pthread_attr_t *, void *(*)(void *), void *))dlsym(RTLD_NEXT, "pthread_create");
    return refuse(&threads) ? EAGAIN : next(thread, attributes, start, argument);
}
