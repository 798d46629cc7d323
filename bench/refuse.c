/* Refuses the first threads that a program starts, as a system without room for them does: as many as REFUSE_THREADS says. bench/workers loads this by
   LD_PRELOAD. */
#define _GNU_SOURCE
#include <dlfcn.h>
#include <errno.h>
#include <pthread.h>
#include <stdatomic.h>
#include <stdlib.h>

static atomic_long left;

__attribute__((constructor)) static void begin_count(void)
{
    const char *count = getenv("REFUSE_THREADS");
    atomic_store(&left, count ? atol(count) : 0);
}

int pthread_create(pthread_t *thread, const pthread_attr_t *attributes, void *(*run)(void *), void *argument)
{
    if (atomic_fetch_sub(&left, 1) > 0)
        return EAGAIN;
    int (*next)(pthread_t *, const pthread_attr_t *, void *(*)(void *), void *) = dlsym(RTLD_NEXT, "pthread_create");
    return next(thread, attributes, run, argument);
}
