// Put before the C library, it refuses the program one growth of memory, the one numbered REFUSE_GROWTH, or one thread, that
// numbered REFUSE_THREAD, each counted from 1 in the order in which the program asks. Where it does, it makes the file that
// REFUSED names.
#define _GNU_SOURCE
#include <dlfcn.h>
#include <errno.h>
#include <fcntl.h>
#include <pthread.h>
#include <stdlib.h>
#include <unistd.h>

// What is asked for: the name of the number that is refused, and how often it was asked for.
struct kind {
    const char *name;
    unsigned long asked;
};

static struct kind growths = {"REFUSE_GROWTH", 0}, threads = {"REFUSE_THREAD", 0};

static int refuses(struct kind *kind)
{
    unsigned long place = __atomic_add_fetch(&kind->asked, 1, __ATOMIC_RELAXED);
    const char *number = getenv(kind->name);
    if (!number || strtoul(number, NULL, 10) != place)
        return 0;
    close(open(getenv("REFUSED"), O_CREAT | O_WRONLY, 0600));
    return 1;
}

void *malloc(size_t size)
{
    static void *(*next)(size_t);
    if (!next)
        next = (void *(*)(size_t))dlsym(RTLD_NEXT, "malloc");
    return refuses(&growths) ? NULL : next(size);
}

void *realloc(void *old, size_t size)
{
    static void *(*next)(void *, size_t);
    if (!next)
        next = (void *(*)(void *, size_t))dlsym(RTLD_NEXT, "realloc");
    return refuses(&growths) ? NULL : next(old, size);
}

int pthread_create(pthread_t *made, const pthread_attr_t *with, void *(*begin)(void *), void *given)
{
    static int (*next)(pthread_t *, const pthread_attr_t *, void *(*)(void *), void *);
    if (!next)
        next = (int (*)(pthread_t *, const pthread_attr_t *, void *(*)(void *), void *))dlsym(RTLD_NEXT, "pthread_create");
    return refuses(&threads) ? EAGAIN : next(made, with, begin, given);
}
