// Loaded before the C library: refuses the allocation with the number REFUSED_AT, and where REFUSED_ON is set each
// one after it. With REFUSED_THREAD it refuses the thread with that number instead. Where something was refused the file
// REFUSED_MARK is there.
#define _GNU_SOURCE
#include <dlfcn.h>
#include <errno.h>
#include <fcntl.h>
#include <pthread.h>
#include <stdatomic.h>
#include <stdlib.h>
#include <unistd.h>

extern void *__libc_malloc(size_t);
extern void *__libc_calloc(size_t, size_t);
extern void *__libc_realloc(void *, size_t);

static long first;
static long thread;
static int goes_on;
static atomic_long calls;
static atomic_long threads;

static long number_in(const char *name) {
    const char *text = getenv(name);
    return text ? atol(text) : 0;
}

__attribute__((constructor)) static void begin(void) {
    goes_on = getenv("REFUSED_ON") != NULL;
    thread = number_in("REFUSED_THREAD");
    first = number_in("REFUSED_AT");
}

static void leave_mark(void) {
    const char *mark = getenv("REFUSED_MARK");
    int file = mark ? open(mark, O_CREAT | O_WRONLY, 0600) : -1;
    if (file >= 0) {
        close(file);
    }
}

static int refuses(void) {
    if (first == 0) {
        return 0;
    }
    long call = atomic_fetch_add(&calls, 1) + 1;
    if (call != first && !(goes_on && call > first)) {
        return 0;
    }
    leave_mark();
    errno = ENOMEM;
    return 1;
}

void *malloc(size_t size) {
    return refuses() ? NULL : __libc_malloc(size);
}

void *calloc(size_t count, size_t size) {
    return refuses() ? NULL : __libc_calloc(count, size);
}

void *realloc(void *old, size_t size) {
    return refuses() ? NULL : __libc_realloc(old, size);
}

int pthread_create(pthread_t *made, const pthread_attr_t *how, void *(*act)(void *), void *with) {
    if (thread != 0 && atomic_fetch_add(&threads, 1) + 1 == thread) {
        leave_mark();
        return EAGAIN;
    }
    int (*create)(pthread_t *, const pthread_attr_t *, void *(*)(void *), void *) = dlsym(RTLD_NEXT, "pthread_create");
    return create(made, how, act, with);
}
