/* Refuses memory to a program: a shared object for LD_PRELOAD, over malloc, calloc, realloc and the like of the C library.
 *
 *   REFUSE_AT=K    the K-th call for memory, counted from 1, answers null (0 or unset: none does)
 *   REFUSE_ON=1    so does each call after it
 *   REFUSE_COUNT=PATH   at the program's end the number of calls is written there
 *   REFUSE_THREADS=1    starting a thread is counted too, and refused alike (EAGAIN)
 *
 * fire/allocations.py compiles it and walks K from 1 to that number. */
#define _GNU_SOURCE
#include <dlfcn.h>
#include <errno.h>
#include <fcntl.h>
#include <pthread.h>
#include <stddef.h>
#include <stdio.h>
#include <stdlib.h>
#include <sys/syscall.h>
#include <unistd.h>

static void *(*next_malloc)(size_t);
static void *(*next_calloc)(size_t, size_t);
static void *(*next_realloc)(void *, size_t);
static void *(*next_aligned_alloc)(size_t, size_t);
static int (*next_posix_memalign)(void **, size_t, size_t);
static int (*next_pthread_create)(pthread_t *, const pthread_attr_t *, void *(*)(void *), void *);

static unsigned long refuse_at, calls;
static int refuse_on, refuse_threads, counts;
static const char *count_path;

/* What is asked for while the next functions are looked up, before the program begins. */
static char early[4096];
static size_t early_used;

static void *take_early(size_t size) {
    size_t begin = (early_used + 15) & ~(size_t)15;
    if (size > sizeof early - begin) {
        return NULL;
    }
    early_used = begin + size;
    return early + begin;
}

static int is_early(const void *place) {
    return (const char *)place >= early && (const char *)place < early + sizeof early;
}

/* Counts a call, and says whether it is refused. */
static int refuses(void) {
    if (!counts) {
        return 0;
    }
    unsigned long call = __atomic_add_fetch(&calls, 1, __ATOMIC_SEQ_CST);
    return refuse_at != 0 && (call == refuse_at || (refuse_on && call > refuse_at));
}

static unsigned long number_in(const char *name) {
    const char *text = getenv(name);
    return text == NULL ? 0 : strtoul(text, NULL, 10);
}

__attribute__((constructor)) static void begin(void) {
    next_malloc = (void *(*)(size_t))dlsym(RTLD_NEXT, "malloc");
    next_calloc = (void *(*)(size_t, size_t))dlsym(RTLD_NEXT, "calloc");
    next_realloc = (void *(*)(void *, size_t))dlsym(RTLD_NEXT, "realloc");
    next_aligned_alloc = (void *(*)(size_t, size_t))dlsym(RTLD_NEXT, "aligned_alloc");
    next_posix_memalign = (int (*)(void **, size_t, size_t))dlsym(RTLD_NEXT, "posix_memalign");
    next_pthread_create = (int (*)(pthread_t *, const pthread_attr_t *, void *(*)(void *), void *))dlsym(RTLD_NEXT, "pthread_create");
    refuse_at = number_in("REFUSE_AT");
    refuse_on = number_in("REFUSE_ON") != 0;
    refuse_threads = number_in("REFUSE_THREADS") != 0;
    count_path = getenv("REFUSE_COUNT");
    counts = 1;
}

__attribute__((destructor)) static void end(void) {
    char text[32];
    counts = 0;
    if (count_path == NULL) {
        return;
    }
    int file = open(count_path, O_WRONLY | O_CREAT | O_TRUNC, 0600);
    int length = snprintf(text, sizeof text, "%lu\n", calls);
    if (file < 0 || write(file, text, (size_t)length) != length) {
        syscall(SYS_exit_group, 99);
    }
    close(file);
}

/* A program may end by this call, at which no destructor runs. */
void _exit(int status) {
    end();
    for (;;) {
        syscall(SYS_exit_group, status);
    }
}

void *malloc(size_t size) {
    if (next_malloc == NULL) {
        return take_early(size);
    }
    if (refuses()) {
        errno = ENOMEM;
        return NULL;
    }
    return next_malloc(size);
}

void *calloc(size_t count, size_t size) {
    if (next_calloc == NULL) {
        return take_early(count * size);
    }
    if (refuses()) {
        errno = ENOMEM;
        return NULL;
    }
    return next_calloc(count, size);
}

void *realloc(void *place, size_t size) {
    if (next_realloc == NULL) {
        return NULL;
    }
    if (refuses()) {
        errno = ENOMEM;
        return NULL;
    }
    return next_realloc(place, size);
}

void *aligned_alloc(size_t alignment, size_t size) {
    if (next_aligned_alloc == NULL || refuses()) {
        errno = ENOMEM;
        return NULL;
    }
    return next_aligned_alloc(alignment, size);
}

int posix_memalign(void **place, size_t alignment, size_t size) {
    if (next_posix_memalign == NULL || refuses()) {
        return ENOMEM;
    }
    return next_posix_memalign(place, alignment, size);
}

void free(void *place) {
    static void (*next_free)(void *);
    if (place == NULL || is_early(place)) {
        return;
    }
    if (next_free == NULL) {
        next_free = (void (*)(void *))dlsym(RTLD_NEXT, "free");
    }
    next_free(place);
}

int pthread_create(pthread_t *thread, const pthread_attr_t *attributes, void *(*routine)(void *), void *argument) {
    if (next_pthread_create == NULL || (refuse_threads && refuses())) {
        return EAGAIN;
    }
    return next_pthread_create(thread, attributes, routine, argument);
}
