/* Refuses allocations by malloc or realloc, for refuse.sh and refuse_tests.py: loaded before the C library.

   With REFUSE_AT the one of that number; where it does, it makes the file REFUSE_NOTE.
   With REFUSE_EACH every REFUSE_STEPth one, each in a child process that goes on from there, so that what comes before isn't run
   again; while threads are still to be joined, from where the first of them started. A child that has started threads STARTS times
   since has told what it had to tell of the call to which memory was refused, and ends well. How each ended is written into the file
   REFUSE_EACH: a line with its number, its status as of wait and how many bytes it said, and then these bytes. */
#define _GNU_SOURCE
#include <dlfcn.h>
#include <errno.h>
#include <fcntl.h>
#include <pthread.h>
#include <stdatomic.h>
#include <stdio.h>
#include <stdlib.h>
#include <sys/mman.h>
#include <sys/wait.h>
#include <unistd.h>

enum { SECONDS = 60, MOST_SAID = 1 << 16, STARTS = 256, PAST = 98, BROKEN = 99 };

static atomic_long count, threads;
static long at = -1, step;
static const char *note;
static int ends = -1, said = -1, is_child, was_refused, starts;

__attribute__((constructor)) static void begin(void) {
    const char *text = getenv("REFUSE_AT"), *each = getenv("REFUSE_EACH"), *steps = getenv("REFUSE_STEP");
    note = getenv("REFUSE_NOTE");
    if (text) at = atol(text);
    if (each) {
        ends = open(each, O_CREAT | O_WRONLY | O_TRUNC | O_CLOEXEC, 0600);
        said = memfd_create("said", MFD_CLOEXEC);
        step = steps ? atol(steps) : 1;
    }
    count = 0;
}

static void put(const char *bytes, ssize_t length) {
    while (length > 0) {
        ssize_t took = write(ends, bytes, length);
        if (took < 0) _exit(BROKEN);
        bytes += took;
        length -= took;
    }
}

/* Tells how a child ended. */
static void tell(long number, int status) {
    static char bytes[MOST_SAID];
    char line[64];
    ssize_t length = pread(said, bytes, sizeof bytes, 0);
    put(line, snprintf(line, sizeof line, "%ld %d %zd\n", number, status, length));
    put(bytes, length);
}

/* Whether this process is a new child; the other waits for it, and tells how it ended, but where it came past the threads. */
static int goes_on(long number, int *status) {
    if (ftruncate(said, 0)) _exit(BROKEN);
    pid_t child = fork();
    if (child < 0) _exit(BROKEN);
    if (child == 0) {
        is_child = 1;
        lseek(said, 0, SEEK_SET);
        dup2(said, 1);
        dup2(said, 2);
        alarm(SECONDS);
        return 1;
    }
    while (waitpid(child, status, 0) < 0)
        if (errno != EINTR) _exit(BROKEN);
    if (!WIFEXITED(*status) || WEXITSTATUS(*status) != PAST) tell(number, *status);
    return 0;
}

static int refused(void) {
    int status;
    long number = ++count;
    if (number == at) {
        if (note) close(open(note, O_CREAT | O_WRONLY, 0600));
    } else if (ends < 0 || is_child || threads || number % step || !goes_on(number, &status)) {
        return 0;
    }
    was_refused = 1;
    errno = ENOMEM;
    return 1;
}

/* Before the first thread starts: for each allocation until all threads are joined a child to which it is refused. */
static void refuse_in_threads(void) {
    int status = 0;
    for (long number = count + step - count % step;; number += step) {
        if (goes_on(number, &status)) {
            at = number;
            return;
        }
        if (WIFEXITED(status) && WEXITSTATUS(status) == PAST) return;
    }
}

static void *(*next_malloc(void))(size_t) {
    static void *(*next)(size_t);
    if (!next) next = (void *(*)(size_t))dlsym(RTLD_NEXT, "malloc");
    return next;
}

void *malloc(size_t size) {
    void *(*next)(size_t) = next_malloc();
    return refused() ? NULL : next(size);
}

void *realloc(void *old, size_t size) {
    static void *(*next)(void *, size_t);
    if (!next) next = (void *(*)(void *, size_t))dlsym(RTLD_NEXT, "realloc");
    return refused() ? NULL : next(old, size);
}

/* Counts the threads that were started and are still to be joined: a child has none of them, so it can't join them. */
int pthread_create(pthread_t *id, const pthread_attr_t *how, void *(*body)(void *), void *given) {
    static int (*next)(pthread_t *, const pthread_attr_t *, void *(*)(void *), void *);
    if (!next) next = (int (*)(pthread_t *, const pthread_attr_t *, void *(*)(void *), void *))dlsym(RTLD_NEXT, "pthread_create");
    if (ends >= 0 && !is_child && !threads) refuse_in_threads();
    if (is_child && was_refused && ++starts == STARTS) _exit(0);
    ++threads;
    int status = next(id, how, body, given);
    if (status) --threads;
    return status;
}

/* A child that joins its last thread before the allocation that is to be refused came past the threads. */
static int past(int status) {
    if (!status && --threads == 0 && is_child && count < at) _exit(PAST);
    return status;
}

int pthread_join(pthread_t id, void **result) {
    static int (*next)(pthread_t, void **);
    if (!next) next = (int (*)(pthread_t, void **))dlsym(RTLD_NEXT, "pthread_join");
    return past(next(id, result));
}

int pthread_detach(pthread_t id) {
    static int (*next)(pthread_t);
    if (!next) next = (int (*)(pthread_t))dlsym(RTLD_NEXT, "pthread_detach");
    return past(next(id));
}
