/*
 * ringcheck.h: finds mistakes in what a program calls on its io_uring, while its tests run.
 *
 * For C11 and C++11 and later, with GCC or Clang, over liburing 2.2 or later. Include it after all other headers, or have
 * the compiler do it: `-include ringcheck.h`.
 *
 *   -DRINGCHECK_POISON   with -fsanitize=address: a buffer is poisoned from its submit to its cqe_seen, so each touch
 *                        in between is a report of AddressSanitizer. It needs no model and no mark.
 *   -DRINGCHECK_FAULTS   submits take a part of the queue or none, waits end early, requests are late, short or fail: all
 *                        that a kernel may do and seldom does. RINGCHECK_FAULTS=submit=5,wait=5,late=50,short=20,errno=2
 *                        in the environment says how often, in percent; RINGCHECK_SEED=N which ones;
 *                        RINGCHECK_FAULTS_TELL=1 prints each on standard error. c/ringcheck-try tries many seeds.
 *   -DRINGCHECK_LOG      calls and marks go to the file that the environment's RINGCHECK_LOG_FILE names (%p in it is the
 *                        process's number), so that `ringcheck follow` can hold the program to its model; without that
 *                        name nothing is logged. RINGCHECK_LOG_SIZE is the most bytes that the log may have (64 MiB).
 *
 * Without any it adds no instruction. docs/sanitize.md says how poison and faults are used, docs/follow.md the log.
 */
#ifndef RINGCHECK_H
#define RINGCHECK_H

#if !defined(RINGCHECK_LOG) && !defined(RINGCHECK_POISON) && !defined(RINGCHECK_FAULTS)

/* Nothing is evaluated, and nothing counts as unused. */
#define RINGCHECK_NOT(value) ((void)sizeof(((void)(value), 0)))

/* ---- What a program says once ---- */

/* The ring that is logged, and the mutex that guards all calls on it. NULL: one thread makes them all. After its
   io_uring_queue_exit another may be said. */
#define RINGCHECK_RING(ring, mutex) (RINGCHECK_NOT(ring), RINGCHECK_NOT(mutex))
/* The ring, with a mutex for submitting and one for reaping. NULL: one thread alone does that. */
#define RINGCHECK_RING_SIDES(ring, submitting, reaping) \
    (RINGCHECK_NOT(ring), RINGCHECK_NOT(submitting), RINGCHECK_NOT(reaping))
/* From here on this thread plays the model's thread NAME. */
#define RINGCHECK_THREAD(name) RINGCHECK_NOT(name)
/* From here on it plays the copy NUMBER, from 0, of the model's thread NAME, whose line is `thread NAME[N] holds ..`. */
#define RINGCHECK_COPY(name, number) (RINGCHECK_NOT(name), RINGCHECK_NOT(number))
/* This thread alone reaps, all its life, and takes no mutex for it. Else its first look at a completion says so. */
#define RINGCHECK_REAPER() ((void)0)
/* From here on these bytes play the model's buffer NAME, and no longer another. Many buffers may play one in turn. */
#define RINGCHECK_BUFFER(address, size, name) (RINGCHECK_NOT(address), RINGCHECK_NOT(size), RINGCHECK_NOT(name))
/* From here on this descriptor is the model's file NUMBER. */
#define RINGCHECK_FILE(descriptor, number) (RINGCHECK_NOT(descriptor), RINGCHECK_NOT(number))
/* From here on this user data, a number or a pointer, is the model's token NUMBER. Others stand for themselves. */
#define RINGCHECK_TOKEN(data, number) (RINGCHECK_NOT(data), RINGCHECK_NOT(number))

/* ---- Marks ---- */

/* The buffer at this address is read next; it is written, freed or given away next. */
#define RINGCHECK_READS(address) RINGCHECK_NOT(address)
#define RINGCHECK_WRITES(address) RINGCHECK_NOT(address)
/* Something goes into the model's pool NAME next, where others can't take it yet: each put needs this. Something was got
   from it. A second argument is the address of a buffer that it has. */
#define RINGCHECK_PUT(...) RINGCHECK_POOL(__VA_ARGS__, RINGCHECK_NOT_TWO, RINGCHECK_NOT_ONE, 0)(__VA_ARGS__)
#define RINGCHECK_TAKE(...) RINGCHECK_POOL(__VA_ARGS__, RINGCHECK_NOT_TWO, RINGCHECK_NOT_ONE, 0)(__VA_ARGS__)
#define RINGCHECK_POOL(name, thing, call, ...) call
#define RINGCHECK_NOT_ONE(name) RINGCHECK_NOT(name)
#define RINGCHECK_NOT_TWO(name, thing) (RINGCHECK_NOT(name), RINGCHECK_NOT(thing))
/* This thread makes no more calls: the model's thread has ended. */
#define RINGCHECK_ENDS() ((void)0)
/* For mutexes other than pthread's: it was just locked; it is unlocked next. */
#define RINGCHECK_LOCKED(mutex) RINGCHECK_NOT(mutex)
#define RINGCHECK_UNLOCKS(mutex) RINGCHECK_NOT(mutex)

/* ---- Forced failures ---- */

/* From here on this thread's calls have none; they may again. For calls that the program must not survive, as set-up. */
#define RINGCHECK_FAULTS_OFF() ((void)0)
#define RINGCHECK_FAULTS_ON() ((void)0)

#else

/* liburing wants it. A file that includes this first may define it itself. */
#ifndef _GNU_SOURCE
#define _GNU_SOURCE
#define RINGCHECK_DEFINED_SOURCE
#endif
#include <errno.h>
#include <fcntl.h>
#include <liburing.h>
#include <pthread.h>
#include <sched.h>
#include <stdarg.h>
#include <stdint.h>
#include <stdio.h>
#include <stdlib.h>
#include <string.h>
#include <sys/mman.h>
#include <sys/socket.h>
#include <sys/stat.h>
#include <sys/syscall.h>
#include <sys/uio.h>
#include <unistd.h>
#ifdef RINGCHECK_DEFINED_SOURCE
#undef RINGCHECK_DEFINED_SOURCE
#undef _GNU_SOURCE
#endif

/* A file that included fcntl.h first, without _GNU_SOURCE, has no O_DIRECT. */
#ifdef O_DIRECT
#define RINGCHECK_DIRECT O_DIRECT
#else
#define RINGCHECK_DIRECT __O_DIRECT
#endif

#ifdef RINGCHECK_POISON
#if defined(__has_feature)
#if __has_feature(address_sanitizer)
#define RINGCHECK_HAS_ASAN
#endif
#endif
#if !defined(__SANITIZE_ADDRESS__) && !defined(RINGCHECK_HAS_ASAN)
#error "RINGCHECK_POISON needs -fsanitize=address"
#endif
#include <sanitizer/asan_interface.h>
#endif

/* ---- State, one for all files of a program that include this ---- */

#define RINGCHECK_SHARED __attribute__((weak))
#define RINGCHECK_INSIDE __attribute__((unused)) static inline

/* The sides of the ring. */
enum { RINGCHECK_SQ, RINGCHECK_CQ };

/* A name of the model: a letter, then up to 22 letters, digits or `_`. */
enum { RINGCHECK_NAME = 24 };

/* The log's file grows by this many bytes. */
#define RINGCHECK_STEP ((size_t)64 << 10)

/* What is forced. */
enum { RINGCHECK_SUBMIT, RINGCHECK_WAIT, RINGCHECK_LATE, RINGCHECK_SHORT, RINGCHECK_ERRNO, RINGCHECK_KINDS };

/* What addresses, a descriptor or user data stand for in the model, from `first` up to `last`. */
struct ringcheck_meaning {
    uint64_t first, last;
    uint64_t number;
    char name[RINGCHECK_NAME];
    int is_known;
};

/* In order of `first`, and none overlaps another. */
struct ringcheck_table {
    struct ringcheck_meaning *rows;
    size_t count, room;
    struct ringcheck_meaning *declared; /* of each name or number the one that is logged */
    size_t declared_count, declared_room;
};

/* A piece of memory that a queued or pending request names. */
struct ringcheck_piece {
    const struct io_uring *ring;
    uint64_t data;
    unsigned request; /* pieces of one request have one number */
    unsigned index;   /* of its entry in the submission ring */
    void *address;
    size_t size;
};

/* A queued or pending request of a program whose failures are forced. */
struct ringcheck_request {
    const struct io_uring *ring;
    uint64_t data;
    int error;            /* what it completes with in place of its result, or 0 */
    struct iovec *pieces; /* the ones that it was given in place of the program's, or NULL */
};

/* What is known of a ring. */
struct ringcheck_ring {
    const struct io_uring *ring; /* NULL: of none, so that another may have this place */
    struct ringcheck_ring *next;
    unsigned looked_to;  /* queued entries below this index were looked at */
    unsigned arrived_to; /* completions below this index have been come to */
    unsigned seen_to;    /* completions below this index count as seen .. */
    int is_ahead;        /* .. and some of them aren't given back to the kernel yet */
    int is_passing;      /* .. by io_uring_for_each_cqe .. */
    int is_inside;       /* .. whose loop hasn't come to its end */
    unsigned spared;     /* the index of a completion that counts as seen, though those before it don't .. */
    int is_spared;       /* .. if there is one */
    unsigned peeked;     /* the index of the completion that is peeked .. */
    uint64_t data;       /* .. and its user data, which the program may overwrite .. */
    int is_peeked;       /* .. if it isn't seen */
};

struct ringcheck_state {
    char *map;
    size_t size, at;
    size_t grown;                 /* bytes that the log's file has */
    size_t end;                   /* of a log that got full; else 0 */
    int is_full;                  /* it can't grow any more */
    int is_told;                  /* that a ring isn't logged is printed */
    int descriptor;
    const struct io_uring *ring; /* the one that is logged */
    int has_sides;
    const void *mutexes[2];       /* of each side; the first for both if the ring hasn't sides */
    int is_alone[2];              /* a side without a mutex: its `lock` is written */
    unsigned entries[2];          /* of both rings, as the log's head has them */
    unsigned begun, logged;       /* submits that have begun, and those whose line is written */
    int guard;                    /* held while the tables are read or changed */
    struct ringcheck_table buffers, files, tokens;
    struct ringcheck_ring *rings;
    struct ringcheck_piece *pieces;
    size_t piece_count, piece_room;
    unsigned request;
    struct ringcheck_request *requests;
    size_t request_count, request_room;
    int has_chances; /* the environment was asked */
    int tells;
    unsigned chances[RINGCHECK_KINDS]; /* in percent */
    uint64_t seed;
    unsigned threads; /* that had a choice made for them, and no name */
};

/* The entry that this thread has open. */
struct ringcheck_open {
    const struct io_uring *ring;
    struct io_uring_sqe *sqe;
    int is_logged;
    const char *file; /* where it was prepared, if that is known */
    int line;
    unsigned flags;            /* those that were set before */
    int is_prepared, is_named; /* these lines are written */
    int is_settling;           /* .. or one of them is just being written */
    uint64_t data;             /* the user data that is logged */
    uint64_t old;              /* the user data that was in its place before */
};

/* What is forced on this thread. */
struct ringcheck_luck {
    int off;           /* RINGCHECK_FAULTS_OFF without its ON */
    int is_named;
    unsigned number;   /* of a thread without a name, from 1 */
    uint64_t choices[RINGCHECK_KINDS]; /* that were made */
};

RINGCHECK_SHARED struct ringcheck_state ringcheck_state;
RINGCHECK_SHARED __thread char ringcheck_thread[RINGCHECK_NAME + 12] = "main"; /* a name, and a copy's number */
RINGCHECK_SHARED __thread struct ringcheck_open ringcheck_open;
RINGCHECK_SHARED __thread struct ringcheck_luck ringcheck_luck;
RINGCHECK_SHARED __thread struct ringcheck_ring *ringcheck_last; /* what this thread's last call was on */
RINGCHECK_SHARED __thread int ringcheck_is_idle; /* this thread's last line is `peek_cqe none` */

RINGCHECK_INSIDE void ringcheck_stop(const char *what, const char *why)
{
    fprintf(stderr, "ringcheck.h: %s: %s\n", what, why);
    abort();
}

/* Says once what the log hasn't. */
RINGCHECK_INSIDE void ringcheck_leaves_out(const char *file, int line, const char *what)
{
    if (!__atomic_exchange_n(&ringcheck_state.is_told, 1, __ATOMIC_RELAXED))
        fprintf(stderr, "ringcheck.h: %s:%d: not logged: %s\n", file, line, what);
}

RINGCHECK_INSIDE void ringcheck_enter(void)
{
    while (__atomic_exchange_n(&ringcheck_state.guard, 1, __ATOMIC_ACQUIRE) != 0)
        sched_yield();
}

RINGCHECK_INSIDE void ringcheck_leave(void)
{
    __atomic_store_n(&ringcheck_state.guard, 0, __ATOMIC_RELEASE);
}

/* Room for one more. */
RINGCHECK_INSIDE void *ringcheck_grown(void *rows, size_t count, size_t *room, size_t size)
{
    if (count < *room)
        return rows;
    *room = *room == 0 ? 64 : 2 * *room;
    rows = realloc(rows, *room * size);
    if (rows == NULL)
        ringcheck_stop("its tables", "out of memory");
    return rows;
}

RINGCHECK_INSIDE const char *ringcheck_name(const char *name)
{
    size_t i = 0;

    if (name[0] >= 'a' && name[0] <= 'z')
        for (i = 1; (name[i] >= 'a' && name[i] <= 'z') || (name[i] >= '0' && name[i] <= '9') || name[i] == '_'; i++)
            ;
    if (i == 0 || i >= RINGCHECK_NAME || name[i] != '\0')
        ringcheck_stop(name, "a name of the model is a letter a-z, then up to 22 of a-z, 0-9 and _");
    return name;
}

/* ---- Lines ---- */

RINGCHECK_INSIDE void ringcheck_settle(const char *file, int line);

/* The last line of a log that got full, and of one whose program ended by itself. They have no line feed, so who doesn't
   know them leaves them out, and are as long as each other. */
#define RINGCHECK_FULL "full"
#define RINGCHECK_DONE "done"

/* Gives the log's file this many bytes in all. They are there from now on, so a full disk is seen here. */
RINGCHECK_INSIDE int ringcheck_allocates(size_t bytes)
{
    const off_t from = (off_t)ringcheck_state.grown, more = (off_t)(bytes - ringcheck_state.grown);
    int error = posix_fallocate(ringcheck_state.descriptor, from, more);

    if (error == EOPNOTSUPP || error == EINVAL)
        error = ftruncate(ringcheck_state.descriptor, (off_t)bytes) == 0 ? 0 : errno;
    if (error == 0)
        __atomic_store_n(&ringcheck_state.grown, bytes, __ATOMIC_RELEASE);
    return error;
}

/* Whether the log has room for its first bytes, so many, and for its last line. */
RINGCHECK_INSIDE int ringcheck_has_room(size_t bytes)
{
    const size_t wanted = bytes + sizeof RINGCHECK_FULL - 1;
    int fits;

    if (wanted <= __atomic_load_n(&ringcheck_state.grown, __ATOMIC_ACQUIRE))
        return 1;
    if (__atomic_load_n(&ringcheck_state.is_full, __ATOMIC_RELAXED))
        return 0;
    ringcheck_enter();
    while (ringcheck_state.grown < wanted && !ringcheck_state.is_full) {
        const size_t left = ringcheck_state.size - ringcheck_state.grown;
        const size_t step = left < RINGCHECK_STEP ? left : RINGCHECK_STEP;

        if (step == 0 || ringcheck_allocates(ringcheck_state.grown + step) != 0)
            __atomic_store_n(&ringcheck_state.is_full, 1, __ATOMIC_RELAXED);
    }
    fits = wanted <= ringcheck_state.grown;
    ringcheck_leave();
    return fits;
}

/* The last 160 bytes of a file's name. A byte that no word of the log may have is `?`. */
RINGCHECK_INSIDE size_t ringcheck_file_name(char *to, const char *file)
{
    const size_t length = strlen(file);
    const char *from = length > 160 ? file + length - 160 : file;
    size_t i;

    for (i = 0; from[i] != '\0'; i++)
        to[i] = from[i] > ' ' && from[i] <= '~' ? from[i] : '?';
    return i;
}

/*
 * A line's place is reserved by one addition, so lines that are written under a mutex are in its order, and those of a
 * thread in its own. The file is mapped, so what is written stays if the process is killed. A line that the log has no
 * room for is left out, and so are all after it: one of them alone begins where the log still has room for its last line.
 */
__attribute__((unused, format(printf, 3, 4))) static inline void ringcheck_line(const char *file, int line,
                                                                               const char *words, ...)
{
    char text[384];
    const int saved = errno;
    va_list values;
    size_t length, at;

    if (ringcheck_state.map == NULL)
        return;
    ringcheck_settle(file, line);
    ringcheck_is_idle = 0;
    length = strlen(ringcheck_thread);
    memcpy(text, ringcheck_thread, length);
    text[length++] = ' ';
    length += ringcheck_file_name(text + length, file);
    length += (size_t)snprintf(text + length, 16, ":%d ", line);
    va_start(values, words);
    length += (size_t)vsnprintf(text + length, 160, words, values);
    va_end(values);
    text[length++] = '\n';
    at = __atomic_fetch_add(&ringcheck_state.at, length, __ATOMIC_RELAXED);
    if (ringcheck_has_room(at + length)) {
        memcpy(ringcheck_state.map + at, text, length);
    } else if (ringcheck_has_room(at)) {
        memcpy(ringcheck_state.map + at, RINGCHECK_FULL, sizeof RINGCHECK_FULL - 1);
        __atomic_store_n(&ringcheck_state.end, at + sizeof RINGCHECK_FULL - 1, __ATOMIC_RELAXED);
    }
    errno = saved;
}

/* Adds that the program ended, and cuts the log to its length. Lines that come later find no room. */
RINGCHECK_INSIDE void ringcheck_end(void)
{
    const size_t at = __atomic_fetch_add(&ringcheck_state.at, ringcheck_state.size, __ATOMIC_RELAXED);
    const size_t full = __atomic_load_n(&ringcheck_state.end, __ATOMIC_RELAXED);
    const size_t end = full != 0 ? full : at + sizeof RINGCHECK_DONE - 1;

    __atomic_store_n(&ringcheck_state.is_full, 1, __ATOMIC_RELAXED);
    if (ringcheck_state.map == NULL || end > ringcheck_state.grown)
        return;
    if (full == 0)
        memcpy(ringcheck_state.map + at, RINGCHECK_DONE, sizeof RINGCHECK_DONE - 1);
    if (ftruncate(ringcheck_state.descriptor, (off_t)end) != 0)
        perror("ringcheck.h: the log can't be cut to its length");
}

/* A child process has no log, unless it says which ring is its own. */
RINGCHECK_INSIDE void ringcheck_forked(void)
{
    ringcheck_state.map = NULL;
    ringcheck_state.ring = NULL;
}

/* ---- What stands for what ---- */

/* The first row that isn't below this value. */
RINGCHECK_INSIDE size_t ringcheck_row(const struct ringcheck_table *table, uint64_t value)
{
    size_t low = 0, high = table->count;

    while (low < high) {
        const size_t middle = low + (high - low) / 2;

        if (table->rows[middle].last < value)
            low = middle + 1;
        else
            high = middle;
    }
    return low;
}

/* A new row takes the place of all that it overlaps. */
RINGCHECK_INSIDE void ringcheck_mean(struct ringcheck_table *table, uint64_t first, uint64_t size, uint64_t number,
                                     const char *name)
{
    struct ringcheck_meaning *row;
    size_t at, to;

    if (size == 0)
        return;
    ringcheck_enter();
    table->rows = (struct ringcheck_meaning *)ringcheck_grown(table->rows, table->count, &table->room, sizeof *row);
    at = ringcheck_row(table, first);
    for (to = at; to < table->count && table->rows[to].first <= first + (size - 1); to++)
        ;
    row = &table->rows[at];
    memmove(row + 1, &table->rows[to], (table->count - to) * sizeof *row);
    table->count = table->count + 1 - (to - at);
    memset(row, 0, sizeof *row);
    row->first = first;
    row->last = first + (size - 1);
    row->number = number;
    strcpy(row->name, name);
    row->is_known = 1;
    ringcheck_leave();
}

RINGCHECK_INSIDE struct ringcheck_meaning ringcheck_meaning_of(const struct ringcheck_table *table, uint64_t value)
{
    struct ringcheck_meaning found;
    size_t at;

    memset(&found, 0, sizeof found);
    ringcheck_enter();
    at = ringcheck_row(table, value);
    if (at < table->count && table->rows[at].first <= value)
        found = table->rows[at];
    ringcheck_leave();
    return found;
}

/* Whether the log has this name or number. From now on it has. */
RINGCHECK_INSIDE int ringcheck_is_declared(struct ringcheck_table *table, const struct ringcheck_meaning *row)
{
    size_t i = 0;
    int is_there;

    ringcheck_enter();
    while (i < table->declared_count &&
           (table->declared[i].number != row->number || strcmp(table->declared[i].name, row->name) != 0))
        i++;
    is_there = i < table->declared_count;
    if (!is_there) {
        table->declared = (struct ringcheck_meaning *)ringcheck_grown(table->declared, i, &table->declared_room, sizeof *row);
        table->declared[table->declared_count++] = *row;
    }
    ringcheck_leave();
    return is_there;
}

/* What the program says that it has is logged: each name or number once. */
RINGCHECK_INSIDE void ringcheck_declare(struct ringcheck_table *table, const struct ringcheck_meaning *row,
                                        const char *what, const char *file, int line)
{
    if (ringcheck_is_declared(table, row))
        return;
    if (row->name[0] != '\0')
        ringcheck_line(file, line, "buffer %s %llu", row->name, (unsigned long long)(row->last - row->first + 1));
    else
        ringcheck_line(file, line, "%s %llu", what, (unsigned long long)row->number);
}

RINGCHECK_INSIDE void ringcheck_say(struct ringcheck_table *table, const char *what, uint64_t first, uint64_t size,
                                    uint64_t number, const char *name, const char *file, int line)
{
    ringcheck_mean(table, first, size, number, name);
    if (ringcheck_state.map != NULL && size > 0) {
        const struct ringcheck_meaning row = ringcheck_meaning_of(table, first);

        ringcheck_declare(table, &row, what, file, line);
    }
}

/* What was said before the log was opened. */
RINGCHECK_INSIDE void ringcheck_declare_all(struct ringcheck_table *table, const char *what, const char *file, int line)
{
    size_t i;

    table->declared_count = 0;
    for (i = 0; i < table->count; i++)
        ringcheck_declare(table, &table->rows[i], what, file, line);
}

/* The buffer that has these bytes: `?` if nobody said so of the first, `!` if they go past the buffer's end. */
RINGCHECK_INSIDE void ringcheck_buffer_of(char name[RINGCHECK_NAME], const void *address, size_t size)
{
    const uint64_t first = (uint64_t)(uintptr_t)address;
    const struct ringcheck_meaning found = ringcheck_meaning_of(&ringcheck_state.buffers, first);

    if (!found.is_known)
        strcpy(name, "?");
    else if (size > found.last - first + 1)
        strcpy(name, "!");
    else
        memcpy(name, found.name, sizeof found.name);
}

RINGCHECK_INSIDE long long ringcheck_file_of(int descriptor)
{
    const struct ringcheck_meaning found = ringcheck_meaning_of(&ringcheck_state.files, (unsigned)descriptor);

    return found.is_known ? (long long)found.number : -1;
}

RINGCHECK_INSIDE unsigned long long ringcheck_token_of(uint64_t data)
{
    const struct ringcheck_meaning found = ringcheck_meaning_of(&ringcheck_state.tokens, data);

    return found.is_known ? found.number : data;
}

/* ---- The ring and its sides ---- */

/* Opens the log. */
RINGCHECK_INSIDE void ringcheck_open_log(const char *form, const struct io_uring *ring)
{
    const char *size = getenv("RINGCHECK_LOG_SIZE"), *number = strstr(form, "%p");
    char path[4096];
    void *map;
    int error;

    if (number != NULL)
        snprintf(path, sizeof path, "%.*s%ld%s", (int)(number - form), form, (long)getpid(), number + 2);
    else
        snprintf(path, sizeof path, "%s", form);
    ringcheck_state.size = size != NULL ? (size_t)strtoull(size, NULL, 10) : (size_t)64 << 20;
    if (ringcheck_state.size < 64)
        ringcheck_stop("RINGCHECK_LOG_SIZE", "a log has at least 64 bytes");
    ringcheck_state.descriptor = open(path, O_RDWR | O_CREAT | O_TRUNC | O_CLOEXEC, 0666);
    if (ringcheck_state.descriptor < 0)
        ringcheck_stop(path, strerror(errno));
    ringcheck_state.grown = 0;
    ringcheck_state.end = 0;
    ringcheck_state.is_full = 0;
    error = ringcheck_allocates(ringcheck_state.size < RINGCHECK_STEP ? ringcheck_state.size : RINGCHECK_STEP);
    if (error != 0)
        ringcheck_stop(path, strerror(error));
    map = mmap(NULL, ringcheck_state.size, PROT_READ | PROT_WRITE, MAP_SHARED, ringcheck_state.descriptor, 0);
    if (map == MAP_FAILED)
        ringcheck_stop(path, strerror(errno));
    ringcheck_state.entries[RINGCHECK_SQ] = *ring->sq.kring_entries;
    ringcheck_state.entries[RINGCHECK_CQ] = *ring->cq.kring_entries;
    ringcheck_state.at = (size_t)snprintf((char *)map, 64, "ringcheck log 1\nring %u %u\n", *ring->sq.kring_entries,
                                          *ring->cq.kring_entries);
    ringcheck_state.map = (char *)map;
    atexit(ringcheck_end);
    pthread_atfork(NULL, NULL, ringcheck_forked);
}

/* Whether a ring can go on with the log of one that is gone. */
RINGCHECK_INSIDE int ringcheck_is_as_large(const struct io_uring *ring)
{
    return *ring->sq.kring_entries >= ringcheck_state.entries[RINGCHECK_SQ] &&
           *ring->cq.kring_entries >= ringcheck_state.entries[RINGCHECK_CQ];
}

RINGCHECK_INSIDE const struct io_uring *ringcheck_logged_ring(void)
{
    return __atomic_load_n(&ringcheck_state.ring, __ATOMIC_RELAXED);
}

RINGCHECK_INSIDE void ringcheck_log_ring(const struct io_uring *ring, int has_sides, const void *submitting,
                                         const void *reaping, const char *file, int line)
{
#ifdef RINGCHECK_LOG
    const char *form = getenv("RINGCHECK_LOG_FILE");
#else
    const char *form = NULL;
#endif
    const struct io_uring *logged = ringcheck_logged_ring();
    const int is_first = ringcheck_state.map == NULL;

    if (form == NULL || *form == '\0')
        return;
    if ((ring->flags & IORING_SETUP_SQPOLL) != 0)
        ringcheck_stop("RINGCHECK_RING", "no model has a ring with IORING_SETUP_SQPOLL");
    if (logged != NULL && logged != ring) {
        ringcheck_leaves_out(file, line, "a second ring, while the first is there");
        return;
    }
    if (!is_first && !ringcheck_is_as_large(ring)) {
        ringcheck_leaves_out(file, line, "a ring that is smaller than the first");
        return;
    }
    if (is_first)
        ringcheck_open_log(form, ring);
    ringcheck_state.has_sides = has_sides && (submitting == NULL || submitting != reaping);
    ringcheck_state.mutexes[RINGCHECK_SQ] = submitting;
    ringcheck_state.mutexes[RINGCHECK_CQ] = reaping;
    __atomic_store_n(&ringcheck_state.ring, ring, __ATOMIC_RELAXED);
    if (is_first) {
        ringcheck_declare_all(&ringcheck_state.files, "file", file, line);
        ringcheck_declare_all(&ringcheck_state.buffers, "buffer", file, line);
        ringcheck_declare_all(&ringcheck_state.tokens, "token", file, line);
    }
}

RINGCHECK_INSIDE int ringcheck_is_logged(const struct io_uring *ring)
{
    return ringcheck_state.map != NULL && ringcheck_logged_ring() == ring;
}

RINGCHECK_INSIDE const char *ringcheck_words_of(int side)
{
    return !ringcheck_state.has_sides ? "" : side == RINGCHECK_SQ ? " sq" : " cq";
}

/* What is known of a ring. */
RINGCHECK_INSIDE struct ringcheck_ring *ringcheck_known(const struct io_uring *ring)
{
    struct ringcheck_ring *known = ringcheck_last, *next;

    if (known != NULL && __atomic_load_n(&known->ring, __ATOMIC_RELAXED) == ring)
        return known;
    ringcheck_enter();
    for (known = ringcheck_state.rings; known != NULL && known->ring != ring; known = known->next)
        ;
    if (known == NULL) {
        for (known = ringcheck_state.rings; known != NULL && known->ring != NULL; known = known->next)
            ;
        next = known != NULL ? known->next : ringcheck_state.rings;
        if (known == NULL) {
            known = (struct ringcheck_ring *)malloc(sizeof *known);
            if (known == NULL)
                ringcheck_stop("its tables", "out of memory");
            ringcheck_state.rings = known;
        }
        memset(known, 0, sizeof *known);
        known->next = next;
        known->looked_to = *ring->sq.khead;
        known->arrived_to = *ring->cq.khead;
        __atomic_store_n(&known->ring, ring, __ATOMIC_RELAXED);
    }
    ringcheck_leave();
    ringcheck_last = known;
    return known;
}

/*
 * A call on this side comes next. A thread that has it for itself, without a mutex, is logged as one that locks it once:
 * before its first call. Answers whether the call is logged.
 */
RINGCHECK_INSIDE int ringcheck_begin(const struct io_uring *ring, int side, const char *file, int line)
{
    const int which = ringcheck_state.has_sides ? side : RINGCHECK_SQ;

    if (!ringcheck_is_logged(ring))
        return 0;
    if (ringcheck_state.mutexes[which] == NULL && !ringcheck_state.is_alone[which] &&
        !__atomic_exchange_n(&ringcheck_state.is_alone[which], 1, __ATOMIC_RELAXED))
        ringcheck_line(file, line, "lock%s", ringcheck_words_of(side));
    return 1;
}

RINGCHECK_INSIDE void ringcheck_reaper(const char *file, int line)
{
    if (ringcheck_state.map == NULL)
        return;
    if (!ringcheck_state.has_sides || ringcheck_state.mutexes[RINGCHECK_CQ] != NULL)
        ringcheck_stop("RINGCHECK_REAPER", "it goes with RINGCHECK_RING_SIDES(ring, submitting, NULL)");
    ringcheck_begin(ringcheck_logged_ring(), RINGCHECK_CQ, file, line);
}

/* ---- Buffers that are out ---- */

#ifdef RINGCHECK_POISON
/* From here on nobody may touch this piece, which a submitted request names. */
RINGCHECK_INSIDE void ringcheck_keep_piece(const struct io_uring *ring, const struct io_uring_sqe *sqe, unsigned index,
                                           void *address, size_t size)
{
    struct ringcheck_piece *piece;

    if (address == NULL || size == 0)
        return;
    ringcheck_state.pieces = (struct ringcheck_piece *)ringcheck_grown(
        ringcheck_state.pieces, ringcheck_state.piece_count, &ringcheck_state.piece_room, sizeof *piece);
    piece = &ringcheck_state.pieces[ringcheck_state.piece_count++];
    piece->ring = ring;
    piece->data = sqe->user_data;
    piece->request = ringcheck_state.request;
    piece->index = index;
    piece->address = address;
    piece->size = size;
    __asan_poison_memory_region(address, size);
}

RINGCHECK_INSIDE void ringcheck_keep_pieces(const struct io_uring *ring, const struct io_uring_sqe *sqe, unsigned index,
                                            const struct iovec *pieces, size_t count)
{
    size_t i;

    for (i = 0; i < count; i++)
        ringcheck_keep_piece(ring, sqe, index, pieces[i].iov_base, pieces[i].iov_len);
}

/* This entry is submitted next. */
RINGCHECK_INSIDE void ringcheck_keep(const struct io_uring *ring, const struct io_uring_sqe *sqe, unsigned index)
{
    void *address = (void *)(uintptr_t)sqe->addr;

    ringcheck_enter();
    ringcheck_state.request++;
    switch (sqe->opcode) {
    case IORING_OP_READ: case IORING_OP_READ_FIXED: case IORING_OP_RECV:
    case IORING_OP_WRITE: case IORING_OP_WRITE_FIXED: case IORING_OP_SEND:
        ringcheck_keep_piece(ring, sqe, index, address, sqe->len);
        break;
    case IORING_OP_READV: case IORING_OP_WRITEV:
        ringcheck_keep_pieces(ring, sqe, index, (const struct iovec *)address, sqe->len);
        break;
    case IORING_OP_RECVMSG: case IORING_OP_SENDMSG:
        ringcheck_keep_pieces(ring, sqe, index, ((const struct msghdr *)address)->msg_iov,
                              ((const struct msghdr *)address)->msg_iovlen);
        break;
    default:
        break;
    }
    ringcheck_leave();
}

/* Those that stay are poisoned again: one of them may name what another gave back. */
RINGCHECK_INSIDE void ringcheck_keep_first(size_t count)
{
    size_t i;

    ringcheck_state.piece_count = count;
    for (i = 0; i < count; i++)
        __asan_poison_memory_region(ringcheck_state.pieces[i].address, ringcheck_state.pieces[i].size);
}

/* The oldest request that is out with this user data was reaped. What others name too stays poisoned. */
RINGCHECK_INSIDE void ringcheck_give_back(const struct io_uring *ring, uint64_t data)
{
    size_t i, kept = 0;
    unsigned request = 0;
    int is_found = 0;

    ringcheck_enter();
    for (i = 0; i < ringcheck_state.piece_count; i++) {
        const struct ringcheck_piece piece = ringcheck_state.pieces[i];

        if (piece.ring == ring && piece.data == data && (!is_found || piece.request == request)) {
            is_found = 1;
            request = piece.request;
            __asan_unpoison_memory_region(piece.address, piece.size);
        } else {
            ringcheck_state.pieces[kept++] = piece;
        }
    }
    if (is_found)
        ringcheck_keep_first(kept);
    ringcheck_leave();
}

/* Touches a byte, as what comes next does: where the byte is poisoned, that is a report. */
RINGCHECK_INSIDE void ringcheck_reach(const void *address)
{
    (void)*(const volatile char *)address;
}

/* What requests of this ring name is no longer poisoned, but for what others name too. */
RINGCHECK_INSIDE void ringcheck_give_all_back(const struct io_uring *ring)
{
    size_t i, kept = 0;

    ringcheck_enter();
    for (i = 0; i < ringcheck_state.piece_count; i++) {
        const struct ringcheck_piece piece = ringcheck_state.pieces[i];

        if (piece.ring == ring)
            __asan_unpoison_memory_region(piece.address, piece.size);
        else
            ringcheck_state.pieces[kept++] = piece;
    }
    ringcheck_keep_first(kept);
    ringcheck_leave();
}

/* The ring goes. Of a request that the kernel took and nobody reaped the buffer may still be used: that is a report. */
RINGCHECK_INSIDE void ringcheck_abandon(const struct io_uring *ring)
{
    const unsigned taken_to = *ring->sq.khead;
    const void *used = NULL;
    size_t i;

    ringcheck_enter();
    for (i = 0; i < ringcheck_state.piece_count; i++)
        if (ringcheck_state.pieces[i].ring == ring && (int)(taken_to - ringcheck_state.pieces[i].index) > 0)
            used = ringcheck_state.pieces[i].address;
    ringcheck_leave();
    if (used != NULL) {
        fprintf(stderr, "ringcheck.h: io_uring_queue_exit, and a request that has this buffer isn't reaped:\n");
        ringcheck_reach(used);
    }
}
#else
RINGCHECK_INSIDE void ringcheck_give_all_back(const struct io_uring *ring) { (void)ring; }
RINGCHECK_INSIDE void ringcheck_give_back(const struct io_uring *ring, uint64_t data) { (void)ring, (void)data; }
RINGCHECK_INSIDE void ringcheck_reach(const void *address) { (void)address; }
RINGCHECK_INSIDE void ringcheck_abandon(const struct io_uring *ring) { (void)ring; }
#endif

/* ---- Forced failures ---- */

#ifdef RINGCHECK_FAULTS
/* Reads `submit=5,wait=5,late=50,short=20,errno=2`. What isn't named is never forced. */
RINGCHECK_INSIDE void ringcheck_read_chances(const char *text)
{
    static const char *const names[RINGCHECK_KINDS] = {"submit", "wait", "late", "short", "errno"};

    while (*text != '\0') {
        const size_t length = strcspn(text, "=");
        char *end = NULL;
        unsigned kind = 0;
        unsigned long chance = 101;

        while (kind < RINGCHECK_KINDS && (strlen(names[kind]) != length || memcmp(names[kind], text, length) != 0))
            kind++;
        if (kind < RINGCHECK_KINDS && text[length] == '=')
            chance = strtoul(text + length + 1, &end, 10);
        if (chance > 100 || end == text + length + 1 || (*end != '\0' && *end != ','))
            ringcheck_stop("RINGCHECK_FAULTS", "it is said as submit=5,wait=5,late=50,short=20,errno=2, in percent");
        ringcheck_state.chances[kind] = (unsigned)chance;
        text = *end == ',' ? end + 1 : end;
    }
}

RINGCHECK_INSIDE void ringcheck_ask_environment(void)
{
    const char *chances = getenv("RINGCHECK_FAULTS"), *seed = getenv("RINGCHECK_SEED");
    const char *tells = getenv("RINGCHECK_FAULTS_TELL");

    if (__atomic_load_n(&ringcheck_state.has_chances, __ATOMIC_ACQUIRE))
        return;
    ringcheck_enter();
    if (!ringcheck_state.has_chances) {
        ringcheck_read_chances(chances != NULL ? chances : "submit=5,wait=5,late=50,short=20,errno=2");
        ringcheck_state.seed = seed != NULL ? strtoull(seed, NULL, 10) : 1;
        ringcheck_state.tells = tells != NULL && strcmp(tells, "1") == 0;
        __atomic_store_n(&ringcheck_state.has_chances, 1, __ATOMIC_RELEASE);
    }
    ringcheck_leave();
}

RINGCHECK_INSIDE uint64_t ringcheck_mix(uint64_t value)
{
    value += 0x9e3779b97f4a7c15u;
    value = (value ^ (value >> 30)) * 0xbf58476d1ce4e5b9u;
    value = (value ^ (value >> 27)) * 0x94d049bb133111ebu;
    return value ^ (value >> 31);
}

/* Stands for the thread from run to run: its name, or how many came before it. */
RINGCHECK_INSIDE uint64_t ringcheck_thread_number(void)
{
    struct ringcheck_luck *luck = &ringcheck_luck;
    uint64_t number = 0;
    size_t i;

    if (!luck->is_named && luck->number == 0)
        luck->number = __atomic_add_fetch(&ringcheck_state.threads, 1, __ATOMIC_RELAXED);
    for (i = 0; luck->is_named && ringcheck_thread[i] != '\0'; i++)
        number = ringcheck_mix(number + (unsigned char)ringcheck_thread[i]);
    return luck->is_named ? number : luck->number;
}

/* Whether this is forced now: by the seed, the thread and how many choices of this kind it had, not by the time. */
RINGCHECK_INSIDE int ringcheck_chooses(unsigned kind, uint64_t *choice)
{
    struct ringcheck_luck *luck = &ringcheck_luck;

    ringcheck_ask_environment();
    if (luck->off > 0)
        return 0;
    *choice = ringcheck_mix(ringcheck_mix(ringcheck_state.seed * RINGCHECK_KINDS + kind) + ringcheck_thread_number());
    *choice = ringcheck_mix(*choice + luck->choices[kind]++);
    if (*choice % 100 >= ringcheck_state.chances[kind])
        return 0;
    *choice = ringcheck_mix(*choice);
    return 1;
}

__attribute__((unused, format(printf, 3, 4))) static inline void ringcheck_tell(const char *file, int line,
                                                                               const char *words, ...)
{
    char text[200];
    const int saved = errno;
    va_list values;

    if (!ringcheck_state.tells)
        return;
    va_start(values, words);
    vsnprintf(text, sizeof text, words, values);
    va_end(values);
    fprintf(stderr, "ringcheck.h: %s:%d: %s: forced: %s\n", file, line, ringcheck_thread, text);
    errno = saved;
}

/* The errno that a request may complete with, as its system call's manual page says, or 0. */
RINGCHECK_INSIDE int ringcheck_error_of(const struct io_uring_sqe *sqe, uint64_t choice)
{
    static const int of_read[] = {EIO, EINTR, EAGAIN, ECANCELED}, of_write[] = {EIO, EINTR, EAGAIN, ECANCELED, ENOSPC};
    static const int of_sync[] = {EIO, ENOSPC, EINTR, ECANCELED}, of_socket[] = {EINTR, EAGAIN, ECANCELED};

    switch (sqe->opcode) {
    case IORING_OP_READ: case IORING_OP_READ_FIXED: case IORING_OP_READV:
        return of_read[choice % (sizeof of_read / sizeof *of_read)];
    case IORING_OP_WRITE: case IORING_OP_WRITE_FIXED: case IORING_OP_WRITEV:
        return of_write[choice % (sizeof of_write / sizeof *of_write)];
    case IORING_OP_FSYNC:
        return of_sync[choice % (sizeof of_sync / sizeof *of_sync)];
    case IORING_OP_RECV: case IORING_OP_SEND:
        return of_socket[choice % (sizeof of_socket / sizeof *of_socket)];
    default:
        return 0;
    }
}

/* What an entry reads or writes, in bytes; 0 if it is another request. */
RINGCHECK_INSIDE size_t ringcheck_length_of(const struct io_uring_sqe *sqe)
{
    const struct iovec *pieces = (const struct iovec *)(uintptr_t)sqe->addr;
    size_t length = 0;
    unsigned i;

    switch (sqe->opcode) {
    case IORING_OP_READ: case IORING_OP_READ_FIXED: case IORING_OP_RECV:
    case IORING_OP_WRITE: case IORING_OP_WRITE_FIXED: case IORING_OP_SEND:
        return sqe->len;
    case IORING_OP_READV: case IORING_OP_WRITEV:
        for (i = 0; i < sqe->len; i++)
            length += pieces[i].iov_len;
        return length;
    default:
        return 0;
    }
}

RINGCHECK_INSIDE int ringcheck_is_read(const struct io_uring_sqe *sqe)
{
    return sqe->opcode == IORING_OP_READ || sqe->opcode == IORING_OP_READ_FIXED || sqe->opcode == IORING_OP_READV;
}

RINGCHECK_INSIDE int ringcheck_is_socket_call(const struct io_uring_sqe *sqe)
{
    return sqe->opcode == IORING_OP_SEND || sqe->opcode == IORING_OP_RECV;
}

/* A descriptor whose transfers go to a place, so that one may be made again: a file or a block device. */
RINGCHECK_INSIDE int ringcheck_has_places(const struct io_uring_sqe *sqe)
{
    struct stat is;

    if ((sqe->flags & IOSQE_FIXED_FILE) != 0 || fstat(sqe->fd, &is) != 0)
        return 0;
    return S_ISREG(is.st_mode) || S_ISBLK(is.st_mode);
}

/* A socket or pipe of bytes: a datagram or a counter is never short. */
RINGCHECK_INSIDE int ringcheck_is_stream(const struct io_uring_sqe *sqe)
{
    struct stat is;
    int kind = 0;
    socklen_t size = sizeof kind;

    if ((sqe->flags & IOSQE_FIXED_FILE) != 0 || fstat(sqe->fd, &is) != 0)
        return 0;
    if (S_ISSOCK(is.st_mode))
        return getsockopt(sqe->fd, SOL_SOCKET, SO_TYPE, &kind, &size) == 0 && kind == SOCK_STREAM;
    return S_ISFIFO(is.st_mode) && (fcntl(sqe->fd, F_GETFL) & RINGCHECK_DIRECT) == 0;
}

/* A length below this one that the kernel may answer, or the same. Past the page cache it goes by sectors. */
RINGCHECK_INSIDE size_t ringcheck_shorter(const struct io_uring_sqe *sqe, size_t length, uint64_t choice)
{
    const int has_places = ringcheck_has_places(sqe);
    const int is_direct = has_places && (fcntl(sqe->fd, F_GETFL) & RINGCHECK_DIRECT) != 0;
    const size_t unit = !is_direct ? 1 : length % 4096 == 0 ? 4096 : 512;

    if (!has_places && !ringcheck_is_stream(sqe))
        return length;
    if (ringcheck_is_socket_call(sqe) && (sqe->msg_flags & MSG_WAITALL) != 0)
        return length; /* it is short only where the connection ends */
    if (has_places && ringcheck_is_read(sqe) && choice % 8 == 0)
        return 0;
    if (length <= unit)
        return length;
    return (1 + (size_t)(choice / 8) % ((length - 1) / unit)) * unit;
}

/* The pieces up to this length. They stay until the request is reaped. */
RINGCHECK_INSIDE struct iovec *ringcheck_cut(struct io_uring_sqe *sqe, size_t length)
{
    const struct iovec *pieces = (const struct iovec *)(uintptr_t)sqe->addr;
    struct iovec *mine = (struct iovec *)malloc((sqe->len + 1) * sizeof *mine);
    unsigned count;

    if (mine == NULL)
        ringcheck_stop("its tables", "out of memory");
    mine[0] = pieces[0];
    for (count = 0; length > 0; count++) {
        mine[count] = pieces[count];
        if (mine[count].iov_len > length)
            mine[count].iov_len = length;
        length -= mine[count].iov_len;
    }
    if (count == 0)
        mine[count++].iov_len = 0;
    sqe->addr = (uint64_t)(uintptr_t)mine;
    sqe->len = count;
    return mine;
}

/* Makes the transfer of an entry short. */
RINGCHECK_INSIDE struct iovec *ringcheck_shorten(struct io_uring_sqe *sqe, uint64_t choice, const char *file, int line)
{
    const size_t length = ringcheck_length_of(sqe);
    const size_t shorter = length > 0 ? ringcheck_shorter(sqe, length, choice) : length;

    if (shorter == length)
        return NULL;
    ringcheck_tell(file, line, "request %llu of %zu bytes asks for %zu", (unsigned long long)sqe->user_data, length,
                   shorter);
    if (sqe->opcode == IORING_OP_READV || sqe->opcode == IORING_OP_WRITEV)
        return ringcheck_cut(sqe, shorter);
    sqe->len = (unsigned)shorter;
    return NULL;
}

/* Of a socket or pipe what was moved can't be moved again: where the program gets an error, nothing is moved. */
RINGCHECK_INSIDE void ringcheck_make_nop(struct io_uring_sqe *sqe)
{
    const uint64_t data = sqe->user_data;
    const unsigned char flags = (unsigned char)(sqe->flags & (IOSQE_ASYNC | IOSQE_IO_DRAIN));

    memset(sqe, 0, sizeof *sqe);
    sqe->opcode = IORING_OP_NOP;
    sqe->fd = -1;
    sqe->flags = flags;
    sqe->user_data = data;
}

/* An error goes to one request: where two have one user data, nobody could say which. */
RINGCHECK_INSIDE void ringcheck_await(const struct io_uring *ring, uint64_t data, int error, struct iovec *pieces)
{
    struct ringcheck_request *request;
    size_t i;

    ringcheck_enter();
    for (i = 0; i < ringcheck_state.request_count; i++)
        if (ringcheck_state.requests[i].ring == ring && ringcheck_state.requests[i].data == data)
            error = ringcheck_state.requests[i].error = 0;
    ringcheck_state.requests = (struct ringcheck_request *)ringcheck_grown(
        ringcheck_state.requests, ringcheck_state.request_count, &ringcheck_state.request_room, sizeof *request);
    request = &ringcheck_state.requests[ringcheck_state.request_count++];
    request->ring = ring;
    request->data = data;
    request->error = error;
    request->pieces = pieces;
    ringcheck_leave();
}

/* What is forced of an entry that is submitted next. Links and requests with several completions are left as they are. */
RINGCHECK_INSIDE void ringcheck_force(const struct io_uring *ring, struct io_uring_sqe *sqe, const char *file, int line)
{
    const unsigned char kept = IOSQE_IO_LINK | IOSQE_IO_HARDLINK | IOSQE_BUFFER_SELECT | IOSQE_CQE_SKIP_SUCCESS;
    struct iovec *pieces = NULL;
    uint64_t choice;
    int error;

    if ((sqe->flags & kept) != 0 || (sqe->ioprio != 0 && ringcheck_is_socket_call(sqe)))
        return;
    error = ringcheck_error_of(sqe, 0);
    if (error == 0 && sqe->opcode != IORING_OP_NOP)
        return;
    if (ringcheck_chooses(RINGCHECK_LATE, &choice)) {
        ringcheck_tell(file, line, "request %llu is served late", (unsigned long long)sqe->user_data);
        sqe->flags |= IOSQE_ASYNC;
    }
    if (ringcheck_chooses(RINGCHECK_SHORT, &choice))
        pieces = ringcheck_shorten(sqe, choice, file, line);
    error = error != 0 && ringcheck_chooses(RINGCHECK_ERRNO, &choice) ? ringcheck_error_of(sqe, choice) : 0;
    if (error != 0 && !ringcheck_has_places(sqe))
        ringcheck_make_nop(sqe);
    ringcheck_await(ring, sqe->user_data, error, pieces);
}

/* The oldest request with this user data completes, with its error where one is forced. */
RINGCHECK_INSIDE void ringcheck_complete(const struct io_uring *ring, struct io_uring_cqe *cqe, const char *file,
                                         int line)
{
    int error = 0;
    size_t i;

    ringcheck_enter();
    for (i = 0; i < ringcheck_state.request_count; i++)
        if (ringcheck_state.requests[i].ring == ring && ringcheck_state.requests[i].data == cqe->user_data)
            break;
    if (i < ringcheck_state.request_count) {
        error = ringcheck_state.requests[i].error;
        free(ringcheck_state.requests[i].pieces);
        ringcheck_state.request_count--;
        memmove(&ringcheck_state.requests[i], &ringcheck_state.requests[i + 1],
                (ringcheck_state.request_count - i) * sizeof *ringcheck_state.requests);
    }
    ringcheck_leave();
    if (error == 0 || cqe->res < 0)
        return;
    ringcheck_tell(file, line, "request %llu completes with %d in place of %d", (unsigned long long)cqe->user_data,
                   -error, cqe->res);
    cqe->res = -error;
}

/* The ring is gone, and nobody waits for its requests any more. */
RINGCHECK_INSIDE void ringcheck_forget_requests(const struct io_uring *ring)
{
    size_t i, kept = 0;

    ringcheck_enter();
    for (i = 0; i < ringcheck_state.request_count; i++)
        if (ringcheck_state.requests[i].ring != ring)
            ringcheck_state.requests[kept++] = ringcheck_state.requests[i];
    ringcheck_state.request_count = kept;
    ringcheck_leave();
}

/* Lets the kernel see the queued entries, as the library does. */
RINGCHECK_INSIDE void ringcheck_show_queue(struct io_uring *ring)
{
    const unsigned mask = *ring->sq.kring_mask;
    unsigned at;

    for (at = *ring->sq.khead; at != ring->sq.sqe_tail && ring->sq.array != NULL; at++)
        ring->sq.array[at & mask] = at & mask;
    ring->sq.sqe_head = ring->sq.sqe_tail;
    io_uring_smp_store_release(ring->sq.ktail, ring->sq.sqe_tail);
}

/* Whether this submit takes a part of the queue, or none. */
RINGCHECK_INSIDE int ringcheck_forces_submit(struct io_uring *ring, int *answer, const char *file, int line)
{
    static const int errors[] = {EAGAIN, EBUSY, EINTR};
    const unsigned queued = io_uring_sq_ready(ring);
    uint64_t choice;
    long taken;

    if (queued == 0 || ring->ring_fd < 0 || (ring->flags & IORING_SETUP_SQPOLL) != 0 ||
        !ringcheck_chooses(RINGCHECK_SUBMIT, &choice))
        return 0;
    ringcheck_show_queue(ring);
    if (queued > 1 && choice % 2 == 0) {
        taken = syscall(__NR_io_uring_enter, ring->ring_fd, 1 + (unsigned)(choice / 2 % (queued - 1)), 0, 0, NULL, 0);
        *answer = taken < 0 ? -errno : (int)taken;
    } else {
        *answer = -errors[choice / 2 % 3];
    }
    ringcheck_tell(file, line, "a submit of %u answers %d", queued, *answer);
    return 1;
}

/* Whether a wait for so many completions, which aren't all there, ends before. */
RINGCHECK_INSIDE int ringcheck_cuts_wait(const struct io_uring *ring, unsigned wanted, int has_end, int *answer,
                                         const char *file, int line)
{
    uint64_t choice;

    if (io_uring_cq_ready(ring) >= wanted || !ringcheck_chooses(RINGCHECK_WAIT, &choice))
        return 0;
    *answer = has_end && choice % 2 == 0 ? -ETIME : -EINTR;
    ringcheck_tell(file, line, "a wait for %u ends with %d", wanted, *answer);
    return 1;
}
#else
RINGCHECK_INSIDE int ringcheck_forces_submit(struct io_uring *ring, int *answer, const char *file, int line)
{
    (void)ring, (void)answer, (void)file, (void)line;
    return 0;
}
RINGCHECK_INSIDE int ringcheck_cuts_wait(const struct io_uring *ring, unsigned wanted, int has_end, int *answer,
                                         const char *file, int line)
{
    (void)ring, (void)wanted, (void)has_end, (void)answer, (void)file, (void)line;
    return 0;
}
#endif

/* The queued entries of a ring are submitted next. Each is looked at once, and a submit that takes none leaves it so. */
RINGCHECK_INSIDE void ringcheck_send(struct io_uring *ring, const char *file, int line)
{
#if defined(RINGCHECK_POISON) || defined(RINGCHECK_FAULTS)
    struct ringcheck_ring *known = ringcheck_known(ring);
    const unsigned mask = *ring->sq.kring_mask, shift = (ring->flags & IORING_SETUP_SQE128) != 0 ? 1 : 0;
    const unsigned taken_to = *ring->sq.khead;

    if ((int)(taken_to - known->looked_to) > 0)
        known->looked_to = taken_to;
    for (; known->looked_to != ring->sq.sqe_tail; known->looked_to++) {
        struct io_uring_sqe *sqe = &ring->sq.sqes[(known->looked_to & mask) << shift];

        (void)sqe;
#ifdef RINGCHECK_POISON
        ringcheck_keep(ring, sqe, known->looked_to);
#endif
#ifdef RINGCHECK_FAULTS
        ringcheck_force(ring, sqe, file, line);
#endif
    }
#endif
    (void)ring, (void)file, (void)line;
}

/* ---- Entries ---- */

RINGCHECK_INSIDE void ringcheck_transfer(const char *call, const struct io_uring_sqe *sqe, const void *address,
                                         size_t size, const char *file, int line)
{
    char name[RINGCHECK_NAME];

    ringcheck_buffer_of(name, address, size);
    ringcheck_line(file, line, "%s %lld %s %zu %llu", call, ringcheck_file_of(sqe->fd), name, size,
                   (unsigned long long)sqe->off);
}

/* Several pieces aren't one buffer of the model: `?`. */
RINGCHECK_INSIDE void ringcheck_transfers(const char *call, const struct io_uring_sqe *sqe, const char *file, int line)
{
    const struct iovec *pieces = (const struct iovec *)(uintptr_t)sqe->addr;

    if (sqe->len == 1)
        ringcheck_transfer(call, sqe, pieces->iov_base, pieces->iov_len, file, line);
    else
        ringcheck_transfer(call, sqe, NULL, 0, file, line);
}

/* A request that completes more than once. */
RINGCHECK_INSIDE int ringcheck_is_multishot(const struct io_uring_sqe *sqe)
{
#ifdef IORING_RECV_MULTISHOT
    return sqe->opcode == IORING_OP_RECV && (sqe->ioprio & IORING_RECV_MULTISHOT) != 0;
#else
    (void)sqe;
    return 0;
#endif
}

/* What an entry asks for is read off its fields, so each way to fill them in is logged alike. */
RINGCHECK_INSIDE void ringcheck_request_line(const struct io_uring_sqe *sqe, const char *file, int line)
{
    const void *address = (const void *)(uintptr_t)sqe->addr;

    if (ringcheck_is_multishot(sqe)) {
        ringcheck_line(file, line, "prep_other %u", sqe->opcode);
        return;
    }
    switch (sqe->opcode) {
    case IORING_OP_NOP:
        ringcheck_line(file, line, "prep_nop");
        break;
    case IORING_OP_FSYNC:
        ringcheck_line(file, line, "prep_fsync %lld %u", ringcheck_file_of(sqe->fd), sqe->fsync_flags);
        break;
    case IORING_OP_READ: case IORING_OP_READ_FIXED: case IORING_OP_RECV:
        ringcheck_transfer("prep_read", sqe, address, sqe->len, file, line);
        break;
    case IORING_OP_WRITE: case IORING_OP_WRITE_FIXED: case IORING_OP_SEND:
        ringcheck_transfer("prep_write", sqe, address, sqe->len, file, line);
        break;
    case IORING_OP_READV:
        ringcheck_transfers("prep_read", sqe, file, line);
        break;
    case IORING_OP_WRITEV:
        ringcheck_transfers("prep_write", sqe, file, line);
        break;
    default:
        ringcheck_line(file, line, "prep_other %u", sqe->opcode);
    }
}

/* User data that an entry has until the program sets it. */
#define RINGCHECK_UNSET 0x52696e67636865ffu

/* Before any other line of this thread: what its open entry asks for, once that is filled in, and its user data. */
RINGCHECK_INSIDE void ringcheck_settle(const char *file, int line)
{
    struct ringcheck_open *open = &ringcheck_open;

    if (open->sqe == NULL || !open->is_logged || open->is_settling ||
        (!open->is_prepared && open->sqe->opcode == IORING_OP_LAST))
        return;
    open->is_settling = 1;
    if (!open->is_prepared)
        ringcheck_request_line(open->sqe, open->file != NULL ? open->file : file, open->file != NULL ? open->line : line);
    open->is_prepared = 1;
    if (open->sqe->user_data != RINGCHECK_UNSET && (!open->is_named || open->data != open->sqe->user_data)) {
        open->is_named = 1;
        open->data = open->sqe->user_data;
        ringcheck_line(file, line, "set_data64 %llu", ringcheck_token_of(open->data));
    }
    open->is_settling = 0;
}

/* The program calls a prep. Some forget the flags that were set before: they are logged. */
RINGCHECK_INSIDE struct io_uring_sqe *ringcheck_preps(struct io_uring_sqe *sqe, const char *file, int line)
{
    if (sqe == NULL || sqe != ringcheck_open.sqe)
        return sqe;
    ringcheck_open.file = file;
    ringcheck_open.line = line;
    ringcheck_open.flags |= sqe->flags;
    return sqe;
}

/*
 * The thread is done with its open entry. Links, drains and fixed files are in no model: their flags are logged.
 * IOSQE_ASYNC alone changes nothing that a model says.
 */
RINGCHECK_INSIDE void ringcheck_filled(const char *file, int line)
{
    struct ringcheck_open *open = &ringcheck_open;
    struct io_uring_sqe *sqe = open->sqe;
    unsigned flags;

    if (sqe == NULL)
        return;
    if (open->is_logged) {
        ringcheck_settle(file, line);
        if (!open->is_prepared)
            ringcheck_line(file, line, "prep_other %u", sqe->opcode);
        open->is_prepared = 1;
        if (sqe->user_data == RINGCHECK_UNSET)
            sqe->user_data = open->old;
        ringcheck_settle(file, line);
        flags = (open->flags | sqe->flags) & ~(unsigned)IOSQE_ASYNC;
        if (flags != 0)
            ringcheck_line(file, line, "flags %u", flags);
    }
    open->sqe = NULL;
}

RINGCHECK_INSIDE struct io_uring_sqe *ringcheck_get_sqe(struct io_uring *ring, const char *file, int line)
{
    struct ringcheck_open *open = &ringcheck_open;
    struct io_uring_sqe *sqe;

    ringcheck_filled(file, line);
    memset(open, 0, sizeof *open);
    open->is_logged = ringcheck_begin(ring, RINGCHECK_SQ, file, line);
    sqe = io_uring_get_sqe(ring);
    if (!open->is_logged)
        return sqe;
    ringcheck_line(file, line, "get_sqe %d", sqe != NULL);
    if (sqe != NULL) { /* so that it doesn't look like what was in its place before */
        open->old = sqe->user_data;
        sqe->user_data = RINGCHECK_UNSET;
        sqe->opcode = IORING_OP_LAST;
        sqe->flags = 0;
    }
    open->ring = ring;
    open->sqe = sqe;
    return sqe;
}

/* ---- Submits ---- */

/* Waits in the kernel, as a submit does that has taken all. */
RINGCHECK_INSIDE int ringcheck_wait_for(const struct io_uring *ring, unsigned wanted, const char *file, int line)
{
    int answer = 0;

    if (ringcheck_cuts_wait(ring, wanted, 0, &answer, file, line))
        return answer;
    if (syscall(__NR_io_uring_enter, ring->ring_fd, 0, wanted, IORING_ENTER_GETEVENTS, NULL, 0) < 0)
        return -errno;
    return 0;
}

/*
 * Its line is written before it waits, and before anybody looks at what it took. Of nothing it is written after the wait,
 * whose answer it then has.
 */
RINGCHECK_INSIDE int ringcheck_submit_and_wait(struct io_uring *ring, unsigned wanted, int waits, const char *file,
                                               int line)
{
    const int is_logged = ringcheck_begin(ring, RINGCHECK_SQ, file, line);
    int answer, took_all;

    ringcheck_filled(file, line);
    ringcheck_send(ring, file, line);
#ifndef RINGCHECK_FAULTS
    if (!is_logged)
        return waits ? io_uring_submit_and_wait(ring, wanted) : io_uring_submit(ring);
#endif
    __atomic_fetch_add(&ringcheck_state.begun, 1, __ATOMIC_SEQ_CST);
    if (!ringcheck_forces_submit(ring, &answer, file, line))
        answer = io_uring_submit(ring);
    took_all = answer >= 0 && io_uring_sq_ready(ring) == 0;
    if (waits && wanted > 0 && answer == 0 && took_all)
        answer = ringcheck_wait_for(ring, wanted, file, line);
    if (is_logged && waits)
        ringcheck_line(file, line, "submit_and_wait %u %d", wanted, answer);
    else if (is_logged)
        ringcheck_line(file, line, "submit %d", answer);
    __atomic_fetch_add(&ringcheck_state.logged, 1, __ATOMIC_SEQ_CST);
    if (waits && wanted > 0 && answer > 0 && took_all)
        (void)ringcheck_wait_for(ring, wanted, file, line);
    return answer;
}

/* Waits until each submit that has begun has its line: one of them took what is completed. */
RINGCHECK_INSIDE void ringcheck_submitted(void)
{
    const unsigned begun = __atomic_load_n(&ringcheck_state.begun, __ATOMIC_SEQ_CST);

    while ((int)(__atomic_load_n(&ringcheck_state.logged, __ATOMIC_SEQ_CST) - begun) < 0)
        sched_yield();
}

/* ---- Completions ---- */

/* Whether the completion at this index doesn't count as seen yet. */
RINGCHECK_INSIDE int ringcheck_is_new(const struct ringcheck_ring *known, unsigned index)
{
    if (known->is_spared && known->spared == index)
        return 0;
    return !known->is_ahead || (int)(index - known->seen_to) >= 0;
}

/* One line for any number of looks in a row. */
RINGCHECK_INSIDE void ringcheck_none(const char *file, int line)
{
    if (ringcheck_is_idle)
        return;
    ringcheck_line(file, line, "peek_cqe none");
    ringcheck_is_idle = 1;
}

/* The program comes to this completion, for the first time or again. */
RINGCHECK_INSIDE void ringcheck_arrive(struct ringcheck_ring *known, unsigned index, struct io_uring_cqe *cqe,
                                       const char *file, int line)
{
    if ((int)(index - known->arrived_to) < 0)
        return;
    known->arrived_to = index + 1;
#ifdef RINGCHECK_FAULTS
    ringcheck_complete(known->ring, cqe, file, line);
#endif
    (void)cqe, (void)file, (void)line;
}

/* The user data of a completion: what it had when it was peeked at first, since the program may write it. */
RINGCHECK_INSIDE uint64_t ringcheck_data_of(const struct ringcheck_ring *known, unsigned index,
                                            const struct io_uring_cqe *cqe)
{
    return known->is_peeked && known->peeked == index ? known->data : cqe->user_data;
}

RINGCHECK_INSIDE void ringcheck_peeked(struct ringcheck_ring *known, unsigned index, const struct io_uring_cqe *cqe,
                                       const char *file, int line)
{
    known->data = ringcheck_data_of(known, index, cqe);
    known->peeked = index;
    known->is_peeked = 1;
    if (!ringcheck_is_logged(known->ring))
        return;
    ringcheck_submitted();
    ringcheck_line(file, line, "peek_cqe %llu %d", ringcheck_token_of(known->data), cqe->res);
}

RINGCHECK_INSIDE void ringcheck_given_back(struct ringcheck_ring *known, uint64_t data, const char *file, int line)
{
    known->is_peeked = 0;
    if (ringcheck_is_logged(known->ring))
        ringcheck_line(file, line, "cqe_seen %llu", ringcheck_token_of(data));
    ringcheck_give_back(known->ring, data);
}

RINGCHECK_INSIDE struct io_uring_cqe *ringcheck_at(const struct io_uring *ring, unsigned index)
{
    return &ring->cq.cqes[io_uring_cqe_index(ring, index, *ring->cq.kring_mask)];
}

/* Of several at once each counts as peeked, if a wait didn't just do that, and seen. */
RINGCHECK_INSIDE void ringcheck_taken(struct ringcheck_ring *known, unsigned index, const char *file, int line)
{
    struct io_uring_cqe *cqe = ringcheck_at(known->ring, index);

    if (ringcheck_is_new(known, index)) {
        ringcheck_arrive(known, index, cqe, file, line);
        if (!known->is_peeked || known->peeked != index)
            ringcheck_peeked(known, index, cqe, file, line);
        ringcheck_given_back(known, known->data, file, line);
    } else if (!known->is_spared || known->spared != index) {
        return;
    }
    known->is_spared = 0;
    known->seen_to = index + 1;
    known->is_ahead = 1;
}

/* The front completion was looked at, with this answer. */
RINGCHECK_INSIDE int ringcheck_looked(struct io_uring *ring, int answer, struct io_uring_cqe *const *cqe,
                                      const char *file, int line)
{
    struct ringcheck_ring *known = ringcheck_known(ring);
    const int is_logged = ringcheck_begin(ring, RINGCHECK_CQ, file, line);
    const unsigned front = *ring->cq.khead;

    if (is_logged && (answer == -EAGAIN || answer == -ETIME))
        ringcheck_none(file, line);
    if (answer != 0 || *cqe == NULL)
        return answer;
    ringcheck_arrive(known, front, *cqe, file, line);
    if (ringcheck_is_new(known, front))
        ringcheck_peeked(known, front, *cqe, file, line);
    return answer;
}

RINGCHECK_INSIDE int ringcheck_peek(struct io_uring *ring, struct io_uring_cqe **cqe, const char *file, int line)
{
    return ringcheck_looked(ring, io_uring_peek_cqe(ring, cqe), cqe, file, line);
}

/* A wait that ends early has the front completion, if there is one. */
RINGCHECK_INSIDE int ringcheck_ends_early(struct io_uring *ring, struct io_uring_cqe **cqe, unsigned wanted, int has_end,
                                          int *answer, const char *file, int line)
{
    if (!ringcheck_cuts_wait(ring, wanted, has_end, answer, file, line))
        return 0;
    if (io_uring_peek_cqe(ring, cqe) != 0)
        *cqe = NULL;
    return 1;
}

RINGCHECK_INSIDE int ringcheck_wait(struct io_uring *ring, struct io_uring_cqe **cqe, unsigned wanted, const char *file,
                                    int line)
{
    int answer;

    ringcheck_begin(ring, RINGCHECK_CQ, file, line);
    if (!ringcheck_ends_early(ring, cqe, wanted, 0, &answer, file, line))
        answer = io_uring_wait_cqe_nr(ring, cqe, wanted);
    return ringcheck_looked(ring, answer, cqe, file, line);
}

/* Where the kernel can't wait up to a time, the library makes a request of its own for it: that can't be logged. */
RINGCHECK_INSIDE int ringcheck_wait_until(struct io_uring *ring, struct io_uring_cqe **cqe, unsigned wanted,
                                          struct __kernel_timespec *until, sigset_t *mask, const char *file, int line)
{
    int answer;

    if (ringcheck_begin(ring, RINGCHECK_CQ, file, line) && until != NULL &&
        (ring->features & IORING_FEAT_EXT_ARG) == 0)
        ringcheck_stop("io_uring_wait_cqe_timeout", "it can be logged from Linux 5.11 on");
    if (!ringcheck_ends_early(ring, cqe, wanted, until != NULL, &answer, file, line))
        answer = io_uring_wait_cqes(ring, cqe, wanted, until, mask);
    return ringcheck_looked(ring, answer, cqe, file, line);
}

RINGCHECK_INSIDE unsigned ringcheck_peek_batch(struct io_uring *ring, struct io_uring_cqe **cqes, unsigned most,
                                               const char *file, int line)
{
    struct ringcheck_ring *known = ringcheck_known(ring);
    const int is_logged = ringcheck_begin(ring, RINGCHECK_CQ, file, line);
    const unsigned count = io_uring_peek_batch_cqe(ring, cqes, most);
    unsigned i;

    known->is_passing = 0;
    if (count == 0 && is_logged)
        ringcheck_none(file, line);
    for (i = 0; i < count; i++)
        ringcheck_taken(known, *ring->cq.khead + i, file, line);
    return count;
}

/* The completion at this index, as io_uring_for_each_cqe gets it, or NULL. */
RINGCHECK_INSIDE struct io_uring_cqe *ringcheck_each(struct io_uring *ring, unsigned index, const char *file, int line)
{
    struct ringcheck_ring *known = ringcheck_known(ring);
    const int is_logged = ringcheck_begin(ring, RINGCHECK_CQ, file, line);

    known->is_passing = 1;
    known->is_inside = index != io_uring_smp_load_acquire(ring->cq.ktail);
    if (!known->is_inside) {
        if (is_logged && index == *ring->cq.khead)
            ringcheck_none(file, line);
        return NULL;
    }
    ringcheck_taken(known, index, file, line);
    return ringcheck_at(ring, index);
}

/*
 * Where all that counts as seen is given back, the log and the ring are at one place again. What io_uring_for_each_cqe
 * passed and this call doesn't give back, the next loop passes again: each counts as new, but for the one at which a loop
 * was left, since that one may not have been handled.
 */
RINGCHECK_INSIDE void ringcheck_advance(struct io_uring *ring, unsigned count, const char *file, int line)
{
    struct ringcheck_ring *known = ringcheck_known(ring);
    const unsigned back = *ring->cq.khead + count;
    unsigned i;

    ringcheck_begin(ring, RINGCHECK_CQ, file, line);
    for (i = 0; i < count; i++)
        ringcheck_taken(known, *ring->cq.khead + i, file, line);
    if (!known->is_ahead || (int)(back - known->seen_to) >= 0) {
        known->is_ahead = 0;
    } else if (known->is_passing) {
        known->is_ahead = 0;
        known->is_spared = known->is_inside;
        known->spared = known->seen_to - 1;
    }
    io_uring_cq_advance(ring, count);
}

RINGCHECK_INSIDE void ringcheck_seen(struct io_uring *ring, struct io_uring_cqe *cqe, const char *file, int line)
{
    struct ringcheck_ring *known = ringcheck_known(ring);
    const unsigned front = *ring->cq.khead;

    ringcheck_begin(ring, RINGCHECK_CQ, file, line);
    if (cqe == NULL)
        return;
    if (known->is_spared && known->spared == front)
        known->is_spared = 0;
    else if (ringcheck_is_new(known, front))
        ringcheck_given_back(known, ringcheck_data_of(known, front, cqe), file, line);
    else if (front + 1 == known->seen_to)
        known->is_ahead = 0;
    io_uring_cqe_seen(ring, cqe);
}

/* ---- Rings that come and go ---- */

/* What was known of a ring at this address is forgotten. */
RINGCHECK_INSIDE struct io_uring *ringcheck_forget(struct io_uring *ring)
{
    struct ringcheck_ring *known;

    ringcheck_give_all_back(ring);
#ifdef RINGCHECK_FAULTS
    ringcheck_forget_requests(ring);
#endif
    ringcheck_enter();
    for (known = ringcheck_state.rings; known != NULL; known = known->next)
        if (known->ring == ring)
            __atomic_store_n(&known->ring, NULL, __ATOMIC_RELAXED);
    ringcheck_leave();
    return ring;
}

/* The requests that the kernel took and whose completions don't count as seen. */
RINGCHECK_INSIDE unsigned ringcheck_count_out(const struct io_uring *ring)
{
    const struct ringcheck_ring *known = ringcheck_known(ring);
    const unsigned seen_to = known->is_ahead ? known->seen_to : *ring->cq.khead + (known->is_spared != 0);
    const int out = (int)(*ring->sq.khead - seen_to);

    return out > 0 ? (unsigned)out : 0;
}

RINGCHECK_INSIDE void ringcheck_exit(struct io_uring *ring, const char *file, int line)
{
    ringcheck_filled(file, line);
    if (ringcheck_is_logged(ring)) {
        if (ringcheck_count_out(ring) > 0)
            ringcheck_line(file, line, "exit %u", ringcheck_count_out(ring));
        __atomic_store_n(&ringcheck_state.ring, NULL, __ATOMIC_RELAXED);
    }
    ringcheck_abandon(ring);
    ringcheck_forget(ring);
    io_uring_queue_exit(ring);
}

RINGCHECK_INSIDE unsigned ringcheck_answer(const struct io_uring *ring, const char *call, unsigned answer,
                                           const char *file, int line)
{
    if (ringcheck_begin(ring, RINGCHECK_SQ, file, line)) {
        ringcheck_filled(file, line);
        ringcheck_line(file, line, "%s %u", call, answer);
    }
    return answer;
}

/* ---- Mutexes ---- */

/* The words of what a mutex guards, or NULL if it isn't the ring's. */
RINGCHECK_INSIDE const char *ringcheck_guarded(const void *mutex)
{
    if (ringcheck_state.map == NULL || mutex == NULL)
        return NULL;
    if (mutex == ringcheck_state.mutexes[RINGCHECK_SQ])
        return ringcheck_words_of(RINGCHECK_SQ);
    return mutex == ringcheck_state.mutexes[RINGCHECK_CQ] ? ringcheck_words_of(RINGCHECK_CQ) : NULL;
}

RINGCHECK_INSIDE int ringcheck_locked(const void *mutex, int answer, const char *file, int line)
{
    const char *guarded = ringcheck_guarded(mutex);

    if (guarded != NULL && (answer == 0 || answer == EOWNERDEAD))
        ringcheck_line(file, line, "lock%s", guarded);
    return answer;
}

RINGCHECK_INSIDE void ringcheck_unlocks(const void *mutex, const char *file, int line)
{
    const char *guarded = ringcheck_guarded(mutex);

    if (guarded == NULL)
        return;
    if (mutex == ringcheck_state.mutexes[RINGCHECK_SQ])
        ringcheck_filled(file, line);
    ringcheck_line(file, line, "unlock%s", guarded);
}

RINGCHECK_INSIDE int ringcheck_mutex_unlock(pthread_mutex_t *mutex, const char *file, int line)
{
    ringcheck_unlocks(mutex, file, line);
    return pthread_mutex_unlock(mutex);
}

/* A wait unlocks the mutex, and has it locked again when it returns, whatever it answers. */
RINGCHECK_INSIDE int ringcheck_waited(const void *mutex, int answer, const char *file, int line)
{
    ringcheck_locked(mutex, 0, file, line);
    return answer;
}

/* ---- Marks ---- */

RINGCHECK_INSIDE void ringcheck_touch(const char *mark, const void *address, const char *file, int line)
{
    char name[RINGCHECK_NAME];

    if (ringcheck_state.map == NULL)
        return;
    ringcheck_buffer_of(name, address, 0);
    ringcheck_line(file, line, "%s %s", mark, name);
}

/* Poisoned, it is held to what it says too: as a `free` that comes next, which AddressSanitizer lets pass. */
RINGCHECK_INSIDE void ringcheck_writes(const void *address, const char *file, int line)
{
    ringcheck_touch("writes", address, file, line);
    ringcheck_reach(address);
}

/* A mark of a pool, that may name a buffer. */
RINGCHECK_INSIDE void ringcheck_moves(const char *mark, const char *pool, const char *file, int line)
{
    ringcheck_line(file, line, "%s %s", mark, ringcheck_name(pool));
}

RINGCHECK_INSIDE void ringcheck_moves_thing(const char *mark, const char *pool, const void *address, const char *file,
                                            int line)
{
    char name[RINGCHECK_NAME];

    ringcheck_buffer_of(name, address, 0);
    ringcheck_line(file, line, "%s %s %s", mark, ringcheck_name(pool), name);
}

#define RINGCHECK_HERE __FILE__, __LINE__

#define RINGCHECK_RING(ring, mutex) ringcheck_log_ring((ring), 0, (mutex), (mutex), RINGCHECK_HERE)
#define RINGCHECK_RING_SIDES(ring, submitting, reaping) \
    ringcheck_log_ring((ring), 1, (submitting), (reaping), RINGCHECK_HERE)
#define RINGCHECK_THREAD(name) ((void)strcpy(ringcheck_thread, ringcheck_name(name)), (void)(ringcheck_luck.is_named = 1))
#define RINGCHECK_COPY(name, number)                                                                               \
    ((void)snprintf(ringcheck_thread, sizeof ringcheck_thread, "%s[%u]", ringcheck_name(name), (unsigned)(number)), \
     (void)(ringcheck_luck.is_named = 1))
#define RINGCHECK_REAPER() ringcheck_reaper(RINGCHECK_HERE)
#define RINGCHECK_BUFFER(address, size, name)                                                                  \
    ringcheck_say(&ringcheck_state.buffers, "buffer", (uint64_t)(uintptr_t)(address), (uint64_t)(size), 0, \
                  ringcheck_name(name), RINGCHECK_HERE)
#define RINGCHECK_FILE(descriptor, number) \
    ringcheck_say(&ringcheck_state.files, "file", (unsigned)(descriptor), 1, (uint64_t)(number), "", RINGCHECK_HERE)
#define RINGCHECK_TOKEN(data, number) \
    ringcheck_say(&ringcheck_state.tokens, "token", (uint64_t)(data), 1, (uint64_t)(number), "", RINGCHECK_HERE)
#define RINGCHECK_READS(address) ringcheck_touch("reads", (address), RINGCHECK_HERE)
#define RINGCHECK_WRITES(address) ringcheck_writes((address), RINGCHECK_HERE)
#define RINGCHECK_PUT(...) RINGCHECK_POOL(__VA_ARGS__, RINGCHECK_PUT_TWO, RINGCHECK_PUT_ONE, 0)(__VA_ARGS__)
#define RINGCHECK_TAKE(...) RINGCHECK_POOL(__VA_ARGS__, RINGCHECK_TAKE_TWO, RINGCHECK_TAKE_ONE, 0)(__VA_ARGS__)
#define RINGCHECK_POOL(name, thing, call, ...) call
#define RINGCHECK_PUT_ONE(name) ringcheck_moves("put", (name), RINGCHECK_HERE)
#define RINGCHECK_PUT_TWO(name, thing) ringcheck_moves_thing("put", (name), (thing), RINGCHECK_HERE)
#define RINGCHECK_TAKE_ONE(name) ringcheck_moves("take", (name), RINGCHECK_HERE)
#define RINGCHECK_TAKE_TWO(name, thing) ringcheck_moves_thing("take", (name), (thing), RINGCHECK_HERE)
#define RINGCHECK_ENDS() (ringcheck_filled(RINGCHECK_HERE), ringcheck_line(RINGCHECK_HERE, "ends"))
#define RINGCHECK_LOCKED(mutex) ((void)ringcheck_locked((mutex), 0, RINGCHECK_HERE))
#define RINGCHECK_UNLOCKS(mutex) ringcheck_unlocks((mutex), RINGCHECK_HERE)
#define RINGCHECK_FAULTS_OFF() ((void)ringcheck_luck.off++)
#define RINGCHECK_FAULTS_ON() ((void)ringcheck_luck.off--)

/* ---- Calls: from here on the program's are logged ---- */

#undef io_uring_get_sqe
#undef io_uring_for_each_cqe
#define io_uring_queue_init(entries, ring, flags) (io_uring_queue_init)((entries), ringcheck_forget(ring), (flags))
#define io_uring_queue_init_params(entries, ring, params) \
    (io_uring_queue_init_params)((entries), ringcheck_forget(ring), (params))
#define io_uring_queue_exit(ring) ringcheck_exit((ring), RINGCHECK_HERE)
#define io_uring_get_sqe(ring) ringcheck_get_sqe((ring), RINGCHECK_HERE)
#define RINGCHECK_PREPS(sqe) ringcheck_preps((sqe), RINGCHECK_HERE)
#define io_uring_prep_nop(sqe) (io_uring_prep_nop)(RINGCHECK_PREPS(sqe))
#define io_uring_prep_read(sqe, ...) (io_uring_prep_read)(RINGCHECK_PREPS(sqe), __VA_ARGS__)
#define io_uring_prep_write(sqe, ...) (io_uring_prep_write)(RINGCHECK_PREPS(sqe), __VA_ARGS__)
#define io_uring_prep_read_fixed(sqe, ...) (io_uring_prep_read_fixed)(RINGCHECK_PREPS(sqe), __VA_ARGS__)
#define io_uring_prep_write_fixed(sqe, ...) (io_uring_prep_write_fixed)(RINGCHECK_PREPS(sqe), __VA_ARGS__)
#define io_uring_prep_readv(sqe, ...) (io_uring_prep_readv)(RINGCHECK_PREPS(sqe), __VA_ARGS__)
#define io_uring_prep_writev(sqe, ...) (io_uring_prep_writev)(RINGCHECK_PREPS(sqe), __VA_ARGS__)
#define io_uring_prep_recv(sqe, ...) (io_uring_prep_recv)(RINGCHECK_PREPS(sqe), __VA_ARGS__)
#define io_uring_prep_send(sqe, ...) (io_uring_prep_send)(RINGCHECK_PREPS(sqe), __VA_ARGS__)
#define io_uring_prep_fsync(sqe, ...) (io_uring_prep_fsync)(RINGCHECK_PREPS(sqe), __VA_ARGS__)
#define io_uring_prep_accept(sqe, ...) (io_uring_prep_accept)(RINGCHECK_PREPS(sqe), __VA_ARGS__)
#define io_uring_prep_cancel(sqe, ...) (io_uring_prep_cancel)(RINGCHECK_PREPS(sqe), __VA_ARGS__)
#define io_uring_prep_cancel64(sqe, ...) (io_uring_prep_cancel64)(RINGCHECK_PREPS(sqe), __VA_ARGS__)
#define io_uring_prep_close(sqe, ...) (io_uring_prep_close)(RINGCHECK_PREPS(sqe), __VA_ARGS__)
#define io_uring_prep_connect(sqe, ...) (io_uring_prep_connect)(RINGCHECK_PREPS(sqe), __VA_ARGS__)
#define io_uring_prep_link_timeout(sqe, ...) (io_uring_prep_link_timeout)(RINGCHECK_PREPS(sqe), __VA_ARGS__)
#define io_uring_prep_openat(sqe, ...) (io_uring_prep_openat)(RINGCHECK_PREPS(sqe), __VA_ARGS__)
#define io_uring_prep_poll_add(sqe, ...) (io_uring_prep_poll_add)(RINGCHECK_PREPS(sqe), __VA_ARGS__)
#define io_uring_prep_poll_remove(sqe, ...) (io_uring_prep_poll_remove)(RINGCHECK_PREPS(sqe), __VA_ARGS__)
#define io_uring_prep_shutdown(sqe, ...) (io_uring_prep_shutdown)(RINGCHECK_PREPS(sqe), __VA_ARGS__)
#define io_uring_prep_timeout(sqe, ...) (io_uring_prep_timeout)(RINGCHECK_PREPS(sqe), __VA_ARGS__)
#define io_uring_prep_timeout_remove(sqe, ...) (io_uring_prep_timeout_remove)(RINGCHECK_PREPS(sqe), __VA_ARGS__)
#define io_uring_sqe_set_data(...) ((io_uring_sqe_set_data)(__VA_ARGS__), ringcheck_settle(RINGCHECK_HERE))
#define io_uring_sqe_set_data64(...) ((io_uring_sqe_set_data64)(__VA_ARGS__), ringcheck_settle(RINGCHECK_HERE))
#define io_uring_submit(ring) ringcheck_submit_and_wait((ring), 0, 0, RINGCHECK_HERE)
#define io_uring_submit_and_wait(ring, wanted) ringcheck_submit_and_wait((ring), (wanted), 1, RINGCHECK_HERE)
#define io_uring_peek_cqe(ring, cqe) ringcheck_peek((ring), (cqe), RINGCHECK_HERE)
#define io_uring_wait_cqe(ring, cqe) ringcheck_wait((ring), (cqe), 1, RINGCHECK_HERE)
#define io_uring_wait_cqe_nr(ring, cqe, wanted) ringcheck_wait((ring), (cqe), (wanted), RINGCHECK_HERE)
#define io_uring_wait_cqe_timeout(ring, cqe, until) \
    ringcheck_wait_until((ring), (cqe), 1, (until), NULL, RINGCHECK_HERE)
#define io_uring_wait_cqes(ring, cqe, wanted, until, mask) \
    ringcheck_wait_until((ring), (cqe), (wanted), (until), (mask), RINGCHECK_HERE)
#define io_uring_peek_batch_cqe(ring, cqes, most) ringcheck_peek_batch((ring), (cqes), (most), RINGCHECK_HERE)
#define io_uring_for_each_cqe(ring, head, cqe) \
    for ((head) = *(ring)->cq.khead; ((cqe) = ringcheck_each((ring), (head), RINGCHECK_HERE)) != NULL; (head)++)
#define io_uring_cq_advance(ring, count) ringcheck_advance((ring), (count), RINGCHECK_HERE)
#define io_uring_cqe_seen(ring, cqe) ringcheck_seen((ring), (cqe), RINGCHECK_HERE)
#define io_uring_sq_ready(ring) ringcheck_answer((ring), "sq_ready", (io_uring_sq_ready)(ring), RINGCHECK_HERE)
#define io_uring_sq_space_left(ring) \
    ringcheck_answer((ring), "sq_space_left", (io_uring_sq_space_left)(ring), RINGCHECK_HERE)

#ifdef RINGCHECK_LOG
#define pthread_mutex_lock(mutex) ringcheck_locked((mutex), (pthread_mutex_lock)(mutex), RINGCHECK_HERE)
#define pthread_mutex_trylock(mutex) ringcheck_locked((mutex), (pthread_mutex_trylock)(mutex), RINGCHECK_HERE)
#define pthread_mutex_timedlock(mutex, until) \
    ringcheck_locked((mutex), (pthread_mutex_timedlock)((mutex), (until)), RINGCHECK_HERE)
#define pthread_mutex_unlock(mutex) ringcheck_mutex_unlock((mutex), RINGCHECK_HERE)
#define RINGCHECK_WAIT(mutex, wait) \
    (ringcheck_unlocks((mutex), RINGCHECK_HERE), ringcheck_waited((mutex), (wait), RINGCHECK_HERE))
#define pthread_cond_wait(condition, mutex) RINGCHECK_WAIT((mutex), (pthread_cond_wait)((condition), (mutex)))
#define pthread_cond_timedwait(condition, mutex, until) \
    RINGCHECK_WAIT((mutex), (pthread_cond_timedwait)((condition), (mutex), (until)))
#define pthread_cond_clockwait(condition, mutex, clock, until) \
    RINGCHECK_WAIT((mutex), (pthread_cond_clockwait)((condition), (mutex), (clock), (until)))

/* ---- Calls that can't be logged: the compiler says what to do ---- */

#define RINGCHECK_SAYS(words) _Pragma(#words)
#define RINGCHECK_NOT_LOGGED(words) RINGCHECK_SAYS(GCC error words) 0
#define io_uring_submit_and_wait_timeout(...)                                                                       \
    RINGCHECK_NOT_LOGGED("ringcheck.h can't log io_uring_submit_and_wait_timeout: call io_uring_submit, then io_uring_wait_cqe_timeout")
#define io_uring_submit_and_wait_min_timeout(...)                                                                   \
    RINGCHECK_NOT_LOGGED("ringcheck.h can't log io_uring_submit_and_wait_min_timeout: call io_uring_submit, then io_uring_wait_cqe_timeout")
#define io_uring_submit_and_wait_reg(...)                                                                           \
    RINGCHECK_NOT_LOGGED("ringcheck.h can't log io_uring_submit_and_wait_reg: call io_uring_submit, then io_uring_wait_cqe_timeout")
#define io_uring_wait_cqes_min_timeout(...)                                                                         \
    RINGCHECK_NOT_LOGGED("ringcheck.h can't log io_uring_wait_cqes_min_timeout: call io_uring_wait_cqes")
#define io_uring_submit_and_get_events(...)                                                                         \
    RINGCHECK_NOT_LOGGED("ringcheck.h can't log io_uring_submit_and_get_events: call io_uring_submit, then io_uring_peek_cqe")
#define io_uring_enter(...)                                                                                         \
    RINGCHECK_NOT_LOGGED("ringcheck.h can't log io_uring_enter: call io_uring_submit or io_uring_submit_and_wait")
#define io_uring_enter2(...)                                                                                        \
    RINGCHECK_NOT_LOGGED("ringcheck.h can't log io_uring_enter2: call io_uring_submit or io_uring_submit_and_wait")


#else

/* ---- Calls that no log has: what they submit is looked at before ---- */

#define RINGCHECK_SENDS(ring) (ringcheck_filled(RINGCHECK_HERE), ringcheck_send((ring), RINGCHECK_HERE), (ring))
#define io_uring_submit_and_wait_timeout(ring, ...) (io_uring_submit_and_wait_timeout)(RINGCHECK_SENDS(ring), __VA_ARGS__)
#define io_uring_submit_and_wait_min_timeout(ring, ...) \
    (io_uring_submit_and_wait_min_timeout)(RINGCHECK_SENDS(ring), __VA_ARGS__)
#define io_uring_submit_and_wait_reg(ring, ...) (io_uring_submit_and_wait_reg)(RINGCHECK_SENDS(ring), __VA_ARGS__)
#define io_uring_submit_and_get_events(ring) (io_uring_submit_and_get_events)(RINGCHECK_SENDS(ring))

#endif
#endif
#endif
