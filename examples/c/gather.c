/* Written by `ringcheck c` from a model that it accepts. It needs POSIX threads and liburing 2.2 or later:
   cc -std=c11 -Wall -Wextra -O2 THIS.c -luring -lpthread
   With -DRINGCHECK_LOG=N, `--log FILE` has the first N events written to FILE, and the program ends after them. */
#define _GNU_SOURCE
#include <errno.h>
#include <fcntl.h>
#include <inttypes.h>
#include <liburing.h>
#include <pthread.h>
#include <stdarg.h>
#include <stdbool.h>
#include <stdint.h>
#include <stdio.h>
#include <stdlib.h>
#include <string.h>
#include <unistd.h>

_Static_assert(EAGAIN == 11, "the model has -11 where no completion is there");

/* Sums and differences of 64 bits, wrapping. */
#define SUM(a, b) ((int64_t)((uint64_t)(a) + (uint64_t)(b)))
#define DIFFERENCE(a, b) ((int64_t)((uint64_t)(a) - (uint64_t)(b)))

/* The ring, and the lock that guards it and the pool. */
static struct io_uring ring;
static pthread_mutex_t ring_lock;

/* Ends the program if a call of this line of the model answers what it never does in an accepted program. */
__attribute__((unused)) _Noreturn static void stop(int line, const char *call, long answer)
{
    fprintf(stderr, "line %d: %s answers %ld\n", line, call, answer);
    exit(EXIT_FAILURE);
}

/* Ends the program if it can't begin. */
_Noreturn static void fail(const char *what, int error)
{
    fprintf(stderr, "%s: %s\n", what, strerror(error));
    exit(EXIT_FAILURE);
}

/* A call that answers 0. */
#define MUST(line, call) \
    do { \
        int answer_ = (call); \
        if (answer_ != 0) \
            stop(line, #call, answer_); \
    } while (0)

/* How many entries the rings have. */
enum { ENTRIES = 4, COMPLETION_ENTRIES = 8 };

/* The files, and what is made where the command line names none. */
static int file_3;
static const struct named_file {
    int *opened;
    int number;
    long length;
} files[] = {
    {&file_3, 3, 64},
    {NULL, 0, 0},
};

/* The buffers, each from the beginning of a page on. */
_Alignas(4096) unsigned char buffer_page1[16];
_Alignas(4096) unsigned char buffer_page2[16];
_Alignas(4096) unsigned char buffer_page3[16];

/* What is in the pool: shares of buffers, tokens, credits. */
unsigned pool_buffer_page1;
unsigned pool_buffer_page2;
unsigned pool_buffer_page3;
unsigned pool_token_1;
unsigned pool_token_2;
unsigned pool_token_3;
unsigned pool_credits;

#ifdef RINGCHECK_LOG
/* The buffers that reads fill, by their user data, and whether the last request with it was such a read. */
static struct filling {
    uint64_t data;
    const unsigned char *bytes;
    bool is_read;
} fillings[] = {
    {0, NULL, false},
};
static FILE *log_file;
static pthread_mutex_t log_lock = PTHREAD_MUTEX_INITIALIZER;
static uint64_t log_count;
static unsigned log_seen;

/* Writes one event under the next number. */
__attribute__((unused, format(printf, 1, 2))) static void log_event(const char *words, ...)
{
    va_list values;

    if (log_file == NULL)
        return;
    pthread_mutex_lock(&log_lock);
    log_count++;
    fprintf(log_file, "%" PRIu64 " ", log_count);
    va_start(values, words);
    vfprintf(log_file, words, values);
    va_end(values);
    putc('\n', log_file);
    if (log_count >= RINGCHECK_LOG)
        exit(EXIT_SUCCESS);
    pthread_mutex_unlock(&log_lock);
}

/* The byte that fills what a read moved; 0 where nothing was read, and -1 where these bytes aren't alike. */
static int log_fill(uint64_t data, int moved)
{
    const struct filling *filling;
    int at;

    for (filling = fillings; filling->bytes != NULL; filling++) {
        if (filling->data != data || !filling->is_read || moved <= 0)
            continue;
        for (at = 1; at < moved; at++)
            if (filling->bytes[at] != filling->bytes[0])
                return -1;
        return filling->bytes[0];
    }
    return 0;
}

/* Notes what a request is whose user data doesn't say that. */
__attribute__((unused)) static void note_request(const struct io_uring_sqe *sqe)
{
    struct filling *filling;

    for (filling = fillings; filling->bytes != NULL; filling++)
        if (filling->data == sqe->user_data)
            filling->is_read = sqe->opcode == IORING_OP_READ && sqe->addr == (uint64_t)(uintptr_t)filling->bytes;
}

/* Writes each completion that is in the ring and wasn't seen before, with the byte that fills what it moved. */
__attribute__((unused)) static void log_completions(void)
{
    struct io_uring_cqe *cqe;
    unsigned head;

    io_uring_for_each_cqe(&ring, head, cqe) {
        if ((int)(head - log_seen) < 0)
            continue;
        log_event("kernel %" PRIu64 " %d %d", (uint64_t)cqe->user_data, cqe->res,
                  log_fill(cqe->user_data, cqe->res));
        log_seen = head + 1;
    }
}

#define EVENT(...) log_event(__VA_ARGS__)
#define SEE_COMPLETIONS() log_completions()
#define NOTE_REQUEST(sqe) note_request(sqe)
#else
#define EVENT(...) ((void)0)
#define SEE_COMPLETIONS() ((void)0)
#define NOTE_REQUEST(sqe) ((void)0)
#endif

/* 10: thread t0 holds page1:1 page2:1 page3:1 t:1 t:2 t:3 c:3 { */
static void *body_t0(void *nothing)
{
    struct io_uring_sqe *sqe = NULL;
    struct io_uring_cqe *cqe = NULL;
    int answer = 0;
    bool yes = false;
    int64_t var_r = 0;

    (void)nothing, (void)sqe, (void)cqe, (void)answer, (void)yes;
    (void)var_r;
    /* 11: lock { */
    MUST(11, pthread_mutex_lock(&ring_lock));
    EVENT("t0 11 lock");
    SEE_COMPLETIONS();
    {
        /* 12: get_sqe */
        sqe = io_uring_get_sqe(&ring);
        if (sqe == NULL)
            stop(12, "io_uring_get_sqe", 0);
        EVENT("t0 12 get_sqe");
        /* 13: prep_write 3 page1 16 0 1 */
        io_uring_prep_write(sqe, file_3, buffer_page1, 16, 0);
        EVENT("t0 13 prep_write");
        /* 14: set_data64 1 */
        io_uring_sqe_set_data64(sqe, UINT64_C(1));
        EVENT("t0 14 set_data64 1");
        /* 15: get_sqe */
        sqe = io_uring_get_sqe(&ring);
        if (sqe == NULL)
            stop(15, "io_uring_get_sqe", 0);
        EVENT("t0 15 get_sqe");
        /* 16: prep_write 3 page2 16 16 1 */
        io_uring_prep_write(sqe, file_3, buffer_page2, 16, 16);
        EVENT("t0 16 prep_write");
        /* 17: set_data64 2 */
        io_uring_sqe_set_data64(sqe, UINT64_C(2));
        EVENT("t0 17 set_data64 2");
        /* 18: get_sqe */
        sqe = io_uring_get_sqe(&ring);
        if (sqe == NULL)
            stop(18, "io_uring_get_sqe", 0);
        EVENT("t0 18 get_sqe");
        /* 19: prep_write 3 page3 16 32 1 */
        io_uring_prep_write(sqe, file_3, buffer_page3, 16, 32);
        EVENT("t0 19 prep_write");
        /* 20: set_data64 3 */
        io_uring_sqe_set_data64(sqe, UINT64_C(3));
        EVENT("t0 20 set_data64 3");
        /* 21: loop keeps q:3 { */
        for (;;) {
            EVENT("t0 21 loop");
            /* 22: r = submit */
            var_r = io_uring_submit(&ring);
            EVENT("t0 22 submit %" PRId64, var_r);
            SEE_COMPLETIONS();
            /* 23: if sq_ready == 0 { */
            yes = io_uring_sq_ready(&ring) == 0;
            EVENT("t0 23 if %s", yes ? "yes" : "no");
            if (yes) {
                /* 24: break */
                EVENT("t0 24 break");
                break;
            } /* 25: } */
        } /* 26: } */
    } /* 27: } */
    EVENT("t0 27 release");
    MUST(27, pthread_mutex_unlock(&ring_lock));
    /* 28: loop keeps { */
    for (;;) {
        EVENT("t0 28 loop");
        /* 29: lock { */
        MUST(29, pthread_mutex_lock(&ring_lock));
        EVENT("t0 29 lock");
        SEE_COMPLETIONS();
        {
            /* 30: peek_cqe r { */
            answer = io_uring_peek_cqe(&ring, &cqe);
            if (answer == 0) {
                var_r = cqe->res;
                SEE_COMPLETIONS();
                EVENT("t0 30 peek_cqe %" PRIu64 " %" PRId64, (uint64_t)cqe->user_data, var_r);
            } else if (answer == -EAGAIN) {
                cqe = NULL;
                var_r = -EAGAIN;
                EVENT("t0 30 peek_cqe none");
                SEE_COMPLETIONS();
            } else {
                stop(30, "io_uring_peek_cqe", answer);
            }
            /* 31: case 1 { */
            if (cqe != NULL && cqe->user_data == UINT64_C(1)) {
                /* 32: cqe_seen */
                EVENT("t0 32 cqe_seen %" PRIu64, (uint64_t)cqe->user_data);
                io_uring_cqe_seen(&ring, cqe);
                /* 33: put page1:1 t:1 c:1 */
                pool_buffer_page1 += 1;
                pool_token_1 += 1;
                pool_credits += 1;
                EVENT("t0 33 put");
            } /* 34: } */
            /* 35: case 2 { */
            else if (cqe != NULL && cqe->user_data == UINT64_C(2)) {
                /* 36: cqe_seen */
                EVENT("t0 36 cqe_seen %" PRIu64, (uint64_t)cqe->user_data);
                io_uring_cqe_seen(&ring, cqe);
                /* 37: put page2:1 t:2 c:1 */
                pool_buffer_page2 += 1;
                pool_token_2 += 1;
                pool_credits += 1;
                EVENT("t0 37 put");
            } /* 38: } */
            /* 39: case 3 { */
            else if (cqe != NULL && cqe->user_data == UINT64_C(3)) {
                /* 40: cqe_seen */
                EVENT("t0 40 cqe_seen %" PRIu64, (uint64_t)cqe->user_data);
                io_uring_cqe_seen(&ring, cqe);
                /* 41: put page3:1 t:3 c:1 */
                pool_buffer_page3 += 1;
                pool_token_3 += 1;
                pool_credits += 1;
                EVENT("t0 41 put");
            } /* 42: } */
            /* 43: other { */
            else if (cqe != NULL) {
            } /* 44: } */
            /* 45: none { */
            else if (cqe == NULL) {
            } /* 46: } */
            /* 47: } */
            /* 48: if take page1:1 page2:1 page3:1 t:1 t:2 t:3 c:3 { */
            yes = true && pool_buffer_page1 >= 1 && pool_buffer_page2 >= 1 && pool_buffer_page3 >= 1 && pool_token_1 >= 1 && pool_token_2 >= 1 && pool_token_3 >= 1 && pool_credits >= 3;
            if (yes) {
                pool_buffer_page1 -= 1;
                pool_buffer_page2 -= 1;
                pool_buffer_page3 -= 1;
                pool_token_1 -= 1;
                pool_token_2 -= 1;
                pool_token_3 -= 1;
                pool_credits -= 3;
            }
            EVENT("t0 48 if %s", yes ? "yes" : "no");
            if (yes) {
                /* 49: break */
                EVENT("t0 49 break");
                MUST(49, pthread_mutex_unlock(&ring_lock));
                break;
            } /* 50: } */
        } /* 51: } */
        EVENT("t0 51 release");
        MUST(51, pthread_mutex_unlock(&ring_lock));
    } /* 52: } */
    /* 53: fill page1 r */
    memset(buffer_page1, (unsigned char)var_r, sizeof buffer_page1);
    EVENT("t0 53 fill %d", buffer_page1[0]);
    /* 54: fill page2 r */
    memset(buffer_page2, (unsigned char)var_r, sizeof buffer_page2);
    EVENT("t0 54 fill %d", buffer_page2[0]);
    /* 55: fill page3 r */
    memset(buffer_page3, (unsigned char)var_r, sizeof buffer_page3);
    EVENT("t0 55 fill %d", buffer_page3[0]);
    return NULL;
}

/* The threads, in text order. */
static void *(*const bodies[])(void *) = {
    body_t0,
    NULL,
};

/* A file that is opened for reading and writing, or only for reading if it can't be written. */
static int open_path(const char *path)
{
    int opened = open(path, O_RDWR | O_CLOEXEC);

    if (opened < 0)
        opened = open(path, O_RDONLY | O_CLOEXEC);
    if (opened < 0)
        fail(path, errno);
    return opened;
}

/* A new file of so many zero bytes, which is gone when the program ends. */
static int open_new(long length)
{
    FILE *made = tmpfile();

    if (made == NULL || ftruncate(fileno(made), length) != 0)
        fail("a temporary file", errno);
    return fileno(made);
}

/* Opens the file that a word of the command line names, as 3=PATH. */
static void open_named(const char *word)
{
    const struct named_file *file;
    char *path;
    long number = strtol(word, &path, 10);

    for (file = files; file->opened != NULL; file++) {
        if (path != word && *path == '=' && file->number == number) {
            *file->opened = open_path(path + 1);
            return;
        }
    }
    fail(word, EINVAL);
}

/* Opens the files: new ones if no word names another. */
static void open_files(char **words)
{
    const struct named_file *file;

    for (file = files; file->opened != NULL; file++)
        *file->opened = -1;
    for (; *words != NULL; words++)
        open_named(*words);
    for (file = files; file->opened != NULL; file++)
        if (*file->opened < 0)
            *file->opened = open_new(file->length);
}

static void open_lock(void)
{
    pthread_mutexattr_t kind;
    int error = pthread_mutexattr_init(&kind);

    if (error == 0)
        error = pthread_mutexattr_settype(&kind, PTHREAD_MUTEX_ERRORCHECK);
    if (error == 0)
        error = pthread_mutex_init(&ring_lock, &kind);
    if (error != 0)
        fail("pthread_mutex_init", error);
}

static void open_ring(void)
{
    struct io_uring_params params;
    int error;

    memset(&params, 0, sizeof params);
    params.flags = IORING_SETUP_CQSIZE;
    params.cq_entries = COMPLETION_ENTRIES;
    error = io_uring_queue_init_params(ENTRIES, &ring, &params);
    if (error < 0)
        fail("io_uring_queue_init_params", -error);
    /* An older kernel's library keeps one user data for itself. */
    if (!(params.features & IORING_FEAT_EXT_ARG))
        fail("io_uring_queue_init_params", ENOSYS);
}

/* The words of the command line after what is said of the log. */
static char **open_log(char **words)
{
#ifdef RINGCHECK_LOG
    if (words[0] != NULL && strcmp(words[0], "--log") == 0 && words[1] != NULL) {
        log_file = fopen(words[1], "we");
        if (log_file == NULL)
            fail(words[1], errno);
        setvbuf(log_file, NULL, _IOLBF, BUFSIZ);
        return words + 2;
    }
#endif
    return words;
}

int main(int count, char **words)
{
    pthread_t threads[sizeof bodies / sizeof *bodies];
    int at;
    int error;

    open_files(open_log(words + (count > 0)));
    open_lock();
    open_ring();
    for (at = 0; bodies[at] != NULL; at++) {
        error = pthread_create(&threads[at], NULL, bodies[at], NULL);
        if (error != 0)
            fail("pthread_create", error);
    }
    for (at = 0; bodies[at] != NULL; at++) {
        error = pthread_join(threads[at], NULL);
        if (error != 0)
            fail("pthread_join", error);
    }
    io_uring_queue_exit(&ring);
    return EXIT_SUCCESS;
}
