/* Written by `ringcheck c` from a model that it accepts. It needs POSIX threads and liburing 2.2 or later:
   cc -std=c11 -Wall -Wextra -O2 THIS.c -luring -lpthread
   With -DRINGCHECK_LOG=N, `--log FILE` has the first N events written to FILE, and the program ends after them. */
#define _GNU_SOURCE
#include <errno.h>
#include <fcntl.h>
#include <inttypes.h>
#include <liburing.h>
#include <pthread.h>
#include <stdarg.h>
#include <stdbool.h>
#include <stdint.h>
#include <stdio.h>
#include <stdlib.h>
#include <string.h>
#include <unistd.h>

_Static_assert(EAGAIN == 11, "the model has -11 where no completion is there");

/* Sums and differences of 64 bits, wrapping. */
#define SUM(a, b) ((int64_t)((uint64_t)(a) + (uint64_t)(b)))
#define DIFFERENCE(a, b) ((int64_t)((uint64_t)(a) - (uint64_t)(b)))

/* The ring, and the locks of its sides: who takes both takes that of the completion side first. */
static struct io_uring ring;
static pthread_mutex_t cq_lock;
static pthread_mutex_t sq_lock;

/* Ends the program if a call of this line of the model answers what it never does in an accepted program. */
__attribute__((unused)) _Noreturn static void stop(int line, const char *call, long answer)
{
    fprintf(stderr, "line %d: %s answers %ld\n", line, call, answer);
    exit(EXIT_FAILURE);
}

/* Ends the program if it can't begin. */
_Noreturn static void fail(const char *what, int error)
{
    fprintf(stderr, "%s: %s\n", what, strerror(error));
    exit(EXIT_FAILURE);
}

/* A call that answers 0. */
#define MUST(line, call) \
    do { \
        int answer_ = (call); \
        if (answer_ != 0) \
            stop(line, #call, answer_); \
    } while (0)

/* How many entries the rings have. */
enum { ENTRIES = 2, COMPLETION_ENTRIES = 4 };

/* The files, and what is made where the command line names none. */
static int file_3;
static const struct named_file {
    int *opened;
    int number;
    long length;
} files[] = {
    {&file_3, 3, 64},
    {NULL, 0, 0},
};

/* The buffers, each from the beginning of a page on. */
_Alignas(4096) unsigned char buffer_a[64];

/* What is in the pool: shares of buffers, tokens, credits. */
unsigned pool_buffer_a;
unsigned pool_token_7;
unsigned pool_token_8;
unsigned pool_credits;

/* A pool with a name: the mutex that guards it, and what is in it. */
struct table {
    pthread_mutex_t lock;
    unsigned buffer_a;
    unsigned token_7;
    unsigned token_8;
    unsigned credits;
};
static struct table table_free;
static struct table table_buffer_a;

#ifdef RINGCHECK_LOG
/* The buffers that reads fill, by their user data, and whether the last request with it was such a read. */
static struct filling {
    uint64_t data;
    const unsigned char *bytes;
    bool is_read;
} fillings[] = {
    {UINT64_C(8), buffer_a, true},
    {0, NULL, false},
};
static FILE *log_file;
static pthread_mutex_t log_lock = PTHREAD_MUTEX_INITIALIZER;
static uint64_t log_count;
static unsigned log_seen;

/* Writes one event under the next number. */
__attribute__((unused, format(printf, 1, 2))) static void log_event(const char *words, ...)
{
    va_list values;

    if (log_file == NULL)
        return;
    pthread_mutex_lock(&log_lock);
    log_count++;
    fprintf(log_file, "%" PRIu64 " ", log_count);
    va_start(values, words);
    vfprintf(log_file, words, values);
    va_end(values);
    putc('\n', log_file);
    if (log_count >= RINGCHECK_LOG)
        exit(EXIT_SUCCESS);
    pthread_mutex_unlock(&log_lock);
}

/* The byte that fills what a read moved; 0 where nothing was read, and -1 where these bytes aren't alike. */
static int log_fill(uint64_t data, int moved)
{
    const struct filling *filling;
    int at;

    for (filling = fillings; filling->bytes != NULL; filling++) {
        if (filling->data != data || !filling->is_read || moved <= 0)
            continue;
        for (at = 1; at < moved; at++)
            if (filling->bytes[at] != filling->bytes[0])
                return -1;
        return filling->bytes[0];
    }
    return 0;
}

/* Notes what a request is whose user data doesn't say that. */
__attribute__((unused)) static void note_request(const struct io_uring_sqe *sqe)
{
    struct filling *filling;

    for (filling = fillings; filling->bytes != NULL; filling++)
        if (filling->data == sqe->user_data)
            filling->is_read = sqe->opcode == IORING_OP_READ && sqe->addr == (uint64_t)(uintptr_t)filling->bytes;
}

/* Writes each completion that is in the ring and wasn't seen before, with the byte that fills what it moved. */
__attribute__((unused)) static void log_completions(void)
{
    struct io_uring_cqe *cqe;
    unsigned head;

    io_uring_for_each_cqe(&ring, head, cqe) {
        if ((int)(head - log_seen) < 0)
            continue;
        log_event("kernel %" PRIu64 " %d %d", (uint64_t)cqe->user_data, cqe->res,
                  log_fill(cqe->user_data, cqe->res));
        log_seen = head + 1;
    }
}

#define EVENT(...) log_event(__VA_ARGS__)
#define SEE_COMPLETIONS() log_completions()
#define NOTE_REQUEST(sqe) note_request(sqe)
#else
#define EVENT(...) ((void)0)
#define SEE_COMPLETIONS() ((void)0)
#define NOTE_REQUEST(sqe) ((void)0)
#endif

/* 10: thread t0 holds a:2 t:7 t:8 c:2 { */
static void *body_t0(void *nothing)
{
    struct io_uring_sqe *sqe = NULL;
    struct io_uring_cqe *cqe = NULL;
    int answer = 0;
    bool yes = false;
    int64_t var_r = 0;
    int64_t var_x = 0;
    int64_t var_s = 0;

    (void)nothing, (void)sqe, (void)cqe, (void)answer, (void)yes;
    (void)var_r;
    (void)var_x;
    (void)var_s;
    /* 11: put free a:2 t:8 */
    MUST(11, pthread_mutex_lock(&table_free.lock));
    table_free.buffer_a += 2;
    table_free.token_8 += 1;
    EVENT("t0 11 put");
    MUST(11, pthread_mutex_unlock(&table_free.lock));
    /* 12: put buffer_a t:7 c:1 */
    MUST(12, pthread_mutex_lock(&table_buffer_a.lock));
    table_buffer_a.token_7 += 1;
    table_buffer_a.credits += 1;
    EVENT("t0 12 put");
    MUST(12, pthread_mutex_unlock(&table_buffer_a.lock));
    /* 13: lock cq { */
    MUST(13, pthread_mutex_lock(&cq_lock));
    EVENT("t0 13 lock cq");
    SEE_COMPLETIONS();
    {
        /* 14: lock sq { */
        MUST(14, pthread_mutex_lock(&sq_lock));
        EVENT("t0 14 lock sq");
        {
            /* 15: if take buffer_a t:7 c:1 { */
            MUST(15, pthread_mutex_lock(&table_buffer_a.lock));
            yes = true && table_buffer_a.token_7 >= 1 && table_buffer_a.credits >= 1;
            if (yes) {
                table_buffer_a.token_7 -= 1;
                table_buffer_a.credits -= 1;
            }
            EVENT("t0 15 if %s", yes ? "yes" : "no");
            MUST(15, pthread_mutex_unlock(&table_buffer_a.lock));
            if (yes) {
                /* 16: get_sqe */
                sqe = io_uring_get_sqe(&ring);
                if (sqe == NULL)
                    stop(16, "io_uring_get_sqe", 0);
                EVENT("t0 16 get_sqe");
                /* 17: prep_nop */
                io_uring_prep_nop(sqe);
                EVENT("t0 17 prep_nop");
                /* 18: set_data64 7 */
                io_uring_sqe_set_data64(sqe, UINT64_C(7));
                EVENT("t0 18 set_data64 7");
            } /* 19: } */
            /* 20: r = submit_and_wait 0 */
            var_r = io_uring_submit_and_wait(&ring, 0);
            EVENT("t0 20 submit %" PRId64, var_r);
        } /* 21: } */
        EVENT("t0 21 release sq");
        MUST(21, pthread_mutex_unlock(&sq_lock));
        /* 22: peek_cqe x { */
        answer = io_uring_peek_cqe(&ring, &cqe);
        if (answer == 0) {
            var_x = cqe->res;
            SEE_COMPLETIONS();
            EVENT("t0 22 peek_cqe %" PRIu64 " %" PRId64, (uint64_t)cqe->user_data, var_x);
        } else if (answer == -EAGAIN) {
            cqe = NULL;
            var_x = -EAGAIN;
            EVENT("t0 22 peek_cqe none");
            SEE_COMPLETIONS();
        } else {
            stop(22, "io_uring_peek_cqe", answer);
        }
        /* 23: case 7 { */
        if (cqe != NULL && cqe->user_data == UINT64_C(7)) {
            /* 24: cqe_seen */
            EVENT("t0 24 cqe_seen %" PRIu64, (uint64_t)cqe->user_data);
            io_uring_cqe_seen(&ring, cqe);
            /* 25: lock sq { */
            MUST(25, pthread_mutex_lock(&sq_lock));
            EVENT("t0 25 lock sq");
            {
                /* 26: get_sqe */
                sqe = io_uring_get_sqe(&ring);
                if (sqe == NULL)
                    stop(26, "io_uring_get_sqe", 0);
                EVENT("t0 26 get_sqe");
                /* 27: prep_nop */
                io_uring_prep_nop(sqe);
                EVENT("t0 27 prep_nop");
                /* 28: set_data64 7 */
                io_uring_sqe_set_data64(sqe, UINT64_C(7));
                EVENT("t0 28 set_data64 7");
            } /* 29: } */
            EVENT("t0 29 release sq");
            MUST(29, pthread_mutex_unlock(&sq_lock));
        } /* 30: } */
        /* 31: other { */
        else if (cqe != NULL) {
        } /* 32: } */
        /* 33: none { */
        else if (cqe == NULL) {
        } /* 34: } */
        /* 35: } */
    } /* 36: } */
    EVENT("t0 36 release cq");
    MUST(36, pthread_mutex_unlock(&cq_lock));
    /* 37: lock { */
    MUST(37, pthread_mutex_lock(&cq_lock));
    MUST(37, pthread_mutex_lock(&sq_lock));
    EVENT("t0 37 lock");
    SEE_COMPLETIONS();
    {
        /* 38: put c:1 */
        pool_credits += 1;
        EVENT("t0 38 put");
        /* 39: if take c:1 { */
        yes = true && pool_credits >= 1;
        if (yes) {
            pool_credits -= 1;
        }
        EVENT("t0 39 if %s", yes ? "yes" : "no");
        if (yes) {
        } /* 40: } */
    } /* 41: } */
    EVENT("t0 41 release");
    MUST(41, pthread_mutex_unlock(&sq_lock));
    MUST(41, pthread_mutex_unlock(&cq_lock));
    /* 42: loop keeps { */
    for (;;) {
        EVENT("t0 42 loop");
        /* 43: lock cq { */
        MUST(43, pthread_mutex_lock(&cq_lock));
        EVENT("t0 43 lock cq");
        SEE_COMPLETIONS();
        {
            /* 44: lock sq { */
            MUST(44, pthread_mutex_lock(&sq_lock));
            EVENT("t0 44 lock sq");
            {
                /* 45: s = submit */
                var_s = io_uring_submit(&ring);
                EVENT("t0 45 submit %" PRId64, var_s);
                /* 46: break */
                EVENT("t0 46 break");
                MUST(46, pthread_mutex_unlock(&sq_lock));
                MUST(46, pthread_mutex_unlock(&cq_lock));
                break;
            } /* 47: } */
            EVENT("t0 47 release sq");
            MUST(47, pthread_mutex_unlock(&sq_lock));
        } /* 48: } */
        EVENT("t0 48 release cq");
        MUST(48, pthread_mutex_unlock(&cq_lock));
    } /* 49: } */
    return NULL;
}

/* The threads, in text order. */
static void *(*const bodies[])(void *) = {
    body_t0,
    NULL,
};

/* A file that is opened for reading and writing, or only for reading if it can't be written. */
static int open_path(const char *path)
{
    int opened = open(path, O_RDWR | O_CLOEXEC);

    if (opened < 0)
        opened = open(path, O_RDONLY | O_CLOEXEC);
    if (opened < 0)
        fail(path, errno);
    return opened;
}

/* A new file of so many zero bytes, which is gone when the program ends. */
static int open_new(long length)
{
    FILE *made = tmpfile();

    if (made == NULL || ftruncate(fileno(made), length) != 0)
        fail("a temporary file", errno);
    return fileno(made);
}

/* Opens the file that a word of the command line names, as 3=PATH. */
static void open_named(const char *word)
{
    const struct named_file *file;
    char *path;
    long number = strtol(word, &path, 10);

    for (file = files; file->opened != NULL; file++) {
        if (path != word && *path == '=' && file->number == number) {
            *file->opened = open_path(path + 1);
            return;
        }
    }
    fail(word, EINVAL);
}

/* Opens the files: new ones if no word names another. */
static void open_files(char **words)
{
    const struct named_file *file;

    for (file = files; file->opened != NULL; file++)
        *file->opened = -1;
    for (; *words != NULL; words++)
        open_named(*words);
    for (file = files; file->opened != NULL; file++)
        if (*file->opened < 0)
            *file->opened = open_new(file->length);
}

static void open_mutex(pthread_mutex_t *mutex)
{
    pthread_mutexattr_t kind;
    int error = pthread_mutexattr_init(&kind);

    if (error == 0)
        error = pthread_mutexattr_settype(&kind, PTHREAD_MUTEX_ERRORCHECK);
    if (error == 0)
        error = pthread_mutex_init(mutex, &kind);
    if (error != 0)
        fail("pthread_mutex_init", error);
}

static void open_lock(void)
{
    open_mutex(&cq_lock);
    open_mutex(&sq_lock);
    open_mutex(&table_free.lock);
    open_mutex(&table_buffer_a.lock);
}

static void open_ring(void)
{
    struct io_uring_params params;
    int error;

    memset(&params, 0, sizeof params);
    params.flags = IORING_SETUP_CQSIZE;
    params.cq_entries = COMPLETION_ENTRIES;
    error = io_uring_queue_init_params(ENTRIES, &ring, &params);
    if (error < 0)
        fail("io_uring_queue_init_params", -error);
    /* An older kernel's library keeps one user data for itself. */
    if (!(params.features & IORING_FEAT_EXT_ARG))
        fail("io_uring_queue_init_params", ENOSYS);
}

/* The words of the command line after what is said of the log. */
static char **open_log(char **words)
{
#ifdef RINGCHECK_LOG
    if (words[0] != NULL && strcmp(words[0], "--log") == 0 && words[1] != NULL) {
        log_file = fopen(words[1], "we");
        if (log_file == NULL)
            fail(words[1], errno);
        setvbuf(log_file, NULL, _IOLBF, BUFSIZ);
        return words + 2;
    }
#endif
    return words;
}

int main(int count, char **words)
{
    pthread_t threads[sizeof bodies / sizeof *bodies];
    int at;
    int error;

    open_files(open_log(words + (count > 0)));
    open_lock();
    open_ring();
    for (at = 0; bodies[at] != NULL; at++) {
        error = pthread_create(&threads[at], NULL, bodies[at], NULL);
        if (error != 0)
            fail("pthread_create", error);
    }
    for (at = 0; bodies[at] != NULL; at++) {
        error = pthread_join(threads[at], NULL);
        if (error != 0)
            fail("pthread_join", error);
    }
    io_uring_queue_exit(&ring);
    return EXIT_SUCCESS;
}
