/* Written by `ringcheck c` from a model that it accepts. It needs POSIX threads and liburing 2.2 or later:
   cc -std=c11 -Wall -Wextra -O2 THIS.c -luring -lpthread
   With -DRINGCHECK_LOG=N, `--log FILE` has the first N events written to FILE, and the program ends after them. */
#define _GNU_SOURCE
#include <errno.h>
#include <fcntl.h>
#include <inttypes.h>
#include <liburing.h>
#include <pthread.h>
#include <stdarg.h>
#include <stdbool.h>
#include <stdint.h>
#include <stdio.h>
#include <stdlib.h>
#include <string.h>
#include <unistd.h>

_Static_assert(EAGAIN == 11, "the model has -11 where no completion is there");

/* Sums and differences of 64 bits, wrapping. */
#define SUM(a, b) ((int64_t)((uint64_t)(a) + (uint64_t)(b)))
#define DIFFERENCE(a, b) ((int64_t)((uint64_t)(a) - (uint64_t)(b)))

/* The ring, and the lock that guards it and the pool. */
static struct io_uring ring;
static pthread_mutex_t ring_lock;

/* Ends the program if a call of this line of the model answers what it never does in an accepted program. */
__attribute__((unused)) _Noreturn static void stop(int line, const char *call, long answer)
{
    fprintf(stderr, "line %d: %s answers %ld\n", line, call, answer);
    exit(EXIT_FAILURE);
}

/* Ends the program if it can't begin. */
_Noreturn static void fail(const char *what, int error)
{
    fprintf(stderr, "%s: %s\n", what, strerror(error));
    exit(EXIT_FAILURE);
}

/* A call that answers 0. */
#define MUST(line, call) \
    do { \
        int answer_ = (call); \
        if (answer_ != 0) \
            stop(line, #call, answer_); \
    } while (0)

/* How many entries the rings have. */
enum { ENTRIES = 8, COMPLETION_ENTRIES = 8 };

/* The files, and what is made where the command line names none. */
static int file_3;
static int file_4;
static const struct named_file {
    int *opened;
    int number;
    long length;
} files[] = {
    {&file_3, 3, 64},
    {&file_4, 4, 0},
    {NULL, 0, 0},
};

/* The buffers, each from the beginning of a page on. */
_Alignas(4096) unsigned char buffer_a[16];
_Alignas(4096) unsigned char buffer_b[16];

/* What is in the pool: shares of buffers, tokens, credits. */
unsigned pool_buffer_a;
unsigned pool_buffer_b;
unsigned pool_token_1;
unsigned pool_token_2;
unsigned pool_token_3;
unsigned pool_token_4;
unsigned pool_token_5;
unsigned pool_token_6;
unsigned pool_token_4294967295;
unsigned pool_credits;

/* Write it: whether an `if any` takes its first branch. Several threads may call it, and with mutexes held. */
extern int ringcheck_any(void);

#ifdef RINGCHECK_LOG
/* The buffers that reads fill, by their user data, and whether the last request with it was such a read. */
static struct filling {
    uint64_t data;
    const unsigned char *bytes;
    bool is_read;
} fillings[] = {
    {UINT64_C(1), buffer_b, true},
    {0, NULL, false},
};
static FILE *log_file;
static pthread_mutex_t log_lock = PTHREAD_MUTEX_INITIALIZER;
static uint64_t log_count;
static unsigned log_seen;

/* Writes one event under the next number. */
__attribute__((unused, format(printf, 1, 2))) static void log_event(const char *words, ...)
{
    va_list values;

    if (log_file == NULL)
        return;
    pthread_mutex_lock(&log_lock);
    log_count++;
    fprintf(log_file, "%" PRIu64 " ", log_count);
    va_start(values, words);
    vfprintf(log_file, words, values);
    va_end(values);
    putc('\n', log_file);
    if (log_count >= RINGCHECK_LOG)
        exit(EXIT_SUCCESS);
    pthread_mutex_unlock(&log_lock);
}

/* The byte that fills what a read moved; 0 where nothing was read, and -1 where these bytes aren't alike. */
static int log_fill(uint64_t data, int moved)
{
    const struct filling *filling;
    int at;

    for (filling = fillings; filling->bytes != NULL; filling++) {
        if (filling->data != data || !filling->is_read || moved <= 0)
            continue;
        for (at = 1; at < moved; at++)
            if (filling->bytes[at] != filling->bytes[0])
                return -1;
        return filling->bytes[0];
    }
    return 0;
}

/* Notes what a request is whose user data doesn't say that. */
__attribute__((unused)) static void note_request(const struct io_uring_sqe *sqe)
{
    struct filling *filling;

    for (filling = fillings; filling->bytes != NULL; filling++)
        if (filling->data == sqe->user_data)
            filling->is_read = sqe->opcode == IORING_OP_READ && sqe->addr == (uint64_t)(uintptr_t)filling->bytes;
}

/* Writes each completion that is in the ring and wasn't seen before, with the byte that fills what it moved. */
__attribute__((unused)) static void log_completions(void)
{
    struct io_uring_cqe *cqe;
    unsigned head;

    io_uring_for_each_cqe(&ring, head, cqe) {
        if ((int)(head - log_seen) < 0)
            continue;
        log_event("kernel %" PRIu64 " %d %d", (uint64_t)cqe->user_data, cqe->res,
                  log_fill(cqe->user_data, cqe->res));
        log_seen = head + 1;
    }
}

#define EVENT(...) log_event(__VA_ARGS__)
#define SEE_COMPLETIONS() log_completions()
#define NOTE_REQUEST(sqe) note_request(sqe)
#else
#define EVENT(...) ((void)0)
#define SEE_COMPLETIONS() ((void)0)
#define NOTE_REQUEST(sqe) ((void)0)
#endif

/* 14: thread t0 holds a:2 b:1 t:1 t:2 t:3 t:4 t:5 t:6 c:6 { */
static void *body_t0(void *nothing)
{
    struct io_uring_sqe *sqe = NULL;
    struct io_uring_cqe *cqe = NULL;
    int answer = 0;
    bool yes = false;
    int64_t var_x = 0;
    int64_t var_y = 0;
    int64_t var_z = 0;
    int64_t var_r = 0;

    (void)nothing, (void)sqe, (void)cqe, (void)answer, (void)yes;
    (void)var_x;
    (void)var_y;
    (void)var_z;
    (void)var_r;
    /* 15: x = -9223372036854775808 */
    var_x = INT64_MIN;
    EVENT("t0 15 set %" PRId64, var_x);
    /* 16: y = x */
    var_y = var_x;
    EVENT("t0 16 set %" PRId64, var_y);
    /* 17: x = y + 200 */
    var_x = SUM(var_y, INT64_C(200));
    EVENT("t0 17 set %" PRId64, var_x);
    /* 18: z = -5 - x */
    var_z = DIFFERENCE(-INT64_C(5), var_x);
    EVENT("t0 18 set %" PRId64, var_z);
    /* 19: store a 15 z */
    buffer_a[15] = (unsigned char)var_z;
    EVENT("t0 19 store %d", buffer_a[15]);
    /* 20: fill b x */
    memset(buffer_b, (unsigned char)var_x, sizeof buffer_b);
    EVENT("t0 20 fill %d", buffer_b[0]);
    /* 21: x = load a 15 */
    var_x = buffer_a[15];
    EVENT("t0 21 load %" PRId64, var_x);
    /* 22: print x */
    printf("%" PRId64 "\n", var_x);
    EVENT("t0 22 print %" PRId64, var_x);
    /* 23: lock { */
    MUST(23, pthread_mutex_lock(&ring_lock));
    EVENT("t0 23 lock");
    SEE_COMPLETIONS();
    {
        /* 24: if sq_space_left >= 0 { */
        answer = (int)io_uring_sq_space_left(&ring);
        yes = answer >= 0;
        EVENT("t0 24 if %s", yes ? "yes" : "no");
        if (yes) {
            /* 25: get_sqe */
            sqe = io_uring_get_sqe(&ring);
            if (sqe == NULL)
                stop(25, "io_uring_get_sqe", 0);
            EVENT("t0 25 get_sqe");
            /* 26: prep_read 3 b 16 8 */
            io_uring_prep_read(sqe, file_3, buffer_b, 16, 8);
            EVENT("t0 26 prep_read");
            /* 27: set_data64 1 */
            io_uring_sqe_set_data64(sqe, UINT64_C(1));
            NOTE_REQUEST(sqe);
            EVENT("t0 27 set_data64 1");
        } else { /* 28: } else { */
            /* 29: print y */
            printf("%" PRId64 "\n", var_y);
            EVENT("t0 29 print %" PRId64, var_y);
        } /* 30: } */
        /* 31: get_sqe */
        sqe = io_uring_get_sqe(&ring);
        if (sqe == NULL)
            stop(31, "io_uring_get_sqe", 0);
        EVENT("t0 31 get_sqe");
        /* 32: prep_write 3 a 16 0 1 */
        io_uring_prep_write(sqe, file_3, buffer_a, 16, 0);
        EVENT("t0 32 prep_write");
        /* 33: set_data64 2 */
        io_uring_sqe_set_data64(sqe, UINT64_C(2));
        EVENT("t0 33 set_data64 2");
        /* 34: get_sqe */
        sqe = io_uring_get_sqe(&ring);
        if (sqe == NULL)
            stop(34, "io_uring_get_sqe", 0);
        EVENT("t0 34 get_sqe");
        /* 35: prep_fsync 3 0 */
        io_uring_prep_fsync(sqe, file_3, 0);
        EVENT("t0 35 prep_fsync");
        /* 36: set_data64 3 */
        io_uring_sqe_set_data64(sqe, UINT64_C(3));
        EVENT("t0 36 set_data64 3");
        /* 37: get_sqe */
        sqe = io_uring_get_sqe(&ring);
        if (sqe == NULL)
            stop(37, "io_uring_get_sqe", 0);
        EVENT("t0 37 get_sqe");
        /* 38: prep_fsync 4 1 */
        io_uring_prep_fsync(sqe, file_4, IORING_FSYNC_DATASYNC);
        EVENT("t0 38 prep_fsync");
        /* 39: set_data64 4 */
        io_uring_sqe_set_data64(sqe, UINT64_C(4));
        EVENT("t0 39 set_data64 4");
        /* 40: get_sqe */
        sqe = io_uring_get_sqe(&ring);
        if (sqe == NULL)
            stop(40, "io_uring_get_sqe", 0);
        EVENT("t0 40 get_sqe");
        /* 41: prep_nop */
        io_uring_prep_nop(sqe);
        EVENT("t0 41 prep_nop");
        /* 42: set_data64 5 */
        io_uring_sqe_set_data64(sqe, UINT64_C(5));
        EVENT("t0 42 set_data64 5");
        /* 43: get_sqe */
        sqe = io_uring_get_sqe(&ring);
        if (sqe == NULL)
            stop(43, "io_uring_get_sqe", 0);
        EVENT("t0 43 get_sqe");
        /* 44: prep_other */
        /* Write the request here, as io_uring_prep_timeout or io_uring_prep_accept. */
        io_uring_prep_nop(sqe);
        EVENT("t0 44 prep_other");
        /* 45: set_data64 6 */
        io_uring_sqe_set_data64(sqe, UINT64_C(6));
        EVENT("t0 45 set_data64 6");
        /* 46: loop keeps a:1 q:6 { */
        for (;;) {
            EVENT("t0 46 loop");
            /* 47: r = submit */
            var_r = io_uring_submit(&ring);
            EVENT("t0 47 submit %" PRId64, var_r);
            SEE_COMPLETIONS();
            /* 48: if sq_ready == 0 { */
            yes = io_uring_sq_ready(&ring) == 0;
            EVENT("t0 48 if %s", yes ? "yes" : "no");
            if (yes) {
                /* 49: break */
                EVENT("t0 49 break");
                break;
            } /* 50: } */
            /* 51: r = submit_and_wait 1 */
            var_r = io_uring_submit_and_wait(&ring, 1);
            EVENT("t0 51 submit %" PRId64, var_r);
            SEE_COMPLETIONS();
        } /* 52: } */
    } /* 53: } */
    EVENT("t0 53 release");
    MUST(53, pthread_mutex_unlock(&ring_lock));
    /* 54: x = load a 15 */
    var_x = buffer_a[15];
    EVENT("t0 54 load %" PRId64, var_x);
    /* 55: loop keeps a:1 { */
    for (;;) {
        EVENT("t0 55 loop");
        /* 56: lock { */
        MUST(56, pthread_mutex_lock(&ring_lock));
        EVENT("t0 56 lock");
        SEE_COMPLETIONS();
        {
            /* 57: if take b:1 t:1 c:1 { */
            yes = true && pool_buffer_b >= 1 && pool_token_1 >= 1 && pool_credits >= 1;
            if (yes) {
                pool_buffer_b -= 1;
                pool_token_1 -= 1;
                pool_credits -= 1;
            }
            EVENT("t0 57 if %s", yes ? "yes" : "no");
            if (yes) {
                /* 58: break */
                EVENT("t0 58 break");
                MUST(58, pthread_mutex_unlock(&ring_lock));
                break;
            } else { /* 59: } else { */
            } /* 60: } */
        } /* 61: } */
        EVENT("t0 61 release");
        MUST(61, pthread_mutex_unlock(&ring_lock));
    } /* 62: } */
    /* 63: x = load b 0 */
    var_x = buffer_b[0];
    EVENT("t0 63 load %" PRId64, var_x);
    /* 64: x = x */
    var_x = (int64_t)var_x;
    EVENT("t0 64 set %" PRId64, var_x);
    /* 65: if any { */
    yes = ringcheck_any() != 0;
    EVENT("t0 65 if %s", yes ? "yes" : "no");
    if (yes) {
        /* 66: print x */
        printf("%" PRId64 "\n", var_x);
        EVENT("t0 66 print %" PRId64, var_x);
    } else { /* 67: } else { */
    } /* 68: } */
    return NULL;
}

/* 70: thread t1 holds { */
static void *body_t1(void *nothing)
{
    struct io_uring_sqe *sqe = NULL;
    struct io_uring_cqe *cqe = NULL;
    int answer = 0;
    bool yes = false;
    int64_t var_r = 0;
    int64_t var_n = 0;
    int64_t var_m = 0;

    (void)nothing, (void)sqe, (void)cqe, (void)answer, (void)yes;
    (void)var_r;
    (void)var_n;
    (void)var_m;
    /* 71: loop keeps { */
    for (;;) {
        EVENT("t1 71 loop");
        /* 72: lock { */
        MUST(72, pthread_mutex_lock(&ring_lock));
        EVENT("t1 72 lock");
        SEE_COMPLETIONS();
        {
            /* 73: peek_cqe r { */
            answer = io_uring_peek_cqe(&ring, &cqe);
            if (answer == 0) {
                var_r = cqe->res;
                SEE_COMPLETIONS();
                EVENT("t1 73 peek_cqe %" PRIu64 " %" PRId64, (uint64_t)cqe->user_data, var_r);
            } else if (answer == -EAGAIN) {
                cqe = NULL;
                var_r = -EAGAIN;
                EVENT("t1 73 peek_cqe none");
                SEE_COMPLETIONS();
            } else {
                stop(73, "io_uring_peek_cqe", answer);
            }
            /* 74: other { */
            if (cqe != NULL && cqe->user_data != UINT64_C(1) && cqe->user_data != UINT64_C(2) && cqe->user_data != UINT64_C(3) && cqe->user_data != UINT64_C(4) && cqe->user_data != UINT64_C(5) && cqe->user_data != UINT64_C(6)) {
            } /* 75: } */
            /* 76: case 1 { */
            else if (cqe != NULL && cqe->user_data == UINT64_C(1)) {
                /* 77: cqe_seen */
                EVENT("t1 77 cqe_seen %" PRIu64, (uint64_t)cqe->user_data);
                io_uring_cqe_seen(&ring, cqe);
                /* 78: put b:1 t:1 c:1 */
                pool_buffer_b += 1;
                pool_token_1 += 1;
                pool_credits += 1;
                EVENT("t1 78 put");
                /* 79: n = n + 1 */
                var_n = SUM(var_n, INT64_C(1));
                EVENT("t1 79 set %" PRId64, var_n);
            } /* 80: } */
            /* 81: none { */
            else if (cqe == NULL) {
            } /* 82: } */
            /* 83: case 2 { */
            else if (cqe != NULL && cqe->user_data == UINT64_C(2)) {
                /* 84: cqe_seen */
                EVENT("t1 84 cqe_seen %" PRIu64, (uint64_t)cqe->user_data);
                io_uring_cqe_seen(&ring, cqe);
                /* 85: n = 1 + n */
                var_n = SUM(INT64_C(1), var_n);
                EVENT("t1 85 set %" PRId64, var_n);
            } /* 86: } */
            /* 87: case 3 { */
            else if (cqe != NULL && cqe->user_data == UINT64_C(3)) {
                /* 88: cqe_seen */
                EVENT("t1 88 cqe_seen %" PRIu64, (uint64_t)cqe->user_data);
                io_uring_cqe_seen(&ring, cqe);
                /* 89: n = n + 1 */
                var_n = SUM(var_n, INT64_C(1));
                EVENT("t1 89 set %" PRId64, var_n);
            } /* 90: } */
            /* 91: case 4 { */
            else if (cqe != NULL && cqe->user_data == UINT64_C(4)) {
                /* 92: cqe_seen */
                EVENT("t1 92 cqe_seen %" PRIu64, (uint64_t)cqe->user_data);
                io_uring_cqe_seen(&ring, cqe);
                /* 93: put t:4 c:1 */
                pool_token_4 += 1;
                pool_credits += 1;
                EVENT("t1 93 put");
                /* 94: n = n + 1 */
                var_n = SUM(var_n, INT64_C(1));
                EVENT("t1 94 set %" PRId64, var_n);
            } /* 95: } */
            /* 96: case 5 { */
            else if (cqe != NULL && cqe->user_data == UINT64_C(5)) {
                /* 97: cqe_seen */
                EVENT("t1 97 cqe_seen %" PRIu64, (uint64_t)cqe->user_data);
                io_uring_cqe_seen(&ring, cqe);
                /* 98: put */
                EVENT("t1 98 put");
                /* 99: n = n + 1 */
                var_n = SUM(var_n, INT64_C(1));
                EVENT("t1 99 set %" PRId64, var_n);
            } /* 100: } */
            /* 101: case 6 { */
            else if (cqe != NULL && cqe->user_data == UINT64_C(6)) {
                /* 102: cqe_get_data64 */
                EVENT("t1 102 cqe_get_data64 %" PRIu64, (uint64_t)cqe->user_data);
                io_uring_cqe_get_data64(cqe);
                /* 103: n = n + 1 */
                var_n = SUM(var_n, INT64_C(1));
                EVENT("t1 103 set %" PRId64, var_n);
                /* 104: cqe_seen */
                EVENT("t1 104 cqe_seen %" PRIu64, (uint64_t)cqe->user_data);
                io_uring_cqe_seen(&ring, cqe);
            } /* 105: } */
            /* 106: } */
        } /* 107: } */
        EVENT("t1 107 release");
        MUST(107, pthread_mutex_unlock(&ring_lock));
        /* 108: if n < 6 { */
        yes = var_n < INT64_C(6);
        EVENT("t1 108 if %s", yes ? "yes" : "no");
        if (yes) {
            /* 109: if n <= 0 { */
            yes = var_n <= INT64_C(0);
            EVENT("t1 109 if %s", yes ? "yes" : "no");
            if (yes) {
                /* 110: m = m - n */
                var_m = DIFFERENCE(var_m, var_n);
                EVENT("t1 110 set %" PRId64, var_m);
            } /* 111: } */
        } else { /* 112: } else { */
            /* 113: if n >= 6 { */
            yes = var_n >= INT64_C(6);
            EVENT("t1 113 if %s", yes ? "yes" : "no");
            if (yes) {
                /* 114: break */
                EVENT("t1 114 break");
                break;
            } /* 115: } */
        } /* 116: } */
    } /* 117: } */
    return NULL;
}

/* 119: thread t2 holds t:4294967295 c:1 { */
static void *body_t2(void *nothing)
{
    struct io_uring_sqe *sqe = NULL;
    struct io_uring_cqe *cqe = NULL;
    int answer = 0;
    bool yes = false;
    int64_t var_h = 0;
    int64_t var_r = 0;
    int64_t var_n = 0;

    (void)nothing, (void)sqe, (void)cqe, (void)answer, (void)yes;
    (void)var_h;
    (void)var_r;
    (void)var_n;
    /* 120: h = 1 */
    var_h = INT64_C(1);
    EVENT("t2 120 set %" PRId64, var_h);
    /* 121: loop keeps when h t:4294967295 c:1 { */
    for (;;) {
        EVENT("t2 121 loop");
        /* 122: lock { */
        MUST(122, pthread_mutex_lock(&ring_lock));
        EVENT("t2 122 lock");
        SEE_COMPLETIONS();
        {
            /* 123: if h != 0 { */
            yes = var_h != INT64_C(0);
            EVENT("t2 123 if %s", yes ? "yes" : "no");
            if (yes) {
                /* 124: get_sqe */
                sqe = io_uring_get_sqe(&ring);
                if (sqe == NULL)
                    stop(124, "io_uring_get_sqe", 0);
                EVENT("t2 124 get_sqe");
                /* 125: prep_nop */
                io_uring_prep_nop(sqe);
                EVENT("t2 125 prep_nop");
                /* 126: set_data64 4294967295 */
                io_uring_sqe_set_data64(sqe, UINT64_C(4294967295));
                EVENT("t2 126 set_data64 4294967295");
                /* 127: loop keeps q:1 { */
                for (;;) {
                    EVENT("t2 127 loop");
                    /* 128: r = submit */
                    var_r = io_uring_submit(&ring);
                    EVENT("t2 128 submit %" PRId64, var_r);
                    SEE_COMPLETIONS();
                    /* 129: if sq_ready == 0 { */
                    yes = io_uring_sq_ready(&ring) == 0;
                    EVENT("t2 129 if %s", yes ? "yes" : "no");
                    if (yes) {
                        /* 130: break */
                        EVENT("t2 130 break");
                        break;
                    } /* 131: } */
                } /* 132: } */
                /* 133: h = 0 */
                var_h = INT64_C(0);
                EVENT("t2 133 set %" PRId64, var_h);
            } else { /* 134: } else { */
                /* 135: peek_cqe r { */
                answer = io_uring_peek_cqe(&ring, &cqe);
                if (answer == 0) {
                    var_r = cqe->res;
                    SEE_COMPLETIONS();
                    EVENT("t2 135 peek_cqe %" PRIu64 " %" PRId64, (uint64_t)cqe->user_data, var_r);
                } else if (answer == -EAGAIN) {
                    cqe = NULL;
                    var_r = -EAGAIN;
                    EVENT("t2 135 peek_cqe none");
                    SEE_COMPLETIONS();
                } else {
                    stop(135, "io_uring_peek_cqe", answer);
                }
                /* 136: case 4294967295 { */
                if (cqe != NULL && cqe->user_data == UINT64_C(4294967295)) {
                    /* 137: cqe_seen */
                    EVENT("t2 137 cqe_seen %" PRIu64, (uint64_t)cqe->user_data);
                    io_uring_cqe_seen(&ring, cqe);
                    /* 138: h = 1 */
                    var_h = INT64_C(1);
                    EVENT("t2 138 set %" PRId64, var_h);
                    /* 139: n = n + 1 */
                    var_n = SUM(var_n, INT64_C(1));
                    EVENT("t2 139 set %" PRId64, var_n);
                    /* 140: if n > 2 { */
                    yes = var_n > INT64_C(2);
                    EVENT("t2 140 if %s", yes ? "yes" : "no");
                    if (yes) {
                        /* 141: break */
                        EVENT("t2 141 break");
                        MUST(141, pthread_mutex_unlock(&ring_lock));
                        break;
                    } /* 142: } */
                } /* 143: } */
                /* 144: other { */
                else if (cqe != NULL) {
                    /* 145: if n == -9223372036854775808 { */
                    yes = var_n == INT64_MIN;
                    EVENT("t2 145 if %s", yes ? "yes" : "no");
                    if (yes) {
                        /* 146: n = 0 */
                        var_n = INT64_C(0);
                        EVENT("t2 146 set %" PRId64, var_n);
                    } /* 147: } */
                } /* 148: } */
                /* 149: none { */
                else if (cqe == NULL) {
                } /* 150: } */
                /* 151: } */
            } /* 152: } */
        } /* 153: } */
        EVENT("t2 153 release");
        MUST(153, pthread_mutex_unlock(&ring_lock));
    } /* 154: } */
    return NULL;
}

/* The threads, in text order. */
static void *(*const bodies[])(void *) = {
    body_t0,
    body_t1,
    body_t2,
    NULL,
};

/* A file that is opened for reading and writing, or only for reading if it can't be written. */
static int open_path(const char *path)
{
    int opened = open(path, O_RDWR | O_CLOEXEC);

    if (opened < 0)
        opened = open(path, O_RDONLY | O_CLOEXEC);
    if (opened < 0)
        fail(path, errno);
    return opened;
}

/* A new file of so many zero bytes, which is gone when the program ends. */
static int open_new(long length)
{
    FILE *made = tmpfile();

    if (made == NULL || ftruncate(fileno(made), length) != 0)
        fail("a temporary file", errno);
    return fileno(made);
}

/* Opens the file that a word of the command line names, as 3=PATH. */
static void open_named(const char *word)
{
    const struct named_file *file;
    char *path;
    long number = strtol(word, &path, 10);

    for (file = files; file->opened != NULL; file++) {
        if (path != word && *path == '=' && file->number == number) {
            *file->opened = open_path(path + 1);
            return;
        }
    }
    fail(word, EINVAL);
}

/* Opens the files: new ones if no word names another. */
static void open_files(char **words)
{
    const struct named_file *file;

    for (file = files; file->opened != NULL; file++)
        *file->opened = -1;
    for (; *words != NULL; words++)
        open_named(*words);
    for (file = files; file->opened != NULL; file++)
        if (*file->opened < 0)
            *file->opened = open_new(file->length);
}

static void open_lock(void)
{
    pthread_mutexattr_t kind;
    int error = pthread_mutexattr_init(&kind);

    if (error == 0)
        error = pthread_mutexattr_settype(&kind, PTHREAD_MUTEX_ERRORCHECK);
    if (error == 0)
        error = pthread_mutex_init(&ring_lock, &kind);
    if (error != 0)
        fail("pthread_mutex_init", error);
}

static void open_ring(void)
{
    struct io_uring_params params;
    int error;

    memset(&params, 0, sizeof params);
    params.flags = IORING_SETUP_CQSIZE;
    params.cq_entries = COMPLETION_ENTRIES;
    error = io_uring_queue_init_params(ENTRIES, &ring, &params);
    if (error < 0)
        fail("io_uring_queue_init_params", -error);
    /* An older kernel's library keeps one user data for itself. */
    if (!(params.features & IORING_FEAT_EXT_ARG))
        fail("io_uring_queue_init_params", ENOSYS);
}

/* The words of the command line after what is said of the log. */
static char **open_log(char **words)
{
#ifdef RINGCHECK_LOG
    if (words[0] != NULL && strcmp(words[0], "--log") == 0 && words[1] != NULL) {
        log_file = fopen(words[1], "we");
        if (log_file == NULL)
            fail(words[1], errno);
        setvbuf(log_file, NULL, _IOLBF, BUFSIZ);
        return words + 2;
    }
#endif
    return words;
}

int main(int count, char **words)
{
    pthread_t threads[sizeof bodies / sizeof *bodies];
    int at;
    int error;

    open_files(open_log(words + (count > 0)));
    open_lock();
    open_ring();
    for (at = 0; bodies[at] != NULL; at++) {
        error = pthread_create(&threads[at], NULL, bodies[at], NULL);
        if (error != 0)
            fail("pthread_create", error);
    }
    for (at = 0; bodies[at] != NULL; at++) {
        error = pthread_join(threads[at], NULL);
        if (error != 0)
            fail("pthread_join", error);
    }
    io_uring_queue_exit(&ring);
    return EXIT_SUCCESS;
}
