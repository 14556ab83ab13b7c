/* Makes each call that ringcheck.h logs, as C and as C++, and looks at what is poisoned when. ci/header.py and audit/follow
   compare the log with the comments that begin with a colon. The calls are made in the order of the file. */
#ifndef _GNU_SOURCE
#define _GNU_SOURCE
#endif
#include <errno.h>
#include <fcntl.h>
#include <liburing.h>
#include <pthread.h>
#include <stdint.h>
#include <stdio.h>
#include <stdlib.h>
#include <string.h>
#include <sys/socket.h>
#include <sys/uio.h>
#include <time.h>
#include <unistd.h>
#include "ringcheck.h"

static struct io_uring ring, other;
static pthread_mutex_t submitting = PTHREAD_MUTEX_INITIALIZER, another = PTHREAD_MUTEX_INITIALIZER;
static pthread_cond_t never = PTHREAD_COND_INITIALIZER;
static char page[256], spare[64], early[8];
static int object, file;

/* The call is expected to answer so. */
static void must(int line, long answer, long expected)
{
    if (answer != expected) {
        fprintf(stderr, "follow-calls.c:%d: %ld in place of %ld\n", line, answer, expected);
        exit(2);
    }
}
#define MUST(call, answer) must(__LINE__, (long)(call), (answer))

static struct io_uring_sqe *entry(void)
{
    struct io_uring_sqe *sqe = io_uring_get_sqe(&ring);

    MUST(sqe != NULL, 1);
    return sqe;
}

static void begin(void)
{
    MUST(io_uring_queue_init(8, &ring, 0), 0);
    MUST(io_uring_queue_init(8, &other, 0), 0);
    file = 1000000; /* there is none */
    (void)early;    /* without flags nothing else uses it */
    RINGCHECK_BUFFER(early, 4, "early");
    RINGCHECK_BUFFER(early + 4, 4, "early");
    RINGCHECK_RING_SIDES(&ring, &submitting, NULL); /*: buffer early 4 */
    RINGCHECK_THREAD("a_thread");
    RINGCHECK_FILE(file, 3); /*: file 3 */
    RINGCHECK_BUFFER(page, 16, "first"); /*: buffer first 16 */
    RINGCHECK_BUFFER(page + 8, 16, "second"); /*: buffer second 16 */
    RINGCHECK_BUFFER(page, sizeof page, "page"); /*: buffer page 256 */
    RINGCHECK_BUFFER(early, sizeof early, "early");
    RINGCHECK_TOKEN(&object, 7); /*: token 7 */
    RINGCHECK_TOKEN(&file, 7);
    RINGCHECK_READS(page + 255); /*: reads page */
    RINGCHECK_WRITES(page); /*: writes page */
    RINGCHECK_PUT("free"); /*: put free */
    RINGCHECK_TAKE("free"); /*: take free */
    RINGCHECK_PUT("free", page); /*: put free page */
    RINGCHECK_TAKE("free", spare); /*: take free ? */
    RINGCHECK_REAPER(); /*: lock cq */
}

static void lock(void)
{
    struct timespec until;

    memset(&until, 0, sizeof until);
    MUST(pthread_mutex_lock(&submitting), 0); /*: lock sq */
    MUST(pthread_mutex_trylock(&submitting), EBUSY);
    MUST(pthread_mutex_lock(&another), 0);
    MUST(pthread_mutex_unlock(&another), 0);
    MUST(pthread_cond_timedwait(&never, &submitting, &until), ETIMEDOUT); /*: unlock sq */ /*: lock sq */
    MUST(pthread_mutex_unlock(&submitting), 0); /*: unlock sq */
    MUST(pthread_mutex_timedlock(&submitting, &until), 0); /*: lock sq */
    RINGCHECK_UNLOCKS(&submitting); /*: unlock sq */
    RINGCHECK_LOCKED(&submitting); /*: lock sq */
}

/* Makes no line: it is another ring. */
static void use_other_ring(void)
{
    struct io_uring_cqe *cqe;
    struct io_uring_sqe *sqe = io_uring_get_sqe(&other);

    io_uring_prep_nop(sqe);
    io_uring_sqe_set_data64(sqe, 1);
    MUST(io_uring_submit_and_wait(&other, 1), 1);
    MUST(io_uring_peek_cqe(&other, &cqe), 0);
    io_uring_cqe_seen(&other, cqe);
}

static void queue_nop(uint64_t data)
{
    struct io_uring_sqe *sqe = entry();

    io_uring_prep_nop(sqe);
    io_uring_sqe_set_data64(sqe, data);
}

static void reap(void)
{
    struct __kernel_timespec until;
    struct io_uring_cqe *cqe, *cqes[4];
    unsigned head, count = 0;

    memset(&until, 0, sizeof until);
    MUST(io_uring_peek_cqe(&ring, &cqe), -EAGAIN); /*: peek_cqe none */
    MUST(io_uring_peek_cqe(&ring, &cqe), -EAGAIN);
    MUST(io_uring_wait_cqe_timeout(&ring, &cqe, &until), -ETIME);
    MUST(io_uring_peek_batch_cqe(&ring, cqes, 4), 0);
    queue_nop(1); /*: get_sqe 1 */ /*: prep_nop */ /*: set_data64 1 */
    queue_nop(2); /*: get_sqe 1 */ /*: prep_nop */ /*: set_data64 2 */
    queue_nop(3); /*: get_sqe 1 */ /*: prep_nop */ /*: set_data64 3 */
    queue_nop(4); /*: get_sqe 1 */ /*: prep_nop */ /*: set_data64 4 */
    queue_nop(5); /*: get_sqe 1 */ /*: prep_nop */ /*: set_data64 5 */
    MUST(io_uring_submit_and_wait(&ring, 2), 5); /*: submit_and_wait 2 5 */
    MUST(io_uring_wait_cqe(&ring, &cqe), 0); /*: peek_cqe 1 0 */
    io_uring_for_each_cqe(&ring, head, cqe) { /*: cqe_seen 1 */ /*: peek_cqe 2 0 */ /*: cqe_seen 2 */
        if (++count == 2)
            break;
    }
    io_uring_cq_advance(&ring, count);
    MUST(io_uring_wait_cqes(&ring, &cqe, 1, &until, NULL), 0); /*: peek_cqe 3 0 */
    io_uring_cqe_seen(&ring, cqe); /*: cqe_seen 3 */
    MUST(io_uring_peek_batch_cqe(&ring, cqes, 4), 2); /*: peek_cqe 4 0 */ /*: cqe_seen 4 */ /*: peek_cqe 5 0 */ /*: cqe_seen 5 */
    io_uring_cqe_seen(&ring, cqes[0]);
    io_uring_cq_advance(&ring, 1);
    MUST(io_uring_submit(&ring), 0); /*: submit 0 */
    queue_nop(6); /*: get_sqe 1 */ /*: prep_nop */ /*: set_data64 6 */
    MUST(io_uring_submit(&ring), 1); /*: submit 1 */
    MUST(io_uring_wait_cqe_nr(&ring, &cqe, 1), 0); /*: peek_cqe 6 0 */
    MUST(io_uring_peek_cqe(&ring, &cqe), 0); /*: peek_cqe 6 0 */
    io_uring_cq_advance(&ring, 1); /*: cqe_seen 6 */
    io_uring_for_each_cqe(&ring, head, cqe) /*: peek_cqe none */
        MUST(0, 1);
    RINGCHECK_READS(page); /*: reads page */
    MUST(io_uring_peek_cqe(&ring, &cqe), -EAGAIN); /*: peek_cqe none */
    RINGCHECK_PUT("free"); /*: put free */
}

static void fill_in(void)
{
    static struct iovec pieces[2] = {{page, 8}, {page + 8, 8}};
    struct io_uring_sqe *sqe;

    sqe = entry(); /*: get_sqe 1 */
    io_uring_prep_read(sqe, file, page, 256, 0); /*: prep_read 3 page 256 0 */
    io_uring_sqe_set_data(sqe, &object); /*: set_data64 7 */
    sqe = entry(); /*: get_sqe 1 */
    io_uring_prep_write(sqe, file, page + 200, 57, 512); /*: prep_write 3 ! 57 512 */
    sqe->user_data = 8; /*: set_data64 8 */
    sqe = entry(); /*: get_sqe 1 */
    io_uring_sqe_set_data64(sqe, 9);
    io_uring_prep_writev(sqe, file + 1, pieces, 1, 4); /*: prep_write -1 page 8 4 */
    /*: set_data64 9 */
    sqe = entry(); /*: get_sqe 1 */
    io_uring_prep_readv(sqe, file, pieces, 2, 4); /*: prep_read 3 ? 0 4 */
    io_uring_sqe_set_data64(sqe, 10); /*: set_data64 10 */
    io_uring_sqe_set_flags(sqe, IOSQE_ASYNC);
    sqe = entry(); /*: get_sqe 1 */
    io_uring_prep_fsync(sqe, file, IORING_FSYNC_DATASYNC); /*: prep_fsync 3 1 */
    io_uring_sqe_set_data64(sqe, UINT64_MAX); /*: set_data64 18446744073709551615 */
    io_uring_sqe_set_flags(sqe, IOSQE_IO_LINK); /*: flags 4 */
    sqe = entry(); /*: get_sqe 1 */
    io_uring_prep_send(sqe, file, spare, 3, 0); /*: prep_write 3 ? 3 0 */
    RINGCHECK_READS(spare); /*: reads ? */
    io_uring_sqe_set_data64(sqe, 11); /*: set_data64 11 */
    sqe = entry(); /*: get_sqe 1 */
    io_uring_prep_poll_add(sqe, file, 1); /*: prep_other 6 */
    sqe->user_data = 12; /*: set_data64 12 */
    sqe = entry(); /*: get_sqe 1 */
    io_uring_prep_nop(sqe); /*: prep_nop */
    io_uring_sqe_set_data64(sqe, 13); /*: set_data64 13 */
    MUST(io_uring_get_sqe(&ring), 0); /*: get_sqe 0 */
    MUST(io_uring_sq_ready(&ring), 8); /*: sq_ready 8 */
    MUST(io_uring_sq_space_left(&ring), 0); /*: sq_space_left 0 */
}

static void write_null(int null, int at, uint64_t data)
{
    struct io_uring_sqe *sqe = io_uring_get_sqe(&other);

    io_uring_prep_write(sqe, null, page + at, 64, 0);
    io_uring_sqe_set_data64(sqe, data);
}

/* Whether the bytes at 16, 48 and 80 are poisoned, in a build that poisons. */
static void must_be_poisoned(int line, int first, int second, int third)
{
#ifdef RINGCHECK_POISON
    must(line, __asan_address_is_poisoned(page + 16), first);
    must(line, __asan_address_is_poisoned(page + 48), second);
    must(line, __asan_address_is_poisoned(page + 80), third);
#else
    (void)line, (void)first, (void)second, (void)third;
#endif
}
#define MUST_BE_POISONED(first, second, third) must_be_poisoned(__LINE__, first, second, third)

/* Makes no line: it is another ring. */
static void poison(void)
{
    const int null = open("/dev/null", O_WRONLY);
    struct io_uring_cqe *cqe;
    unsigned head;
    int is_first;

    write_null(null, 0, 1);
    write_null(null, 32, 2);
    MUST_BE_POISONED(0, 0, 0);
    MUST(io_uring_submit_and_wait(&other, 2), 2);
    MUST_BE_POISONED(1, 1, 1);
    MUST(io_uring_wait_cqe(&other, &cqe), 0);
    is_first = io_uring_cqe_get_data64(cqe) == 1;
    MUST_BE_POISONED(1, 1, 1);
    io_uring_cqe_seen(&other, cqe);
    MUST_BE_POISONED(!is_first, 1, is_first);
    MUST(io_uring_wait_cqe(&other, &cqe), 0);
    io_uring_cqe_seen(&other, cqe);
    MUST_BE_POISONED(0, 0, 0);

    write_null(null, 0, 1);
    MUST(io_uring_submit_and_wait(&other, 1), 1);
    io_uring_for_each_cqe(&other, head, cqe) {
        MUST_BE_POISONED(0, 0, 0);
        write_null(null, 0, 1); /* again, with the same user data */
        MUST(io_uring_submit(&other), 1);
        break;
    }
    MUST_BE_POISONED(1, 1, 0);
    io_uring_cq_advance(&other, 1);
    MUST_BE_POISONED(1, 1, 0);
    MUST(io_uring_wait_cqe(&other, &cqe), 0);
    io_uring_cqe_seen(&other, cqe);
    MUST_BE_POISONED(0, 0, 0);
}

/* Another ring in the place of one that is gone, with eight entries that no submit took. */
static void say_again(void)
{
    io_uring_queue_exit(&ring);
    MUST(io_uring_queue_init(8, &ring, 0), 0);
    RINGCHECK_RING_SIDES(&ring, &submitting, NULL);
}

static void submit_nops(uint64_t data, int count)
{
    int i;

    for (i = 0; i < count; i++) {
        struct io_uring_sqe *sqe = io_uring_get_sqe(&ring);

        io_uring_prep_nop(sqe);
        io_uring_sqe_set_data64(sqe, data);
    }
    MUST(io_uring_submit(&ring), count);
}

static void overwrite_user_data(void)
{
    struct io_uring_cqe *cqe;

    submit_nops(14, 1); /*: get_sqe 1 */ /*: prep_nop */ /*: set_data64 14 */ /*: submit 1 */
    MUST(io_uring_peek_cqe(&ring, &cqe), 0); /*: peek_cqe 14 0 */
    cqe->user_data = 99;
    MUST(io_uring_peek_cqe(&ring, &cqe), 0); /*: peek_cqe 14 0 */
    io_uring_cqe_seen(&ring, cqe); /*: cqe_seen 14 */
}

static void copy_entry(void)
{
    struct io_uring_sqe mine, *sqe;
    struct io_uring_cqe *cqe;

    memset(&mine, 0, sizeof mine);
    io_uring_prep_nop(&mine);
    io_uring_sqe_set_data64(&mine, 15);
    sqe = entry(); /*: get_sqe 1 */
    *sqe = mine;
    RINGCHECK_PUT("queue"); /*: prep_nop */ /*: set_data64 15 */ /*: put queue */
    MUST(io_uring_submit(&ring), 1); /*: submit 1 */
    MUST(io_uring_peek_cqe(&ring, &cqe), 0); /*: peek_cqe 15 0 */
    io_uring_cqe_seen(&ring, cqe); /*: cqe_seen 15 */
}

static void set_flags_first(void)
{
    struct io_uring_sqe *sqe = entry(); /*: get_sqe 1 */
    struct io_uring_cqe *cqe;

    io_uring_sqe_set_flags(sqe, IOSQE_IO_DRAIN);
    io_uring_prep_nop(sqe); /*: prep_nop */
    io_uring_sqe_set_data64(sqe, 16); /*: set_data64 16 */
    MUST(io_uring_submit(&ring), 1); /*: flags 2 */ /*: submit 1 */
    MUST(io_uring_wait_cqe(&ring, &cqe), 0); /*: peek_cqe 16 0 */
    io_uring_cqe_seen(&ring, cqe); /*: cqe_seen 16 */
}

static void leave_user_data(void)
{
    struct io_uring_sqe *sqe = entry(); /*: get_sqe 1 */
    struct io_uring_cqe *cqe;

    io_uring_prep_nop(sqe); /*: prep_nop */
    MUST(io_uring_submit(&ring), 1); /*: set_data64 0 */ /*: submit 1 */
    MUST(io_uring_wait_cqe(&ring, &cqe), 0); /*: peek_cqe 0 0 */
    io_uring_cqe_seen(&ring, cqe); /*: cqe_seen 0 */
}

/* Too few are given back: the next loop passes them again. */
static void pass_twice(void)
{
    struct io_uring_cqe *cqe;
    unsigned head, count = 0;

    submit_nops(17, 2); /*: get_sqe 1 */ /*: prep_nop */ /*: set_data64 17 */ /*: get_sqe 1 */ /*: prep_nop */ /*: set_data64 17 */ /*: submit 2 */
    io_uring_for_each_cqe(&ring, head, cqe) /*: peek_cqe 17 0 */ /*: cqe_seen 17 */ /*: peek_cqe 17 0 */ /*: cqe_seen 17 */
        count++;
    io_uring_for_each_cqe(&ring, head, cqe)
        count++; /* the same again before any is given back: no line */
    io_uring_cq_advance(&ring, 1);
    io_uring_for_each_cqe(&ring, head, cqe) /*: peek_cqe 17 0 */ /*: cqe_seen 17 */
        count++;
    io_uring_cq_advance(&ring, 1);
    MUST(count, 5);
}

/* A loop is left at a completion before it is handled. */
static void leave_loop(void)
{
    struct io_uring_cqe *cqe;
    unsigned head, count = 0;

    submit_nops(18, 2); /*: get_sqe 1 */ /*: prep_nop */ /*: set_data64 18 */ /*: get_sqe 1 */ /*: prep_nop */ /*: set_data64 18 */ /*: submit 2 */
    io_uring_for_each_cqe(&ring, head, cqe) { /*: peek_cqe 18 0 */ /*: cqe_seen 18 */ /*: peek_cqe 18 0 */ /*: cqe_seen 18 */
        if (count == 1)
            break;
        count++;
    }
    io_uring_cq_advance(&ring, count);
    io_uring_for_each_cqe(&ring, head, cqe)
        count++;
    io_uring_cq_advance(&ring, 1);
    MUST(count, 2);
    submit_nops(19, 2); /*: get_sqe 1 */ /*: prep_nop */ /*: set_data64 19 */ /*: get_sqe 1 */ /*: prep_nop */ /*: set_data64 19 */ /*: submit 2 */
    io_uring_for_each_cqe(&ring, head, cqe) /*: peek_cqe 19 0 */ /*: cqe_seen 19 */
        break;
    io_uring_cq_advance(&ring, 0);
    MUST(io_uring_wait_cqe(&ring, &cqe), 0);
    io_uring_cqe_seen(&ring, cqe);
    MUST(io_uring_wait_cqe(&ring, &cqe), 0); /*: peek_cqe 19 0 */
    io_uring_cqe_seen(&ring, cqe); /*: cqe_seen 19 */
}

/* Makes no line: they are other rings. */
static void use_many_rings(void)
{
    static struct io_uring rings[20];
    struct io_uring_cqe *cqe;
    int i;

    RINGCHECK_RING(&other, NULL); /* on standard error: it isn't logged */
    for (i = 0; i < 20; i++) {
        struct io_uring_sqe *sqe;

        MUST(io_uring_queue_init(2, &rings[i], 0), 0);
        sqe = io_uring_get_sqe(&rings[i]);
        io_uring_prep_nop(sqe);
        io_uring_sqe_set_data64(sqe, 1);
        MUST(io_uring_submit(&rings[i]), 1);
        MUST(io_uring_wait_cqe(&rings[i], &cqe), 0);
        io_uring_cqe_seen(&rings[i], cqe);
    }
    for (i = 0; i < 20; i++)
        io_uring_queue_exit(&rings[i]);
}

/* All count as seen, though none is given back: no line. */
static void exit_seen(void)
{
    struct io_uring_cqe *cqe;
    unsigned head;

    submit_nops(20, 2); /*: get_sqe 1 */ /*: prep_nop */ /*: set_data64 20 */ /*: get_sqe 1 */ /*: prep_nop */ /*: set_data64 20 */ /*: submit 2 */
    io_uring_for_each_cqe(&ring, head, cqe) /*: peek_cqe 20 0 */ /*: cqe_seen 20 */ /*: peek_cqe 20 0 */ /*: cqe_seen 20 */
        ;
    say_again();
}

static void exit_early(void)
{
    submit_nops(20, 1); /*: get_sqe 1 */ /*: prep_nop */ /*: set_data64 20 */ /*: submit 1 */
    io_uring_queue_exit(&ring); /*: exit 1 */
}

int main(void)
{
    begin();
    lock();
    use_other_ring();
    reap();
    fill_in();
    poison();
    say_again();
    overwrite_user_data();
    copy_entry();
    set_flags_first();
    leave_user_data();
    pass_twice();
    leave_loop();
    use_many_rings();
    exit_seen();
    exit_early();
    RINGCHECK_ENDS(); /*: ends */
    return 0;
}
