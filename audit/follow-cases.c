/* What ringcheck.h poisons and forces. usage: follow-cases CASE. ci/header.py runs each case with the environment in
   brackets, and looks for the words behind them on standard error; `none` is a run without a report, and `same` one that
   prints the same with the same seed alone. */
#define _GNU_SOURCE
#include <errno.h>
#include <fcntl.h>
#include <liburing.h>
#include <stdint.h>
#include <stdio.h>
#include <stdlib.h>
#include <string.h>
#include <sys/eventfd.h>
#include <sys/socket.h>
#include <sys/uio.h>
#include <unistd.h>
#include "ringcheck.h"

enum { SIZE = 4096, ROUNDS = 200 };

static struct io_uring ring;
static char *page;
static int file, pipes[2], streams[2], datagrams[2];

static void must(int line, int holds)
{
    if (holds)
        return;
    fprintf(stderr, "follow-cases.c:%d\n", line);
    exit(2);
}
#define MUST(condition) must(__LINE__, (condition))

static void begin(void)
{
    page = (char *)malloc(2 * SIZE);
    MUST(page != NULL && io_uring_queue_init(8, &ring, 0) == 0);
    memset(page, 'p', 2 * SIZE);
    file = open("follow-cases.data", O_RDWR | O_CREAT | O_TRUNC, 0666);
    MUST(file >= 0 && write(file, page, 2 * SIZE) == 2 * SIZE);
    MUST(pipe(pipes) == 0 && socketpair(AF_UNIX, SOCK_STREAM, 0, streams) == 0);
    MUST(socketpair(AF_UNIX, SOCK_DGRAM, 0, datagrams) == 0);
}

/* An entry that reads what never comes. */
static void queue_endless(uint64_t data)
{
    struct io_uring_sqe *sqe = io_uring_get_sqe(&ring);

    io_uring_prep_read(sqe, pipes[0], page, SIZE, 0);
    io_uring_sqe_set_data64(sqe, data);
}

static struct io_uring_sqe *nop(uint64_t data)
{
    struct io_uring_sqe *sqe = io_uring_get_sqe(&ring);

    io_uring_prep_nop(sqe);
    io_uring_sqe_set_data64(sqe, data);
    return sqe;
}

static int result(void)
{
    struct io_uring_cqe *cqe;
    int answer;

    MUST(io_uring_wait_cqe(&ring, &cqe) == 0);
    answer = cqe->res;
    io_uring_cqe_seen(&ring, cqe);
    return answer;
}

static int result_of_submit(void)
{
    MUST(io_uring_submit(&ring) == 1);
    return result();
}

/* ---- Poison ---- */

static void touch_in_flight(void) /*: touch_in_flight [] use-after-poison.*(\n.*)*touch_in_flight */
{
    queue_endless(1);
    MUST(io_uring_submit(&ring) == 1);
    page[7] = 'x';
}

static void touch_after_failed_submit(void) /*: touch_after_failed_submit [RINGCHECK_FAULTS:submit=100] use-after-poison */
{
    queue_endless(1);
    MUST(io_uring_submit(&ring) < 0);
    page[7] = 'x';
}

static void mark_in_flight(void) /*: mark_in_flight [] use-after-poison */
{
    queue_endless(1);
    MUST(io_uring_submit(&ring) == 1);
    RINGCHECK_WRITES(page);
    free(page);
}

static void exit_in_flight(void) /*: exit_in_flight [] io_uring_queue_exit, and a request(\n|.)*use-after-poison */
{
    queue_endless(1);
    MUST(io_uring_submit(&ring) == 1);
    io_uring_queue_exit(&ring);
}

static void exit_with_untaken(void) /*: exit_with_untaken [RINGCHECK_FAULTS:submit=100] none */
{
    queue_endless(1);
    MUST(io_uring_submit(&ring) < 0);
    io_uring_queue_exit(&ring);
    page[7] = 'x';
}

static void overwrite_user_data(void) /*: overwrite_user_data [] none */
{
    struct io_uring_cqe *cqe;

    queue_endless(1);
    MUST(io_uring_submit(&ring) == 1 && write(pipes[1], "a", 1) == 1);
    MUST(io_uring_wait_cqe(&ring, &cqe) == 0);
    cqe->user_data = 99;
    io_uring_cqe_seen(&ring, cqe);
    page[7] = 'x';
}

static void use_again(void) /*: use_again [] none */
{
    int i;

    for (i = 0; i < 3; i++) {
        MUST(io_uring_queue_init(8, &ring, 0) == 0);
        queue_endless(1);
        MUST(io_uring_submit(&ring) == 1 && write(pipes[1], "a", 1) == 1 && result() == 1);
        page[7] = 'x';
        io_uring_queue_exit(&ring);
    }
}

static void begin_anew(void) /*: begin_anew [] none */
{
    queue_endless(1);
    MUST(io_uring_submit(&ring) == 1 && write(pipes[1], "a", 1) == 1);
    (io_uring_queue_exit)(&ring); /* as in a file without the header */
    MUST(io_uring_queue_init(8, &ring, 0) == 0);
    page[7] = 'x';
    queue_endless(1);
    MUST(io_uring_submit(&ring) == 1 && write(pipes[1], "a", 1) == 1 && result() == 1);
    page[7] = 'x';
}

/* ---- Submits ---- */

static void submits(void) /*: submits [RINGCHECK_FAULTS:submit=100] none */
{
    int again = 0, busy = 0, interrupted = 0, part = 0, i, k;

    for (i = 0; i < ROUNDS; i++) {
        int answer, taken = 0;

        for (k = 0; k < 4; k++)
            nop(1);
        answer = io_uring_submit(&ring);
        again += answer == -EAGAIN;
        busy += answer == -EBUSY;
        interrupted += answer == -EINTR;
        part += answer > 0;
        MUST(answer == -EAGAIN || answer == -EBUSY || answer == -EINTR || (answer > 0 && answer < 4));
        taken = answer > 0 ? answer : 0;
        MUST(io_uring_sq_ready(&ring) == (unsigned)(4 - taken));
        RINGCHECK_FAULTS_OFF();
        MUST(io_uring_submit(&ring) == 4 - taken);
        for (k = 0; k < 4; k++)
            MUST(result() == 0);
        RINGCHECK_FAULTS_ON();
    }
    MUST(again > 0 && busy > 0 && interrupted > 0 && part > 0);
    MUST(io_uring_submit(&ring) == 0); /* of nothing */
}

/* ---- Waits ---- */

static void waits(void) /*: waits [RINGCHECK_FAULTS:wait=100] none */
{
    struct __kernel_timespec hour;
    struct io_uring_cqe *cqe;
    int over = 0, interrupted = 0, i;

    memset(&hour, 0, sizeof hour);
    hour.tv_sec = 3600;
    MUST(io_uring_wait_cqe(&ring, &cqe) == -EINTR && cqe == NULL);
    for (i = 0; i < ROUNDS; i++) {
        const int answer = io_uring_wait_cqe_timeout(&ring, &cqe, &hour);

        over += answer == -ETIME;
        interrupted += answer == -EINTR;
    }
    MUST(over > 0 && interrupted > 0 && over + interrupted == ROUNDS);
    MUST(io_uring_wait_cqes(&ring, &cqe, 1, NULL, NULL) == -EINTR);
    MUST(io_uring_submit_and_wait(&ring, 1) == -EINTR); /* of nothing */
    queue_endless(1);
    MUST(io_uring_submit_and_wait(&ring, 1) == 1 && io_uring_peek_cqe(&ring, &cqe) == -EAGAIN);
    nop(2);
    MUST(io_uring_submit_and_wait(&ring, 1) == 1 && io_uring_wait_cqe(&ring, &cqe) == 0);
    MUST(io_uring_wait_cqe_nr(&ring, &cqe, 2) == -EINTR && cqe != NULL && io_uring_cqe_get_data64(cqe) == 2);
    MUST(write(pipes[1], "a", 1) == 1);
}

/* ---- Short transfers ---- */

static int read_file(void)
{
    struct io_uring_sqe *sqe = io_uring_get_sqe(&ring);
    int moved, i;

    memset(page, '?', SIZE);
    io_uring_prep_read(sqe, file, page, SIZE, 0);
    io_uring_sqe_set_data64(sqe, 1);
    moved = result_of_submit();
    for (i = 0; i < SIZE; i++)
        MUST(page[i] == (i < moved ? 'p' : '?'));
    return moved;
}

static int write_file(int letter)
{
    struct io_uring_sqe *sqe = io_uring_get_sqe(&ring);

    memset(page, letter, SIZE);
    io_uring_prep_write(sqe, file, page, SIZE, SIZE);
    io_uring_sqe_set_data64(sqe, 1);
    return result_of_submit();
}

static int move_pieces(int writes)
{
    struct iovec pieces[3] = {{page, 100}, {page + 100, 0}, {page + 200, 1000}};
    struct io_uring_sqe *sqe = io_uring_get_sqe(&ring);
    int moved;

    memset(page, 'p', SIZE);
    if (writes)
        io_uring_prep_writev(sqe, file, pieces, 3, 0);
    else
        io_uring_prep_readv(sqe, file, pieces, 3, 0);
    io_uring_sqe_set_data64(sqe, 1);
    moved = result_of_submit();
    MUST(pieces[0].iov_len == 100 && pieces[2].iov_len == 1000);
    return moved;
}

static int send_some(int to, int flags)
{
    struct io_uring_sqe *sqe = io_uring_get_sqe(&ring);

    io_uring_prep_send(sqe, to, page, 1000, flags);
    io_uring_sqe_set_data64(sqe, 1);
    return result_of_submit();
}

static int receive_some(int from)
{
    struct io_uring_sqe *sqe = io_uring_get_sqe(&ring);

    io_uring_prep_recv(sqe, from, page, 1000, 0);
    io_uring_sqe_set_data64(sqe, 1);
    return result_of_submit();
}

static void shorts(void) /*: shorts [RINGCHECK_FAULTS:short=100] none */
{
    const int counter = eventfd(3, 0);
    struct io_uring_sqe *sqe;
    int zeros = 0, i, moved;

    for (i = 0; i < ROUNDS; i++) {
        moved = read_file();
        zeros += moved == 0;
        MUST(moved >= 0 && moved < SIZE);
        MUST((moved = write_file('p')) > 0 && moved < SIZE);
        MUST((moved = move_pieces(0)) >= 0 && moved < 1100);
        MUST((moved = move_pieces(1)) > 0 && moved < 1100);
        MUST((moved = send_some(streams[0], 0)) > 0 && moved < 1000 && recv(streams[1], page, SIZE, 0) == moved);
        MUST(send(streams[1], page, 1000, 0) == 1000 && (moved = receive_some(streams[0])) > 0 && moved < 1000);
        MUST(recv(streams[0], page, SIZE, 0) == 1000 - moved);
    }
    MUST(zeros > 0);
    MUST(send_some(streams[0], MSG_WAITALL) == 1000 && send_some(datagrams[0], 0) == 1000);
    sqe = io_uring_get_sqe(&ring);
    io_uring_prep_read(sqe, counter, page, 8, 0);
    io_uring_sqe_set_data64(sqe, 1);
    MUST(result_of_submit() == 8);
}

/* ---- Errors ---- */

static void errors(void) /*: errors [RINGCHECK_FAULTS:errno=100] none */
{
    struct io_uring_sqe *sqe;
    int seen[200] = {0}, i, answer;

    for (i = 0; i < ROUNDS; i++) {
        answer = write_file('w');
        MUST(answer == -EIO || answer == -EINTR || answer == -EAGAIN || answer == -ENOSPC || answer == -ECANCELED);
        seen[-answer]++;
        MUST(pread(file, page, 1, SIZE) == 1 && page[0] == 'w'); /* the request was done .. */
        answer = send_some(streams[0], 0);
        MUST(answer == -EINTR || answer == -EAGAIN || answer == -ECANCELED);
        MUST(recv(streams[1], page, SIZE, MSG_DONTWAIT) < 0); /* and this one not at all */
        sqe = io_uring_get_sqe(&ring);
        io_uring_prep_fsync(sqe, file, 0);
        io_uring_sqe_set_data64(sqe, 1);
        MUST(result_of_submit() < 0);
        nop(1);
        MUST(result_of_submit() == 0);
    }
    MUST(seen[EIO] > 0 && seen[EINTR] > 0 && seen[EAGAIN] > 0 && seen[ENOSPC] > 0 && seen[ECANCELED] > 0);
}

/* Of two with one user data nobody could say which failed. */
static void errors_of_two(void) /*: errors_of_two [RINGCHECK_FAULTS:errno=100] none */
{
    struct io_uring_sqe *sqe = io_uring_get_sqe(&ring);

    io_uring_prep_fsync(sqe, file, 0);
    io_uring_sqe_set_data64(sqe, 1);
    nop(1);
    MUST(io_uring_submit(&ring) == 2 && result() == 0 && result() == 0);
}

/* ---- Late completions, and what isn't forced ---- */

static void lates(void) /*: lates [RINGCHECK_FAULTS:late=100] none */
{
    const struct io_uring_sqe *sqe = nop(1);

    MUST(io_uring_submit(&ring) == 1 && (sqe->flags & IOSQE_ASYNC) != 0 && result() == 0);
}

static void none(void) /*: none [RINGCHECK_FAULTS:submit=100,wait=100,late=100,short=100,errno=100] none */
{
    RINGCHECK_FAULTS_OFF();
    MUST((nop(1)->flags & IOSQE_ASYNC) == 0 && result_of_submit() == 0);
    MUST(write_file('p') == SIZE && read_file() == SIZE && send_some(streams[0], 0) == 1000);
}

static void wrong_words(void) /*: wrong_words [RINGCHECK_FAULTS:submit=101] it is said as submit=5 */
{
    nop(1);
    io_uring_submit(&ring);
}

/* Prints what is forced. */
static void row(void) /*: row [RINGCHECK_FAULTS:submit=30,late=50,errno=20 RINGCHECK_FAULTS_TELL:1] same */
{
    int i;

    for (i = 0; i < ROUNDS; i++) {
        struct io_uring_sqe *sqe = io_uring_get_sqe(&ring);

        io_uring_prep_fsync(sqe, file, 0);
        io_uring_sqe_set_data64(sqe, (uint64_t)i);
        while (io_uring_sq_ready(&ring) > 0)
            io_uring_submit(&ring);
        result();
    }
}

int main(int argc, char **argv)
{
    static const struct {
        const char *name;
        void (*call)(void);
    } cases[] = {
        {"touch_in_flight", touch_in_flight}, {"touch_after_failed_submit", touch_after_failed_submit},
        {"mark_in_flight", mark_in_flight}, {"exit_in_flight", exit_in_flight},
        {"exit_with_untaken", exit_with_untaken}, {"overwrite_user_data", overwrite_user_data},
        {"use_again", use_again}, {"begin_anew", begin_anew}, {"submits", submits}, {"waits", waits},
        {"shorts", shorts}, {"errors", errors}, {"errors_of_two", errors_of_two}, {"lates", lates},
        {"none", none}, {"wrong_words", wrong_words}, {"row", row},
    };
    size_t i;

    begin();
    for (i = 0; i < sizeof cases / sizeof *cases; i++)
        if (argc > 1 && strcmp(argv[1], cases[i].name) == 0) {
            cases[i].call();
            return 0;
        }
    return 2;
}
