/*
 * An event loop in which requests wait for room in a small ring, in the shape of the io_uring backend of an emulator's
 * block layer: what is to be done goes into a queue, the loop fills entries from it and submits them, and what comes back
 * is done, or goes into the queue again. One thread makes all calls, so there is no mutex.
 *
 * usage: event_loop FILE [TURNS]
 */
#define _GNU_SOURCE
#include <errno.h>
#include <fcntl.h>
#include <liburing.h>
#include <stdint.h>
#include <stdio.h>
#include <stdlib.h>
#include <string.h>
#include <unistd.h>
#include "ringcheck.h"

enum { READ, WRITE, FLUSH, REQUESTS };
enum { ENTRIES = 2, BYTES = 4096 };

struct request {
    enum { IDLE, QUEUED, OUT } state;
    unsigned char *bytes; /* none of a flush */
};

struct loop {
    struct io_uring ring;
    int file;
    unsigned long turns; /* how many requests are still to be begun */
    struct request requests[REQUESTS];
};

static unsigned char pages[2][BYTES];

static void die(const char *what, int error)
{
    fprintf(stderr, "event_loop: %s: %s\n", what, strerror(error));
    exit(2);
}

static void be_idle(struct request *request)
{
    RINGCHECK_PUT("idle");
    request->state = IDLE;
}

static void be_queued(struct request *request)
{
    RINGCHECK_PUT("queue");
    request->state = QUEUED;
}

/* Idle requests are begun. */
static void begin(struct loop *loop)
{
    for (int i = 0; i < REQUESTS && loop->turns > 0; i++) {
        struct request *request = &loop->requests[i];

        if (request->state != IDLE)
            continue;
        RINGCHECK_TAKE("idle");
        loop->turns--;
        if (i == WRITE) {
            RINGCHECK_WRITES(request->bytes);
            memset(request->bytes, (int)(loop->turns & 0xff), BYTES);
        }
        be_queued(request);
    }
}

static void fill(struct loop *loop, struct request *request)
{
    struct io_uring_sqe *sqe = io_uring_get_sqe(&loop->ring);

    if (sqe == NULL)
        die("the ring is full", EBUSY);
    if (request == &loop->requests[READ])
        io_uring_prep_read(sqe, loop->file, request->bytes, BYTES, 0);
    else if (request == &loop->requests[WRITE])
        io_uring_prep_write(sqe, loop->file, request->bytes, BYTES, 0);
    else
        io_uring_prep_fsync(sqe, loop->file, IORING_FSYNC_DATASYNC);
    io_uring_sqe_set_data(sqe, request);
}

/* What is queued is submitted, as far as there is room. What a submit doesn't take stays in the ring for the next one. */
static void submit(struct loop *loop)
{
    int answer;

    do {
        for (int i = 0; i < REQUESTS; i++) {
            struct request *request = &loop->requests[i];

            if (request->state != QUEUED || io_uring_sq_space_left(&loop->ring) == 0)
                continue;
            RINGCHECK_TAKE("queue");
            request->state = OUT;
            fill(loop, request);
        }
        answer = io_uring_submit(&loop->ring);
    } while (answer == -EAGAIN || answer == -EINTR);
    if (answer < 0)
        die("io_uring_submit", -answer);
}

static void complete(struct request *request, int result)
{
    if (result == -EAGAIN || result == -EINTR) {
        be_queued(request);
        return;
    }
    if (result < 0)
        die("a request", -result);
    if (request->bytes == pages[0] && result > 0 && result < BYTES) {
        be_queued(request);
        return;
    }
    if (request->bytes == pages[0] && result == 0) {
        RINGCHECK_WRITES(request->bytes);
        memset(request->bytes, 0, BYTES);
    }
    be_idle(request);
}

static int is_out(const struct loop *loop)
{
    for (int i = 0; i < REQUESTS; i++)
        if (loop->requests[i].state == OUT)
            return 1;
    return 0;
}

/* Waits for the first that comes back, and takes what has come with it. */
static void process(struct loop *loop)
{
    struct io_uring_cqe *cqe;
    int answer;

    while ((answer = io_uring_wait_cqe(&loop->ring, &cqe)) == -EINTR)
        ;
    if (answer < 0)
        die("io_uring_wait_cqe", -answer);
    do {
        struct request *request = io_uring_cqe_get_data(cqe);
        int result = cqe->res;

        io_uring_cqe_seen(&loop->ring, cqe);
        complete(request, result);
    } while (io_uring_peek_cqe(&loop->ring, &cqe) == 0);
}

int main(int count, char **words)
{
    static const char *const names[] = {"page1", "page2"};
    struct loop loop = {.turns = count > 2 ? strtoul(words[2], NULL, 10) : 100};
    int answer;

    if (count < 2) {
        fprintf(stderr, "usage: event_loop FILE [TURNS]\n");
        return 2;
    }
    loop.file = open(words[1], O_RDWR | O_CREAT, 0600);
    if (loop.file < 0)
        die(words[1], errno);
    answer = io_uring_queue_init(ENTRIES, &loop.ring, 0);
    if (answer < 0)
        die("io_uring_queue_init", -answer);
    RINGCHECK_RING(&loop.ring, NULL);
    RINGCHECK_FILE(loop.file, 3);
    RINGCHECK_THREAD("events");
    for (int i = 0; i < REQUESTS; i++) {
        RINGCHECK_TOKEN(&loop.requests[i], i + 1);
        if (i != FLUSH) {
            loop.requests[i].bytes = pages[i];
            RINGCHECK_BUFFER(pages[i], BYTES, names[i]);
        }
        be_idle(&loop.requests[i]);
    }
    do {
        begin(&loop);
        submit(&loop);
        if (is_out(&loop))
            process(&loop);
    } while (loop.turns > 0 || is_out(&loop));
    io_uring_queue_exit(&loop.ring);
    close(loop.file);
    return 0;
}
