/*
 * A copy of a file, made as liburing's example io_uring-cp makes it. Each piece of the file has an object, whose address
 * is the user data of its read, and then of its write. What a completion brings is queued again or freed before
 * io_uring_cqe_seen. One thread makes all calls.
 *
 * usage: file_copy FROM TO
 */
#define _GNU_SOURCE
#include <errno.h>
#include <fcntl.h>
#include <liburing.h>
#include <stdint.h>
#include <stdio.h>
#include <stdlib.h>
#include <string.h>
#include <sys/stat.h>
#include <sys/uio.h>
#include <unistd.h>
#include "ringcheck.h"

enum { PIECES = 2, ENTRIES = 2, BYTES = 4096 };

struct piece {
    int number; /* its place among those of the copy */
    enum { READS, WRITES } state;
    off_t begin, offset; /* where the piece is, and where its rest is */
    size_t length;
    struct iovec rest;
    unsigned char bytes[BYTES];
};

struct copy {
    struct io_uring ring;
    int from, to;
    off_t size, offset; /* up to here pieces were begun */
    struct piece *pieces[PIECES]; /* NULL: none */
    int error;                    /* the first errno, or 0 */
};

static void die(const char *what, int error)
{
    fprintf(stderr, "file_copy: %s: %s\n", what, strerror(error));
    exit(2);
}

/* Queues what is left of a piece. */
static void queue(struct copy *copy, struct piece *piece)
{
    struct io_uring_sqe *sqe = io_uring_get_sqe(&copy->ring);

    if (sqe == NULL)
        die("the ring is full", EBUSY);
    if (piece->state == READS)
        io_uring_prep_readv(sqe, copy->from, &piece->rest, 1, (uint64_t)piece->offset);
    else
        io_uring_prep_writev(sqe, copy->to, &piece->rest, 1, (uint64_t)piece->offset);
    io_uring_sqe_set_data(sqe, piece);
}

/* Queues all of a piece. */
static void queue_whole(struct copy *copy, struct piece *piece)
{
    piece->offset = piece->begin;
    piece->rest.iov_base = piece->bytes;
    piece->rest.iov_len = piece->length;
    queue(copy, piece);
}

static void read_next(struct copy *copy, int number)
{
    static const char *const names[] = {"piece1", "piece2"};
    const off_t left = copy->size - copy->offset;
    struct piece *piece = malloc(sizeof *piece);

    if (piece == NULL)
        die("a piece", ENOMEM);
    RINGCHECK_BUFFER(piece->bytes, BYTES, names[number]);
    RINGCHECK_TOKEN(piece, number + 1);
    RINGCHECK_TAKE("free", piece->bytes);
    piece->number = number;
    piece->state = READS;
    piece->begin = copy->offset;
    piece->length = left < BYTES ? (size_t)left : BYTES;
    copy->offset += (off_t)piece->length;
    copy->pieces[number] = piece;
    queue_whole(copy, piece);
}

static void free_piece(struct copy *copy, struct piece *piece)
{
    RINGCHECK_WRITES(piece->bytes);
    RINGCHECK_PUT("free", piece->bytes);
    copy->pieces[piece->number] = NULL;
    free(piece);
}

static void submit_all(struct copy *copy)
{
    while (io_uring_sq_ready(&copy->ring) > 0) {
        const int answer = io_uring_submit(&copy->ring);

        if (answer < 0 && answer != -EINTR && answer != -EAGAIN && answer != -EBUSY)
            die("io_uring_submit", -answer);
    }
}

/* What the submits here don't take goes with the next one. */
static void completed(struct copy *copy, struct piece *piece, int result)
{
    if (result == -EAGAIN || result == -EINTR) {
        queue(copy, piece);
        io_uring_submit(&copy->ring);
    } else if (result <= 0) { /* 0: the file got shorter */
        if (copy->error == 0)
            copy->error = result < 0 ? -result : EIO;
        free_piece(copy, piece);
    } else if ((size_t)result < piece->rest.iov_len) {
        piece->rest.iov_base = (unsigned char *)piece->rest.iov_base + result;
        piece->rest.iov_len -= (size_t)result;
        piece->offset += result;
        queue(copy, piece);
        io_uring_submit(&copy->ring);
    } else if (piece->state == READS) {
        piece->state = WRITES;
        queue_whole(copy, piece);
        io_uring_submit(&copy->ring);
    } else {
        free_piece(copy, piece);
    }
}

/* Waits for the first that comes back, and takes what has come with it. */
static void process(struct copy *copy)
{
    struct io_uring_cqe *cqe;
    int answer;

    while ((answer = io_uring_wait_cqe(&copy->ring, &cqe)) == -EINTR)
        ;
    if (answer < 0)
        die("io_uring_wait_cqe", -answer);
    do {
        completed(copy, io_uring_cqe_get_data(cqe), cqe->res);
        io_uring_cqe_seen(&copy->ring, cqe);
    } while (io_uring_peek_cqe(&copy->ring, &cqe) == 0);
}

/* After an error no piece is begun, but those that are out have to come back. */
static int begins(struct copy *copy)
{
    int pieces = 0;

    for (int i = 0; i < PIECES; i++) {
        if (copy->pieces[i] == NULL && copy->offset < copy->size && copy->error == 0)
            read_next(copy, i);
        pieces += copy->pieces[i] != NULL;
    }
    return pieces;
}

static void open_files(struct copy *copy, const char *from, const char *to)
{
    struct stat is;

    copy->from = open(from, O_RDONLY);
    if (copy->from < 0 || fstat(copy->from, &is) != 0)
        die(from, errno);
    copy->size = is.st_size;
    copy->to = open(to, O_WRONLY | O_CREAT | O_TRUNC, 0644);
    if (copy->to < 0)
        die(to, errno);
}

int main(int count, char **words)
{
    struct copy copy = {.error = 0};
    int answer;

    if (count != 3) {
        fprintf(stderr, "usage: file_copy FROM TO\n");
        return 2;
    }
    open_files(&copy, words[1], words[2]);
    answer = io_uring_queue_init(ENTRIES, &copy.ring, 0);
    if (answer < 0)
        die("io_uring_queue_init", -answer);
    RINGCHECK_RING(&copy.ring, NULL);
    RINGCHECK_FILE(copy.from, 3);
    RINGCHECK_FILE(copy.to, 4);
    RINGCHECK_THREAD("copier");
    while (begins(&copy) > 0) {
        submit_all(&copy);
        process(&copy);
    }
    io_uring_queue_exit(&copy.ring);
    if (copy.error != 0)
        fprintf(stderr, "file_copy: %s\n", strerror(copy.error));
    close(copy.from);
    if (close(copy.to) != 0)
        die(words[2], errno);
    return copy.error != 0;
}
