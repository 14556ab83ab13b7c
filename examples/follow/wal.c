/*
 * A write-ahead log with a replica. Each record goes to the file and to the replica at the same time, and is made durable
 * once both have it. One thread makes all calls on the ring.
 *
 * usage: wal FILE [RECORDS [LOST]]: the replica goes away after LOST records.
 */
#define _GNU_SOURCE
#include <errno.h>
#include <fcntl.h>
#include <liburing.h>
#include <pthread.h>
#include <stdint.h>
#include <stdio.h>
#include <stdlib.h>
#include <string.h>
#include <sys/socket.h>
#include <sys/stat.h>
#include <unistd.h>
#include "ringcheck.h"

enum { RECORD = 4096, ENTRIES = 8 };
enum request { WRITE_LOG = 1, SEND_REPLICA, SYNC_LOG };

struct head {
    uint64_t number;
    uint32_t length, checksum;
};

struct wal {
    struct io_uring ring;
    int file, replica;
    off_t end;
    uint64_t number;
    unsigned char record[RECORD];
    size_t length, written; /* of the record, and how much of it is in the file */
    int in_flight;
    int error; /* the first errno, or 0 */
};

static void die(const char *what, int error)
{
    fprintf(stderr, "wal: %s: %s\n", what, strerror(error));
    exit(2);
}

static uint32_t checksum(const unsigned char *bytes, size_t length)
{
    uint32_t sum = 2166136261u;

    while (length-- > 0)
        sum = (sum ^ *bytes++) * 16777619u;
    return sum;
}

static struct io_uring_sqe *next_entry(struct wal *wal)
{
    struct io_uring_sqe *sqe = io_uring_get_sqe(&wal->ring);

    if (sqe == NULL)
        die("the ring is full", EBUSY);
    wal->in_flight++;
    return sqe;
}

static void write_rest(struct wal *wal)
{
    struct io_uring_sqe *sqe = next_entry(wal);

    io_uring_prep_write(sqe, wal->file, wal->record + wal->written, (unsigned)(wal->length - wal->written),
                        (uint64_t)wal->end + wal->written);
    io_uring_sqe_set_data64(sqe, WRITE_LOG);
}

static void send_record(struct wal *wal)
{
    struct io_uring_sqe *sqe = next_entry(wal);

    io_uring_prep_send(sqe, wal->replica, wal->record, wal->length, MSG_NOSIGNAL | MSG_WAITALL);
    io_uring_sqe_set_data64(sqe, SEND_REPLICA);
}

static void sync_log(struct wal *wal)
{
    struct io_uring_sqe *sqe = next_entry(wal);

    io_uring_prep_fsync(sqe, wal->file, IORING_FSYNC_DATASYNC);
    io_uring_sqe_set_data64(sqe, SYNC_LOG);
}

static void submit_all(struct wal *wal)
{
    do {
        const int answer = io_uring_submit(&wal->ring);

        if (answer < 0 && answer != -EINTR && answer != -EAGAIN && answer != -EBUSY)
            die("io_uring_submit", -answer);
    } while (io_uring_sq_ready(&wal->ring) > 0);
}

static void fail(struct wal *wal, int error)
{
    if (wal->error == 0)
        wal->error = error;
}

static void completed(struct wal *wal, enum request request, int result)
{
    switch (request) {
    case WRITE_LOG:
        if (result <= 0) {
            fail(wal, result < 0 ? -result : ENOSPC);
            break;
        }
        wal->written += (size_t)result;
        if (wal->written < wal->length) {
            write_rest(wal);
            submit_all(wal);
        }
        break;
    case SEND_REPLICA:
        if (result < 0 || (size_t)result < wal->length)
            fail(wal, result < 0 ? -result : EPIPE);
        break;
    case SYNC_LOG:
        if (result < 0)
            fail(wal, -result);
        break;
    }
}

/* Also after an error all that is in flight has to come back: it uses the record. */
static int finish(struct wal *wal)
{
    submit_all(wal);
    while (wal->in_flight > 0) {
        struct io_uring_cqe *cqe;
        enum request request;
        int result = io_uring_wait_cqe(&wal->ring, &cqe);

        if (result == -EINTR)
            continue;
        if (result < 0)
            die("io_uring_wait_cqe", -result);
        request = (enum request)io_uring_cqe_get_data64(cqe);
        result = cqe->res;
        io_uring_cqe_seen(&wal->ring, cqe);
        wal->in_flight--;
        completed(wal, request, result);
    }
    return wal->error;
}

static void build(struct wal *wal, const void *bytes, size_t length)
{
    struct head head;

    RINGCHECK_WRITES(wal->record);
    head.number = ++wal->number;
    head.length = (uint32_t)length;
    head.checksum = checksum((const unsigned char *)bytes, length);
    memcpy(wal->record, &head, sizeof head);
    memcpy(wal->record + sizeof head, bytes, length);
    wal->length = sizeof head + length;
    wal->written = 0;
}

/* Answers 0 once the record is durable and the replica has it, or an errno. */
static int append(struct wal *wal, const void *bytes, size_t length)
{
    build(wal, bytes, length);
    send_record(wal);
    write_rest(wal);
    if (finish(wal) != 0)
        return wal->error;
    sync_log(wal);
    if (finish(wal) == 0)
        wal->end += (off_t)wal->length;
    return wal->error;
}

static void open_log(struct wal *wal, const char *path, int replica)
{
    struct stat is;
    int error;

    memset(wal, 0, sizeof *wal);
    wal->file = open(path, O_WRONLY | O_CREAT | O_CLOEXEC, 0666);
    if (wal->file < 0 || fstat(wal->file, &is) != 0)
        die(path, errno);
    wal->end = is.st_size;
    wal->replica = replica;
    error = io_uring_queue_init(ENTRIES, &wal->ring, 0);
    if (error < 0)
        die("io_uring_queue_init", -error);
    RINGCHECK_RING(&wal->ring, NULL);
    RINGCHECK_THREAD("writer");
    RINGCHECK_FILE(wal->file, 3);
    RINGCHECK_FILE(wal->replica, 4);
    RINGCHECK_BUFFER(wal->record, sizeof wal->record, "record");
}

struct replica {
    int socket, lost;
};

/* Stands for the other machine. */
static void *replicate(void *arg)
{
    const struct replica *replica = (const struct replica *)arg;
    unsigned char record[RECORD];
    int i;

    for (i = 0; i != replica->lost; i++) {
        struct head head;

        if (recv(replica->socket, &head, sizeof head, MSG_WAITALL) != (ssize_t)sizeof head)
            break;
        if (recv(replica->socket, record, head.length, MSG_WAITALL) != (ssize_t)head.length)
            break;
        if (checksum(record, head.length) != head.checksum)
            die("the replica got a wrong record", EBADMSG);
    }
    close(replica->socket);
    return NULL;
}

int main(int argc, char **argv)
{
    static struct wal wal;
    struct replica replica;
    pthread_t thread;
    int i, pair[2], error = 0, records = argc > 2 ? atoi(argv[2]) : 50;

    if (argc < 2 || socketpair(AF_UNIX, SOCK_STREAM, 0, pair) != 0) {
        fprintf(stderr, "usage: wal FILE [RECORDS [LOST]]\n");
        return 2;
    }
    replica.socket = pair[1];
    replica.lost = argc > 3 ? atoi(argv[3]) : -1;
    pthread_create(&thread, NULL, replicate, &replica);
    open_log(&wal, argv[1], pair[0]);
    for (i = 0; i < records && error == 0; i++) {
        unsigned char bytes[3000];
        const size_t length = 100 + (size_t)rand() % (sizeof bytes - 100);

        memset(bytes, i, length);
        error = append(&wal, bytes, length);
    }
    if (error != 0) {
        RINGCHECK_ENDS();
        fprintf(stderr, "wal: record %llu: %s\n", (unsigned long long)wal.number, strerror(error));
    }
    io_uring_queue_exit(&wal.ring);
    close(pair[0]);
    pthread_join(thread, NULL);
    return error != 0;
}
