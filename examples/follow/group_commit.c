/*
 * Group commit. Writers copy their records into the open group. The committer closes it, opens the other one, and makes
 * the closed one durable by one write and one fsync, while the next fills. It alone calls the ring, and needs no mutex
 * there; `log.mutex` guards the groups.
 *
 * usage: group_commit FILE [RECORDS]
 */
#define _GNU_SOURCE
#include <errno.h>
#include <fcntl.h>
#include <liburing.h>
#include <pthread.h>
#include <stdbool.h>
#include <stdint.h>
#include <stdio.h>
#include <stdlib.h>
#include <string.h>
#include <sys/stat.h>
#include <unistd.h>
#include "ringcheck.h"

enum { WRITERS = 3, GROUPS = 2, GROUP = 4096, RECORD = 400, ENTRIES = 4 };
enum { SYNC = 3 };

struct group {
    char bytes[GROUP];
    size_t used;
    uint64_t last; /* record in it */
};

struct log {
    struct io_uring ring;
    int file;
    off_t end;
    pthread_mutex_t mutex;
    pthread_cond_t filled, durable;
    struct group groups[GROUPS];
    struct group *open;
    uint64_t given, synced; /* numbers of records */
    int writers;            /* that may still append */
    int error;
};

static struct log the_log = {
    .mutex = PTHREAD_MUTEX_INITIALIZER, .filled = PTHREAD_COND_INITIALIZER, .durable = PTHREAD_COND_INITIALIZER};

static void die(const char *what, int error)
{
    fprintf(stderr, "group_commit: %s: %s\n", what, strerror(error));
    exit(2);
}

/* ---- Writers ---- */

/* Answers 0 once the record is durable, or an errno. */
static int append(struct log *log, const char *bytes, size_t length)
{
    struct group *group;
    uint64_t number;
    int error;

    pthread_mutex_lock(&log->mutex);
    while (log->open->used + length > GROUP && log->error == 0)
        pthread_cond_wait(&log->durable, &log->mutex);
    if (log->error == 0) {
        group = log->open;
        RINGCHECK_TAKE("open");
        RINGCHECK_WRITES(group->bytes);
        memcpy(group->bytes + group->used, bytes, length);
        group->used += length;
        group->last = number = ++log->given;
        RINGCHECK_PUT("open");
        pthread_cond_signal(&log->filled);
        while (log->synced < number && log->error == 0)
            pthread_cond_wait(&log->durable, &log->mutex);
    }
    error = log->error;
    pthread_mutex_unlock(&log->mutex);
    return error;
}

struct writer {
    char name[16];
    pthread_t thread;
    int records;
};

static void *write_records(void *arg)
{
    struct writer *writer = (struct writer *)arg;
    char record[RECORD];
    int i;

    RINGCHECK_THREAD(writer->name);
    for (i = 0; i < writer->records; i++) {
        memset(record, 'a' + i % 26, sizeof record);
        if (append(&the_log, record, sizeof record / 4 + (size_t)(i * 37) % (sizeof record * 3 / 4)) != 0)
            break;
    }
    pthread_mutex_lock(&the_log.mutex);
    the_log.writers--;
    pthread_cond_signal(&the_log.filled);
    pthread_mutex_unlock(&the_log.mutex);
    return NULL;
}

/* ---- The committer ---- */

/* Submits what is queued, and waits for the one completion that comes of it. */
static int result_of(struct log *log)
{
    struct io_uring_cqe *cqe;
    int result;

    do
        result = io_uring_submit_and_wait(&log->ring, 1);
    while (result == -EINTR || result == -EAGAIN || result == -EBUSY || (result >= 0 && io_uring_sq_ready(&log->ring) > 0));
    if (result < 0)
        die("io_uring_submit_and_wait", -result);
    while ((result = io_uring_wait_cqe(&log->ring, &cqe)) == -EINTR)
        ;
    if (result < 0)
        die("io_uring_wait_cqe", -result);
    result = cqe->res;
    io_uring_cqe_seen(&log->ring, cqe);
    return result;
}

static struct io_uring_sqe *next_entry(struct log *log)
{
    struct io_uring_sqe *sqe = io_uring_get_sqe(&log->ring);

    if (sqe == NULL)
        die("the ring is full", EBUSY);
    return sqe;
}

static int commit(struct log *log, struct group *group)
{
    struct io_uring_sqe *sqe = next_entry(log);
    int result;

    io_uring_prep_write(sqe, log->file, group->bytes, (unsigned)group->used, (uint64_t)log->end);
    io_uring_sqe_set_data(sqe, group);
    result = result_of(log);
    if (result < 0)
        return -result;
    if ((size_t)result < group->used)
        return ENOSPC;
    log->end += result;

    sqe = next_entry(log);
    io_uring_prep_fsync(sqe, log->file, IORING_FSYNC_DATASYNC);
    io_uring_sqe_set_data64(sqe, SYNC);
    return -result_of(log);
}

/* Waits for a group with records, and opens the other one in its place. NULL: no writer will append any more. */
static struct group *close_group(struct log *log)
{
    struct group *group = NULL;

    pthread_mutex_lock(&log->mutex);
    while (log->open->used == 0 && log->writers > 0)
        pthread_cond_wait(&log->filled, &log->mutex);
    if (log->open->used > 0) {
        group = log->open;
        RINGCHECK_TAKE("open");
        log->open = group == &log->groups[0] ? &log->groups[1] : &log->groups[0];
        RINGCHECK_PUT("open");
        pthread_cond_broadcast(&log->durable);
    }
    pthread_mutex_unlock(&log->mutex);
    return group;
}

static void *commit_groups(void *arg)
{
    struct log *log = (struct log *)arg;
    struct group *group;
    int error = 0;

    RINGCHECK_THREAD("committer");
    while (error == 0 && (group = close_group(log)) != NULL) {
        error = commit(log, group);
        pthread_mutex_lock(&log->mutex);
        if (error == 0) {
            log->synced = group->last;
            group->used = 0;
        } else {
            log->error = error; /* what is durable now, nobody knows */
        }
        pthread_cond_broadcast(&log->durable);
        pthread_mutex_unlock(&log->mutex);
    }
    if (error != 0)
        RINGCHECK_ENDS();
    return NULL;
}

static void open_log(struct log *log, const char *path)
{
    struct stat is;
    int error;

    log->file = open(path, O_WRONLY | O_CREAT | O_CLOEXEC, 0666);
    if (log->file < 0 || fstat(log->file, &is) != 0)
        die(path, errno);
    log->end = is.st_size;
    log->writers = WRITERS;
    error = io_uring_queue_init(ENTRIES, &log->ring, 0);
    if (error < 0)
        die("io_uring_queue_init", -error);
    RINGCHECK_RING(&log->ring, NULL);
    RINGCHECK_FILE(log->file, 3);
    RINGCHECK_BUFFER(log->groups[0].bytes, GROUP, "group1");
    RINGCHECK_BUFFER(log->groups[1].bytes, GROUP, "group2");
    RINGCHECK_TOKEN(&log->groups[0], 1);
    RINGCHECK_TOKEN(&log->groups[1], 2);
    RINGCHECK_THREAD("committer"); /* main does what the model's committer does first */
    RINGCHECK_PUT("open");
    log->open = &log->groups[0];
}

int main(int argc, char **argv)
{
    static struct writer writers[WRITERS];
    pthread_t committer;
    int i;

    if (argc < 2) {
        fprintf(stderr, "usage: group_commit FILE [RECORDS]\n");
        return 2;
    }
    open_log(&the_log, argv[1]);
    pthread_create(&committer, NULL, commit_groups, &the_log);
    for (i = 0; i < WRITERS; i++) {
        snprintf(writers[i].name, sizeof writers[i].name, "writer%d", i + 1);
        writers[i].records = argc > 2 ? atoi(argv[2]) : 50;
        pthread_create(&writers[i].thread, NULL, write_records, &writers[i]);
    }
    for (i = 0; i < WRITERS; i++)
        pthread_join(writers[i].thread, NULL);
    pthread_join(committer, NULL);
    io_uring_queue_exit(&the_log.ring);
    if (the_log.error != 0)
        fprintf(stderr, "group_commit: %s\n", strerror(the_log.error));
    return the_log.error != 0;
}
