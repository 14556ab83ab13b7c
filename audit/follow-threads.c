/* Eight threads that write into one log at once: each submits and reaps under the mutex, and makes marks outside of it.
   usage: follow-threads ROUNDS. audit/follow looks at the log, also at one that is full, and at one of a killed run. */
#define _GNU_SOURCE
#include <liburing.h>
#include <pthread.h>
#include <stdio.h>
#include <stdlib.h>
#include "ringcheck.h"

enum { THREADS = 8 };

struct worker {
    pthread_t thread;
    char name[16];
    char page[64];
};

static struct io_uring ring;
static pthread_mutex_t mutex = PTHREAD_MUTEX_INITIALIZER;
static struct worker workers[THREADS];
static int rounds;

static void *work(void *arg)
{
    struct worker *worker = (struct worker *)arg;
    int i;

    RINGCHECK_THREAD(worker->name);
    for (i = 0; i < rounds; i++) {
        struct io_uring_cqe *cqe;
        struct io_uring_sqe *sqe;

        RINGCHECK_WRITES(worker->page);
        pthread_mutex_lock(&mutex);
        sqe = io_uring_get_sqe(&ring);
        io_uring_prep_nop(sqe);
        io_uring_sqe_set_data64(sqe, (unsigned)i);
        if (io_uring_submit(&ring) != 1 || io_uring_wait_cqe(&ring, &cqe) != 0)
            exit(2);
        io_uring_cqe_seen(&ring, cqe);
        pthread_mutex_unlock(&mutex);
        RINGCHECK_READS(worker->page);
    }
    return NULL;
}

int main(int argc, char **argv)
{
    int i;

    rounds = argc > 1 ? atoi(argv[1]) : 1000;
    if (io_uring_queue_init(2, &ring, 0) < 0)
        return 2;
    RINGCHECK_RING(&ring, &mutex);
    for (i = 0; i < THREADS; i++) {
        snprintf(workers[i].name, sizeof workers[i].name, "worker%d", i);
        RINGCHECK_BUFFER(workers[i].page, sizeof workers[i].page, workers[i].name);
        pthread_create(&workers[i].thread, NULL, work, &workers[i]);
    }
    for (i = 0; i < THREADS; i++)
        pthread_join(workers[i].thread, NULL);
    return 0;
}
