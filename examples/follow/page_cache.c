/*
 * A cache of pages with fewer frames than workers. One mutex guards the frames and all calls on the ring. Who waits, for
 * a free frame or for a page, reaps what comes, also for others. Each worker has its next page read while it sums one.
 *
 * usage: page_cache FILE [READS]
 */
#define _GNU_SOURCE
#include <errno.h>
#include <fcntl.h>
#include <liburing.h>
#include <pthread.h>
#include <stdint.h>
#include <stdio.h>
#include <stdlib.h>
#include <string.h>
#include <sys/stat.h>
#include <unistd.h>
#include "ringcheck.h"

enum { WORKERS = 3, FRAMES = 2, PAGE = 512, ENTRIES = 2 };

struct frame {
    unsigned char bytes[PAGE];
    enum { FREE, LOADING, LOADED } state;
    int result; /* of its read */
};

struct cache {
    struct io_uring ring;
    pthread_mutex_t mutex;
    pthread_cond_t freed;
    struct frame frames[FRAMES];
    int file, in_flight;
    unsigned pages, hand; /* the next frame that is looked at */
};

static struct cache the_cache = {.mutex = PTHREAD_MUTEX_INITIALIZER, .freed = PTHREAD_COND_INITIALIZER};

static void die(const char *what, int error)
{
    fprintf(stderr, "page_cache: %s: %s\n", what, strerror(error));
    exit(2);
}

/* All that follow, up to start, are called with the mutex locked. */

static void free_frame(struct cache *cache, struct frame *frame)
{
    RINGCHECK_PUT("free", frame->bytes);
    frame->state = FREE;
    pthread_cond_signal(&cache->freed);
}

static void reap_one(struct cache *cache)
{
    struct io_uring_cqe *cqe;
    struct frame *frame;
    int answer, result;

    while ((answer = io_uring_wait_cqe(&cache->ring, &cqe)) == -EINTR)
        ;
    if (answer < 0)
        die("io_uring_wait_cqe", -answer);
    frame = (struct frame *)io_uring_cqe_get_data(cqe);
    result = cqe->res;
    io_uring_cqe_seen(&cache->ring, cqe);
    cache->in_flight--;
    RINGCHECK_PUT("loaded", frame->bytes);
    frame->result = result;
    frame->state = LOADED;
}

/* The next free frame, in turn. NULL: there is none. */
static struct frame *next_free(struct cache *cache)
{
    int i;

    for (i = 0; i < FRAMES; i++) {
        struct frame *frame = &cache->frames[cache->hand];

        cache->hand = (cache->hand + 1) % FRAMES;
        if (frame->state == FREE)
            return frame;
    }
    return NULL;
}

static struct frame *take_frame(struct cache *cache)
{
    struct frame *frame;

    while ((frame = next_free(cache)) == NULL)
        if (cache->in_flight > 0)
            reap_one(cache);
        else
            pthread_cond_wait(&cache->freed, &cache->mutex);
    RINGCHECK_TAKE("free", frame->bytes);
    frame->state = LOADING;
    return frame;
}

static void start_read(struct cache *cache, struct frame *frame, unsigned page)
{
    struct io_uring_sqe *sqe = io_uring_get_sqe(&cache->ring);
    int answer;

    if (sqe == NULL)
        die("the ring is full", EBUSY);
    io_uring_prep_read(sqe, cache->file, frame->bytes, PAGE, (uint64_t)page * PAGE);
    sqe->user_data = (uint64_t)(uintptr_t)frame;
    cache->in_flight++;
    do
        answer = io_uring_submit(&cache->ring);
    while (answer == 0 || answer == -EINTR || answer == -EAGAIN || answer == -EBUSY);
    if (answer < 0)
        die("io_uring_submit", -answer);
}

static void wait_for(struct cache *cache, struct frame *frame)
{
    while (frame->state != LOADED)
        reap_one(cache);
    RINGCHECK_TAKE("loaded", frame->bytes);
}

/* Has a page read. */
static struct frame *start(struct cache *cache, unsigned page)
{
    struct frame *frame;

    pthread_mutex_lock(&cache->mutex);
    frame = take_frame(cache);
    start_read(cache, frame, page);
    pthread_mutex_unlock(&cache->mutex);
    return frame;
}

/* Copies the page, and frees its frame. Answers how much was read, or a negative errno. */
static int finish(struct cache *cache, struct frame *frame, unsigned char *bytes)
{
    int result;

    pthread_mutex_lock(&cache->mutex);
    wait_for(cache, frame);
    pthread_mutex_unlock(&cache->mutex);
    result = frame->result;
    if (result > 0) {
        RINGCHECK_READS(frame->bytes);
        memcpy(bytes, frame->bytes, (size_t)result);
    }
    pthread_mutex_lock(&cache->mutex);
    free_frame(cache, frame);
    pthread_mutex_unlock(&cache->mutex);
    return result;
}

struct worker {
    char name[16];
    pthread_t thread;
    unsigned seed;
    int reads, failed;
    unsigned long sum;
};

static void *read_pages(void *arg)
{
    struct worker *worker = (struct worker *)arg;
    struct frame *frame;
    unsigned char bytes[PAGE];
    int i, at, result;

    RINGCHECK_THREAD(worker->name);
    frame = start(&the_cache, (unsigned)rand_r(&worker->seed) % the_cache.pages);
    for (i = 1; i <= worker->reads; i++) {
        result = finish(&the_cache, frame, bytes);
        if (i < worker->reads)
            frame = start(&the_cache, (unsigned)rand_r(&worker->seed) % the_cache.pages);
        if (result < PAGE)
            worker->failed++;
        for (at = 0; at < result; at++)
            worker->sum += bytes[at];
    }
    return NULL;
}

static void open_cache(struct cache *cache, const char *path)
{
    static char names[FRAMES][16];
    struct stat is;
    int i, error;

    cache->file = open(path, O_RDONLY | O_CLOEXEC);
    if (cache->file < 0 || fstat(cache->file, &is) != 0)
        die(path, errno);
    cache->pages = (unsigned)(is.st_size / PAGE) + 1;
    error = io_uring_queue_init(ENTRIES, &cache->ring, 0);
    if (error < 0)
        die("io_uring_queue_init", -error);
    RINGCHECK_RING(&cache->ring, &cache->mutex);
    RINGCHECK_FILE(cache->file, 3);
    RINGCHECK_THREAD("worker1"); /* main does what the model's worker1 does first */
    for (i = 0; i < FRAMES; i++) {
        snprintf(names[i], sizeof names[i], "frame%d", i + 1);
        RINGCHECK_BUFFER(cache->frames[i].bytes, PAGE, names[i]);
        RINGCHECK_TOKEN(&cache->frames[i], i + 1);
        free_frame(cache, &cache->frames[i]);
    }
}

int main(int argc, char **argv)
{
    static struct worker workers[WORKERS];
    int i, failed = 0;

    if (argc < 2) {
        fprintf(stderr, "usage: page_cache FILE [READS]\n");
        return 2;
    }
    open_cache(&the_cache, argv[1]);
    for (i = 0; i < WORKERS; i++) {
        snprintf(workers[i].name, sizeof workers[i].name, "worker%d", i + 1);
        workers[i].seed = (unsigned)i;
        workers[i].reads = argc > 2 ? atoi(argv[2]) : 50;
        pthread_create(&workers[i].thread, NULL, read_pages, &workers[i]);
    }
    for (i = 0; i < WORKERS; i++) {
        pthread_join(workers[i].thread, NULL);
        failed += workers[i].failed;
    }
    io_uring_queue_exit(&the_cache.ring);
    if (failed > 0)
        fprintf(stderr, "page_cache: %d reads failed\n", failed);
    return failed > 0;
}
