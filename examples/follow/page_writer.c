/*
 * Submitters and a reaper. Clients fill pages and submit their writes, under a mutex for submitting. One thread reaps, in
 * batches and without a mutex, and gives the pages back to the list of free ones, which has a mutex of its own.
 *
 * usage: page_writer FILE [PAGES]
 */
#define _GNU_SOURCE
#include <errno.h>
#include <fcntl.h>
#include <liburing.h>
#include <pthread.h>
#include <stdbool.h>
#include <stdint.h>
#include <stdio.h>
#include <stdlib.h>
#include <string.h>
#include <sys/stat.h>
#include <unistd.h>
#include "ringcheck.h"

enum { CLIENTS = 2, PAGES = 2, PAGE = 4096, ENTRIES = 4, STOP = 9 };

struct page {
    unsigned char *bytes;
    struct page *next;
};

struct free_list {
    pthread_mutex_t mutex;
    pthread_cond_t given;
    struct page *first;
};

static struct io_uring ring;
static pthread_mutex_t submit_lock = PTHREAD_MUTEX_INITIALIZER; /* also of `end` */
static struct free_list free_pages = {PTHREAD_MUTEX_INITIALIZER, PTHREAD_COND_INITIALIZER, NULL};
static struct page pages[PAGES];
static int file, count = 100, failed;
static off_t end;

static void die(const char *what, int error)
{
    fprintf(stderr, "page_writer: %s: %s\n", what, strerror(error));
    exit(2);
}

static void give_page(struct page *page)
{
    pthread_mutex_lock(&free_pages.mutex);
    RINGCHECK_PUT("free");
    page->next = free_pages.first;
    free_pages.first = page;
    pthread_cond_signal(&free_pages.given);
    pthread_mutex_unlock(&free_pages.mutex);
}

static struct page *take_page(void)
{
    struct page *page;

    pthread_mutex_lock(&free_pages.mutex);
    while (free_pages.first == NULL)
        pthread_cond_wait(&free_pages.given, &free_pages.mutex);
    page = free_pages.first;
    free_pages.first = page->next;
    RINGCHECK_TAKE("free");
    pthread_mutex_unlock(&free_pages.mutex);
    return page;
}

/* The caller has `submit_lock`. */
static struct io_uring_sqe *next_entry(void)
{
    struct io_uring_sqe *sqe = io_uring_get_sqe(&ring);

    if (sqe == NULL)
        die("the ring is full", EBUSY);
    return sqe;
}

/* The caller has `submit_lock`. */
static void submit_all(void)
{
    while (io_uring_sq_ready(&ring) > 0) {
        const int answer = io_uring_submit(&ring);

        if (answer < 0 && answer != -EINTR && answer != -EAGAIN && answer != -EBUSY)
            die("io_uring_submit", -answer);
    }
}

static void write_page(struct page *page, int number)
{
    struct io_uring_sqe *sqe;

    RINGCHECK_WRITES(page->bytes);
    memset(page->bytes, number, PAGE);
    pthread_mutex_lock(&submit_lock);
    sqe = next_entry();
    io_uring_prep_write(sqe, file, page->bytes, PAGE, (uint64_t)end);
    io_uring_sqe_set_data(sqe, page);
    end += PAGE;
    submit_all();
    pthread_mutex_unlock(&submit_lock);
}

struct client {
    char name[16];
    pthread_t thread;
};

static void *write_pages(void *arg)
{
    const struct client *client = (const struct client *)arg;
    int i;

    RINGCHECK_THREAD(client->name);
    for (i = 0; i < count; i++)
        write_page(take_page(), i);
    return NULL;
}

/* Answers false where the last completion was to stop. */
static bool reaped(const struct io_uring_cqe *cqe)
{
    if (io_uring_cqe_get_data64(cqe) == STOP)
        return false;
    if (cqe->res != PAGE)
        failed++;
    give_page((struct page *)io_uring_cqe_get_data(cqe));
    return true;
}

static void *reap(void *arg)
{
    bool goes_on = true;

    (void)arg;
    RINGCHECK_THREAD("reaper");
    RINGCHECK_REAPER();
    while (goes_on) {
        struct io_uring_cqe *cqe;
        unsigned head, seen = 0;
        const int answer = io_uring_wait_cqe(&ring, &cqe);

        if (answer == -EINTR)
            continue;
        if (answer < 0)
            die("io_uring_wait_cqe", -answer);
        io_uring_for_each_cqe(&ring, head, cqe) {
            goes_on = reaped(cqe) && goes_on;
            seen++;
        }
        io_uring_cq_advance(&ring, seen);
    }
    RINGCHECK_ENDS();
    return NULL;
}

static void stop_reaper(void)
{
    struct io_uring_sqe *sqe;

    pthread_mutex_lock(&submit_lock);
    sqe = next_entry();
    io_uring_prep_nop(sqe);
    io_uring_sqe_set_data64(sqe, STOP);
    submit_all();
    pthread_mutex_unlock(&submit_lock);
}

static void begin(const char *path)
{
    static char names[PAGES][16];
    struct stat is;
    int i, error;

    file = open(path, O_WRONLY | O_CREAT | O_CLOEXEC, 0666);
    if (file < 0 || fstat(file, &is) != 0)
        die(path, errno);
    end = is.st_size;
    error = io_uring_queue_init(ENTRIES, &ring, 0);
    if (error < 0)
        die("io_uring_queue_init", -error);
    RINGCHECK_RING_SIDES(&ring, &submit_lock, NULL);
    RINGCHECK_FILE(file, 3);
    RINGCHECK_THREAD("client1"); /* main does what the model's client1 does first */
    for (i = 0; i < PAGES; i++) {
        pages[i].bytes = (unsigned char *)aligned_alloc(PAGE, PAGE);
        if (pages[i].bytes == NULL)
            die("a page", ENOMEM);
        snprintf(names[i], sizeof names[i], "page%d", i + 1);
        RINGCHECK_BUFFER(pages[i].bytes, PAGE, names[i]);
        RINGCHECK_TOKEN(&pages[i], i + 1);
        give_page(&pages[i]);
    }
    RINGCHECK_THREAD("main");
}

int main(int argc, char **argv)
{
    static struct client clients[CLIENTS];
    pthread_t reaper;
    int i;

    if (argc < 2) {
        fprintf(stderr, "usage: page_writer FILE [PAGES]\n");
        return 2;
    }
    if (argc > 2)
        count = atoi(argv[2]);
    begin(argv[1]);
    pthread_create(&reaper, NULL, reap, NULL);
    for (i = 0; i < CLIENTS; i++) {
        snprintf(clients[i].name, sizeof clients[i].name, "client%d", i + 1);
        pthread_create(&clients[i].thread, NULL, write_pages, &clients[i]);
    }
    for (i = 0; i < CLIENTS; i++)
        pthread_join(clients[i].thread, NULL);
    for (i = 0; i < PAGES; i++) /* all pages are free: nothing is in flight */
        take_page();
    stop_reaper();
    pthread_join(reaper, NULL);
    io_uring_queue_exit(&ring);
    if (failed > 0)
        fprintf(stderr, "page_writer: %d of %d writes failed\n", failed, CLIENTS * count);
    return failed > 0;
}
