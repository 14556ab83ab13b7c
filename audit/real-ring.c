/* Makes short submits, refused ones and late completions, which a kernel seldom gives by itself. Linked into the programs
   of real-ring by --wrap=io_uring_submit and --wrap=io_uring_submit_and_wait. Every answer is the kernel's.

   SUBMITS=SEED: of the queued entries a submit asks the kernel to take some number, or asks in a way that the kernel
   refuses, and it doesn't wait. WORKERS=SEED: some requests are served by the kernel's workers (IOSQE_ASYNC). */
#define _GNU_SOURCE
#include <liburing.h>
#include <stdlib.h>

int __real_io_uring_submit(struct io_uring *ring);
int __real_io_uring_submit_and_wait(struct io_uring *ring, unsigned count);
int __wrap_io_uring_submit(struct io_uring *ring);
int __wrap_io_uring_submit_and_wait(struct io_uring *ring, unsigned count);

/* Only the holder of the program's lock gets here. */
static unsigned submits;
static unsigned workers;

static unsigned seed_of(const char *name)
{
    const char *word = getenv(name);

    return word == NULL ? 0 : (unsigned)strtoul(word, NULL, 10);
}

/* The next of a row of numbers that seldom repeats. */
static unsigned next_of(unsigned *state)
{
    *state = *state * 1103515245u + 12345u;
    return *state >> 16;
}

__attribute__((constructor)) static void begin(void)
{
    submits = seed_of("SUBMITS");
    workers = seed_of("WORKERS");
}

static void give_to_workers(struct io_uring *ring)
{
    unsigned mask = *ring->sq.kring_mask;
    unsigned at;

    for (at = *ring->sq.khead; at != ring->sq.sqe_tail; at++)
        if (next_of(&workers) & 1)
            ring->sq.sqes[at & mask].flags |= IOSQE_ASYNC;
}

/* Lets the kernel see the queued entries, as the library does. */
static unsigned show_queue(struct io_uring *ring)
{
    unsigned mask = *ring->sq.kring_mask;
    unsigned head = *ring->sq.khead;
    unsigned at;

    for (at = head; at != ring->sq.sqe_tail && ring->sq.array != NULL; at++)
        ring->sq.array[at & mask] = at & mask;
    ring->sq.sqe_head = ring->sq.sqe_tail;
    io_uring_smp_store_release(ring->sq.ktail, ring->sq.sqe_tail);
    return ring->sq.sqe_tail - head;
}

static int submit_some(struct io_uring *ring)
{
    unsigned queued = show_queue(ring);
    unsigned choice = next_of(&submits);

    if (choice % 8 == 0)
        return io_uring_enter(ring->ring_fd, queued, 0, 1u << 31, NULL);
    return io_uring_enter(ring->ring_fd, next_of(&submits) % (queued + 1), 0, 0, NULL);
}

int __wrap_io_uring_submit(struct io_uring *ring)
{
    if (workers != 0)
        give_to_workers(ring);
    return submits != 0 ? submit_some(ring) : __real_io_uring_submit(ring);
}

int __wrap_io_uring_submit_and_wait(struct io_uring *ring, unsigned count)
{
    if (workers != 0)
        give_to_workers(ring);
    return submits != 0 ? submit_some(ring) : __real_io_uring_submit_and_wait(ring, count);
}
