/*
 * A server's loop: one thread accepts connections, receives a line from each, answers it, and has a timeout out all the
 * time, as a tick. A connection of which nothing came since the last tick is cancelled, and closed once its request has
 * come back. Two threads stand for the clients.
 *
 * usage: server [CLIENTS [SEED]]: the server stops when so many have gone.
 */
#define _GNU_SOURCE
#include <ctype.h>
#include <errno.h>
#include <liburing.h>
#include <pthread.h>
#include <stdint.h>
#include <stdio.h>
#include <stdlib.h>
#include <string.h>
#include <sys/socket.h>
#include <sys/un.h>
#include <unistd.h>
#include "ringcheck.h"

enum { CONNECTIONS = 2, ENTRIES = 8, BYTES = 512, THREADS = 2 };
enum { ACCEPT = 1, TICK, CANCEL, CONNECTION }; /* user data; that of a connection is its address */

struct connection {
    enum { FREE, RECEIVES, SENDS } state;
    int socket;
    int is_out, is_silent;
    size_t length, sent; /* of the line, and of its answer */
    char bytes[BYTES];
};

struct server {
    struct io_uring ring;
    int listener;
    struct __kernel_timespec tick;
    int accepts, ticks, cancels; /* whether such a request is out */
    unsigned long left;          /* clients that haven't gone */
    struct connection connections[CONNECTIONS];
};

static void die(const char *what, int error)
{
    fprintf(stderr, "server: %s: %s\n", what, strerror(error));
    exit(2);
}

static struct io_uring_sqe *next_entry(struct server *server)
{
    struct io_uring_sqe *sqe = io_uring_get_sqe(&server->ring);

    if (sqe == NULL)
        die("the ring is full", EBUSY);
    return sqe;
}

static void receive(struct server *server, struct connection *connection)
{
    struct io_uring_sqe *sqe;

    RINGCHECK_TAKE("open", connection->bytes);
    sqe = next_entry(server);
    io_uring_prep_recv(sqe, connection->socket, connection->bytes + connection->length, BYTES - connection->length, 0);
    io_uring_sqe_set_data(sqe, connection);
    connection->is_out = 1;
}

static void answer(struct server *server, struct connection *connection)
{
    struct io_uring_sqe *sqe;

    RINGCHECK_TAKE("full", connection->bytes);
    sqe = next_entry(server);
    io_uring_prep_send(sqe, connection->socket, connection->bytes + connection->sent,
                       connection->length - connection->sent, MSG_NOSIGNAL);
    io_uring_sqe_set_data(sqe, connection);
    connection->is_out = 1;
}

/* Queues what isn't out. */
static void queue(struct server *server)
{
    struct io_uring_sqe *sqe;
    int is_room = 0;

    for (int i = 0; i < CONNECTIONS; i++) {
        struct connection *connection = &server->connections[i];

        if (connection->state == FREE)
            is_room = 1;
        else if (!connection->is_out && connection->state == RECEIVES)
            receive(server, connection);
        else if (!connection->is_out)
            answer(server, connection);
    }
    if (is_room && !server->accepts) {
        sqe = next_entry(server);
        io_uring_prep_accept(sqe, server->listener, NULL, NULL, SOCK_CLOEXEC);
        io_uring_sqe_set_data64(sqe, ACCEPT);
        server->accepts = 1;
    }
    if (!server->ticks) {
        sqe = next_entry(server);
        io_uring_prep_timeout(sqe, &server->tick, 0, 0);
        io_uring_sqe_set_data64(sqe, TICK);
        server->ticks = 1;
    }
}

static void accepted(struct server *server, int result)
{
    server->accepts = 0;
    if (result < 0)
        return;
    for (int i = 0; i < CONNECTIONS; i++) {
        struct connection *connection = &server->connections[i];

        if (connection->state != FREE)
            continue;
        RINGCHECK_TAKE("free", connection->bytes);
        RINGCHECK_FILE(result, 4);
        connection->socket = result;
        connection->length = connection->sent = 0;
        connection->is_silent = 0;
        RINGCHECK_PUT("open", connection->bytes);
        connection->state = RECEIVES;
        return;
    }
}

/* What is cancelled comes back by itself, whatever the cancel answers: until then it has the connection. */
static void ticked(struct server *server)
{
    server->ticks = 0;
    for (int i = 0; i < CONNECTIONS; i++) {
        struct connection *connection = &server->connections[i];
        struct io_uring_sqe *sqe;

        if (connection->state == FREE || !connection->is_out)
            continue;
        if (connection->is_silent && !server->cancels) {
            sqe = next_entry(server);
            io_uring_prep_cancel(sqe, connection, 0);
            io_uring_sqe_set_data64(sqe, CANCEL);
            server->cancels = 1;
        }
        connection->is_silent = 1;
    }
}

static void shut(struct server *server, struct connection *connection)
{
    RINGCHECK_WRITES(connection->bytes);
    memset(connection->bytes, 0, BYTES);
    close(connection->socket);
    RINGCHECK_PUT("free", connection->bytes);
    connection->state = FREE;
    server->left--;
}

/* A line that is whole is answered in capitals. */
static void received(struct connection *connection, size_t count)
{
    const char *line = connection->bytes;

    RINGCHECK_READS(line);
    connection->length += count;
    if (line[connection->length - 1] != '\n' && connection->length < BYTES) {
        RINGCHECK_PUT("open", line);
        return;
    }
    RINGCHECK_WRITES(line);
    for (size_t i = 0; i < connection->length; i++)
        connection->bytes[i] = (char)toupper((unsigned char)line[i]);
    connection->sent = 0;
    RINGCHECK_PUT("full", line);
    connection->state = SENDS;
}

static void was_sent(struct connection *connection, size_t count)
{
    connection->sent += count;
    if (connection->sent < connection->length) {
        RINGCHECK_PUT("full", connection->bytes);
        return;
    }
    connection->length = 0;
    RINGCHECK_PUT("open", connection->bytes);
    connection->state = RECEIVES;
}

/* A client that has gone, an error and a cancel end a connection. */
static void moved(struct server *server, struct connection *connection, int result)
{
    connection->is_out = connection->is_silent = 0;
    if (result <= 0)
        shut(server, connection);
    else if (connection->state == RECEIVES)
        received(connection, (size_t)result);
    else
        was_sent(connection, (size_t)result);
}

static void completed(struct server *server, uint64_t data, int result)
{
    switch (data) {
    case ACCEPT:
        accepted(server, result);
        break;
    case TICK:
        ticked(server);
        break;
    case CANCEL:
        server->cancels = 0;
        break;
    default:
        moved(server, (struct connection *)(uintptr_t)data, result);
    }
}

/* An accept, a timeout and a cancel may be out at the end: they have no buffer. */
static void serve(struct server *server)
{
    while (server->left > 0) {
        struct io_uring_cqe *cqe;
        int result;

        queue(server);
        result = io_uring_submit_and_wait(&server->ring, 1);
        if (result < 0 && result != -EINTR && result != -EAGAIN && result != -EBUSY)
            die("io_uring_submit_and_wait", -result);
        while (io_uring_peek_cqe(&server->ring, &cqe) == 0) {
            const uint64_t data = io_uring_cqe_get_data64(cqe);

            result = cqe->res;
            io_uring_cqe_seen(&server->ring, cqe);
            completed(server, data, result);
        }
    }
}

struct clients {
    struct sockaddr_un address;
    socklen_t size;
    unsigned long count;
    unsigned seed;
};

/* Says a line, in two parts at times, and waits for its answer. Answers whether it came. */
static int says_line(int client, unsigned *seed)
{
    char line[300], answer[sizeof line];
    const size_t length = 2 + (size_t)rand_r(seed) % (sizeof line - 2), part = (size_t)rand_r(seed) % length;

    memset(line, 'a' + rand_r(seed) % 26, length - 1);
    line[length - 1] = '\n';
    if (part > 0 && send(client, line, part, MSG_NOSIGNAL) != (ssize_t)part)
        return 0;
    if (rand_r(seed) % 4 == 0)
        usleep(1000);
    if (send(client, line + part, length - part, MSG_NOSIGNAL) != (ssize_t)(length - part))
        return 0;
    if (recv(client, answer, length, MSG_WAITALL) != (ssize_t)length)
        return 0;
    for (size_t i = 0; i < length; i++)
        if (answer[i] != toupper((unsigned char)line[i]))
            die("a client got a wrong answer", EBADMSG);
    return 1;
}

/* Some go in the middle of a line, and some say nothing more until they are shut out. */
static void *be_clients(void *arg)
{
    struct clients *clients = arg;

    while (clients->count-- > 0) {
        const int client = socket(AF_UNIX, SOCK_STREAM | SOCK_CLOEXEC, 0);
        char byte;

        if (client < 0 || connect(client, (const struct sockaddr *)&clients->address, clients->size) != 0)
            die("a client", errno);
        for (int lines = rand_r(&clients->seed) % 4; lines > 0 && says_line(client, &clients->seed); lines--)
            ;
        if (rand_r(&clients->seed) % 3 == 0)
            (void)!send(client, "half a line", 11, MSG_NOSIGNAL);
        if (rand_r(&clients->seed) % 3 == 0)
            (void)!recv(client, &byte, 1, 0);
        close(client);
    }
    return NULL;
}

/* The kernel chooses a name. */
static int listens(struct clients *clients)
{
    const int listener = socket(AF_UNIX, SOCK_STREAM | SOCK_CLOEXEC, 0);

    clients->address.sun_family = AF_UNIX;
    if (listener < 0 || bind(listener, (const struct sockaddr *)&clients->address, sizeof(sa_family_t)) != 0)
        die("bind", errno);
    clients->size = sizeof clients->address;
    if (getsockname(listener, (struct sockaddr *)&clients->address, &clients->size) != 0 || listen(listener, 8) != 0)
        die("listen", errno);
    return listener;
}

int main(int count, char **words)
{
    static const char *const names[] = {"conn1", "conn2"};
    static struct server server;
    struct clients clients[THREADS] = {{.count = 0}};
    const unsigned seed = count > 2 ? (unsigned)atoi(words[2]) : 1;
    pthread_t threads[THREADS];
    int result;

    server.left = count > 1 ? strtoul(words[1], NULL, 10) : 20;
    server.tick.tv_nsec = 3000000;
    server.listener = listens(&clients[0]);
    result = io_uring_queue_init(ENTRIES, &server.ring, 0);
    if (result < 0)
        die("io_uring_queue_init", -result);
    RINGCHECK_RING(&server.ring, NULL);
    RINGCHECK_THREAD("server");
    for (int i = 0; i < CONNECTIONS; i++) {
        RINGCHECK_TOKEN(&server.connections[i], CONNECTION + i);
        RINGCHECK_BUFFER(server.connections[i].bytes, BYTES, names[i]);
    }
    for (unsigned i = 0; i < THREADS; i++) {
        clients[i] = clients[0];
        clients[i].count = (server.left + i) / THREADS;
        clients[i].seed = seed * THREADS + i;
        pthread_create(&threads[i], NULL, be_clients, &clients[i]);
    }
    serve(&server);
    io_uring_queue_exit(&server.ring);
    close(server.listener);
    for (int i = 0; i < THREADS; i++)
        pthread_join(threads[i], NULL);
    return 0;
}
