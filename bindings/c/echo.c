/* An echo server with many connections on 127.0.0.1, and the clients that call it: over the pool, or over malloc and free.
 *
 *     echo HEAP CONNECTIONS REQUESTS        HEAP is pool, any or malloc; up to 800 connections, with so many requests on each
 *
 * Eight threads read what the connections send into buffers, and eight others send it back and let the buffers go: so each buffer goes
 * from one thread to another. With `pool` each of the 16 has a lane; with `any`, which libpardz alone has, they have nothing of the pool,
 * which grows. A thread ends after some turns and starts its successor, which goes on with its lane. A child process has the clients: each sends a request of 64 to 4,000 bytes, waits for all of it to come back, and sends the next.
 *
 * It prints the requests, how many there were a second, the microseconds that half of them and 99 of 100 took at most, and of the server's
 * process the microseconds of processor that a request took and the most memory. It stops by itself, after 60 seconds at the latest. */
#define _GNU_SOURCE
#include "pardz.h"

#include <arpa/inet.h>
#include <errno.h>
#include <netinet/in.h>
#include <netinet/tcp.h>
#include <poll.h>
#include <pthread.h>
#include <sched.h>
#include <stdatomic.h>
#include <stdio.h>
#include <stdlib.h>
#include <string.h>
#include <sys/epoll.h>
#include <sys/resource.h>
#include <sys/socket.h>
#include <sys/wait.h>
#include <time.h>
#include <unistd.h>

#define READERS 8
#define WRITERS 8
#define WORKERS (READERS + WRITERS)
#define MOST_CONNECTIONS 800
#define CHUNK 4096
#define LIFE 400 /* turns of a thread */
#define SECONDS 60

static void must(int is_so, const char *what) {
    if (!is_so) {
        perror(what);
        exit(1);
    }
}

/* (The proved library hasn't these.) */
#pragma weak pardz_grow
#pragma weak pardz_any_create
#pragma weak pardz_any_room
#pragma weak pardz_any_wrote
#pragma weak pardz_any_publish
#pragma weak pardz_any_get
#pragma weak pardz_any_release
#pragma weak pardz_any_clear

static void must_pool(uint32_t code, const char *what) {
    if (code != PARDZ_OK) {
        fprintf(stderr, "%s: %s, %s\n", what, pardz_code_name(code), pardz_strerror(code));
        exit(1);
    }
}

/* ---- the server */

/* What is to be sent back: a buffer, by its key or its address. */
struct answer {
    int connection;
    uint64_t buffer;
};

/* What a writer has to send. A connection has at most one answer under way, so that there is room for all. */
struct queue {
    pthread_mutex_t lock;
    pthread_cond_t changed;
    struct answer answers[MOST_CONNECTIONS];
    size_t first, count;
};

/* A thread's work, which its successor goes on with. */
struct worker {
    _Alignas(64) pardz_lane lane;
    uint64_t filling;     /* of a reader: a buffer that it didn't need yet, or 0 */
    pardz_filling unused; /* the same of the pool that any thread calls */
    struct queue queue;
};

static struct worker workers[WORKERS];
static int ready; /* an epoll of the connections */
static atomic_int open_connections;
static pardz_pool pool = PARDZ_EMPTY;

/* Where buffers come from. */
static const struct heap {
    const char *name;
    uint64_t (*read)(struct worker *worker, int connection);
    void (*answer)(struct worker *worker, struct answer answer);
} *heap;

/* How many workers still run. */
static pthread_mutex_t running_lock = PTHREAD_MUTEX_INITIALIZER;
static pthread_cond_t running_changed = PTHREAD_COND_INITIALIZER;
static int running = WORKERS;

/* A buffer of malloc's. */
struct block {
    size_t len;
    uint8_t bytes[CHUNK];
};

/* Reads into a buffer what a connection has, and answers its address; 0 where nothing comes any more. */
static uint64_t read_by_malloc(struct worker *worker, int connection) {
    (void)worker;
    struct block *block = malloc(sizeof *block);
    must(block != NULL, "malloc");
    ssize_t count = read(connection, block->bytes, CHUNK);
    if (count <= 0) {
        free(block);
        return 0;
    }
    block->len = (size_t)count;
    return (uint64_t)(uintptr_t)block;
}

/* The same into a buffer of the pool, published. Where all places of the lane are under way, the writers are waited for. */
static uint64_t read_by_pool(struct worker *worker, int connection) {
    uint64_t key = worker->filling;
    uint8_t *to;
    uint32_t code;
    while (key == 0 && (code = pardz_create(&worker->lane, &key)) != PARDZ_OK) {
        if (code != PARDZ_FULL)
            must_pool(code, "create");
        sched_yield();
    }
    must_pool(pardz_room(&worker->lane, key, CHUNK, &to), "room");
    ssize_t count = read(connection, to, CHUNK);
    worker->filling = count <= 0 ? key : 0;
    if (count <= 0)
        return 0;
    must_pool(pardz_wrote(&worker->lane, key, (size_t)count), "wrote");
    must_pool(pardz_publish(&worker->lane, key), "publish");
    return key;
}

/* The same by any thread. */
static uint64_t read_by_any(struct worker *worker, int connection) {
    pardz_filling *filling = &worker->unused;
    uint8_t *to;
    uint64_t key = 0;
    if (filling->key == 0)
        must_pool(pardz_any_create(&pool, filling), "create");
    must_pool(pardz_any_room(&pool, filling, CHUNK, &to), "room");
    ssize_t count = read(connection, to, CHUNK);
    if (count <= 0)
        return 0;
    must_pool(pardz_any_wrote(&pool, filling, (size_t)count), "wrote");
    must_pool(pardz_any_publish(&pool, filling, &key), "publish");
    return key;
}

/* Sends all of these bytes. */
static void send_all(int connection, const uint8_t *bytes, size_t len) {
    while (len != 0) {
        ssize_t count = send(connection, bytes, len, MSG_NOSIGNAL | MSG_DONTWAIT);
        if (count < 0 && errno == EAGAIN) {
            struct pollfd writable = { .fd = connection, .events = POLLOUT };
            must(poll(&writable, 1, 10000) == 1, "a connection that takes nothing");
            continue;
        }
        must(count > 0, "send");
        bytes += count;
        len -= (size_t)count;
    }
}

static void answer_by_malloc(struct worker *worker, struct answer answer) {
    (void)worker;
    struct block *block = (struct block *)(uintptr_t)answer.buffer;
    send_all(answer.connection, block->bytes, block->len);
    free(block);
}

static void answer_by_pool(struct worker *worker, struct answer answer) {
    const uint8_t *bytes;
    size_t len;
    must_pool(pardz_get(&worker->lane, answer.buffer, &bytes, &len), "get");
    must_pool(pardz_clear(&worker->lane, answer.buffer), "clear");
    send_all(answer.connection, bytes, len);
    must_pool(pardz_release(&worker->lane, answer.buffer), "release");
}

static void answer_by_any(struct worker *worker, struct answer answer) {
    (void)worker;
    pardz_ref ref;
    must_pool(pardz_any_get(&pool, answer.buffer, &ref), "get");
    must_pool(pardz_any_clear(&pool, answer.buffer), "clear");
    send_all(answer.connection, ref.at, ref.len);
    must_pool(pardz_any_release(&pool, &ref), "release");
}

static const struct heap HEAPS[] = {
    { "pool", read_by_pool, answer_by_pool },
    { "any", read_by_any, answer_by_any },
    { "malloc", read_by_malloc, answer_by_malloc },
};

/* The heap of this name, if it is there. */
static const struct heap *heap_of(const char *name) {
    for (size_t i = 0; i < sizeof HEAPS / sizeof *HEAPS; i++)
        if (strcmp(HEAPS[i].name, name) == 0 && (HEAPS[i].read != read_by_any || pardz_grow != NULL))
            return &HEAPS[i];
    return NULL;
}

/* Waits for a connection again: one thread is told, once. */
static void await(int connection, int is_new) {
    struct epoll_event event = { .events = EPOLLIN | EPOLLONESHOT, .data.fd = connection };
    must(epoll_ctl(ready, is_new ? EPOLL_CTL_ADD : EPOLL_CTL_MOD, connection, &event) == 0, "epoll_ctl");
}

/* Hands a buffer to the writer of a connection: one for each connection, so that its bytes stay in order. */
static void hand_over(struct answer answer) {
    struct queue *queue = &workers[READERS + answer.connection % WRITERS].queue;
    pthread_mutex_lock(&queue->lock);
    must(queue->count < MOST_CONNECTIONS, "room in a queue");
    queue->answers[(queue->first + queue->count++) % MOST_CONNECTIONS] = answer;
    pthread_cond_signal(&queue->changed);
    pthread_mutex_unlock(&queue->lock);
}

/* A reader's turn. Answers whether there are connections. */
static int read_one(struct worker *worker) {
    struct epoll_event event;
    int count = epoll_wait(ready, &event, 1, 50);
    must(count >= 0 || errno == EINTR, "epoll_wait");
    if (count == 1) {
        struct answer answer = { event.data.fd, 0 };
        answer.buffer = heap->read(worker, answer.connection);
        if (answer.buffer != 0) {
            hand_over(answer);
        } else {
            close(answer.connection);
            atomic_fetch_sub(&open_connections, 1);
        }
    }
    return atomic_load(&open_connections) != 0;
}

/* A writer's turn. */
static int answer_one(struct worker *worker) {
    struct queue *queue = &worker->queue;
    struct answer answer = { -1, 0 };
    struct timespec until;
    clock_gettime(CLOCK_REALTIME, &until);
    until.tv_sec++;
    pthread_mutex_lock(&queue->lock);
    while (queue->count == 0 && atomic_load(&open_connections) != 0)
        if (pthread_cond_timedwait(&queue->changed, &queue->lock, &until) != 0)
            break;
    if (queue->count != 0) {
        answer = queue->answers[queue->first];
        queue->first = (queue->first + 1) % MOST_CONNECTIONS;
        queue->count--;
    }
    pthread_mutex_unlock(&queue->lock);
    if (answer.connection >= 0) {
        heap->answer(worker, answer);
        await(answer.connection, 0);
    }
    return atomic_load(&open_connections) != 0;
}

static void start(struct worker *worker);

/* Some turns, and then the successor's. */
static void *work(void *at) {
    struct worker *worker = at;
    int (*turn)(struct worker *) = worker < workers + READERS ? read_one : answer_one;
    int turns = 0;
    while (turns < LIFE && turn(worker))
        turns++;
    if (turns == LIFE) {
        start(worker);
        return NULL;
    }
    pthread_mutex_lock(&running_lock);
    running--;
    pthread_cond_signal(&running_changed);
    pthread_mutex_unlock(&running_lock);
    return NULL;
}

static void start(struct worker *worker) {
    pthread_t thread;
    must(pthread_create(&thread, NULL, work, worker) == 0 && pthread_detach(thread) == 0, "pthread_create");
}

/* Takes the clients' connections, tells that it has them, and serves them until all are closed. */
static void serve(int listening, int connections, int tell) {
    const pardz_shape shape = { WORKERS, 64, 2, UINT32_MAX, 1 };
    pardz_lane lanes[WORKERS] = { PARDZ_EMPTY };
    const pardz_limits limits = PARDZ_LIMITS;
    must_pool(pardz_open(&shape, lanes, WORKERS), "open");
    if (pardz_grow != NULL)
        must_pool(pardz_grow(&limits, &pool), "grow");
    must((ready = epoll_create1(0)) >= 0, "epoll_create1");
    atomic_store(&open_connections, connections);
    for (int i = 0; i < WORKERS; i++) {
        workers[i].lane = lanes[i];
        pthread_mutex_init(&workers[i].queue.lock, NULL);
        pthread_cond_init(&workers[i].queue.changed, NULL);
        start(&workers[i]);
    }
    for (int i = 0; i < connections; i++) {
        int connection = accept4(listening, NULL, NULL, SOCK_NONBLOCK), at_once = 1;
        must(connection >= 0, "accept4");
        setsockopt(connection, IPPROTO_TCP, TCP_NODELAY, &at_once, sizeof at_once);
        await(connection, 1);
    }
    must(write(tell, "", 1) == 1, "write to the clients");
    pthread_mutex_lock(&running_lock);
    while (running != 0)
        pthread_cond_wait(&running_changed, &running_lock);
    pthread_mutex_unlock(&running_lock);
    pardz_census census;
    for (int i = 0; i < WORKERS; i++)
        lanes[i] = workers[i].lane;
    must_pool(pardz_close_all(lanes, WORKERS, &census), "close");
    must(census.present == 0 && census.marked == 0 && census.filling <= READERS, "all buffers given back");
    if (pardz_grow != NULL)
        must_pool(pardz_detach(&pool, &census), "detach");
    must(census.present == 0 && census.marked == 0 && census.filling <= READERS, "all buffers given back");
}

/* ---- the clients */

struct client {
    int connection;
    int left;          /* requests */
    size_t sent, came; /* of the request under way */
    size_t size;
    uint64_t begun;
};

/* What the clients tell the server. */
struct figures {
    uint64_t requests, nanoseconds, half, most;
};

static uint64_t now(void) {
    struct timespec time;
    clock_gettime(CLOCK_MONOTONIC, &time);
    return (uint64_t)time.tv_sec * 1000000000 + (uint64_t)time.tv_nsec;
}

/* The byte at a place of a client's request: each differs from what another client, and the next request, has there. */
static uint8_t byte_at(const struct client *client, size_t at) {
    return (uint8_t)(at * 7 + (size_t)client->connection * 13 + (size_t)client->left * 31);
}

/* Sends what is left of the request, as far as the connection takes it. */
static void send_request(struct client *client) {
    uint8_t bytes[CHUNK];
    for (size_t at = client->sent; at < client->size; at++)
        bytes[at] = byte_at(client, at);
    while (client->sent < client->size) {
        ssize_t count = send(client->connection, bytes + client->sent, client->size - client->sent, MSG_NOSIGNAL);
        if (count < 0 && errno == EAGAIN)
            return;
        must(count > 0, "send of a client");
        client->sent += (size_t)count;
    }
}

static void begin_request(struct client *client) {
    client->sent = client->came = 0;
    client->size = 64 + (size_t)(client->connection * 7919 + client->left * 104729) % 3937;
    client->begun = now();
    send_request(client);
}

/* Reads what came back. Answers whether the request is at its end. */
static int read_answer(struct client *client) {
    uint8_t bytes[CHUNK];
    ssize_t count = read(client->connection, bytes, CHUNK);
    if (count < 0 && errno == EAGAIN)
        return 0;
    must(count > 0 && client->came + (size_t)count <= client->sent, "an answer");
    for (size_t i = 0; i < (size_t)count; i++)
        must(bytes[i] == byte_at(client, client->came + i), "the same bytes");
    client->came += (size_t)count;
    return client->came == client->size;
}

static int by_number(const void *a, const void *b) {
    uint64_t left = *(const uint64_t *)a, right = *(const uint64_t *)b;
    return (left > right) - (left < right);
}

static void connect_all(struct client *clients, int connections, const struct sockaddr_in *address, int events, int requests) {
    for (int i = 0; i < connections; i++) {
        struct client *client = &clients[i];
        int at_once = 1;
        must((client->connection = socket(AF_INET, SOCK_STREAM, 0)) >= 0, "socket of a client");
        must(connect(client->connection, (const struct sockaddr *)address, sizeof *address) == 0, "connect");
        setsockopt(client->connection, IPPROTO_TCP, TCP_NODELAY, &at_once, sizeof at_once);
        client->left = requests;
        struct epoll_event event = { .events = EPOLLIN, .data.ptr = client };
        must(epoll_ctl(events, EPOLL_CTL_ADD, client->connection, &event) == 0, "epoll_ctl of a client");
    }
}

/* All requests of all clients, on one thread, once the server has all connections. */
static struct figures call(int connections, int requests, const struct sockaddr_in *address, int told) {
    struct client *clients = calloc((size_t)connections, sizeof *clients);
    uint64_t *took = calloc((size_t)connections * (size_t)requests, sizeof *took);
    int events = epoll_create1(0), left = connections;
    must(clients != NULL && took != NULL && events >= 0, "memory of the clients");
    connect_all(clients, connections, address, events, requests);
    struct figures figures = { 0 };
    char begin;
    must(read(told, &begin, 1) == 1, "word of the server");
    uint64_t begun = now();
    for (int i = 0; i < connections; i++)
        begin_request(&clients[i]);
    while (left != 0) {
        struct epoll_event event;
        must(epoll_wait(events, &event, 1, 10000) == 1, "an answer within ten seconds");
        struct client *client = event.data.ptr;
        if (client->sent < client->size)
            send_request(client);
        if (!read_answer(client))
            continue;
        took[figures.requests++] = now() - client->begun;
        if (--client->left != 0) {
            begin_request(client);
        } else {
            close(client->connection);
            left--;
        }
    }
    figures.nanoseconds = now() - begun;
    qsort(took, figures.requests, sizeof *took, by_number);
    figures.half = took[figures.requests / 2];
    figures.most = took[figures.requests * 99 / 100];
    free(took);
    free(clients);
    return figures;
}

/* The most memory that this process had, in KiB. (getrusage also counts what was there before an exec.) */
static long most_memory(void) {
    char line[128];
    long most = 0;
    FILE *status = fopen("/proc/self/status", "r");
    must(status != NULL, "/proc/self/status");
    while (fgets(line, sizeof line, status) != NULL && sscanf(line, "VmHWM: %ld", &most) != 1)
        ;
    fclose(status);
    return most;
}

/* Prints what the clients saw, and what this process took for it. */
static void print_figures(int connections, const struct figures *figures) {
    struct rusage used;
    getrusage(RUSAGE_SELF, &used);
    const double requests = (double)figures->requests, second = 1e6;
    double processor = (double)(used.ru_utime.tv_sec + used.ru_stime.tv_sec) * second + (double)(used.ru_utime.tv_usec + used.ru_stime.tv_usec);
    printf("%s: %d connections, %.0f requests, %.0f a second, half within %.0f us, 99 of 100 within %.0f us, %.1f us of processor, %.1f MB\n", heap->name,
           connections, requests, requests * 1e9 / (double)figures->nanoseconds, (double)figures->half / 1000, (double)figures->most / 1000,
           processor / requests, (double)most_memory() / 1024);
}

int main(int argc, char **argv) {
    int connections = argc == 4 ? atoi(argv[2]) : 0, requests = argc == 4 ? atoi(argv[3]) : 0;
    heap = argc == 4 ? heap_of(argv[1]) : NULL;
    if (heap == NULL || connections < 1 || connections > MOST_CONNECTIONS || requests < 1) {
        fprintf(stderr, "words: pool, any or malloc, a number of connections up to %d, and a number of requests on each\n", MOST_CONNECTIONS);
        return 1;
    }
    alarm(SECONDS);
    struct sockaddr_in address = { .sin_family = AF_INET, .sin_addr.s_addr = htonl(INADDR_LOOPBACK) };
    socklen_t size = sizeof address;
    int listening = socket(AF_INET, SOCK_STREAM, 0), to_clients[2], from_clients[2];
    must(listening >= 0 && bind(listening, (struct sockaddr *)&address, size) == 0 && listen(listening, connections) == 0, "listen");
    must(getsockname(listening, (struct sockaddr *)&address, &size) == 0 && pipe(to_clients) == 0 && pipe(from_clients) == 0, "pipe");
    /* The child begins before there is a thread or a pool. */
    pid_t child = fork();
    must(child >= 0, "fork");
    if (child == 0) {
        alarm(SECONDS);
        struct figures figures = call(connections, requests, &address, to_clients[0]);
        return write(from_clients[1], &figures, sizeof figures) != sizeof figures;
    }
    serve(listening, connections, to_clients[1]);
    struct figures figures;
    int status = 1;
    must(read(from_clients[0], &figures, sizeof figures) == sizeof figures && waitpid(child, &status, 0) == child && status == 0, "the clients");
    print_figures(connections, &figures);
    return 0;
}
