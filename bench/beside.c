/* What a live run is compared with: the same messages without a protocol, a journal or an audit, and over what else carries messages.

   beside queue N T K   N nodes of T threads each, which send K messages each to the thread of their number at the next node, over a list under a mutex
                        for each thread, and look at their own list once behind each message
   beside udp K         two threads that send K messages each to the other: over datagrams, of which some may be lost,
   beside tcp K         over a TCP connection,
   beside enet K        and over an ENet connection, reliably and in order

   A message has 8 bytes. Each prints the seconds, how many messages came, and the processor seconds. Over datagrams a thread stops looking when none came
   for a second, which isn't counted. Build it with: cc -O2 -pthread -o beside bench/beside.c -lenet (Debian: libenet-dev). */

#include <arpa/inet.h>
#include <enet/enet.h>
#include <errno.h>
#include <netinet/tcp.h>
#include <poll.h>
#include <pthread.h>
#include <stdint.h>
#include <stdio.h>
#include <stdlib.h>
#include <string.h>
#include <sys/resource.h>
#include <sys/socket.h>
#include <time.h>
#include <unistd.h>

enum { BYTES = 8, MOST_THREADS = 64, PORT = 42000, IDLE_MS = 1000 };

static void fail(const char *what) {
    perror(what);
    exit(1);
}

static double now(void) {
    struct timespec at;
    clock_gettime(CLOCK_MONOTONIC, &at);
    return at.tv_sec + at.tv_nsec / 1e9;
}

static double busy(void) {
    struct rusage used;
    getrusage(RUSAGE_SELF, &used);
    return used.ru_utime.tv_sec + used.ru_stime.tv_sec + (used.ru_utime.tv_usec + used.ru_stime.tv_usec) / 1e6;
}

static void start(pthread_t *thread, void *(*run)(void *), void *with) {
    if (pthread_create(thread, NULL, run, with) != 0) fail("a thread");
}

/* ---- lists under a mutex */

struct message {
    struct message *next;
    unsigned char body[BYTES];
};

struct list {
    pthread_mutex_t lock;
    struct message *first, **last;
};

struct caller {
    struct list own, *peer;
    long messages, came;
};

static struct caller callers[MOST_THREADS];

static void put(struct list *to, long number) {
    struct message *message = malloc(sizeof *message);
    if (message == NULL) fail("a message");
    message->next = NULL;
    memcpy(message->body, &number, BYTES);
    pthread_mutex_lock(&to->lock);
    *to->last = message;
    to->last = &message->next;
    pthread_mutex_unlock(&to->lock);
}

static int take(struct list *from) {
    pthread_mutex_lock(&from->lock);
    struct message *message = from->first;
    if (message != NULL && (from->first = message->next) == NULL) from->last = &from->first;
    pthread_mutex_unlock(&from->lock);
    free(message);
    return message != NULL;
}

static void *call(void *with) {
    struct caller *caller = with;
    for (long number = 0; number < caller->messages; number++) {
        put(caller->peer, number);
        caller->came += take(&caller->own);
    }
    return NULL;
}

static long run_lists(int nodes, int each, long messages) {
    pthread_t threads[MOST_THREADS];
    long sent = 0;
    for (int place = 0; place < nodes * each; place++) {
        struct caller *caller = &callers[place];
        pthread_mutex_init(&caller->own.lock, NULL);
        caller->own.last = &caller->own.first;
        caller->peer = &callers[(place + each) % (nodes * each)].own;
        caller->messages = messages;
    }
    for (int place = 0; place < nodes * each; place++) start(&threads[place], call, &callers[place]);
    for (int place = 0; place < nodes * each; place++) {
        pthread_join(threads[place], NULL);
        sent += callers[place].messages;
    }
    return sent;
}

/* ---- sockets */

struct end {
    int socket, is_stream;
    long messages, came;
    double last;
};

static struct sockaddr_in address_of(int port) {
    struct sockaddr_in at = {.sin_family = AF_INET, .sin_port = htons(port), .sin_addr.s_addr = htonl(INADDR_LOOPBACK)};
    return at;
}

/* How many bytes came, without waiting longer than it is told. */
static ssize_t hear(struct end *end, unsigned char *bytes, size_t most, int wait) {
    struct pollfd at = {.fd = end->socket, .events = POLLIN};
    if (wait > 0 && poll(&at, 1, wait) <= 0) return 0;
    ssize_t came = recv(end->socket, bytes, most, MSG_DONTWAIT);
    if (came > 0) end->last = now();
    return came < 0 ? 0 : came;
}

/* Takes what is there: bytes of a stream, or a datagram for each message. */
static int look(struct end *end, long *bytes, int wait) {
    unsigned char got[4096];
    ssize_t came = hear(end, got, end->is_stream ? sizeof got : BYTES, wait);
    *bytes += came;
    end->came = *bytes / BYTES;
    return came > 0;
}

static void *exchange(void *with) {
    struct end *end = with;
    long bytes = 0, number = 0;
    while (number < end->messages) {
        ssize_t went = send(end->socket, &number, BYTES, MSG_DONTWAIT);
        if (went == BYTES) number++;
        else if (went >= 0) fail("a part of a message went");
        else if (errno != EAGAIN && errno != ECONNREFUSED && errno != ENOBUFS) fail("send");
        look(end, &bytes, 0);
    }
    while (end->came < end->messages && look(end, &bytes, IDLE_MS)) continue;
    return NULL;
}

static void open_datagrams(struct end ends[2]) {
    for (int place = 0; place < 2; place++) {
        struct sockaddr_in own = address_of(PORT + place);
        ends[place].socket = socket(AF_INET, SOCK_DGRAM, 0);
        if (bind(ends[place].socket, (void *)&own, sizeof own) != 0) fail("bind");
    }
    for (int place = 0; place < 2; place++) {
        struct sockaddr_in peer = address_of(PORT + 1 - place);
        if (connect(ends[place].socket, (void *)&peer, sizeof peer) != 0) fail("connect");
    }
}

static void open_stream(struct end ends[2]) {
    struct sockaddr_in at = address_of(PORT);
    int one = 1, waiting = socket(AF_INET, SOCK_STREAM, 0);
    setsockopt(waiting, SOL_SOCKET, SO_REUSEADDR, &one, sizeof one);
    if (bind(waiting, (void *)&at, sizeof at) != 0 || listen(waiting, 1) != 0) fail("listen");
    ends[0].socket = socket(AF_INET, SOCK_STREAM, 0);
    if (connect(ends[0].socket, (void *)&at, sizeof at) != 0) fail("connect");
    ends[1].socket = accept(waiting, NULL, NULL);
    for (int place = 0; place < 2; place++) {
        ends[place].is_stream = 1;
        setsockopt(ends[place].socket, IPPROTO_TCP, TCP_NODELAY, &one, sizeof one);
    }
}

/* The messages that came, and the moment when the last did. */
static long run_sockets(void (*open_ends)(struct end[2]), long messages, double *last) {
    struct end ends[2] = {{.messages = messages}, {.messages = messages}};
    pthread_t threads[2];
    open_ends(ends);
    for (int place = 0; place < 2; place++) start(&threads[place], exchange, &ends[place]);
    for (int place = 0; place < 2; place++) {
        pthread_join(threads[place], NULL);
        if (ends[place].last > *last) *last = ends[place].last;
    }
    return ends[0].came + ends[1].came;
}

/* ---- ENet */

struct host {
    ENetHost *host;
    ENetPeer *peer;
    long messages, came, *others_came;
};

static void serve(struct host *end, int wait) {
    ENetEvent event;
    while (enet_host_service(end->host, &event, wait) > 0) {
        if (event.type == ENET_EVENT_TYPE_CONNECT) end->peer = event.peer;
        if (event.type == ENET_EVENT_TYPE_RECEIVE) {
            enet_packet_destroy(event.packet);
            __atomic_add_fetch(&end->came, 1, __ATOMIC_SEQ_CST);
        }
        wait = 0;
    }
}

static void *converse(void *with) {
    struct host *end = with;
    while (end->peer == NULL) serve(end, 1);
    for (long number = 0; number < end->messages; number++) {
        enet_peer_send(end->peer, 0, enet_packet_create(&number, BYTES, ENET_PACKET_FLAG_RELIABLE));
        if (number % 32 == 0) serve(end, 0);
    }
    while (end->came < end->messages || __atomic_load_n(end->others_came, __ATOMIC_SEQ_CST) < end->messages) serve(end, 1);
    return NULL;
}

static long run_enet(long messages) {
    if (enet_initialize() != 0) fail("ENet");
    struct host ends[2] = {{.messages = messages}, {.messages = messages}};
    pthread_t threads[2];
    ENetAddress at = {.port = PORT};
    enet_address_set_host(&at, "127.0.0.1");
    ends[0].host = enet_host_create(&at, 1, 1, 0, 0);
    ends[1].host = enet_host_create(NULL, 1, 1, 0, 0);
    if (ends[0].host == NULL || ends[1].host == NULL) fail("an ENet host");
    if (enet_host_connect(ends[1].host, &at, 1, 0) == NULL) fail("an ENet peer");
    for (int place = 0; place < 2; place++) ends[place].others_came = &ends[1 - place].came;
    for (int place = 0; place < 2; place++) start(&threads[place], converse, &ends[place]);
    for (int place = 0; place < 2; place++) pthread_join(threads[place], NULL);
    return ends[0].came + ends[1].came;
}

/* ---- */

static long number(const char *word, long most) {
    long value = strtol(word, NULL, 10);
    if (value < 1 || value > most) {
        fprintf(stderr, "beside: a number from 1 to %ld, not %s\n", most, word);
        exit(1);
    }
    return value;
}

int main(int count, char **words) {
    double began = now(), last = 0;
    long came;
    if (count == 5 && strcmp(words[1], "queue") == 0) came = run_lists(number(words[2], 8), number(words[3], 8), number(words[4], 10000000));
    else if (count == 3 && strcmp(words[1], "udp") == 0) came = run_sockets(open_datagrams, number(words[2], 10000000), &last);
    else if (count == 3 && strcmp(words[1], "tcp") == 0) came = run_sockets(open_stream, number(words[2], 10000000), &last);
    else if (count == 3 && strcmp(words[1], "enet") == 0) came = run_enet(number(words[2], 10000000));
    else {
        fprintf(stderr, "usage: beside queue N T K | udp K | tcp K | enet K\n");
        return 1;
    }
    printf("%.6f %ld %.6f\n", (last > 0 ? last : now()) - began, came, busy());
    return 0;
}
