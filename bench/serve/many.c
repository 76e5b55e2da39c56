// A load on a key-value server over loopback from few threads: many connections, each with so many requests in flight, beside idle ones.
//
//   many riak|redis PORT PID get|put CONNECTIONS IDLE DEPTH SECONDS [RATE]
//
// Every connection first sends 800 pings at once and reads their replies; the idle ones then stay silent. A busy one has DEPTH keys of its own,
// with values of 100 bytes. It sends DEPTH requests in one write, one for each key, reads their replies, and goes on; a put carries the context
// that the one before it showed. With a RATE, so many requests a second in all are due at equal distances, one after another on all connections, each
// for the next of the connection's DEPTH keys, however late the replies are; the time of a request then counts from when it was due, so that who is
// slow for a while pays for all that was due meanwhile. Prints requests a second, the processor time that process PID used a request, the median,
// the 99th and the 99.9th percentile of the time from that write, or from when it was due, to a reply, in microseconds, how many bytes of memory the
// process took for each connection once all had had their pings, and how many replies were errors.
#include <arpa/inet.h>
#include <errno.h>
#include <netinet/in.h>
#include <netinet/tcp.h>
#include <pthread.h>
#include <stdatomic.h>
#include <stdint.h>
#include <stdio.h>
#include <stdlib.h>
#include <string.h>
#include <sys/epoll.h>
#include <sys/socket.h>
#include <time.h>
#include <unistd.h>

enum { THREADS = 2, VALUE = 100, MAX_CONTEXT = 64, MAX_DEPTH = 64, BUFFER = 16384, PINGS = 800, BUCKETS = 1024, EVENTS = 256, MAX_DUE = 16384 };

struct connection {
    int number, socket, waiting;
    uint64_t asked, answered;
    double sent, *due; // due: of the requests that wait for a reply, where there is a rate
    uint8_t *in;
    size_t read;
    uint8_t context_length[MAX_DEPTH], contexts[MAX_DEPTH][MAX_CONTEXT];
};

struct worker {
    pthread_t thread;
    struct connection **busy;
    int count, poll;
    uint64_t turn, requests, errors, slower[BUCKETS];
};

static int is_redis, is_put, port, depth;
static double rate;
static atomic_int is_over;
static pthread_barrier_t begin;

static void stop(const char *why) {
    perror(why);
    exit(1);
}

static double now(void) {
    struct timespec t;
    clock_gettime(CLOCK_MONOTONIC, &t);
    return (double)t.tv_sec + (double)t.tv_nsec / 1e9;
}

// A number of /proc/PID/stat: 14 and 15 are user and system time, 24 the pages that are resident.
static double stat_field(int pid, int wanted) {
    char path[64], line[1024];
    snprintf(path, sizeof path, "/proc/%d/stat", pid);
    FILE *file = fopen(path, "r");
    if (!file || !fgets(line, sizeof line, file)) stop("stat");
    fclose(file);
    char *at = strrchr(line, ')') + 2;
    for (int field = 3; field < wanted; field++) at = strchr(at, ' ') + 1;
    return atof(at);
}

static double processor_time(int pid) {
    return (stat_field(pid, 14) + stat_field(pid, 15)) / (double)sysconf(_SC_CLK_TCK);
}

static double resident(int pid) {
    return stat_field(pid, 24) * (double)sysconf(_SC_PAGESIZE);
}

// Buckets of a sixteenth of a power of two each, from 1 microsecond on.
static int bucket(double seconds) {
    uint64_t us = (uint64_t)(seconds * 1e6) + 1;
    int power = 63 - __builtin_clzll(us);
    int part = power < 4 ? (int)(us << (4 - power)) & 15 : (int)(us >> (power - 4)) & 15;
    return power * 16 + part;
}

static double bucket_start(int index) {
    return (double)(1ull << (index / 16)) * (1 + (index % 16) / 16.0);
}

static uint8_t *field(uint8_t *to, int number, const void *bytes, int length) {
    *to++ = (uint8_t)(number << 3 | 2);
    *to++ = (uint8_t)length;
    memcpy(to, bytes, (size_t)length);
    return to + length;
}

static uint8_t *request(struct connection *c, uint8_t *to, int key) {
    char name[32], value[VALUE];
    int length = sprintf(name, "%d-%d", c->number, key);
    memset(value, 'v', VALUE);
    if (is_redis && !is_put) return to + sprintf((char *)to, "*2\r\n$3\r\nGET\r\n$%d\r\n%s\r\n", length, name);
    if (is_redis) return to + sprintf((char *)to, "*3\r\n$3\r\nSET\r\n$%d\r\n%s\r\n$%d\r\n%.*s\r\n", length, name, VALUE, VALUE, value);
    uint8_t *body = to + 5, content[VALUE + 8];
    body = field(body, 1, "b", 1);
    body = field(body, 2, name, length);
    if (is_put) {
        if (c->context_length[key]) body = field(body, 3, c->contexts[key], c->context_length[key]);
        body = field(body, 4, content, (int)(field(content, 1, value, VALUE) - content));
        *body++ = 11 << 3;
        *body++ = 1;
    }
    uint32_t size = htonl((uint32_t)(body - to - 4));
    memcpy(to, &size, 4);
    to[4] = is_put ? 11 : 9;
    return body;
}

static void send_all(struct connection *c, const uint8_t *at, const uint8_t *to) {
    while (at < to) {
        ssize_t n = send(c->socket, at, (size_t)(to - at), MSG_NOSIGNAL);
        if (n < 0 && errno == EAGAIN) continue;
        if (n <= 0) stop("send");
        at += n;
    }
}

static void send_requests(struct connection *c) {
    uint8_t out[MAX_DEPTH * 256], *to = out;
    for (int key = 0; key < depth; key++) to = request(c, to, key);
    c->waiting = depth;
    c->sent = now();
    send_all(c, out, to);
}

// The length of the reply that stands first, or 0 where it isn't whole.
static size_t reply_length(const uint8_t *from, size_t length) {
    if (!is_redis) {
        uint32_t size;
        if (length < 4) return 0;
        memcpy(&size, from, 4);
        return ntohl(size) + 4 <= length ? ntohl(size) + 4 : 0;
    }
    uint8_t *line = memchr(from, '\n', length);
    if (!line) return 0;
    size_t whole = (size_t)(line + 1 - from);
    if (*from == '$' && from[1] != '-') whole += (size_t)atoi((const char *)from + 1) + 2;
    return whole <= length ? whole : 0;
}

// Keeps the context of a put's reply: field 2.
static void keep_context(struct connection *c, int key, const uint8_t *at, const uint8_t *to) {
    while (at + 1 < to) {
        int tag = *at++, shift = 0;
        uint64_t length = 0;
        do length |= (uint64_t)(*at & 127) << shift, shift += 7;
        while (*at++ & 128);
        if (tag == (2 << 3 | 2) && length <= MAX_CONTEXT) {
            c->context_length[key] = (uint8_t)length;
            memcpy(c->contexts[key], at, length);
        }
        at += tag & 2 ? length : 0;
    }
}

static void take_replies(struct worker *w, struct connection *c) {
    size_t used = 0, length;
    double at = now();
    while (c->waiting && (length = reply_length(c->in + used, c->read - used))) {
        const uint8_t *from = c->in + used;
        int key = rate > 0 ? (int)(c->answered % (uint64_t)depth) : depth - c->waiting;
        w->errors += is_redis ? *from == '-' : from[4] == 0;
        if (!is_redis && is_put) keep_context(c, key, from + 5, from + length);
        w->requests++;
        w->slower[bucket(at - (rate > 0 ? c->due[c->answered % MAX_DUE] : c->sent))]++;
        c->answered++;
        c->waiting--;
        used += length;
    }
    memmove(c->in, c->in + used, c->read - used);
    c->read -= used;
}

static void send_due(struct connection *c, double due) {
    uint8_t out[256];
    if (c->waiting == MAX_DUE) stop("too many requests wait");
    c->due[c->asked % MAX_DUE] = due;
    uint8_t *to = request(c, out, (int)(c->asked++ % (uint64_t)depth));
    c->waiting++;
    send_all(c, out, to);
}

// Sends what is due by now, and says when the next request is.
static double send_all_due(struct worker *w, double next) {
    for (double at = now(); next <= at; next += THREADS / rate) send_due(w->busy[w->turn++ % (uint64_t)w->count], next);
    return next;
}

static void *run(void *argument) {
    struct worker *w = argument;
    struct epoll_event events[EVENTS];
    pthread_barrier_wait(&begin);
    double next = now();
    for (int i = 0; rate == 0 && i < w->count; i++) send_requests(w->busy[i]);
    while (!atomic_load_explicit(&is_over, memory_order_relaxed)) {
        if (rate > 0) next = send_all_due(w, next);
        int count = epoll_wait(w->poll, events, EVENTS, rate > 0 ? 0 : 10);
        for (int i = 0; i < count; i++) {
            struct connection *c = events[i].data.ptr;
            ssize_t n = recv(c->socket, c->in + c->read, BUFFER - c->read, MSG_DONTWAIT);
            if (n < 0 && errno == EAGAIN) continue;
            if (n <= 0) stop("recv");
            c->read += (size_t)n;
            take_replies(w, c);
            if (rate == 0 && !c->waiting) send_requests(c);
        }
    }
    return NULL;
}

static void open_connection(struct connection *c, int number) {
    struct sockaddr_in address = {.sin_family = AF_INET, .sin_port = htons((uint16_t)port), .sin_addr = {htonl(INADDR_LOOPBACK)}};
    int one = 1;
    c->number = number;
    c->socket = socket(AF_INET, SOCK_STREAM, 0);
    if (c->socket < 0 || connect(c->socket, (struct sockaddr *)&address, sizeof address)) stop("connect");
    setsockopt(c->socket, IPPROTO_TCP, TCP_NODELAY, &one, sizeof one);
}

// 800 pings in one write, and their replies.
static void ping(struct connection *c) {
    static const char *const pings[] = {"\0\0\0\1\1", "PING\r\n"};
    uint8_t out[PINGS * 6], in[4096];
    size_t size = is_redis ? 6 : 5, left = PINGS * (is_redis ? 7 : 5); // a reply is +PONG or a frame
    for (int i = 0; i < PINGS; i++) memcpy(out + (size_t)i * size, pings[is_redis], size);
    send_all(c, out, out + PINGS * size);
    while (left) {
        ssize_t n = recv(c->socket, in, sizeof in < left ? sizeof in : left, 0);
        if (n <= 0) stop("ping");
        left -= (size_t)n;
    }
}

static double percentile(const uint64_t *slower, uint64_t all, double part) {
    uint64_t passed = 0;
    for (int i = 0; i < BUCKETS; i++) {
        passed += slower[i];
        if ((double)passed >= part * (double)all) return bucket_start(i);
    }
    return 0;
}

int main(int count, char **words) {
    if (count != 9 && count != 10) {
        fprintf(stderr, "many riak|redis PORT PID get|put CONNECTIONS IDLE DEPTH SECONDS [RATE]\n");
        return 2;
    }
    is_redis = !strcmp(words[1], "redis");
    port = atoi(words[2]);
    int pid = atoi(words[3]);
    is_put = !strcmp(words[4], "put");
    int connections = atoi(words[5]), idle = atoi(words[6]), all = connections + idle;
    depth = atoi(words[7]);
    double seconds = atof(words[8]), memory = resident(pid);
    rate = count == 10 ? atof(words[9]) : 0;
    struct connection *each = calloc((size_t)all, sizeof *each);
    for (int i = 0; i < all; i++) {
        open_connection(&each[i], i);
        ping(&each[i]);
    }
    usleep(100000);
    memory = (resident(pid) - memory) / all;
    struct worker workers[THREADS] = {0};
    for (int i = 0; i < THREADS; i++) {
        workers[i].poll = epoll_create1(0);
        workers[i].busy = calloc((size_t)connections, sizeof *workers[i].busy);
    }
    for (int i = 0; i < connections; i++) {
        struct worker *w = &workers[i % THREADS];
        struct epoll_event event = {.events = EPOLLIN, .data.ptr = &each[i]};
        each[i].in = malloc(BUFFER);
        each[i].due = rate > 0 ? calloc(MAX_DUE, sizeof(double)) : NULL;
        epoll_ctl(w->poll, EPOLL_CTL_ADD, each[i].socket, &event);
        w->busy[w->count++] = &each[i];
    }
    pthread_barrier_init(&begin, NULL, THREADS + 1);
    for (int i = 0; i < THREADS; i++) pthread_create(&workers[i].thread, NULL, run, &workers[i]);
    pthread_barrier_wait(&begin);
    double began = now(), used = processor_time(pid);
    usleep((useconds_t)(seconds * 1e6));
    used = processor_time(pid) - used;
    double took = now() - began;
    atomic_store(&is_over, 1);
    uint64_t requests = 0, errors = 0, slower[BUCKETS] = {0};
    for (int i = 0; i < THREADS; i++) {
        pthread_join(workers[i].thread, NULL);
        requests += workers[i].requests;
        errors += workers[i].errors;
        for (int k = 0; k < BUCKETS; k++) slower[k] += workers[i].slower[k];
    }
    printf("%10.0f %8.2f %8.0f %8.0f %8.0f %9.0f %7lu\n", (double)requests / took, used / (double)requests * 1e6, percentile(slower, requests, 0.5),
           percentile(slower, requests, 0.99), percentile(slower, requests, 0.999), memory, errors);
    return 0;
}
