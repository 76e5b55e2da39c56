// A load on a key-value server over loopback: so many connections, each with so many requests in flight, for some seconds.
//
//   load riak|redis PORT PID get|put|update|new|come KEYS CONNECTIONS DEPTH SECONDS
//
// Each connection has a thread of its own. It sends DEPTH requests in one write and reads their replies, again and again. With KEYS 1
// all connections ask for one key, else each has KEYS keys of its own. Values have 100 bytes, or VALUE of the environment. A put carries the context that this
// connection was shown last for that key, and asks for the new one; an update is a get and a put by the context that it showed. A new key is
// put once; what comes and goes is put, and deleted by the context that the put showed.
// Prints requests a second, the processor time that process PID used a request, and how many replies were errors.
#include <arpa/inet.h>
#include <netinet/in.h>
#include <netinet/tcp.h>
#include <pthread.h>
#include <stdatomic.h>
#include <stdint.h>
#include <stdio.h>
#include <stdlib.h>
#include <string.h>
#include <sys/socket.h>
#include <time.h>
#include <unistd.h>

enum { MAX_CONTEXT = 1281 }; // its version, and 64 entries of 20 bytes at most
enum operation { GET, PUT, UPDATE, NEW, COME };
enum ask { ASK_GET, ASK_PUT, ASK_DELETE };
static const char *const operations[] = {"get", "put", "update", "new", "come"};

struct context {
    int length;
    uint8_t *bytes;
};

struct connection {
    pthread_t thread;
    int number, socket;
    uint64_t requests, errors, fresh;
    struct context *contexts;
    uint8_t *out, *in;
    size_t read, used;
};

static int is_redis, port, keys, connections, depth, value_len = 100;
static uint8_t *value;
static size_t buffer_len;
static enum operation operation;
static atomic_int is_over;
static pthread_barrier_t begin, end;

static void stop(const char *why) {
    perror(why);
    exit(1);
}

static double now(void) {
    struct timespec t;
    clock_gettime(CLOCK_MONOTONIC, &t);
    return (double)t.tv_sec + (double)t.tv_nsec / 1e9;
}

// The processor time of a process in seconds: fields 14 and 15 of its stat line.
static double processor_time(int pid) {
    char path[64], line[1024];
    unsigned long user = 0, system = 0;
    snprintf(path, sizeof path, "/proc/%d/stat", pid);
    FILE *file = fopen(path, "r");
    if (!file || !fgets(line, sizeof line, file)) stop("stat");
    fclose(file);
    sscanf(strrchr(line, ')') + 1, " %*c %*d %*d %*d %*d %*d %*u %*u %*u %*u %*u %lu %lu", &user, &system);
    return (double)(user + system) / (double)sysconf(_SC_CLK_TCK);
}

static uint8_t *head(uint8_t *to, int number, int length) {
    *to++ = (uint8_t)(number << 3 | 2);
    for (; length >= 128; length >>= 7) *to++ = (uint8_t)((length & 127) | 128);
    *to++ = (uint8_t)length;
    return to;
}

static uint8_t *field(uint8_t *to, int number, const void *bytes, int length) {
    return (uint8_t *)memcpy(head(to, number, length), bytes, (size_t)length) + length;
}

static int key_name(struct connection *c, int key, char *name) {
    if (operation == NEW) return sprintf(name, "%d+%lu", c->number, c->fresh++);
    return keys == 1 ? sprintf(name, "hot") : sprintf(name, "%d-%d", c->number, key);
}

// One request, by its frame or its RESP array.
static uint8_t *request(struct connection *c, uint8_t *to, enum ask ask, int key) {
    static const char *const words[] = {"GET", "SET", "DEL"};
    static const uint8_t codes[] = {9, 11, 13};
    char name[32];
    int length = key_name(c, key, name);
    if (is_redis) {
        if (ask != ASK_PUT) return to + sprintf((char *)to, "*2\r\n$3\r\n%s\r\n$%d\r\n%s\r\n", words[ask], length, name);
        to += sprintf((char *)to, "*3\r\n$3\r\nSET\r\n$%d\r\n%s\r\n$%d\r\n", length, name, value_len);
        return (uint8_t *)memcpy((uint8_t *)memcpy(to, value, (size_t)value_len) + value_len, "\r\n", 2) + 2;
    }
    uint8_t *body = to + 5, content[8];
    body = field(body, 1, "b", 1);
    body = field(body, 2, name, length);
    struct context *context = &c->contexts[key];
    if (ask != ASK_GET && operation != NEW && context->length) body = field(body, ask == ASK_PUT ? 3 : 4, context->bytes, context->length);
    if (ask == ASK_PUT) {
        body = head(body, 4, (int)(head(content, 1, value_len) - content) + value_len);
        body = field(body, 1, value, value_len);
        *body++ = 11 << 3;
        *body++ = 1;
    }
    uint32_t size = htonl((uint32_t)(body - to - 4));
    memcpy(to, &size, 4);
    to[4] = codes[ask];
    return body;
}

static void fill(struct connection *c) {
    if (c->used) {
        memmove(c->in, c->in + c->used, c->read - c->used);
        c->read -= c->used;
        c->used = 0;
    }
    ssize_t n = recv(c->socket, c->in + c->read, buffer_len - c->read, 0);
    if (n <= 0) stop("recv");
    c->read += (size_t)n;
}

// Keeps the context of a get's or put's reply: field 2.
static void keep_context(struct connection *c, int key, const uint8_t *at, const uint8_t *to) {
    while (at < to) {
        int tag = *at++, shift = 0;
        uint64_t length = 0;
        do length |= (uint64_t)(*at & 127) << shift, shift += 7;
        while (*at++ & 128);
        if (tag == (2 << 3 | 2) && length <= MAX_CONTEXT) {
            c->contexts[key].length = (int)length;
            memcpy(c->contexts[key].bytes, at, length);
        }
        at += tag & 2 ? length : 0;
    }
}

static int redis_reply(struct connection *c) {
    for (;;) {
        uint8_t *from = c->in + c->used, *line = memchr(from, '\n', c->read - c->used);
        if (line) {
            size_t length = (size_t)(line + 1 - from);
            if (*from == '$' && from[1] != '-') length += (size_t)atoi((char *)from + 1) + 2;
            if (length <= c->read - c->used) {
                c->used += length;
                return *from != '-';
            }
        }
        fill(c);
    }
}

static int reply(struct connection *c, int key) {
    if (is_redis) return redis_reply(c);
    while (c->read - c->used < 4) fill(c);
    uint32_t size;
    memcpy(&size, c->in + c->used, 4);
    size = ntohl(size);
    if (size + 4 > buffer_len) stop("reply too long");
    while (c->read - c->used < size + 4) fill(c);
    uint8_t *from = c->in + c->used;
    c->used += size + 4;
    if (from[4] == 0) return 0;
    keep_context(c, key, from + 5, from + 4 + size);
    return 1;
}

static void send_all(struct connection *c, const uint8_t *to) {
    for (const uint8_t *at = c->out; at < to;) {
        ssize_t n = send(c->socket, at, (size_t)(to - at), MSG_NOSIGNAL);
        if (n <= 0) stop("send");
        at += n;
    }
}

// So many requests in one write, for the keys from `first` on, and their replies.
static void batch(struct connection *c, enum ask ask, int first, int count) {
    uint8_t *to = c->out;
    for (int i = 0; i < count; i++) to = request(c, to, ask, (first + i) % keys);
    send_all(c, to);
    for (int i = 0; i < count; i++) c->errors += !reply(c, (first + i) % keys);
    c->requests += (uint64_t)count;
}

static void open_connection(struct connection *c) {
    struct sockaddr_in address = {.sin_family = AF_INET, .sin_port = htons((uint16_t)port), .sin_addr = {htonl(INADDR_LOOPBACK)}};
    int one = 1;
    c->socket = socket(AF_INET, SOCK_STREAM, 0);
    if (connect(c->socket, (struct sockaddr *)&address, sizeof address)) stop("connect");
    setsockopt(c->socket, IPPROTO_TCP, TCP_NODELAY, &one, sizeof one);
    c->out = malloc(buffer_len);
    c->in = malloc(buffer_len);
    c->contexts = calloc((size_t)keys, sizeof *c->contexts);
    for (int i = 0; i < keys; i++) c->contexts[i].bytes = malloc(MAX_CONTEXT);
}

static void *run(void *argument) {
    struct connection *c = argument;
    open_connection(c);
    for (int key = 0; key < keys; key++) {
        batch(c, ASK_GET, key, 1);
        batch(c, ASK_PUT, key, 1);
    }
    c->requests = c->errors = 0;
    pthread_barrier_wait(&begin);
    for (int key = 0; !atomic_load_explicit(&is_over, memory_order_relaxed); key = (key + depth) % keys) {
        if (operation == GET || operation == UPDATE) batch(c, ASK_GET, key, depth);
        if (operation != GET) batch(c, ASK_PUT, key, depth);
        if (operation == COME) batch(c, ASK_DELETE, key, depth);
    }
    pthread_barrier_wait(&end);
    pthread_barrier_wait(&end);
    close(c->socket);
    return NULL;
}

int main(int count, char **words) {
    if (count != 9) {
        fprintf(stderr, "load riak|redis PORT PID get|put|update|new|come KEYS CONNECTIONS DEPTH SECONDS\n");
        return 2;
    }
    is_redis = !strcmp(words[1], "redis");
    port = atoi(words[2]);
    int pid = atoi(words[3]);
    while (operation < COME && strcmp(words[4], operations[operation])) operation++;
    keys = atoi(words[5]);
    connections = atoi(words[6]);
    depth = atoi(words[7]);
    double seconds = atof(words[8]);
    if (getenv("VALUE")) value_len = atoi(getenv("VALUE"));
    value = memset(malloc((size_t)value_len), 'v', (size_t)value_len);
    buffer_len = (size_t)depth * ((size_t)value_len + MAX_CONTEXT + 128) + (1 << 20);
    struct connection *all = calloc((size_t)connections, sizeof *all);
    pthread_barrier_init(&begin, NULL, (unsigned)connections + 1);
    pthread_barrier_init(&end, NULL, (unsigned)connections + 1);
    for (int i = 0; i < connections; i++) {
        all[i].number = i;
        pthread_create(&all[i].thread, NULL, run, &all[i]);
    }
    pthread_barrier_wait(&begin);
    double began = now(), used = processor_time(pid);
    usleep((useconds_t)(seconds * 1e6));
    atomic_store(&is_over, 1);
    pthread_barrier_wait(&end);
    double took = now() - began;
    used = processor_time(pid) - used;
    pthread_barrier_wait(&end);
    uint64_t requests = 0, errors = 0;
    for (int i = 0; i < connections; i++) requests += all[i].requests, errors += all[i].errors;
    printf("%10.0f %8.2f %8lu\n", (double)requests / took, used / (double)requests * 1e6, errors);
    fflush(stdout);
    for (int i = 0; i < connections; i++) pthread_join(all[i].thread, NULL);
    return 0;
}
