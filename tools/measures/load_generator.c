// Loads a server that speaks Protocol A over loopback, and tells what it answered:
//
//     load_generator PORT THREADS CONNECTIONS IN-FLIGHT SECONDS WEIGHT CALL [WEIGHT CALL ..]
//
// Each connection greets, logs in as person 5 with the empty password, and keeps so many calls under way, chosen by their
// weights. In a call ~N~ stands for a random number from 1 to N. The connections are shared out among the threads, each of which
// waits by epoll. After a fifth of the seconds in which nothing is counted it counts replies for the seconds, and prints one
// line: the calls a second, the median and the 99th of 100 of the times from a call to its reply in microseconds, and which part
// of the threads' time was processor time. A reply that is a refusal, or a connection that ends, ends it with status 1. No string
// in a reply may have a line feed.
#define _GNU_SOURCE
#include <arpa/inet.h>
#include <errno.h>
#include <fcntl.h>
#include <netinet/tcp.h>
#include <pthread.h>
#include <stdint.h>
#include <stdio.h>
#include <stdlib.h>
#include <string.h>
#include <sys/epoll.h>
#include <sys/resource.h>
#include <sys/socket.h>
#include <time.h>
#include <unistd.h>

enum { MOST_CALLS = 16, MOST_IN_FLIGHT = 1024, LONGEST_CALL = 4096, INPUT = 1 << 16, STEPS = 64, BUCKETS = 40 * STEPS };

struct call { int weight; const char *line; };

struct connection {
    int socket;
    uint64_t sent[MOST_IN_FLIGHT];   // when the calls under way were sent, oldest first in a ring
    unsigned first, under_way;
    int at_line_start, to_skip;      // whether the next byte begins a line; lines that are still to be read before the first call
    char *output;                    // what is yet to be written
    size_t begin, end, room;
};

struct worker {
    pthread_t thread;
    int number, connections;
    uint64_t counted, times[BUCKETS];
    double busy;
};

static int port, threads, connections, in_flight, call_count, total_weight;
static double seconds;
static struct call calls[MOST_CALLS];

static void fail(const char *what) {
    fprintf(stderr, "load_generator: %s (%s)\n", what, strerror(errno));
    exit(1);
}

static uint64_t now(void) {
    struct timespec t;
    clock_gettime(CLOCK_MONOTONIC, &t);
    return (uint64_t)t.tv_sec * 1000000000 + t.tv_nsec;
}

static uint64_t drawn(uint64_t *state) {
    *state ^= *state << 13;
    *state ^= *state >> 7;
    *state ^= *state << 17;
    return *state;
}

// A bucket for a time in nanoseconds: 64 for each doubling.
static int bucket_of(uint64_t time) {
    if (time < STEPS)
        return (int)time;
    int high = 63 - __builtin_clzll(time);
    int bucket = (high - 5) * STEPS + (int)((time >> (high - 6)) & (STEPS - 1));
    return bucket < BUCKETS ? bucket : BUCKETS - 1;
}

static double time_of(int bucket) {
    if (bucket < STEPS)
        return bucket;
    return (double)((uint64_t)(STEPS + bucket % STEPS) << (bucket / STEPS - 1));
}

// Puts a call to what is to be written.
static void put_call(struct connection *c, uint64_t *state) {
    if (c->room - c->end < LONGEST_CALL) {
        if (c->begin > c->room / 2) {
            memmove(c->output, c->output + c->begin, c->end - c->begin);
            c->end -= c->begin;
            c->begin = 0;
        } else if (!(c->output = realloc(c->output, c->room *= 2)))
            fail("out of memory");
    }
    int left = (int)(drawn(state) % (uint64_t)total_weight), which = 0;
    while (left >= calls[which].weight)
        left -= calls[which++].weight;
    char *to = c->output + c->end;
    *to++ = '1';
    *to++ = ' ';
    for (const char *from = calls[which].line; *from;) {
        if (*from == '~') {
            char *after;
            uint64_t most = strtoull(from + 1, &after, 10);
            to += sprintf(to, "%llu", (unsigned long long)(drawn(state) % most + 1));
            from = after + 1;
        } else
            *to++ = *from++;
    }
    *to++ = '\n';
    c->end = (size_t)(to - c->output);
}

static void put_calls(struct connection *c, uint64_t *state) {
    uint64_t time = now();
    while (c->under_way < (unsigned)in_flight) {
        put_call(c, state);
        c->sent[(c->first + c->under_way++) % MOST_IN_FLIGHT] = time;
    }
}

// Writes what can be written.
static void flush(struct connection *c) {
    while (c->begin < c->end) {
        ssize_t wrote = send(c->socket, c->output + c->begin, c->end - c->begin, MSG_NOSIGNAL);
        if (wrote < 0) {
            if (errno == EAGAIN)
                return;
            fail("send");
        }
        c->begin += (size_t)wrote;
    }
    c->begin = c->end = 0;
}

static void open_connection(struct connection *c) {
    struct sockaddr_in address = {.sin_family = AF_INET, .sin_port = htons((uint16_t)port)};
    address.sin_addr.s_addr = htonl(INADDR_LOOPBACK);
    int one = 1;
    c->socket = socket(AF_INET, SOCK_STREAM, 0);
    if (c->socket < 0 || connect(c->socket, (struct sockaddr *)&address, sizeof address) != 0)
        fail("connect");
    setsockopt(c->socket, IPPROTO_TCP, TCP_NODELAY, &one, sizeof one);
    if (fcntl(c->socket, F_SETFL, O_NONBLOCK) != 0)
        fail("fcntl");
    c->output = malloc(c->room = 4 * LONGEST_CALL);
    if (!c->output)
        fail("out of memory");
    c->end = (size_t)sprintf(c->output, "A4Hload\n1 62 5 0H 0\n");
    c->begin = c->first = c->under_way = 0;
    c->at_line_start = 1;
    c->to_skip = 2;
}

// Takes what was read. Returns how many calls were answered.
static int take(struct worker *w, struct connection *c, const char *input, size_t count, int counts) {
    int answered = 0;
    uint64_t time = now();
    for (const char *from = input, *end = input + count; from < end;) {
        if (c->at_line_start && *from != '=' && c->to_skip != 2) {
            fprintf(stderr, "load_generator: answered %.60s\n", from);
            exit(1);
        }
        const char *feed = memchr(from, '\n', (size_t)(end - from));
        c->at_line_start = feed != NULL;
        if (!feed)
            return answered;
        from = feed + 1;
        if (c->to_skip > 0) {
            c->to_skip--;
            continue;
        }
        if (c->under_way == 0)
            fail("a reply to nothing");
        if (counts) {
            w->counted++;
            w->times[bucket_of(time - c->sent[c->first])]++;
        }
        c->first = (c->first + 1) % MOST_IN_FLIGHT;
        c->under_way--;
        answered++;
    }
    return answered;
}

static void *work(void *given) {
    struct worker *w = given;
    struct connection *own = calloc((size_t)w->connections, sizeof *own);
    struct epoll_event event, events[64];
    char *input = malloc(INPUT);
    uint64_t state = 88172645463325252ull + (uint64_t)w->number * 7919;
    int poll = epoll_create1(0);
    if (!own || !input || poll < 0)
        fail("out of memory");
    for (int i = 0; i < w->connections; i++) {
        open_connection(&own[i]);
        event.events = EPOLLIN;
        event.data.ptr = &own[i];
        if (epoll_ctl(poll, EPOLL_CTL_ADD, own[i].socket, &event) != 0)
            fail("epoll_ctl");
        flush(&own[i]);
    }
    uint64_t begun = now(), from = begun + (uint64_t)(seconds * 0.2e9), until = from + (uint64_t)(seconds * 1e9);
    struct rusage before, after;
    getrusage(RUSAGE_THREAD, &before);
    for (uint64_t time = begun; time < until; time = now()) {
        int ready = epoll_wait(poll, events, 64, 100);
        for (int i = 0; i < ready; i++) {
            struct connection *c = events[i].data.ptr;
            ssize_t count = recv(c->socket, input, INPUT, 0);
            if (count == 0 || (count < 0 && errno != EAGAIN))
                fail("the server ended a connection");
            if (count > 0)
                take(w, c, input, (size_t)count, now() >= from);
            if (c->to_skip == 0)
                put_calls(c, &state);
            flush(c);
        }
    }
    getrusage(RUSAGE_THREAD, &after);
    double used = (double)(after.ru_utime.tv_sec - before.ru_utime.tv_sec + after.ru_stime.tv_sec - before.ru_stime.tv_sec)
        + 1e-6 * (double)(after.ru_utime.tv_usec - before.ru_utime.tv_usec + after.ru_stime.tv_usec - before.ru_stime.tv_usec);
    w->busy = used / (1e-9 * (double)(now() - begun));
    for (int i = 0; i < w->connections; i++)
        close(own[i].socket);
    return NULL;
}

static double part(const uint64_t *times, uint64_t counted, double of) {
    uint64_t seen = 0, wanted = (uint64_t)((double)counted * of);
    for (int bucket = 0; bucket < BUCKETS; bucket++)
        if ((seen += times[bucket]) > wanted)
            return time_of(bucket) / 1000;
    return 0;
}

int main(int count, char **words) {
    if (count < 8 || count % 2 != 0 || (count - 6) / 2 > MOST_CALLS) {
        fprintf(stderr, "usage: load_generator PORT THREADS CONNECTIONS IN-FLIGHT SECONDS WEIGHT CALL [WEIGHT CALL ..]\n");
        return 2;
    }
    port = atoi(words[1]);
    threads = atoi(words[2]);
    connections = atoi(words[3]);
    in_flight = atoi(words[4]);
    seconds = atof(words[5]);
    if (port < 1 || threads < 1 || threads > 64 || connections < threads || in_flight < 1 || in_flight > MOST_IN_FLIGHT
        || seconds <= 0 || seconds > 60)
        fail("a number is out of range");
    for (int i = 6; i < count; i += 2) {
        calls[call_count].weight = atoi(words[i]);
        calls[call_count].line = words[i + 1];
        if (calls[call_count].weight < 1 || strlen(words[i + 1]) > LONGEST_CALL - 64)
            fail("a call is out of range");
        total_weight += calls[call_count++].weight;
    }
    static struct worker workers[64];
    for (int i = 0; i < threads; i++) {
        workers[i].number = i;
        workers[i].connections = connections / threads + (i < connections % threads);
        if (pthread_create(&workers[i].thread, NULL, work, &workers[i]) != 0)
            fail("pthread_create");
    }
    static uint64_t times[BUCKETS];
    uint64_t counted = 0;
    double busy = 0;
    for (int i = 0; i < threads; i++) {
        pthread_join(workers[i].thread, NULL);
        counted += workers[i].counted;
        busy += workers[i].busy / threads;
        for (int bucket = 0; bucket < BUCKETS; bucket++)
            times[bucket] += workers[i].times[bucket];
    }
    printf("%.1f %.1f %.1f %.2f\n", (double)counted / seconds, part(times, counted, 0.5), part(times, counted, 0.99), busy);
    return 0;
}
