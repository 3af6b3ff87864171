// Answers each line of its clients at a port of loopback with a fixed reply, by epoll in one thread, as a measure of what sockets
// allow:
//
//     fixed_replies PORT SECONDS STORE NUMBER REPLY [NUMBER REPLY ..]
//
// The greeting is answered LysKOM, and a line = with its reference and then the reply of its call's number; a line of another
// number has an empty reply. What was read at once is answered at once. Where STORE is no empty word it is a file that is made:
// the lines of calls whose replies are given with a + before them are stored before they are answered, those that were read at
// once together: their bytes are written at its end and synced, and then a byte before them, which is synced too. No string of a
// line may have a line feed. It ends after so many seconds.
#define _GNU_SOURCE
#include <arpa/inet.h>
#include <errno.h>
#include <fcntl.h>
#include <netinet/tcp.h>
#include <stdint.h>
#include <stdio.h>
#include <stdlib.h>
#include <string.h>
#include <sys/epoll.h>
#include <sys/socket.h>
#include <time.h>
#include <unistd.h>

enum { MOST_REPLIES = 16, LONGEST_REPLY = 65536, INPUT = 1 << 16, MOST_LINE = 4096 };

struct reply { long number; int stored; const char *bytes; size_t length; };

struct client {
    int socket, is_greeted;
    size_t held;                       // bytes of a line that is not complete
    char input[INPUT + MOST_LINE];
    char *output;
    size_t begin, end, room;
};

static struct reply replies[MOST_REPLIES];
static int reply_count, store = -1;
static off_t store_end;

static void fail(const char *what) {
    fprintf(stderr, "fixed_replies: %s (%s)\n", what, strerror(errno));
    exit(1);
}

static void put(struct client *c, const char *bytes, size_t length) {
    if (c->room - c->end < length && !(c->output = realloc(c->output, c->room = 2 * (c->end + length))))
        fail("out of memory");
    memcpy(c->output + c->end, bytes, length);
    c->end += length;
}

// Puts the answer of a line, and returns whether the line is to be stored.
static int answer(struct client *c, const char *line, size_t length) {
    if (!c->is_greeted) {
        c->is_greeted = 1;
        put(c, "LysKOM\n", 7);
        return 0;
    }
    const char *blank = memchr(line, ' ', length);
    size_t reference = blank ? (size_t)(blank - line) : length;
    long number = blank ? strtol(blank + 1, NULL, 10) : 0;
    put(c, "=", 1);
    put(c, line, reference);
    for (int i = 0; i < reply_count; i++)
        if (replies[i].number == number) {
            put(c, replies[i].bytes, replies[i].length);
            put(c, "\n", 1);
            return replies[i].stored;
        }
    put(c, "\n", 1);
    return 0;
}

static void keep(const char *bytes, size_t length) {
    if (pwrite(store, bytes, length, store_end + 1) != (ssize_t)length || fdatasync(store) != 0
        || pwrite(store, "\1", 1, store_end) != 1 || fdatasync(store) != 0)
        fail("the store");
    store_end += (off_t)length + 1;
}

// Writes what can be written. Returns whether the client is still there.
static int flush(struct client *c) {
    while (c->begin < c->end) {
        ssize_t wrote = send(c->socket, c->output + c->begin, c->end - c->begin, MSG_NOSIGNAL);
        if (wrote < 0)
            return errno == EAGAIN;
        c->begin += (size_t)wrote;
    }
    c->begin = c->end = 0;
    return 1;
}

// Reads once, answers the lines that are complete, and writes. Returns whether the client is still there.
static int serve(struct client *c) {
    static char kept[INPUT + MOST_LINE];
    ssize_t count = recv(c->socket, c->input + c->held, INPUT, 0);
    if (count <= 0)
        return count < 0 && errno == EAGAIN;
    size_t length = c->held + (size_t)count, place = 0, kept_length = 0;
    for (char *feed; (feed = memchr(c->input + place, '\n', length - place)); place = (size_t)(feed - c->input) + 1) {
        size_t size = (size_t)(feed - c->input) - place;
        if (answer(c, c->input + place, size)) {
            memcpy(kept + kept_length, c->input + place, size);
            kept_length += size;
        }
    }
    c->held = length - place;
    if (c->held > MOST_LINE)
        fail("a line is too long");
    memmove(c->input, c->input + place, c->held);
    if (kept_length > 0 && store >= 0)
        keep(kept, kept_length);
    return flush(c);
}

int main(int count, char **words) {
    if (count < 6 || count % 2 != 0 || (count - 4) / 2 > MOST_REPLIES) {
        fprintf(stderr, "usage: fixed_replies PORT SECONDS STORE NUMBER REPLY [NUMBER REPLY ..]\n");
        return 2;
    }
    for (int i = 4; i < count; i += 2) {
        struct reply *r = &replies[reply_count++];
        r->number = atol(words[i]);
        r->stored = words[i + 1][0] == '+';
        r->bytes = words[i + 1] + r->stored;
        r->length = strlen(r->bytes);
    }
    if (words[3][0] && (store = open(words[3], O_RDWR | O_CREAT | O_EXCL, 0600)) < 0)
        fail("the store");
    struct sockaddr_in address = {.sin_family = AF_INET, .sin_port = htons((uint16_t)atoi(words[1]))};
    address.sin_addr.s_addr = htonl(INADDR_LOOPBACK);
    int one = 1, listener = socket(AF_INET, SOCK_STREAM | SOCK_NONBLOCK, 0), poll = epoll_create1(0);
    setsockopt(listener, SOL_SOCKET, SO_REUSEADDR, &one, sizeof one);
    if (listener < 0 || poll < 0 || bind(listener, (struct sockaddr *)&address, sizeof address) != 0 || listen(listener, 4096) != 0)
        fail("listen");
    struct epoll_event event = {.events = EPOLLIN}, events[64];
    if (epoll_ctl(poll, EPOLL_CTL_ADD, listener, &event) != 0)
        fail("epoll_ctl");
    time_t end = time(NULL) + atoi(words[2]);
    while (time(NULL) < end) {
        int ready = epoll_wait(poll, events, 64, 200);
        for (int i = 0; i < ready; i++) {
            struct client *c = events[i].data.ptr;
            if (!c) {
                int socket = accept4(listener, NULL, NULL, SOCK_NONBLOCK);
                if (socket < 0)
                    continue;
                setsockopt(socket, IPPROTO_TCP, TCP_NODELAY, &one, sizeof one);
                if (!(c = calloc(1, sizeof *c)))
                    fail("out of memory");
                c->socket = socket;
                event.events = EPOLLIN;
                event.data.ptr = c;
                if (epoll_ctl(poll, EPOLL_CTL_ADD, socket, &event) != 0)
                    fail("epoll_ctl");
                continue;
            }
            // A client that takes nothing is not read further.
            int waits = c->end > 0, lives = waits ? flush(c) : serve(c);
            if (!lives) {
                close(c->socket);
                free(c->output);
                free(c);
            } else if (waits != (c->end > 0)) {
                event.events = c->end > 0 ? EPOLLOUT : EPOLLIN;
                event.data.ptr = c;
                if (epoll_ctl(poll, EPOLL_CTL_MOD, c->socket, &event) != 0)
                    fail("epoll_ctl");
            }
        }
    }
    return 0;
}
