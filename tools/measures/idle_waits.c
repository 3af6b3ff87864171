// Waits as workers with idle connections would that were not woken, and tells which part of a core that takes:
//
//     idle_waits THREADS MILLISECONDS SECONDS
//
// Each thread has a socket on which nothing comes: it reads, polls for so many milliseconds, and reads again where something
// came. After a second it measures its processor time for so many seconds.
#define _GNU_SOURCE
#include <pthread.h>
#include <stdio.h>
#include <stdlib.h>
#include <sys/epoll.h>
#include <sys/resource.h>
#include <sys/socket.h>
#include <unistd.h>

static int pause_milliseconds;

static void *wait_on(void *number) {
    int pair[2], poll = epoll_create1(0);
    char input[64];
    struct epoll_event event = {.events = EPOLLIN | EPOLLOUT | EPOLLET};
    if (poll < 0 || socketpair(AF_UNIX, SOCK_STREAM | SOCK_NONBLOCK, 0, pair) != 0
        || epoll_ctl(poll, EPOLL_CTL_ADD, pair[0], &event) != 0)
        exit(1);
    // So that threads wake at all moments of the pause.
    usleep((useconds_t)(*(int *)number * 7919 % pause_milliseconds) * 1000);
    for (;;) {
        recv(pair[0], input, sizeof input, 0);
        if (epoll_wait(poll, &event, 1, pause_milliseconds) > 0)
            recv(pair[0], input, sizeof input, 0);
    }
    return NULL;
}

static double used(void) {
    struct rusage r;
    getrusage(RUSAGE_SELF, &r);
    return (double)(r.ru_utime.tv_sec + r.ru_stime.tv_sec) + 1e-6 * (double)(r.ru_utime.tv_usec + r.ru_stime.tv_usec);
}

int main(int count, char **words) {
    static int numbers[1024];
    int threads = count == 4 ? atoi(words[1]) : 0, seconds = count == 4 ? atoi(words[3]) : 0;
    pause_milliseconds = count == 4 ? atoi(words[2]) : 0;
    if (threads < 1 || threads > 1024 || pause_milliseconds < 1 || seconds < 1 || seconds > 600) {
        fprintf(stderr, "usage: idle_waits THREADS MILLISECONDS SECONDS\n");
        return 2;
    }
    for (int i = 0; i < threads; i++) {
        pthread_t thread;
        numbers[i] = i;
        if (pthread_create(&thread, NULL, wait_on, &numbers[i]) != 0)
            return 1;
    }
    sleep(1);
    double before = used();
    sleep((unsigned)seconds);
    printf("%.4f\n", (used() - before) / seconds);
    return 0;
}
