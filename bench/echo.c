// Sends back what comes, from one thread: the floor of what a server over TCP costs. bench/serve.sh compiles and runs it.
//
//     echo PORT
#include <arpa/inet.h>
#include <errno.h>
#include <netinet/tcp.h>
#include <stdio.h>
#include <stdlib.h>
#include <sys/epoll.h>
#include <sys/socket.h>
#include <unistd.h>

enum { EVENTS = 256, ROOM = 65536, WAITING = 1024 };

static int listener, poll_fd;

static void fail(const char *what) {
    perror(what);
    exit(1);
}

static void watch(int fd) {
    struct epoll_event event = {.events = EPOLLIN, .data.fd = fd};
    if (epoll_ctl(poll_fd, EPOLL_CTL_ADD, fd, &event) != 0) {
        fail("epoll_ctl");
    }
}

static void listen_at(unsigned short port) {
    struct sockaddr_in place = {.sin_family = AF_INET, .sin_port = htons(port)};
    int yes = 1;
    place.sin_addr.s_addr = htonl(INADDR_LOOPBACK);
    listener = socket(AF_INET, SOCK_STREAM, 0);
    setsockopt(listener, SOL_SOCKET, SO_REUSEADDR, &yes, sizeof yes);
    if (listener < 0 || bind(listener, (struct sockaddr *)&place, sizeof place) != 0 || listen(listener, WAITING) != 0) {
        fail("listen");
    }
    watch(listener);
}

static void take_caller(void) {
    int yes = 1, fd = accept(listener, NULL, NULL);
    if (fd < 0) {
        return;
    }
    setsockopt(fd, IPPROTO_TCP, TCP_NODELAY, &yes, sizeof yes);
    watch(fd);
}

// A client that doesn't read what it sent is closed.
static void send_back(int fd) {
    static char bytes[ROOM];
    ssize_t count = recv(fd, bytes, ROOM, 0);
    if (count <= 0 || send(fd, bytes, (size_t)count, MSG_NOSIGNAL | MSG_DONTWAIT) != count) {
        close(fd);
    }
}

static void serve(void) {
    struct epoll_event events[EVENTS];
    int count = epoll_wait(poll_fd, events, EVENTS, -1);
    if (count < 0 && errno != EINTR) {
        fail("epoll_wait");
    }
    for (int at = 0; at < count; at++) {
        if (events[at].data.fd == listener) {
            take_caller();
        } else {
            send_back(events[at].data.fd);
        }
    }
}

int main(int count, char **words) {
    if (count != 2) {
        fputs("usage: echo PORT\n", stderr);
        return 1;
    }
    poll_fd = epoll_create1(0);
    if (poll_fd < 0) {
        fail("epoll_create1");
    }
    listen_at((unsigned short)atoi(words[1]));
    for (;;) {
        serve();
    }
}
