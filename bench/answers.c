// Answers each call of a client at once, from one thread: what the client for Python costs without a grid behind it. It accepts
// every client, gives each get a value of 20 bytes, and any other call nothing. bench/python.py --alone compiles and runs it.
//
//     answers PORT: listens there and at the two ports behind it
#include <arpa/inet.h>
#include <netinet/tcp.h>
#include <stdint.h>
#include <stdio.h>
#include <stdlib.h>
#include <string.h>
#include <sys/epoll.h>
#include <sys/socket.h>
#include <unistd.h>

enum { EVENTS = 64, ROOM = 1 << 17, CALLERS = 1024, MEMBERS = 3, HEADER = 6, REPLY = 19, VALUE = 20, PARTITIONS = 271 };
enum { WHOLE = 0xC000, FINAL = 0x2000, AUTHENTICATION = 0x000100, GET = 0x010200, SIZE = 0x030300 };

typedef struct {
    unsigned char bytes[ROOM];
    int count, begins;
} Caller;

static Caller callers[CALLERS];
static unsigned char out[ROOM * 2];
static int listeners[MEMBERS], poll_fd, written;

static void watch(int fd) {
    struct epoll_event event = {.events = EPOLLIN, .data.fd = fd};
    epoll_ctl(poll_fd, EPOLL_CTL_ADD, fd, &event);
}

static void listen_at(int member, unsigned short port) {
    struct sockaddr_in place = {.sin_family = AF_INET, .sin_port = htons(port)};
    int yes = 1;
    place.sin_addr.s_addr = htonl(INADDR_LOOPBACK);
    listeners[member] = socket(AF_INET, SOCK_STREAM, 0);
    setsockopt(listeners[member], SOL_SOCKET, SO_REUSEADDR, &yes, sizeof yes);
    if (bind(listeners[member], (struct sockaddr *)&place, sizeof place) != 0 || listen(listeners[member], CALLERS) != 0) {
        perror("listen");
        exit(1);
    }
    watch(listeners[member]);
}

static void take_caller(int listener) {
    int yes = 1, fd = accept(listener, NULL, NULL);
    if (fd < 0 || fd >= CALLERS) {
        exit(1);
    }
    setsockopt(fd, IPPROTO_TCP, TCP_NODELAY, &yes, sizeof yes);
    callers[fd].count = 0;
    callers[fd].begins = 1;
    watch(fd);
}

static void put(const void *bytes, int count) {
    memcpy(out + written, bytes, (size_t)count);
    written += count;
}

static void frame(uint32_t payload, uint16_t flags) {
    uint32_t length = HEADER + payload;
    put(&length, 4);
    put(&flags, 2);
}

static void answer(const unsigned char *message) {
    static const unsigned char zeros[32];
    uint32_t kind, fields = 0, partitions = PARTITIONS;
    memcpy(&kind, message + HEADER, 4);
    fields = kind == AUTHENTICATION ? 22 : kind == SIZE ? 4 : 0;
    frame(REPLY - HEADER + fields, kind == GET ? WHOLE : WHOLE | FINAL);
    kind += 1;
    put(&kind, 4);
    put(message + HEADER + 4, 8);
    put(zeros, 1);
    if (fields == 22) {
        put(zeros, 18);
        put(&partitions, 4);
    } else {
        put(zeros, (int)fields);
    }
    if (kind == GET + 1) {
        frame(VALUE, FINAL);
        put("vvvvvvvvvvvvvvvvvvvv", VALUE);
    }
}

// The end of the message that begins there, or 0 where it isn't whole.
static int end_of(const Caller *caller, int at) {
    for (;;) {
        uint32_t length;
        uint16_t flags;
        if (at + HEADER > caller->count) {
            return 0;
        }
        memcpy(&length, caller->bytes + at, 4);
        memcpy(&flags, caller->bytes + at + 4, 2);
        at += (int)length;
        if (at > caller->count) {
            return 0;
        }
        if (flags & FINAL) {
            return at;
        }
    }
}

static void serve(int fd) {
    Caller *caller = &callers[fd];
    ssize_t count = recv(fd, caller->bytes + caller->count, (size_t)(ROOM - caller->count), 0);
    if (count <= 0) {
        close(fd);
        return;
    }
    caller->count += (int)count;
    int at = caller->begins && caller->count >= 3 ? 3 : 0;
    caller->begins = caller->begins && at == 0;
    written = 0;
    for (int end; (end = end_of(caller, at)) != 0; at = end) {
        answer(caller->bytes + at);
    }
    memmove(caller->bytes, caller->bytes + at, (size_t)(caller->count - at));
    caller->count -= at;
    if (written > 0 && send(fd, out, (size_t)written, MSG_NOSIGNAL) != written) {
        close(fd);
    }
}

static int is_listener(int fd) {
    return fd == listeners[0] || fd == listeners[1] || fd == listeners[2];
}

int main(int count, char **words) {
    if (count != 2) {
        fputs("usage: answers PORT\n", stderr);
        return 1;
    }
    poll_fd = epoll_create1(0);
    for (int member = 0; member < MEMBERS; member++) {
        listen_at(member, (unsigned short)(atoi(words[1]) + member));
    }
    for (;;) {
        struct epoll_event events[EVENTS];
        int ready = epoll_wait(poll_fd, events, EVENTS, -1);
        for (int at = 0; at < ready; at++) {
            is_listener(events[at].data.fd) ? take_caller(events[at].data.fd) : serve(events[at].data.fd);
        }
    }
}
