// Calls on a server in a closed loop: each connection sends a call, waits for its answer, and sends the next. Half are puts and half
// are gets, of values under random keys. bench/serve.sh compiles and runs it.
//
//     load [OPTIONS] KIND PORT MEMBERS CONNECTIONS KEYS run SECONDS
//     load [OPTIONS] KIND PORT MEMBERS CONNECTIONS KEYS idle SECONDS PID..
//     load [OPTIONS] KIND PORT MEMBERS CONNECTIONS KEYS memory FEW MANY PID..
//
// KIND is grid, redis, redis-wait, memcached or echo. With redis-wait each put waits until a replica has it. Connection c goes to port
// PORT + c % MEMBERS. A grid's member is primary of the partitions whose number, modulo the members, is its own; a connection's keys
// are in those, since a key may state its hash.
//
// -p CALLS    how many calls each connection has under way, 1 to 64: 1 where it isn't given. Those whose calls were answered together
//             are sent together
// -v BYTES    how long a value is, 8 to 65536: 64
// -t THREADS  on how many threads the connections are shared out, 1 to 64, for `run`: 1
// -i IDLE     how many further connections stand open beside these and never call, up to 10000: 0
//
// run     puts every key once, warms up for a second, and prints calls, seconds, calls a second, and the median, the 99th
//         and the 99.9th percentile of the time from a call to its answer in microseconds
// idle    opens the connections, rests, and prints how many hundredths of a processor the processes used meanwhile
// memory  puts every key once, and prints the processes' resident memory in kB after FEW calls and after MANY
//
// Each answer is checked: it belongs to its call, and what is read was put under its key. The exit status is 0, or 1 with
// the cause on standard error. Where nothing comes for ten seconds, that is the cause.
#include <arpa/inet.h>
#include <errno.h>
#include <netinet/tcp.h>
#include <poll.h>
#include <pthread.h>
#include <stdbool.h>
#include <stdint.h>
#include <stdio.h>
#include <stdlib.h>
#include <string.h>
#include <sys/epoll.h>
#include <sys/socket.h>
#include <time.h>
#include <unistd.h>

enum { PARTITIONS = 271, PATIENCE_MS = 10000, MOST_CONNECTIONS = 10000, MOST_UNDER_WAY = 64, MOST_VALUE = 65536, MOST_THREADS = 64 };

// What a call and an answer have beside a value, at most.
enum { AROUND = 256 };

// What an answer's bytes are so far.
enum { INCOMPLETE = 0 };

// A call that isn't answered yet.
struct call {
    uint64_t number;
    uint64_t sent_ns;
    uint32_t key;
    bool is_put;
    size_t length;
};

struct connection {
    int fd;
    uint32_t number;
    uint32_t member;
    uint64_t calls;
    // Those under way, from the first that was sent.
    struct call under_way[MOST_UNDER_WAY];
    uint32_t first, count;
    // What has come and isn't looked at yet.
    size_t at, have;
    uint8_t *in;
};

// What one thread has: its connections, and the poll that tells of them.
struct client {
    uint32_t first, last;
    int poll_fd;
    struct epoll_event events[256];
    int event_count, event_at;
    uint64_t random;
    uint64_t *buckets;
    uint64_t calls;
};

struct protocol {
    const char *name;
    // Puts what a client says first into `out`, and tells its length. 0: nothing, and no answer comes.
    size_t (*greeting)(const struct connection *, uint8_t *out);
    // Puts a call into `out`, and tells its length.
    size_t (*request)(const struct connection *, const struct call *, uint8_t *out);
    // The length of the call's whole answer that has come, or INCOMPLETE. Without a call it is the answer to the greeting.
    size_t (*answer)(const struct connection *, const struct call *, const uint8_t *in, size_t have);
};

static const struct protocol *protocol;
static struct connection *connections;
static uint32_t connection_count, member_count, key_count;
static uint32_t depth = 1, value_length = 64, thread_count = 1, idle_count = 0;
static size_t room;

static void fail(const char *what, const struct connection *c) {
    if (c != NULL) {
        fprintf(stderr, "load: %s (connection %u, call %llu)\n", what, c->number, (unsigned long long)c->calls);
    } else {
        fprintf(stderr, "load: %s\n", what);
    }
    exit(1);
}

static uint64_t now_ns(void) {
    struct timespec t;
    clock_gettime(CLOCK_MONOTONIC, &t);
    return (uint64_t)t.tv_sec * 1000000000u + (uint64_t)t.tv_nsec;
}

static uint64_t next_random(struct client *client) {
    uint64_t state = client->random;
    state ^= state << 13;
    state ^= state >> 7;
    state ^= state << 17;
    client->random = state;
    return state;
}

// Numbers in bytes.

static uint8_t *put_low_first(uint8_t *at, uint64_t number, int bytes) {
    for (int i = 0; i < bytes; i++) {
        *at++ = (uint8_t)(number >> (8 * i));
    }
    return at;
}

static uint64_t read_low_first(const uint8_t *at, int bytes) {
    uint64_t number = 0;
    for (int i = 0; i < bytes; i++) {
        number |= (uint64_t)at[i] << (8 * i);
    }
    return number;
}

static uint8_t *put_text(uint8_t *at, const char *text, size_t length) {
    memcpy(at, text, length);
    return at + length;
}

// The value that stands under a key: its number, and dots.
static uint8_t *put_value(uint8_t *at, uint32_t key) {
    char text[9];
    snprintf(text, sizeof text, "%08u", key);
    memcpy(at, text, 8);
    memset(at + 8, '.', value_length - 8);
    return at + value_length;
}

static void check_value(const struct connection *c, const struct call *call, const uint8_t *value, size_t length) {
    char text[9];
    snprintf(text, sizeof text, "%08u", call->key);
    if (length != value_length || memcmp(value, text, 8) != 0 || (length > 8 && (value[8] != '.' || memcmp(value + 8, value + 9, length - 9) != 0))) {
        fail("a value that nobody put", c);
    }
}

// The grid's protocol: frames of a length in four bytes, flags in two, and a payload.

enum { HEADER = 6, WHOLE = 0xc000, FINAL = 0x2000, NIL = 0x0400 };
enum { AUTHENTICATE = 0x000100, PUT = 0x010100, GET = 0x010200 };

static uint8_t *put_header(uint8_t *at, size_t payload, uint32_t flags) {
    return put_low_first(put_low_first(at, HEADER + payload, 4), flags, 2);
}

static uint8_t *put_beginning(uint8_t *at, uint32_t type, uint64_t call, uint32_t partition) {
    return put_low_first(put_low_first(put_low_first(at, type, 4), call, 8), partition, 4);
}

static size_t grid_greeting(const struct connection *c, uint8_t *out) {
    uint8_t *at = put_text(out, "CP2", 3);
    at = put_header(at, 34, WHOLE);
    at = put_beginning(at, AUTHENTICATE, 0, UINT32_MAX);
    *at++ = 0;
    at = put_low_first(put_low_first(at, 0, 8), c->number + 1, 8);
    *at++ = 1;
    at = put_header(at, 3, FINAL);
    at = put_text(at, "dev", 3);
    return (size_t)(at - out);
}

// A partition of which the connection's member is primary.
static uint32_t partition_of(const struct connection *c, const struct call *call) {
    uint32_t own = (PARTITIONS - c->member + member_count - 1) / member_count;
    return c->member + member_count * (call->key / member_count % own);
}

static uint8_t *put_key(uint8_t *at, const struct connection *c, const struct call *call, uint32_t flags) {
    char text[9];
    snprintf(text, sizeof text, "%08u", call->key);
    at = put_header(at, 16, flags);
    uint32_t hash = partition_of(c, call) + PARTITIONS;
    for (int shift = 24; shift >= 0; shift -= 8) {
        *at++ = (uint8_t)(hash >> shift);
    }
    at = put_text(at, "\xff\xff\xff\xf5", 4);
    return put_text(at, text, 8);
}

static size_t grid_request(const struct connection *c, const struct call *call, uint8_t *out) {
    uint8_t *at = put_header(out, call->is_put ? 32 : 24, WHOLE);
    at = put_beginning(at, call->is_put ? PUT : GET, call->number, partition_of(c, call));
    at = put_low_first(at, 1, 8);
    if (call->is_put) {
        at = put_low_first(at, 0, 8);
    }
    at = put_text(put_header(at, 1, 0), "m", 1);
    at = put_key(at, c, call, call->is_put ? 0 : FINAL);
    if (call->is_put) {
        at = put_value(put_header(at, value_length, FINAL), call->key);
    }
    return (size_t)(at - out);
}

// The length of the message that has come, or INCOMPLETE.
static size_t grid_message(const struct connection *c, const uint8_t *in, size_t have) {
    size_t at = 0;
    while (at + HEADER <= have) {
        size_t length = read_low_first(in + at, 4);
        uint32_t flags = (uint32_t)read_low_first(in + at + 4, 2);
        if (length < HEADER || length > room) {
            fail("no frame", c);
        }
        at += length;
        if (at > have) {
            return INCOMPLETE;
        }
        if (flags & FINAL) {
            return at;
        }
    }
    return INCOMPLETE;
}

static void check_beginning(const struct connection *c, const uint8_t *in, uint32_t type, uint64_t number) {
    const uint8_t *payload = in + HEADER;
    uint32_t said = (uint32_t)read_low_first(payload, 4);
    if (said == 0) {
        char what[64];
        snprintf(what, sizeof what, "the answer is error %u", (unsigned)read_low_first(payload + 13, 4));
        fail(what, c);
    }
    if (said != type + 1 || read_low_first(payload + 4, 8) != number) {
        fail("the answer to another call", c);
    }
}

static size_t grid_answer(const struct connection *c, const struct call *call, const uint8_t *in, size_t have) {
    size_t length = grid_message(c, in, have);
    if (length == INCOMPLETE) {
        return INCOMPLETE;
    }
    check_beginning(c, in, call == NULL ? AUTHENTICATE : call->is_put ? PUT : GET, call == NULL ? 0 : call->number);
    if (call == NULL) {
        if (in[HEADER + 13] != 0) {
            fail("the authentication wasn't accepted", c);
        }
        return length;
    }
    size_t value = read_low_first(in, 4);
    uint32_t flags = (uint32_t)read_low_first(in + value + 4, 2);
    if (!(flags & NIL)) {
        check_value(c, call, in + value + HEADER, length - value - HEADER);
    }
    return length;
}

// The other protocols begin with a call.
static size_t no_greeting(const struct connection *c, uint8_t *out) {
    (void)c;
    (void)out;
    return 0;
}

// Redis's protocol: arrays of texts with their lengths, and lines.

static size_t redis_request(const struct connection *c, const struct call *call, uint8_t *out) {
    (void)c;
    if (!call->is_put) {
        return (size_t)sprintf((char *)out, "*2\r\n$3\r\nGET\r\n$8\r\n%08u\r\n", call->key);
    }
    size_t length = (size_t)sprintf((char *)out, "*3\r\n$3\r\nSET\r\n$8\r\n%08u\r\n$%u\r\n", call->key, value_length);
    uint8_t *at = put_value(out + length, call->key);
    at = put_text(at, "\r\n", 2);
    return (size_t)(at - out);
}

static size_t redis_wait_request(const struct connection *c, const struct call *call, uint8_t *out) {
    static const char wait[] = "*3\r\n$4\r\nWAIT\r\n$1\r\n1\r\n$1\r\n0\r\n";
    size_t length = redis_request(c, call, out);
    if (!call->is_put) {
        return length;
    }
    return (size_t)(put_text(out + length, wait, sizeof wait - 1) - out);
}

// Whether this text is what has come, or how much of it. Another one is a failure.
static size_t expect(const struct connection *c, const char *text, const uint8_t *in, size_t have, const char *what) {
    size_t length = strlen(text);
    if (memcmp(in, text, have < length ? have : length) != 0) {
        fail(what, c);
    }
    return have < length ? INCOMPLETE : length;
}

static size_t redis_get_answer(const struct connection *c, const struct call *call, const uint8_t *in, size_t have) {
    char head[32];
    if (have >= 2 && in[1] == '-') {
        return expect(c, "$-1\r\n", in, have, "no answer to a get");
    }
    snprintf(head, sizeof head, "$%u\r\n", value_length);
    size_t line = expect(c, head, in, have, "no answer to a get");
    if (line == INCOMPLETE || have < line + value_length + 2) {
        return INCOMPLETE;
    }
    check_value(c, call, in + line, value_length);
    return line + value_length + 2;
}

static size_t redis_answer(const struct connection *c, const struct call *call, const uint8_t *in, size_t have) {
    return call->is_put ? expect(c, "+OK\r\n", in, have, "no answer to a put") : redis_get_answer(c, call, in, have);
}

// A put's answer is followed by the number of replicas that have it.
static size_t redis_wait_answer(const struct connection *c, const struct call *call, const uint8_t *in, size_t have) {
    return call->is_put ? expect(c, "+OK\r\n:1\r\n", in, have, "no answer to a put") : redis_get_answer(c, call, in, have);
}

// memcached's protocol, in its form of texts: lines, and values behind their lengths.

static size_t memcached_request(const struct connection *c, const struct call *call, uint8_t *out) {
    (void)c;
    if (!call->is_put) {
        return (size_t)sprintf((char *)out, "get %08u\r\n", call->key);
    }
    size_t length = (size_t)sprintf((char *)out, "set %08u 0 0 %u\r\n", call->key, value_length);
    uint8_t *at = put_value(out + length, call->key);
    at = put_text(at, "\r\n", 2);
    return (size_t)(at - out);
}

static size_t memcached_answer(const struct connection *c, const struct call *call, const uint8_t *in, size_t have) {
    static const char end[] = "\r\nEND\r\n";
    char head[32];
    if (call->is_put) {
        return expect(c, "STORED\r\n", in, have, "no answer to a put");
    }
    if (have > 0 && in[0] == 'E') {
        return expect(c, end + 2, in, have, "no answer to a get");
    }
    snprintf(head, sizeof head, "VALUE %08u 0 %u\r\n", call->key, value_length);
    size_t line = expect(c, head, in, have, "no answer to a get");
    size_t whole = line + value_length + sizeof end - 1;
    if (line == INCOMPLETE || have < whole) {
        return INCOMPLETE;
    }
    check_value(c, call, in + line, value_length);
    expect(c, end, in + line + value_length, sizeof end - 1, "no end of a value");
    return whole;
}

// An echo: what is sent comes back.

static size_t echo_answer(const struct connection *c, const struct call *call, const uint8_t *in, size_t have) {
    (void)c;
    (void)in;
    return have < call->length ? INCOMPLETE : call->length;
}

static const struct protocol protocols[] = {
    {"grid", grid_greeting, grid_request, grid_answer},
    {"redis", no_greeting, redis_request, redis_answer},
    {"redis-wait", no_greeting, redis_wait_request, redis_wait_answer},
    {"memcached", no_greeting, memcached_request, memcached_answer},
    {"echo", no_greeting, grid_request, echo_answer},
};

// Connections.

static void send_all(struct connection *c, const uint8_t *bytes, size_t length) {
    size_t at = 0;
    while (at < length) {
        ssize_t count = send(c->fd, bytes + at, length - at, MSG_NOSIGNAL);
        if (count < 0 && errno == EINTR) {
            continue;
        }
        if (count <= 0) {
            fail("sending failed", c);
        }
        at += (size_t)count;
    }
}

// Takes what has come. False where nothing has.
static bool receive(struct connection *c) {
    memmove(c->in, c->in + c->at, c->have - c->at);
    c->have -= c->at;
    c->at = 0;
    ssize_t count = recv(c->fd, c->in + c->have, room - c->have, MSG_DONTWAIT);
    if (count == 0) {
        fail("the server has closed the connection", c);
    }
    if (count < 0) {
        if (errno == EAGAIN || errno == EINTR) {
            return false;
        }
        fail("receiving failed", c);
    }
    c->have += (size_t)count;
    return true;
}

static void connect_to(struct connection *c, uint16_t port) {
    struct sockaddr_in place = {.sin_family = AF_INET, .sin_port = htons(port)};
    place.sin_addr.s_addr = htonl(INADDR_LOOPBACK);
    c->fd = socket(AF_INET, SOCK_STREAM, 0);
    if (c->fd < 0 || connect(c->fd, (struct sockaddr *)&place, sizeof place) != 0) {
        fail("connecting failed", c);
    }
    int yes = 1;
    setsockopt(c->fd, IPPROTO_TCP, TCP_NODELAY, &yes, sizeof yes);
}

static void greet(struct connection *c) {
    uint8_t greeting[AROUND];
    size_t length = protocol->greeting(c, greeting);
    if (length == 0) {
        return;
    }
    send_all(c, greeting, length);
    struct pollfd ready = {.fd = c->fd, .events = POLLIN};
    size_t answer = INCOMPLETE;
    while (answer == INCOMPLETE) {
        if (poll(&ready, 1, PATIENCE_MS) == 0) {
            fail("nothing came for ten seconds", c);
        }
        if (receive(c)) {
            answer = protocol->answer(c, NULL, c->in, c->have);
        }
    }
    c->at = answer;
}

static void open_connection(uint32_t number, uint16_t first_port) {
    struct connection *c = &connections[number];
    c->number = number;
    c->member = number % member_count;
    c->in = malloc(room);
    if (c->in == NULL) {
        fail("out of memory", c);
    }
    connect_to(c, (uint16_t)(first_port + c->member));
    greet(c);
}

// Calls.

// Puts a call behind those under way, and behind these bytes. Tells the end of the bytes.
static uint8_t *add_call(struct connection *c, uint32_t key, bool is_put, uint8_t *at) {
    struct call *call = &c->under_way[(c->first + c->count++) % MOST_UNDER_WAY];
    call->number = ++c->calls;
    call->key = key;
    call->is_put = is_put;
    call->length = protocol->request(c, call, at);
    call->sent_ns = now_ns();
    return at + call->length;
}

// Sends so many calls at once. Of every MEMBERS keys one is of the connection's member.
static void send_calls(struct client *client, struct connection *c, uint32_t count) {
    static _Thread_local uint8_t bytes[MOST_UNDER_WAY * (AROUND + MOST_VALUE)];
    uint8_t *at = bytes;
    for (uint32_t sent = 0; sent < count; sent++) {
        uint64_t random = next_random(client);
        uint32_t key = (uint32_t)((random >> 1) % (key_count / member_count));
        at = add_call(c, c->member + member_count * key, random & 1, at);
    }
    send_all(c, bytes, (size_t)(at - bytes));
}

// The next connection with something to read, of a batch that the system tells at once.
static struct connection *next_ready(struct client *client) {
    while (client->event_at == client->event_count) {
        client->event_at = 0;
        client->event_count = epoll_wait(client->poll_fd, client->events, 256, PATIENCE_MS);
        if (client->event_count == 0) {
            fail("nothing came for ten seconds", NULL);
        }
        if (client->event_count < 0) {
            client->event_count = 0;
            if (errno != EINTR) {
                fail("the poll failed", NULL);
            }
        }
    }
    return &connections[client->events[client->event_at++].data.u32];
}

static unsigned bucket_of(uint64_t ns);

// Takes the answers out that have come whole, and counts their calls' times. Tells how many there were.
static uint32_t take_answers(struct client *client, struct connection *c) {
    uint64_t now = now_ns();
    uint32_t taken = 0;
    while (c->count > 0) {
        const struct call *call = &c->under_way[c->first];
        size_t length = protocol->answer(c, call, c->in + c->at, c->have - c->at);
        if (length == INCOMPLETE) {
            return taken;
        }
        client->buckets[bucket_of(now - call->sent_ns)]++;
        c->at += length;
        c->first = (c->first + 1) % MOST_UNDER_WAY;
        c->count--;
        taken++;
    }
    if (c->at != c->have) {
        fail("more came than the answers", c);
    }
    return taken;
}

// Waits until some connection had answers, and tells how many.
static uint32_t next_answered(struct client *client, struct connection **answered) {
    for (;;) {
        struct connection *c = next_ready(client);
        uint32_t taken = receive(c) ? take_answers(client, c) : 0;
        if (taken > 0) {
            *answered = c;
            return taken;
        }
    }
}

static void watch(struct client *client) {
    client->poll_fd = epoll_create1(0);
    for (uint32_t number = client->first; number < client->last; number++) {
        struct epoll_event event = {.events = EPOLLIN, .data.u32 = number};
        if (client->poll_fd < 0 || epoll_ctl(client->poll_fd, EPOLL_CTL_ADD, connections[number].fd, &event) != 0) {
            fail("the poll failed", &connections[number]);
        }
    }
}

// Puts each key of the members that there is a connection to, and leaves no call under way.
static void fill(struct client *client) {
    static uint8_t bytes[AROUND + MOST_VALUE];
    struct connection *answered;
    for (uint32_t key = 0; key < key_count; key++) {
        if (key % member_count < connection_count) {
            struct connection *c = &connections[key % member_count];
            send_all(c, bytes, (size_t)(add_call(c, key, true, bytes) - bytes));
            next_answered(client, &answered);
        }
    }
}

static void begin_calls(struct client *client) {
    for (uint32_t number = client->first; number < client->last; number++) {
        send_calls(client, &connections[number], depth);
    }
}

static void end_calls(struct client *client) {
    uint64_t left = (uint64_t)depth * (client->last - client->first);
    struct connection *answered;
    while (left > 0) {
        left -= next_answered(client, &answered);
    }
}

// Times, counted in buckets: 64 to each doubling, so that a percentile is right to two hundredths.

enum { STEPS = 64, BUCKETS = 64 * STEPS };

static unsigned bucket_of(uint64_t ns) {
    if (ns < STEPS) {
        return (unsigned)ns;
    }
    unsigned shift = 63u - (unsigned)__builtin_clzll(ns) - 6;
    return (shift + 1) * STEPS + (unsigned)((ns >> shift) - STEPS);
}

static double bucket_ns(unsigned bucket) {
    if (bucket < STEPS) {
        return bucket;
    }
    return (double)((uint64_t)(STEPS + bucket % STEPS) << (bucket / STEPS - 1));
}

// The time that this share of the calls didn't pass, in microseconds.
static double percentile(const uint64_t *buckets, uint64_t calls, double share) {
    uint64_t below = 0;
    for (unsigned bucket = 0; bucket < BUCKETS; bucket++) {
        below += buckets[bucket];
        if (below > 0 && (double)below >= share * (double)calls) {
            return bucket_ns(bucket) / 1000;
        }
    }
    return 0;
}

// Calls until the time is up, and tells how many were answered.
static uint64_t call_until(struct client *client, uint64_t end_ns) {
    uint64_t calls = 0;
    for (;;) {
        struct connection *c;
        uint32_t taken = next_answered(client, &c);
        send_calls(client, c, taken);
        if (now_ns() >= end_ns) {
            return calls;
        }
        calls += taken;
    }
}

static void call_often(struct client *client, uint64_t calls) {
    for (uint64_t call = 0; call < calls;) {
        struct connection *c;
        uint32_t taken = next_answered(client, &c);
        send_calls(client, c, taken);
        call += taken;
    }
}

static void begin_client(struct client *client, uint32_t first, uint32_t last) {
    *client = (struct client){.first = first, .last = last, .random = 88172645463325252u + first, .buckets = calloc(BUCKETS, sizeof(uint64_t))};
    if (client->buckets == NULL) {
        fail("out of memory", NULL);
    }
    watch(client);
}

static uint64_t start_ns, end_ns;

// One thread of a run: it warms up until the start, and then counts until the end.
static void *run_client(void *given) {
    struct client *client = given;
    begin_calls(client);
    call_until(client, start_ns);
    memset(client->buckets, 0, BUCKETS * sizeof(uint64_t));
    client->calls = call_until(client, end_ns);
    end_calls(client);
    return NULL;
}

static void fill_all(void) {
    struct client client;
    begin_client(&client, 0, connection_count);
    fill(&client);
    close(client.poll_fd);
    free(client.buckets);
}

static void run(double seconds) {
    static struct client clients[MOST_THREADS];
    static uint64_t buckets[BUCKETS];
    pthread_t threads[MOST_THREADS];
    fill_all();
    start_ns = now_ns() + 1000000000u;
    end_ns = start_ns + (uint64_t)(seconds * 1e9);
    for (uint32_t at = 0; at < thread_count; at++) {
        begin_client(&clients[at], connection_count * at / thread_count, connection_count * (at + 1) / thread_count);
        if (pthread_create(&threads[at], NULL, run_client, &clients[at]) != 0) {
            fail("no thread", NULL);
        }
    }
    uint64_t calls = 0;
    for (uint32_t at = 0; at < thread_count; at++) {
        pthread_join(threads[at], NULL);
        calls += clients[at].calls;
        for (unsigned bucket = 0; bucket < BUCKETS; bucket++) {
            buckets[bucket] += clients[at].buckets[bucket];
        }
    }
    printf("%llu %.3f %.0f %.1f %.1f %.1f\n", (unsigned long long)calls, seconds, (double)calls / seconds,
           percentile(buckets, calls, 0.5), percentile(buckets, calls, 0.99), percentile(buckets, calls, 0.999));
}

// What processes use.

// The processor time of a process so far, in ticks of the system.
static uint64_t ticks_of(const char *pid) {
    char path[64], line[1024];
    snprintf(path, sizeof path, "/proc/%s/stat", pid);
    FILE *file = fopen(path, "r");
    if (file == NULL || fgets(line, sizeof line, file) == NULL) {
        fail("no such process", NULL);
    }
    fclose(file);
    unsigned long long user = 0, system = 0;
    const char *behind_name = strrchr(line, ')');
    if (behind_name == NULL
        || sscanf(behind_name + 1, " %*c %*d %*d %*d %*d %*d %*u %*u %*u %*u %*u %llu %llu", &user, &system) != 2) {
        fail("no times of the process", NULL);
    }
    return user + system;
}

static uint64_t memory_of(const char *pid) {
    char path[64], line[256];
    snprintf(path, sizeof path, "/proc/%s/status", pid);
    FILE *file = fopen(path, "r");
    if (file == NULL) {
        fail("no such process", NULL);
    }
    unsigned long long kilobytes = 0;
    while (fgets(line, sizeof line, file) != NULL) {
        sscanf(line, "VmRSS: %llu", &kilobytes);
    }
    fclose(file);
    return kilobytes;
}

static uint64_t sum_over(char **pids, uint64_t (*measure)(const char *)) {
    uint64_t sum = 0;
    for (; *pids != NULL; pids++) {
        sum += measure(*pids);
    }
    return sum;
}

static void idle(double seconds, char **pids) {
    sleep(1);
    uint64_t ticks = sum_over(pids, ticks_of), start = now_ns();
    usleep((useconds_t)(seconds * 1e6));
    double took = (double)(now_ns() - start) / 1e9;
    double used = (double)(sum_over(pids, ticks_of) - ticks) / (double)sysconf(_SC_CLK_TCK);
    printf("%.2f\n", 100 * used / took);
}

static void memory(uint64_t few, uint64_t many, char **pids) {
    struct client client;
    begin_client(&client, 0, connection_count);
    fill(&client);
    begin_calls(&client);
    call_often(&client, few);
    uint64_t early = sum_over(pids, memory_of);
    call_often(&client, many - few);
    uint64_t late = sum_over(pids, memory_of);
    end_calls(&client);
    printf("%llu %llu\n", (unsigned long long)early, (unsigned long long)late);
}

static uint32_t number_in(const char *text, uint32_t least, uint32_t most) {
    char *end;
    unsigned long number = strtoul(text, &end, 10);
    if (*text == 0 || *end != 0 || number < least || number > most) {
        fail("a number is wrong: see the head of load.c", NULL);
    }
    return (uint32_t)number;
}

static void open_all(char **words) {
    for (size_t i = 0; i < sizeof protocols / sizeof *protocols; i++) {
        if (strcmp(words[0], protocols[i].name) == 0) {
            protocol = &protocols[i];
        }
    }
    if (protocol == NULL) {
        fail("no such kind: see the head of load.c", NULL);
    }
    uint16_t port = (uint16_t)number_in(words[1], 1, 65000);
    member_count = number_in(words[2], 1, 8);
    connection_count = number_in(words[3], 1, MOST_CONNECTIONS);
    key_count = number_in(words[4], member_count, 99999999);
    if (thread_count > connection_count) {
        thread_count = connection_count;
    }
    room = (size_t)depth * (AROUND + value_length) + AROUND;
    connections = calloc(connection_count + idle_count, sizeof *connections);
    if (connections == NULL) {
        fail("out of memory", NULL);
    }
    for (uint32_t number = 0; number < connection_count + idle_count; number++) {
        open_connection(number, port);
    }
}

// Reads the options, and tells where the other words begin.
static int read_options(int count, char **words) {
    int option;
    while ((option = getopt(count, words, "+p:v:t:i:")) != -1) {
        switch (option) {
        case 'p':
            depth = number_in(optarg, 1, MOST_UNDER_WAY);
            break;
        case 'v':
            value_length = number_in(optarg, 8, MOST_VALUE);
            break;
        case 't':
            thread_count = number_in(optarg, 1, MOST_THREADS);
            break;
        case 'i':
            idle_count = number_in(optarg, 0, MOST_CONNECTIONS);
            break;
        default:
            fail("no such option: see the head of load.c", NULL);
        }
    }
    return optind;
}

int main(int count, char **words) {
    int first = read_options(count, words);
    words += first - 1;
    count -= first - 1;
    if (count < 8) {
        fail("too few words: see the head of load.c", NULL);
    }
    open_all(words + 1);
    if (strcmp(words[6], "run") == 0) {
        run(strtod(words[7], NULL));
    } else if (strcmp(words[6], "idle") == 0) {
        idle(strtod(words[7], NULL), words + 8);
    } else if (strcmp(words[6], "memory") == 0 && count > 9) {
        memory(number_in(words[7], 1, UINT32_MAX), number_in(words[8], 1, UINT32_MAX), words + 9);
    } else {
        fail("no such task: see the head of load.c", NULL);
    }
    return 0;
}
