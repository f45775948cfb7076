/* clients PORT MILLISECONDS COUNT [silent=N] [drip=N] [stopped=N] [unread=N]: so many clients at once ask
   127.0.0.1:PORT for so long. Each sends the next of the requests on standard input over a connection of its own, reads
   to the end of the response, and begins anew; those that are under way at the end are waited for, up to 11 seconds
   each. A request ends with a NUL. They are sent in turn, the first again after the last, and the eight bytes @@@@@@@@
   in one are a number, another one each time.

   For each exchange it prints the first letter of the request, the nanoseconds from before the connection to the end of
   the response, the status, and the nanoseconds from the begin of all to its end. The status is 0 where no whole
   response came.

   Beside them others are held, which come half a second before and never read: so many that send nothing, that send the
   first request a byte a second, or without its last byte, and that ask for the feed station_status. */

#define _GNU_SOURCE
#include <arpa/inet.h>
#include <errno.h>
#include <inttypes.h>
#include <stdio.h>
#include <stdlib.h>
#include <string.h>
#include <sys/epoll.h>
#include <sys/socket.h>
#include <time.h>
#include <unistd.h>

enum { MOST = 1 << 24, MOST_REQUESTS = 1 << 16, MOST_CLIENTS = 4096, PIECE = 1 << 16, HEAD = 512 };
enum { SECOND = 1000000000, PATIENCE = 11, NUMBER = 8 };

static const char STATUS[] = "GET /gbfs/3.0/station_status.json HTTP/1.1\r\nHost: 127.0.0.1\r\n\r\n";
static struct sockaddr_in server = {.sin_family = AF_INET};
static char *requests[MOST_REQUESTS];
static size_t count_of_requests, next;
static int64_t came, began;
static int events_of;

/* A client in a closed loop; it has no connection where `connection` is below 0. */
static struct client {
    int connection;
    int64_t begin;
    const char *request;
    char asked[1 << 15], head[HEAD + 1];
    size_t length, sent, came;
} *clients;

static int64_t nanoseconds(void)
{
    struct timespec now;
    clock_gettime(CLOCK_MONOTONIC, &now);
    return now.tv_sec * INT64_C(1000000000) + now.tv_nsec;
}

static int fail(const char *what)
{
    perror(what);
    exit(1);
}

static int connected(void)
{
    int made = socket(AF_INET, SOCK_STREAM | SOCK_NONBLOCK, 0);
    if (made < 0 || (connect(made, (const void *)&server, sizeof server) && errno != EINPROGRESS))
        fail("clients: a connection");
    return made;
}

/* Sends what there is room for. A connection that failed is noticed where it is read. */
static void send_some(struct client *it)
{
    ssize_t some;
    while (it->sent < it->length &&
           (some = send(it->connection, it->asked + it->sent, it->length - it->sent, MSG_NOSIGNAL)) > 0)
        it->sent += some;
}

/* Begins an exchange. */
static void begin(struct client *it)
{
    static uint64_t number;
    struct epoll_event wanted = {.events = EPOLLIN | EPOLLOUT | EPOLLET, .data.ptr = it};
    char digits[NUMBER + 1], *place;
    it->request = requests[next];
    next = (next + 1) % count_of_requests;
    it->length = strlen(it->request);
    memcpy(it->asked, it->request, it->length + 1);
    place = strstr(it->asked, "@@@@@@@@");
    if (place) {
        snprintf(digits, sizeof digits, "%08" PRIu64, number++ % 100000000);
        memcpy(place, digits, NUMBER);
    }
    it->sent = it->came = 0;
    it->begin = nanoseconds();
    it->connection = connected();
    send_some(it);
    if (epoll_ctl(events_of, EPOLL_CTL_ADD, it->connection, &wanted))
        fail("clients: epoll_ctl");
}

/* The status of what came, or 0 where that isn't a whole response. */
static int status_of(struct client *it)
{
    const char *length, *body;
    it->head[it->came < HEAD ? it->came : HEAD] = 0;
    length = strstr(it->head, "\r\nContent-Length: ");
    body = strstr(it->head, "\r\n\r\n");
    if (!length || !body || length > body || it->came != (size_t)(body + 4 - it->head) + strtoul(length + 18, NULL, 10))
        return 0;
    return atoi(it->head + 9);
}

/* Ends an exchange, and tells of it. */
static void end(struct client *it)
{
    int64_t now = nanoseconds();
    close(it->connection);
    it->connection = -1;
    printf("%c %" PRId64 " %d %" PRId64 "\n", *it->request, now - it->begin, status_of(it), now - began);
}

/* Reads what is there; whether the exchange is at its end. */
static int read_some(struct client *it)
{
    static char piece[PIECE];
    ssize_t some;
    while ((some = recv(it->connection, piece, PIECE, 0)) > 0) {
        if (it->came < HEAD)
            memcpy(it->head + it->came, piece, it->came + some > HEAD ? HEAD - it->came : (size_t)some);
        it->came += some;
    }
    return !some || errno != EAGAIN;
}

/* Goes on with the clients whose sockets are ready, and returns how many exchanges ended. */
static int turn(int is_over)
{
    struct epoll_event events[256];
    int some = epoll_wait(events_of, events, 256, 20), ended = 0;
    for (int at = 0; at < some; at++) {
        struct client *it = events[at].data.ptr;
        send_some(it);
        if (!(events[at].events & ~EPOLLOUT) || !read_some(it))
            continue;
        end(it);
        ended += 1;
        if (!is_over)
            begin(it);
    }
    return ended;
}

/* ---- Those that are held */

static struct held {
    int connection, drips;
    const char *bytes;
    size_t length, sent;
} held[MOST_CLIENTS];
static size_t count_of_held;

/* Sends what is due of each. A server that accepts nobody may not have it connected yet, or have given it up. */
static void drip(void)
{
    size_t seconds = (nanoseconds() - came) / SECOND + 1;
    for (struct held *it = held; it < held + count_of_held; it++) {
        size_t due = it->drips && seconds < it->length ? seconds : it->length;
        ssize_t some = it->sent < due ? send(it->connection, it->bytes + it->sent, due - it->sent, MSG_NOSIGNAL) : 0;
        it->sent += some > 0 ? some : 0;
    }
}

/* Begins those of a word of the command line. */
static void hold(const char *word)
{
    struct held it = {.connection = -1, .bytes = requests[0], .length = 0};
    const char *count = strchr(word, '=');
    if (!strncmp(word, "unread=", 7)) {
        it.bytes = STATUS;
        it.length = sizeof STATUS - 1;
    } else if (strncmp(word, "silent=", 7)) {
        it.length = strlen(it.bytes) - 1;
        it.drips = !strncmp(word, "drip=", 5);
    }
    for (int left = count ? atoi(count + 1) : 0; left > 0 && count_of_held < MOST_CLIENTS; left--) {
        it.connection = connected();
        held[count_of_held++] = it;
    }
}

static void read_requests(void)
{
    char *all = calloc(1, MOST + 1);
    size_t length = all ? fread(all, 1, MOST, stdin) : 0;
    for (char *it = all; it && it < all + length && count_of_requests < MOST_REQUESTS; it += strlen(it) + 1)
        if (strlen(it) < sizeof clients->asked)
            requests[count_of_requests++] = it;
}

int main(int count, char **words)
{
    int64_t until;
    int left;
    read_requests();
    if (count < 4 || !count_of_requests || !(clients = calloc(MOST_CLIENTS, sizeof *clients)))
        return 2;
    server.sin_port = htons(atoi(words[1]));
    server.sin_addr.s_addr = htonl(INADDR_LOOPBACK);
    left = atoi(words[3]);
    if (left > MOST_CLIENTS || (events_of = epoll_create1(0)) < 0)
        return 2;
    came = nanoseconds();
    for (int at = 4; at < count; at++)
        hold(words[at]);
    for (drip(); count > 4 && nanoseconds() - came < SECOND / 2; drip())
        usleep(10000);
    began = nanoseconds();
    for (int at = 0; at < left; at++)
        begin(&clients[at]);
    for (until = began + atoll(words[2]) * 1000000; nanoseconds() < until; drip())
        turn(0);
    for (until = nanoseconds() + (int64_t)PATIENCE * SECOND; left > 0 && nanoseconds() < until; drip())
        left -= turn(1);
    for (struct client *it = clients; it < clients + MOST_CLIENTS; it++)
        if (it->begin && it->connection >= 0) {
            it->came = 0;
            end(it);
        }
    return 0;
}
