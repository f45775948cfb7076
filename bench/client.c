/* client PORT: sends each of the HTTP requests on standard input to 127.0.0.1:PORT, one after the other, a connection
   each. A request ends with a NUL. For each it prints the nanoseconds from before the connection to the end of the
   response, the status, the length of the response and a hash (FNV-1a) of its body. Its status is 1 where a call of the
   system fails. */

#include <arpa/inet.h>
#include <inttypes.h>
#include <stdio.h>
#include <stdlib.h>
#include <string.h>
#include <sys/socket.h>
#include <time.h>
#include <unistd.h>

enum { MOST = 1 << 24 }; /* bytes of all requests, and of one response */

static int64_t nanoseconds(void)
{
    struct timespec now;
    clock_gettime(CLOCK_MONOTONIC, &now);
    return now.tv_sec * INT64_C(1000000000) + now.tv_nsec;
}

/* Reads to the end, and returns how many bytes came, or -1. */
static ssize_t read_all(int from, char *into)
{
    ssize_t all = 0, some;
    while ((some = read(from, into + all, MOST - all)) > 0)
        all += some;
    return some < 0 ? -1 : all;
}

/* Sends one request, and returns the length of the response, or -1. */
static ssize_t exchange(const struct sockaddr_in *server, const char *request, char *response)
{
    int connection = socket(AF_INET, SOCK_STREAM, 0);
    ssize_t length = strlen(request);
    if (connection < 0 || connect(connection, (const void *)server, sizeof *server) ||
        write(connection, request, length) != length)
        return -1;
    length = read_all(connection, response);
    close(connection);
    return length;
}

int main(int count, char **words)
{
    char *requests = calloc(1, MOST + 1), *response = calloc(1, MOST + 1);
    if (count != 2 || !requests || !response)
        return 2;
    struct sockaddr_in server = {
        .sin_family = AF_INET, .sin_port = htons(atoi(words[1])), .sin_addr.s_addr = htonl(INADDR_LOOPBACK)};
    ssize_t all = read_all(0, requests);
    for (char *request = requests; request < requests + all; request += strlen(request) + 1) {
        int64_t begin = nanoseconds();
        ssize_t length = exchange(&server, request, response);
        int64_t took = nanoseconds() - begin;
        if (length < 0)
            return perror("client"), 1;
        response[length] = 0;
        const char *body = strstr(response, "\r\n\r\n");
        uint64_t hash = UINT64_C(14695981039346656037);
        for (const char *it = body ? body : ""; *it; it++)
            hash = (hash ^ (unsigned char)*it) * UINT64_C(1099511628211);
        printf("%" PRId64 " %d %zd %016" PRIx64 "\n", took, length > 12 ? atoi(response + 9) : 0, length, hash);
    }
    return 0;
}
