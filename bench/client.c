/* Asks a server on the loopback, one connection after the other: sends a request whole, and reads the reply to its end.

   usage: client PORT PID

   Requests come on standard input, each behind a line with the count of its bytes. The first line of the output has
   three times in ns: what all of it took by the clock, and how long a processor had worked for the process PID before
   the first request and after the last. Then stand the replies, in the form and the order of the requests.

   The status is 1 where anything fails. A call on a connection waits 30 seconds at most, and a run ends after 300. */
#define _POSIX_C_SOURCE 200809L
#include <arpa/inet.h>
#include <errno.h>
#include <stdio.h>
#include <stdlib.h>
#include <string.h>
#include <sys/socket.h>
#include <sys/time.h>
#include <time.h>
#include <unistd.h>

enum { LONGEST_WAIT = 30, LONGEST_RUN = 300, MOST_REQUESTS = 100000, LAST_PORT = 65535, LAST_PROCESS = 1 << 22 };
static const size_t MOST_BYTES = (size_t)1 << 30;
/* the server may still be closing the last connection */
static const struct timespec UNTIL_AT_REST = {0, 20 * 1000 * 1000};

struct text {
    char *bytes;
    size_t length, room;
};

struct request {
    const char *bytes;
    size_t length;
};

static _Noreturn void fail(const char *what)
{
    perror(what);
    exit(1);
}

static _Noreturn void refuse(const char *what)
{
    fprintf(stderr, "client: %s\n", what);
    exit(1);
}

static void make_room(struct text *text)
{
    if (text->length < text->room)
        return;
    if (text->room >= MOST_BYTES)
        refuse("too many bytes");
    text->room = text->room == 0 ? 1 << 16 : 2 * text->room;
    text->bytes = realloc(text->bytes, text->room);
    if (text->bytes == NULL)
        fail("realloc");
}

/* Puts all that comes, up to its end, behind a text. */
static void take(struct text *text, int from)
{
    for (;;) {
        make_room(text);
        ssize_t count = read(from, text->bytes + text->length, text->room - text->length);
        if (count < 0)
            fail("read");
        if (count == 0)
            return;
        text->length += count;
    }
}

static void give(int to, struct request request)
{
    while (request.length > 0) {
        ssize_t count = send(to, request.bytes, request.length, MSG_NOSIGNAL);
        if (count < 0)
            fail("send");
        request.bytes += count;
        request.length -= count;
    }
}

static int connected(const struct sockaddr_in *address)
{
    const struct timeval wait = {LONGEST_WAIT, 0};
    int stream = socket(AF_INET, SOCK_STREAM, 0);
    if (stream < 0)
        fail("socket");
    if (setsockopt(stream, SOL_SOCKET, SO_RCVTIMEO, &wait, sizeof wait) != 0)
        fail("setsockopt");
    if (setsockopt(stream, SOL_SOCKET, SO_SNDTIMEO, &wait, sizeof wait) != 0)
        fail("setsockopt");
    if (connect(stream, (const struct sockaddr *)address, sizeof *address) != 0)
        fail("connect");
    return stream;
}

static long number(const char *word, long most)
{
    char *end;
    errno = 0;
    long value = strtol(word, &end, 10);
    if (errno != 0 || end == word || *end != '\0' || value < 1 || value > most)
        refuse("usage: client PORT PID");
    return value;
}

/* Finds the requests in a text that ends with a nul byte. How many there are. */
static size_t find_requests(const struct text *given, struct request *requests)
{
    const char *at = given->bytes, *end = given->bytes + given->length;
    size_t count = 0;
    while (at < end) {
        char *line_end;
        size_t length = strtoul(at, &line_end, 10);
        if (line_end == at || *line_end != '\n' || length > (size_t)(end - line_end - 1) || count == MOST_REQUESTS)
            refuse("what came has not the form of requests");
        requests[count++] = (struct request){line_end + 1, length};
        at = line_end + 1 + length;
    }
    return count;
}

static long long now(clockid_t clock)
{
    struct timespec time;
    if (clock_gettime(clock, &time) != 0)
        fail("clock_gettime");
    return time.tv_sec * 1000000000LL + time.tv_nsec;
}

/* Sends the requests one after the other. Replies are put behind a text, and where each ends is noted. */
static void ask(const struct sockaddr_in *address, const struct request *requests, size_t count, struct text *replies,
                size_t *ends)
{
    for (size_t place = 0; place < count; place++) {
        int stream = connected(address);
        give(stream, requests[place]);
        take(replies, stream);
        close(stream);
        ends[place] = replies->length;
    }
}

static void tell(const struct text *replies, const size_t *ends, size_t count)
{
    size_t begin = 0;
    for (size_t place = 0; place < count; place++) {
        printf("%zu\n", ends[place] - begin);
        fwrite(replies->bytes + begin, 1, ends[place] - begin, stdout);
        begin = ends[place];
    }
    if (fflush(stdout) != 0 || ferror(stdout))
        fail("output");
}

int main(int words, char **word)
{
    static struct request requests[MOST_REQUESTS];
    static size_t ends[MOST_REQUESTS];
    struct text given = {0}, replies = {0};
    struct sockaddr_in address = {.sin_family = AF_INET, .sin_addr.s_addr = htonl(INADDR_LOOPBACK)};
    clockid_t server;
    if (words != 3)
        refuse("usage: client PORT PID");
    address.sin_port = htons(number(word[1], LAST_PORT));
    if (clock_getcpuclockid(number(word[2], LAST_PROCESS), &server) != 0)
        refuse("no process of this number");
    alarm(LONGEST_RUN);
    take(&given, STDIN_FILENO);
    make_room(&given);
    given.bytes[given.length] = '\0';
    size_t count = find_requests(&given, requests);
    long long worked = now(server), begun = now(CLOCK_MONOTONIC);
    ask(&address, requests, count, &replies, ends);
    long long took = now(CLOCK_MONOTONIC) - begun;
    nanosleep(&UNTIL_AT_REST, NULL);
    printf("%lld %lld %lld\n", took, worked, now(server));
    tell(&replies, ends, count);
    return 0;
}
