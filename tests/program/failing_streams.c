/* Streams that give and take little, and fail. Reads of standard input, or of the socket of the first client that a
   server accepts:

     INTERRUPTED_READS  how many are interrupted before the first that is not; until then the clock is stopped, so
                        that no deadline passes
     READS_IN_PIECES    1: each gives one byte; 2: the same, with an interrupted one before each
     FAILED_READ        the number of the one that fails
     ENDLESS_INPUT      line feeds come without end

   Writes to the descriptor that FAILING_STREAM names, or with 0 to that socket, each of which takes one byte:

     FAILED_WRITE       the number of the one that fails, which is interrupted; with FAILURES_STAY, all from it on
                        fail, and by another error
     ROOM               how many bytes are taken; then writes take nothing

   What was met is counted in the file that STREAMS_MET names, in the order of `struct met`. */
#define _GNU_SOURCE
#include <dlfcn.h>
#include <errno.h>
#include <fcntl.h>
#include <stdint.h>
#include <stdlib.h>
#include <string.h>
#include <sys/mman.h>
#include <sys/socket.h>
#include <time.h>
#include <unistd.h>

/* nobody writes to standard input */
enum { SOCKET = STDIN_FILENO };

struct met {
    uint64_t loaded;
    uint64_t reads;
    uint64_t interrupted_reads;
    uint64_t failed_reads;
    uint64_t bytes_given;
    uint64_t writes;
    uint64_t failed_writes;
    uint64_t empty_writes;
};

static struct met unseen;
static struct met *met = &unseen;
static long interrupted, pieces, failed_read, endless, failing_stream, failed_write, stay, room;
static long clients;

static long number(const char *name)
{
    const char *text = getenv(name);
    return text == NULL ? -1 : atol(text);
}

__attribute__((constructor)) static void begin(void)
{
    interrupted = number("INTERRUPTED_READS");
    pieces = number("READS_IN_PIECES");
    failed_read = number("FAILED_READ");
    endless = number("ENDLESS_INPUT");
    failing_stream = number("FAILING_STREAM");
    failed_write = number("FAILED_WRITE");
    stay = number("FAILURES_STAY");
    room = number("ROOM");
    const char *name = getenv("STREAMS_MET");
    int file = name == NULL ? -1 : open(name, O_RDWR);
    if (file < 0)
        return;
    void *place = mmap(NULL, sizeof *met, PROT_READ | PROT_WRITE, MAP_SHARED, file, 0);
    close(file);
    if (place == MAP_FAILED)
        return;
    met = place;
    met->loaded = 1;
}

static ssize_t fails(int why)
{
    errno = why;
    return -1;
}

/* ---- the C library's own calls */

static ssize_t next_recv(int from, void *to, size_t most, int flags)
{
    static ssize_t (*next)(int, void *, size_t, int);
    if (next == NULL)
        next = (ssize_t(*)(int, void *, size_t, int))dlsym(RTLD_NEXT, "recv");
    return next(from, to, most, flags);
}

static ssize_t next_send(int to, const void *from, size_t most, int flags)
{
    static ssize_t (*next)(int, const void *, size_t, int);
    if (next == NULL)
        next = (ssize_t(*)(int, const void *, size_t, int))dlsym(RTLD_NEXT, "send");
    return next(to, from, most, flags);
}

static ssize_t next_read(int from, void *to, size_t most)
{
    static ssize_t (*next)(int, void *, size_t);
    if (next == NULL)
        next = (ssize_t(*)(int, void *, size_t))dlsym(RTLD_NEXT, "read");
    return next(from, to, most);
}

static ssize_t next_write(int to, const void *from, size_t most)
{
    static ssize_t (*next)(int, const void *, size_t);
    if (next == NULL)
        next = (ssize_t(*)(int, const void *, size_t))dlsym(RTLD_NEXT, "write");
    return next(to, from, most);
}

static ssize_t read_socket(int from, void *to, size_t most)
{
    return next_recv(from, to, most, 0);
}

static ssize_t write_socket(int to, const void *from, size_t most)
{
    return next_send(to, from, most, MSG_NOSIGNAL);
}

/* ---- reads */

static int interrupts(void)
{
    return (long)met->reads <= interrupted || (pieces == 2 && met->reads % 2 == 1);
}

static ssize_t read_by(ssize_t (*next)(int, void *, size_t), int from, void *to, size_t most)
{
    met->reads++;
    if ((long)met->reads == failed_read) {
        met->failed_reads++;
        return fails(ECONNRESET);
    }
    if (interrupts()) {
        met->interrupted_reads++;
        return fails(EINTR);
    }
    if (endless == 1)
        memset(to, '\n', most);
    else if (pieces >= 1 && most > 1)
        most = 1;
    ssize_t given = endless == 1 ? (ssize_t)most : next(from, to, most);
    if (given > 0)
        met->bytes_given += given;
    return given;
}

ssize_t read(int from, void *to, size_t most)
{
    return from == STDIN_FILENO ? read_by(next_read, from, to, most) : next_read(from, to, most);
}

/* A call that only peeks does not count as a read. */
ssize_t recv(int from, void *to, size_t most, int flags)
{
    if (clients != 1 || (flags & MSG_PEEK))
        return next_recv(from, to, most, flags);
    return read_by(read_socket, from, to, most);
}

/* ---- writes */

static ssize_t write_by(ssize_t (*next)(int, const void *, size_t), int to, const void *from)
{
    met->writes++;
    if ((long)met->writes == failed_write || (stay == 1 && (long)met->writes > failed_write)) {
        met->failed_writes++;
        return fails(stay == 1 ? EIO : EINTR);
    }
    if (room >= 0 && (long)met->writes > room) {
        met->empty_writes++;
        return 0;
    }
    return next(to, from, 1);
}

ssize_t write(int to, const void *from, size_t most)
{
    return to == failing_stream && most > 0 ? write_by(next_write, to, from) : next_write(to, from, most);
}

ssize_t send(int to, const void *from, size_t most, int flags)
{
    if (failing_stream != SOCKET || clients != 1 || most == 0)
        return next_send(to, from, most, flags);
    return write_by(write_socket, to, from);
}

/* ---- clients, and the clock */

int accept(int at, struct sockaddr *address, socklen_t *length)
{
    int (*next)(int, struct sockaddr *, socklen_t *) = dlsym(RTLD_NEXT, "accept");
    clients++;
    return next(at, address, length);
}

int accept4(int at, struct sockaddr *address, socklen_t *length, int flags)
{
    int (*next)(int, struct sockaddr *, socklen_t *, int) = dlsym(RTLD_NEXT, "accept4");
    clients++;
    return next(at, address, length, flags);
}

int clock_gettime(clockid_t clock, struct timespec *time)
{
    static int (*next)(clockid_t, struct timespec *);
    static struct timespec stopped;
    if (next == NULL)
        next = (int (*)(clockid_t, struct timespec *))dlsym(RTLD_NEXT, "clock_gettime");
    int answer = next(clock, time);
    if (answer != 0 || clock != CLOCK_MONOTONIC || (long)met->reads >= interrupted)
        return answer;
    if (stopped.tv_sec == 0)
        stopped = *time;
    *time = stopped;
    return 0;
}
