/* Preloaded into a program that keeps a register in the file DISK_FILE and in its log, whose name is the same with
   `-wal` at its end. The calls that write, resize or sync one of the two are counted. The process is killed before the
   call of the number DISK_PLACE. Three variables change this:

     DISK_ERROR   the call does nothing, and fails with the error of this number
     DISK_CUT     1: only writes are counted, and the process is killed once half of that write is done
     DISK_READ    1: the calls that read one of the two, or ask for its length, are counted in place of these

   A copy of each of the two files as of its last sync is kept at DISK_SYNCED, with `-wal` at the end for the log. The
   file that DISK_MET names has the counts, in the order of `struct met`. */
#define _GNU_SOURCE
#include <dlfcn.h>
#include <errno.h>
#include <fcntl.h>
#include <limits.h>
#include <signal.h>
#include <stdint.h>
#include <stdio.h>
#include <stdlib.h>
#include <string.h>
#include <sys/mman.h>
#include <sys/sendfile.h>
#include <sys/stat.h>
#include <unistd.h>

/* `reads` are calls that read one of the two files, or ask for its length. `fault` is the number of the call with the
   fault: among `reads` with DISK_READ, otherwise among `calls`. */
struct met {
    uint64_t loaded;
    uint64_t calls;
    uint64_t writes;
    uint64_t reads;
    uint64_t fault;
};

static struct met unseen;
static struct met *met = &unseen;
static const char *path, *synced;
static long failure, cut, of_reads;
static uint64_t place;

static long number(const char *name)
{
    const char *text = getenv(name);
    return text == NULL ? 0 : atol(text);
}

__attribute__((constructor)) static void begin(void)
{
    path = getenv("DISK_FILE");
    synced = getenv("DISK_SYNCED");
    place = number("DISK_PLACE");
    failure = number("DISK_ERROR");
    cut = number("DISK_CUT");
    of_reads = number("DISK_READ");
    const char *name = getenv("DISK_MET");
    int file = name == NULL ? -1 : open(name, O_RDWR);
    if (path == NULL || synced == NULL || file < 0)
        return;
    void *at = mmap(NULL, sizeof *met, PROT_READ | PROT_WRITE, MAP_SHARED, file, 0);
    close(file);
    if (at == MAP_FAILED)
        return;
    met = at;
    met->loaded = 1;
}

/* If an open file is one of the two: the end of its name, after DISK_FILE. */
static const char *end_of(int file)
{
    char link[32], name[PATH_MAX];
    snprintf(link, sizeof link, "/proc/self/fd/%d", file);
    ssize_t length = readlink(link, name, sizeof name - 1);
    if (met->loaded == 0 || length < 0)
        return NULL;
    name[length] = 0;
    size_t front = strlen(path);
    if (strncmp(name, path, front) != 0)
        return NULL;
    if (strcmp(name + front, "-wal") == 0)
        return "-wal";
    return name[front] == 0 ? "" : NULL;
}

static int is_met(int writes)
{
    met->calls++;
    met->writes += writes;
    if (of_reads == 1 || (cut == 1 && !writes))
        return 0;
    if ((cut == 1 ? met->writes : met->calls) != place)
        return 0;
    met->fault = met->calls;
    return 1;
}

static int is_read(int file)
{
    if (end_of(file) == NULL)
        return 0;
    met->reads++;
    if (of_reads != 1 || met->reads != place)
        return 0;
    met->fault = met->reads;
    return 1;
}

static int fails(void)
{
    if (failure == 0)
        kill(getpid(), SIGKILL);
    errno = (int)failure;
    return -1;
}

ssize_t pwrite(int to, const void *from, size_t most, off_t at)
{
    ssize_t (*next)(int, const void *, size_t, off_t) = dlsym(RTLD_NEXT, "pwrite");
    if (end_of(to) == NULL || !is_met(1))
        return next(to, from, most, at);
    if (cut == 1)
        next(to, from, most / 2, at);
    return fails();
}

int ftruncate(int file, off_t length)
{
    int (*next)(int, off_t) = dlsym(RTLD_NEXT, "ftruncate");
    return end_of(file) == NULL || !is_met(0) ? next(file, length) : fails();
}

static void keep_copy(int from, const char *end)
{
    char name[PATH_MAX];
    snprintf(name, sizeof name, "%s%s", synced, end);
    int to = open(name, O_WRONLY | O_CREAT | O_TRUNC, 0600);
    off_t at = 0;
    ssize_t sent = 1;
    while (sent > 0)
        sent = sendfile(to, from, &at, INT_MAX);
    /* without the copy a run would show nothing */
    if (to < 0 || sent < 0)
        abort();
    close(to);
}

static int syncs(int file, const char *name)
{
    int (*next)(int) = dlsym(RTLD_NEXT, name);
    const char *end = end_of(file);
    if (end == NULL)
        return next(file);
    if (is_met(0))
        return fails();
    int status = next(file);
    if (status == 0)
        keep_copy(file, end);
    return status;
}

int fsync(int file)
{
    return syncs(file, "fsync");
}

int fdatasync(int file)
{
    return syncs(file, "fdatasync");
}

ssize_t pread(int from, void *to, size_t most, off_t at)
{
    ssize_t (*next)(int, void *, size_t, off_t) = dlsym(RTLD_NEXT, "pread");
    return is_read(from) ? fails() : next(from, to, most, at);
}

int statx(int file, const char *name, int flags, unsigned mask, struct statx *found)
{
    int (*next)(int, const char *, int, unsigned, struct statx *) = dlsym(RTLD_NEXT, "statx");
    return is_read(file) ? fails() : next(file, name, flags, mask, found);
}
