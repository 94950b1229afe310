/* An allocator that refuses one allocation, the one whose number REFUSE_ALLOCATION gives. With REFUSE_ONCE_ACCEPTED
   they are counted from the first connection on that is accepted. As it refuses, it makes the file that REFUSED_MARK
   names. */
#define _GNU_SOURCE
#include <dlfcn.h>
#include <errno.h>
#include <fcntl.h>
#include <stddef.h>
#include <stdlib.h>
#include <unistd.h>

static long seen;
static int accepted;

static int refuses(void)
{
    const char *number = getenv("REFUSE_ALLOCATION");
    if (number == NULL || (!accepted && getenv("REFUSE_ONCE_ACCEPTED") != NULL) || ++seen != atol(number))
        return 0;
    const char *mark = getenv("REFUSED_MARK");
    int file = mark == NULL ? -1 : open(mark, O_CREAT | O_WRONLY, 0600);
    if (file >= 0)
        close(file);
    errno = ENOMEM;
    return 1;
}

void *malloc(size_t size)
{
    static void *(*next)(size_t);
    if (next == NULL)
        next = dlsym(RTLD_NEXT, "malloc");
    return refuses() ? NULL : next(size);
}

void *realloc(void *old, size_t size)
{
    static void *(*next)(void *, size_t);
    if (next == NULL)
        next = dlsym(RTLD_NEXT, "realloc");
    return refuses() ? NULL : next(old, size);
}

void *aligned_alloc(size_t alignment, size_t size)
{
    static void *(*next)(size_t, size_t);
    if (next == NULL)
        next = dlsym(RTLD_NEXT, "aligned_alloc");
    return refuses() ? NULL : next(alignment, size);
}

int posix_memalign(void **place, size_t alignment, size_t size)
{
    static int (*next)(void **, size_t, size_t);
    if (next == NULL)
        next = dlsym(RTLD_NEXT, "posix_memalign");
    return refuses() ? ENOMEM : next(place, alignment, size);
}

/* as <sys/socket.h> has it, but for the type of an address */
int accept4(int listener, void *address, unsigned *length, int flags)
{
    static int (*next)(int, void *, unsigned *, int);
    if (next == NULL)
        next = dlsym(RTLD_NEXT, "accept4");
    int connection = next(listener, address, length, flags);
    if (connection >= 0)
        accepted = 1;
    return connection;
}
