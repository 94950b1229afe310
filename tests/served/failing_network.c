/* Preloaded under the built program: its calls of accept fail from the one of number FAIL_FROM (from 1) to the one of
   number FAIL_TO, with the error FAIL_WITH, as where a client went away, no further file can be opened, or what was
   listened on is no listener any more. Who connects waits for a later call. With FAIL_CLOCK no accept fails. Instead
   the clock of that number can't be read, from when the first of those calls is made until the one behind the last. */
#define _GNU_SOURCE
#include <dlfcn.h>
#include <errno.h>
#include <stdlib.h>
#include <sys/socket.h>
#include <time.h>

static long calls;

static long told(const char *name) {
    const char *text = getenv(name);
    return text ? strtol(text, NULL, 10) : 0;
}

/* Whether the last call of accept is one of those. */
static int is_told(void) {
    return told("FAIL_FROM") <= calls && calls <= told("FAIL_TO");
}

static int fails(int told_to) {
    if (told_to)
        errno = (int)told("FAIL_WITH");
    return told_to;
}

static int accept_fails(void) {
    calls++;
    return fails(is_told() && getenv("FAIL_CLOCK") == NULL);
}

int accept(int fd, struct sockaddr *address, socklen_t *length) {
    int (*own)(int, struct sockaddr *, socklen_t *) = dlsym(RTLD_NEXT, "accept");
    return accept_fails() ? -1 : own(fd, address, length);
}

int accept4(int fd, struct sockaddr *address, socklen_t *length, int flags) {
    int (*own)(int, struct sockaddr *, socklen_t *, int) = dlsym(RTLD_NEXT, "accept4");
    return accept_fails() ? -1 : own(fd, address, length, flags);
}

int clock_gettime(clockid_t clock, struct timespec *time) {
    int (*own)(clockid_t, struct timespec *) = dlsym(RTLD_NEXT, "clock_gettime");
    return fails(is_told() && getenv("FAIL_CLOCK") != NULL && told("FAIL_CLOCK") == clock) ? -1 : own(clock, time);
}
