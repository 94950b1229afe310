/* Says to each planted function whether it is the one that gives up, and notes that it was called. The number of
   the one is in GIVE_UP_AT, and GIVE_UP_CALLED names a file with a byte for each. Where KEPT_AT has no file yet, the
   program puts a copy of itself there, since `rt try` keeps none. */
#define _GNU_SOURCE
#include <dlfcn.h>
#include <fcntl.h>
#include <stdlib.h>
#include <sys/mman.h>
#include <sys/stat.h>
#include <unistd.h>

static unsigned char *called;
static size_t length;
static size_t giving_up = (size_t)-1;

static void keep_copy(void)
{
    char buffer[65536];
    Dl_info own;
    /* not /proc/self/exe, which is the loader */
    int from = dladdr((void *)keep_copy, &own) == 0 ? -1 : open(own.dli_fname, O_RDONLY);
    int to = open(KEPT_AT, O_CREAT | O_EXCL | O_WRONLY, 0700);
    ssize_t got;
    while (from >= 0 && to >= 0 && (got = read(from, buffer, sizeof buffer)) > 0)
        if (write(to, buffer, got) != got)
            abort();
    if (from >= 0)
        close(from);
    if (to >= 0)
        close(to);
}

__attribute__((constructor)) static void begin(void)
{
    const char *number = getenv("GIVE_UP_AT"), *name = getenv("GIVE_UP_CALLED");
    struct stat known;
    int file = name == NULL ? -1 : open(name, O_RDWR);
    keep_copy();
    if (number != NULL)
        giving_up = strtoul(number, NULL, 10);
    if (file < 0 || fstat(file, &known) != 0)
        return;
    called = mmap(NULL, known.st_size, PROT_READ | PROT_WRITE, MAP_SHARED, file, 0);
    length = called == MAP_FAILED ? 0 : known.st_size;
    close(file);
}

unsigned gives_up_at(size_t number)
{
    if (number < length)
        called[number] = 1;
    return number == giving_up;
}
