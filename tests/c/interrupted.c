/*
 * Preloaded, this has the first calls of one stream of a program interrupted before they move a byte:
 * INTERRUPTED_STREAM is `input` or `output`, INTERRUPTED_TIMES how many calls.
 */
#define _GNU_SOURCE
#include <dlfcn.h>
#include <errno.h>
#include <stdlib.h>
#include <string.h>
#include <sys/types.h>

static int interrupted(int fd, int own, const char *stream)
{
    static unsigned long done;
    const char *wanted = getenv("INTERRUPTED_STREAM"), *times = getenv("INTERRUPTED_TIMES");

    if (fd != own || wanted == NULL || times == NULL || strcmp(wanted, stream) != 0 ||
        done >= strtoul(times, NULL, 10)) {
        return 0;
    }
    done++;
    errno = EINTR;
    return 1;
}

ssize_t read(int fd, void *buf, size_t count)
{
    ssize_t (*next)(int, void *, size_t);

    *(void **)&next = dlsym(RTLD_NEXT, "read");
    return interrupted(fd, 0, "input") ? -1 : next(fd, buf, count);
}

ssize_t write(int fd, const void *buf, size_t count)
{
    ssize_t (*next)(int, const void *, size_t);

    *(void **)&next = dlsym(RTLD_NEXT, "write");
    return interrupted(fd, 1, "output") ? -1 : next(fd, buf, count);
}
