/* slow_reads.c: makes the library's access to files slow, so that a test sees what runs meanwhile. Preloaded in front of
 * libtexcache.so. Each call sleeps for as many milliseconds as SLOW_READS says, once `texcache_slow` is not 0. */
#define _GNU_SOURCE
#include <dlfcn.h>
#include <fcntl.h>
#include <stdarg.h>
#include <stdlib.h>
#include <sys/stat.h>
#include <time.h>
#include <unistd.h>

int texcache_slow;

static void wait_a_moment(void)
{
    const char *given = getenv("SLOW_READS");
    long milliseconds = given ? atol(given) : 0;
    struct timespec pause = {milliseconds / 1000, milliseconds % 1000 * 1000000};
    if (texcache_slow) nanosleep(&pause, NULL);
}

ssize_t pread(int fd, void *to, size_t count, off_t at)
{
    ssize_t (*next)(int, void *, size_t, off_t) = (ssize_t (*)(int, void *, size_t, off_t))dlsym(RTLD_NEXT, "pread");
    wait_a_moment();
    return next(fd, to, count, at);
}

int openat(int folder, const char *name, int flags, ...)
{
    int (*next)(int, const char *, int, int) = (int (*)(int, const char *, int, int))dlsym(RTLD_NEXT, "openat");
    va_list more;
    va_start(more, flags);
    int mode = flags & O_CREAT ? va_arg(more, int) : 0;
    va_end(more);
    wait_a_moment();
    return next(folder, name, flags, mode);
}

int fstatat(int folder, const char *restrict name, struct stat *restrict found, int flags)
{
    int (*next)(int, const char *, struct stat *, int) =
        (int (*)(int, const char *, struct stat *, int))dlsym(RTLD_NEXT, "fstatat");
    wait_a_moment();
    return next(folder, name, found, flags);
}
