/* A malloc that is put in front of that of the C library. It refuses allocation N, counted from 1 (REFUSED_GROWTH), or
   all above a size (REFUSED_ABOVE). It notes in a file (REFUSED_TOLD) an `r` for each that is refused, and an `o` when a
   file is opened. */
#define _GNU_SOURCE
#include <dlfcn.h>
#include <fcntl.h>
#include <stdarg.h>
#include <stdatomic.h>
#include <stdlib.h>
#include <sys/syscall.h>
#include <unistd.h>
static atomic_long count;
static long wanted = -1, above;
static long number_of(const char *name) { const char *text = getenv(name); return text ? atol(text) : 0; }
static void note(const char *what) {
    const char *told = getenv("REFUSED_TOLD");
    int file = told ? (int)syscall(SYS_openat, AT_FDCWD, told, O_CREAT | O_WRONLY | O_APPEND, 0600) : -1;
    if (file >= 0) { syscall(SYS_write, file, what, 1); syscall(SYS_close, file); }
}
static int refuses(size_t size) {
    if (wanted < 0) { above = number_of("REFUSED_ABOVE"); wanted = number_of("REFUSED_GROWTH"); }
    if (atomic_fetch_add(&count, 1) + 1 != wanted && (above == 0 || size <= (size_t)above)) return 0;
    note("r");
    return 1;
}
void *malloc(size_t size) {
    static void *(*real)(size_t);
    if (!real) real = dlsym(RTLD_NEXT, "malloc");
    return refuses(size) ? 0 : real(size);
}
void *realloc(void *at, size_t size) {
    static void *(*real)(void *, size_t);
    if (!real) real = dlsym(RTLD_NEXT, "realloc");
    return refuses(size) ? 0 : real(at, size);
}
int posix_memalign(void **at, size_t alignment, size_t size) {
    static int (*real)(void **, size_t, size_t);
    if (!real) real = dlsym(RTLD_NEXT, "posix_memalign");
    return refuses(size) ? 12 : real(at, alignment, size);
}
void *aligned_alloc(size_t alignment, size_t size) {
    static void *(*real)(size_t, size_t);
    if (!real) real = dlsym(RTLD_NEXT, "aligned_alloc");
    return refuses(size) ? 0 : real(alignment, size);
}
int openat(int folder, const char *path, int flags, ...) {
    static int (*real)(int, const char *, int, ...);
    va_list more;
    va_start(more, flags);
    int mode = va_arg(more, int);
    va_end(more);
    if (!real) real = dlsym(RTLD_NEXT, "openat");
    note("o");
    return real(folder, path, flags, mode);
}
