/* Names and paths of files: paths FOLDER, an empty folder that it may write to. Names mean files of subfolders and of the
 * search path; equal names have one number; links, loops, long paths and names of no file; and what the system is asked. */
#define _XOPEN_SOURCE 700
#include "images.h"
#include <errno.h>
#include <fcntl.h>
#include <pthread.h>
#include <sys/resource.h>
#include <sys/stat.h>
#include <unistd.h>

enum { THREADS = 8, MANY = 5000, MOST = 4096 };

static texcache *cache;
static texcache_pass *pass;
static const char *folder;
static char path[8192];
static unsigned calls;

int __real_openat(int of, const char *name, int flags, ...);
int __wrap_openat(int of, const char *name, int flags, ...);
int __real_fstatat(int of, const char *name, struct stat *seen, int flags);
int __wrap_fstatat(int of, const char *name, struct stat *seen, int flags);

int __wrap_openat(int of, const char *name, int flags, ...)
{
    __atomic_fetch_add(&calls, 1, __ATOMIC_RELAXED);
    return __real_openat(of, name, flags);
}

int __wrap_fstatat(int of, const char *name, struct stat *seen, int flags)
{
    __atomic_fetch_add(&calls, 1, __ATOMIC_RELAXED);
    return __real_fstatat(of, name, seen, flags);
}

/* The value of all texels of the next image. */
static unsigned value;

static unsigned same(unsigned x, unsigned y, unsigned channel)
{
    (void)x, (void)y, (void)channel;
    return value;
}

/* The path of a name in the folder of this test. */
static const char *in(const char *name)
{
    snprintf(path, sizeof path, "%s/%s", folder, name);
    return path;
}

static void put(const char *name, unsigned texel)
{
    const image grey = {16, 16, 1, 0, 0, same};
    value = texel;
    put_image(folder, name, grey);
}

static void link_to(const char *target, const char *name)
{
    if (symlink(target, in(name))) exit(2);
}

/* Opens a cache of the subfolder `textures`, with a search path relative to the folder of this test. */
static void open_cache(const char *search_path, bool outside_paths, bool refuse_links)
{
    texcache_options o = texcache_default_options();
    o.search_path = search_path;
    o.outside_paths = outside_paths;
    o.refuse_links = refuse_links;
    o.budget = 0;
    if (texcache_open(&cache, in("textures"), &o) || texcache_new_pass(cache, &pass)) exit(2);
}

static void close_cache(void)
{
    SAYS(texcache_end(&pass), TEXCACHE_OK);
    SAYS(texcache_close(&cache), TEXCACHE_OK);
}

/* The texels of the file that a name means. */
static unsigned texel(const char *name)
{
    texcache_texture_options o = texcache_default_texture_options(1);
    uint16_t out = 0;
    SAYS(texcache_texture(pass, file_of(cache, name), &o, 0.5, 0.5, &out, 1, NULL), TEXCACHE_OK);
    return out / 257u;
}

/* The name means no file, and the text of the error has these words. */
static void misses(int line, const char *name, const char *why)
{
    uint32_t file = 7;
    int status = texcache_find(cache, name, &file);
    if (status == TEXCACHE_NO_NAME && file == 7 && strstr(texcache_last_error(), why)) return;
    printf("line %d: %.60s: status %d: %.300s\n", line, name, status, texcache_last_error());
    failures++;
}
#define MISSES(name, why) misses(__LINE__, name, why)

static void names(void)
{
    static const char *const equal[] = {"./a.tif", "a.tif", "sub/../a.tif", "sub//..//./a.tif", "../textures/a.tif", "nowhere/../a.tif"};
    char whole[8192];
    open_cache(NULL, false, false);
    IS(texcache_file_count(cache) == 0);
    uint32_t first = file_of(cache, "a.tif");
    for (size_t i = 0; i < sizeof equal / sizeof *equal; i++) IS(file_of(cache, equal[i]) == first);
    snprintf(whole, sizeof whole, "%s/./textures//sub/b.tif", folder);
    uint32_t b = file_of(cache, whole);
    IS(b == file_of(cache, "sub/b.tif") && b != first && !strcmp(texcache_file_name(cache, b), "sub/b.tif"));
    IS(texel("a.tif") == 10 && texel("sub/b.tif") == 11 && texel("sub/deep/c.tif") == 12);
    IS(texcache_file_count(cache) == 3 && !texcache_file_name(cache, 3));
    /* a file that came after the open, and one that was looked for before it came */
    MISSES("new.tif", strerror(ENOENT));
    put("textures/new.tif", 13), put("textures/newer.tif", 14);
    MISSES("new.tif", strerror(ENOENT));
    IS(texel("newer.tif") == 14);
    /* a deleted file keeps its number */
    unlink(in("textures/newer.tif"));
    IS(file_of(cache, "newer.tif") == 3);
    /* what is no file, or may not be found */
    MISSES("", "empty");
    MISSES(".", "it is a folder");
    MISSES("sub/..", "it is a folder");
    MISSES("sub", "it is a folder");
    MISSES("pipe", "not a plain file");
    MISSES("a.tif/b.tif", strerror(ENOTDIR));
    MISSES("../other/d.tif", "outside_paths");
    MISSES("sub/../../other/d.tif", "outside_paths");
    MISSES(in("other/d.tif"), "outside_paths");
    MISSES("/", "it is a folder");
    MISSES("moon\n\033[31m.tif", "moon??[31m.tif: ");
    close_cache();
}

static void links(void)
{
    open_cache(NULL, false, false);
    IS(texel("to_a.tif") == 10 && texel("to_other/d.tif") == 20);
    /* a link is a name of its own */
    IS(file_of(cache, "to_a.tif") != file_of(cache, "a.tif") && file_of(cache, "to_other/../a.tif") == file_of(cache, "a.tif"));
    MISSES("dangling.tif", strerror(ENOENT));
    MISSES("loop.tif", strerror(ELOOP));
    /* another target is another generation, also if both have one length and time */
    texcache_answer a;
    char from[8192];
    uint32_t turns = file_of(cache, "turns.tif");
    IS(texel("turns.tif") == 10);
    if (unlink(in("textures/turns.tif"))) exit(2);
    link_to("sub/b.tif", "textures/turns.tif");
    SAYS(texcache_invalidate(pass, turns, false, &a), TEXCACHE_OK);
    IS(a.generation == 2 && texel("turns.tif") == 11);
    close_cache();
    snprintf(from, sizeof from, "%s", in("other"));
    open_cache(from, false, true);
    IS(texel("a.tif") == 10 && texel("sub/b.tif") == 11 && texel("sub/deep/c.tif") == 12 && texel("d.tif") == 20);
    MISSES("to_a.tif", "symbolic link");
    MISSES("to_other/d.tif", strerror(ENOTDIR));
    MISSES("loop.tif", "symbolic link");
    /* a folder on the way that becomes a link */
    uint32_t b = file_of(cache, "sub/b.tif");
    snprintf(from, sizeof from, "%s", in("textures/sub"));
    if (rename(from, in("textures/moved"))) exit(2);
    link_to("moved", "textures/sub");
    SAYS(texcache_invalidate(pass, b, true, &a), TEXCACHE_READ_FAULT);
    if (unlink(from) || rename(in("textures/moved"), from)) exit(2);
    SAYS(texcache_invalidate(pass, b, true, &a), TEXCACHE_OK);
    close_cache();
}

static void search_path(void)
{
    char search[8192], whole[8192];
    struct stat seen;
    snprintf(search, sizeof search, "%s/nowhere:;%s/other;%s/more:relative", folder, folder, folder);
    open_cache(search, false, false);
    memset(search, 'x', sizeof search - 1);
    IS(texel("a.tif") == 10 && texel("d.tif") == 20 && texel("e.tif") == 30);
    /* the first folder counts, and a file keeps its number if one comes before it */
    IS(texel("both.tif") == 21);
    uint32_t d = file_of(cache, "d.tif");
    snprintf(whole, sizeof whole, "%s/other/d.tif", folder);
    IS(file_of(cache, whole) == d && file_of(cache, "../other/d.tif") == d && !strcmp(texcache_file_name(cache, d), whole));
    put("textures/d.tif", 15);
    IS(file_of(cache, "d.tif") == d && texel("d.tif") == 20);
    unlink(in("textures/d.tif"));
    /* in a folder of the search path a name may not lead out either */
    MISSES("../far/f.tif", "outside_paths");
    /* a folder of the search path that comes later */
    if (stat(in("nowhere"), &seen) == 0 || mkdir(path, 0700)) exit(2);
    put("nowhere/g.tif", 40);
    IS(texel("g.tif") == 40);
    unlink(in("nowhere/g.tif")), rmdir(in("nowhere"));
    close_cache();
    open_cache(NULL, true, false);
    IS(texel("../far/f.tif") == 50 && texel(in("far/f.tif")) == 50);
    IS(file_of(cache, "../far/f.tif") == file_of(cache, in("far/f.tif")));
    MISSES(in("far"), "it is a folder");
    close_cache();
    open_cache(NULL, true, true);
    IS(texel("../far/f.tif") == 50);
    MISSES(in("textures/to_other/d.tif"), strerror(ENOTDIR));
    close_cache();
}

/* Paths of the most bytes, and longer ones. */
static void long_paths(void)
{
    static char name[9000];
    open_cache(NULL, false, false);
    memset(name, 'x', sizeof name - 1);
    MISSES(name, strerror(ENAMETOOLONG));
    name[3000] = 0;
    MISSES(name, strerror(ENAMETOOLONG));
    for (size_t i = 0; i + 2 < sizeof name; i += 2) memcpy(name + i, "y/", 2);
    MISSES(name, "too long");
    name[4001 - strlen(folder)] = 0;
    MISSES(name, strerror(ENOENT));
    /* parts that take each other away do not count */
    for (size_t i = 0; i + 5 < sizeof name; i += 5) memcpy(name + i, "y/../", 5);
    memcpy(name + 8000, "a.tif", 6);
    IS(file_of(cache, name) == file_of(cache, "a.tif"));
    close_cache();
}

/* A name that is known, and for a while one that means nothing, costs no call of the system; nor does a file that is gone. */
static void remembered(void)
{
    texcache_texture_options o = texcache_default_texture_options(1);
    texcache_options brief = texcache_default_options();
    struct timespec pause = {0, 30000000};
    uint32_t file;
    uint16_t out;
    brief.missing_ms = 20, brief.budget = 0;
    if (texcache_open(&cache, in("textures"), &brief) || texcache_new_pass(cache, &pass)) exit(2);
    IS(texel("a.tif") == 10);
    MISSES("moon.tif", strerror(ENOENT));
    calls = 0;
    for (int i = 0; i < 1000; i++) IS(file_of(cache, "./a.tif") == 0);
    IS(calls == 0);
    for (int i = 0; i < 20; i++) MISSES("moon.tif", strerror(ENOENT));
    IS(calls < 20);
    nanosleep(&pause, NULL);
    put("textures/moon.tif", 16);
    IS(texel("moon.tif") == 16);
    unlink(in("textures/moon.tif"));
    file = file_of(cache, "moon.tif");
    SAYS(texcache_invalidate(pass, file, false, NULL), TEXCACHE_READ_FAULT);
    calls = 0;
    for (int i = 0; i < 20; i++) SAYS(texcache_texture(pass, file, &o, 0, 0, &out, 1, NULL), TEXCACHE_READ_FAULT);
    IS(calls < 20 && strstr(texcache_last_error(), "moon.tif: ") && strstr(texcache_last_error(), strerror(ENOENT)));
    put("textures/moon.tif", 17);
    nanosleep(&pause, NULL);
    IS(texel("moon.tif") == 17);
    /* a check looks in any case */
    unlink(in("textures/moon.tif"));
    SAYS(texcache_invalidate(pass, file, false, NULL), TEXCACHE_READ_FAULT);
    put("textures/moon.tif", 18);
    SAYS(texcache_invalidate(pass, file, false, NULL), TEXCACHE_OK);
    IS(texel("moon.tif") == 18);
    unlink(in("textures/moon.tif"));
    /* what is known of a file that is not accepted stays, too */
    FILE *bad = fopen(in("textures/bad.tif"), "w");
    if (!bad || fputs("no image\n", bad) < 0 || fclose(bad)) exit(2);
    file = file_of(cache, "bad.tif");
    SAYS(texcache_texture(pass, file, &o, 0, 0, &out, 1, NULL), TEXCACHE_BAD_FILE);
    calls = 0;
    for (int i = 0; i < 20; i++) SAYS(texcache_texture(pass, file, &o, 0, 0, &out, 1, NULL), TEXCACHE_BAD_FILE);
    IS(calls == 0);
    close_cache();
}

/* All numbers are used up, and all files of a folder are found. */
static void many(void)
{
    char name[64];
    uint32_t count = 0, file;
    mkdir(in("textures/many"), 0700);
    for (int i = 0; i < MANY; i++) {
        snprintf(name, sizeof name, "textures/many/%04d.tif", i);
        int fd = open(in(name), O_WRONLY | O_CREAT, 0600);
        if (fd < 0 || close(fd)) exit(2);
    }
    open_cache(NULL, false, false);
    SAYS(texcache_find_all(cache, "sub", &count), TEXCACHE_OK);
    IS(count == 1 && texcache_file_count(cache) == 1);
    SAYS(texcache_find_all(cache, "nowhere", &count), TEXCACHE_NO_FOLDER);
    IS(count == 0 && strstr(texcache_last_error(), "nowhere: ") && strstr(texcache_last_error(), strerror(ENOENT)));
    SAYS(texcache_find_all(cache, "many", &count), TEXCACHE_TOO_MANY_FILES);
    IS(count == MOST - 1 && texcache_file_count(cache) == MOST && !strcmp(texcache_file_name(cache, 1), "many/0000.tif"));
    SAYS(texcache_find(cache, "a.tif", &file), TEXCACHE_TOO_MANY_FILES);
    IS(strstr(texcache_last_error(), "a.tif: ") && strstr(texcache_last_error(), "4096"));
    SAYS(texcache_find(cache, "many/4094.tif", &file), TEXCACHE_OK);
    IS(file == MOST - 1);
    SAYS(texcache_find_all(NULL, ".", &count), TEXCACHE_BAD_ARGUMENT);
    SAYS(texcache_find_all(cache, NULL, &count), TEXCACHE_BAD_ARGUMENT);
    close_cache();
}

/* Threads find the same files at once: each file has one number. */
static void *finds(void *given)
{
    char name[64], other[64];
    uint32_t *found = given, again;
    for (int i = 0; i < 400; i++) {
        snprintf(name, sizeof name, "many/%04d.tif", i);
        snprintf(other, sizeof other, "sub/../many//%04d.tif", i);
        SAYS(texcache_find(cache, name, &found[i]), TEXCACHE_OK);
        SAYS(texcache_find(cache, other, &again), TEXCACHE_OK);
        IS(again == found[i] && !strcmp(texcache_file_name(cache, again), name));
        SAYS(texcache_find(cache, "moon.tif", &again), TEXCACHE_NO_NAME);
    }
    return NULL;
}

static void threads(void)
{
    static uint32_t found[THREADS][400];
    pthread_t ids[THREADS];
    open_cache(NULL, false, false);
    for (int i = 0; i < THREADS; i++)
        if (pthread_create(&ids[i], NULL, finds, found[i])) exit(2);
    for (int i = 0; i < THREADS; i++) pthread_join(ids[i], NULL);
    for (int i = 1; i < THREADS; i++) IS(!memcmp(found[i], found[0], sizeof *found));
    IS(texcache_file_count(cache) == 400);
    close_cache();
}

/* With as good as no descriptors left, files in subfolders are read, without a link too. */
static void few_descriptors(void)
{
    struct rlimit all, few;
    getrlimit(RLIMIT_NOFILE, &all);
    few = all;
    few.rlim_cur = 24;
    setrlimit(RLIMIT_NOFILE, &few);
    open_cache(NULL, false, true);
    int used[24], count = 0;
    while (count < 24 && (used[count] = open("/dev/null", O_RDONLY)) >= 0) count++;
    for (int i = 0; i < 4 && count > 0; i++) close(used[--count]);
    for (int i = 0; i < 20; i++) IS(texel("a.tif") == 10 && texel("sub/b.tif") == 11 && texel("sub/deep/c.tif") == 12);
    while (count > 0) close(used[--count]);
    close_cache();
    setrlimit(RLIMIT_NOFILE, &all);
}

int main(int count, char **words)
{
    static const char *const folders[] = {"textures", "textures/sub", "textures/sub/deep", "other", "more", "far"};
    char root[4096];
    if (count != 2 || !(folder = realpath(words[1], root))) return 2;
    for (size_t i = 0; i < sizeof folders / sizeof *folders; i++) mkdir(in(folders[i]), 0700);
    put("textures/a.tif", 10), put("textures/sub/b.tif", 11), put("textures/sub/deep/c.tif", 12);
    put("other/d.tif", 20), put("other/both.tif", 21), put("more/both.tif", 31), put("more/e.tif", 30), put("far/f.tif", 50);
    link_to("a.tif", "textures/to_a.tif"), link_to("../other", "textures/to_other"), link_to("moon", "textures/dangling.tif");
    link_to("loop.tif", "textures/loop.tif"), link_to("a.tif", "textures/turns.tif");
    if (mkfifo(in("textures/pipe"), 0600)) return 2;
    names();
    links();
    search_path();
    long_paths();
    remembered();
    many();
    threads();
    few_descriptors();
    printf("%d failed\n", failures);
    return failures != 0;
}
