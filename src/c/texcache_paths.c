/* texcache_paths.c: which file a name means. A name is made normal, looked for in the folder and then on the search path,
 * and gets the file's number. Files are opened by their paths here. */
#define _POSIX_C_SOURCE 200809L
#include "texcache_inside.h"

#include <dirent.h>
#include <errno.h>
#include <fcntl.h>
#include <stdlib.h>
#include <unistd.h>

/* The most names that are kept although no file has them. */
#define TEXC_MISSING_NAMES 4096

/* A path from the root on, without a slash at its end; the root itself is empty. */
typedef struct texc_path {
    size_t size;
    char text[TEXC_PATH];
} texc_path;

/* ---- paths */

/* Adds the parts of a name to a path. Those that are empty or `.` change nothing, and `..` takes the last part away.
 * Returns whether there was room. */
static bool texc_add_parts(texc_path *path, const char *name)
{
    while (*name) {
        size_t size = strcspn(name, "/");
        if (size == 2 && !memcmp(name, "..", 2)) {
            while (path->size && path->text[--path->size] != '/') {}
        } else if (size && !(size == 1 && *name == '.')) {
            if (size + 2 > sizeof path->text - path->size) return texc_fails("the path is too long", ENAMETOOLONG);
            path->text[path->size] = '/';
            memcpy(path->text + path->size + 1, name, size);
            path->size += size + 1;
        }
        name += size;
        name += strspn(name, "/");
    }
    path->text[path->size] = 0;
    return true;
}

/* Makes the path of a name, which is relative to a folder unless it begins with a slash. */
static bool texc_make_path(texc_path *path, const char *folder, const char *name)
{
    path->size = 0;
    return (*name == '/' || texc_add_parts(path, folder)) && texc_add_parts(path, name);
}

/* The bytes of a path before its part inside a folder, 0 if it is not inside. */
static size_t texc_root(const char *path, const char *folder)
{
    size_t size = strlen(folder);
    return !strncmp(path, folder, size) && path[size] == '/' ? size + 1 : 0;
}

/* Where a path lies. One inside the cache's folder becomes relative to it. The root is 0 for those, and for the paths
 * outside all folders, which then begin with a slash. */
static texc_place texc_place_of(const texcache *cache, const char *path)
{
    texc_place place = {path, 0};
    for (const texc_folder *folder = cache->folders; folder && !place.root; folder = folder->next) {
        place.root = texc_root(path, folder->path);
        if (!place.root || folder != cache->folders) continue;
        place.name += place.root;
        place.root = 0;
        break;
    }
    return place;
}

/* ---- the system's calls on paths */

/* Closes a folder on the way, and keeps errno. */
static void texc_end_walk(const texcache *cache, int at)
{
    int error_number = errno;
    if (at >= 0 && at != cache->folder) close(at);
    errno = error_number;
}

/* Opens the folder that the first `size` bytes of a path name, goes to what is behind them, and closes the folder of
 * before. Returns a descriptor, or -1. */
static int texc_step(texcache *cache, int from, const char **path, size_t size, int flags)
{
    char part[TEXC_PATH];
    int to = -1;
    errno = ENAMETOOLONG;
    if (size < sizeof part) {
        memcpy(part, *path, size);
        part[size] = 0;
        to = texc_descriptor(cache, from, part, O_RDONLY | O_DIRECTORY | O_CLOEXEC | flags);
    }
    *path += size;
    *path += strspn(*path, "/");
    texc_end_walk(cache, from);
    return to;
}

/* Opens the folder in which the last part of a path lies. It follows links up to the root of the path, and none behind
 * it. Returns a descriptor, which may be that of the cache's folder, or -1. */
static int texc_walk(texcache *cache, const texc_place *place, const char **last)
{
    size_t size = place->root ? place->root : *place->name == '/';
    int at = cache->folder;
    *last = place->name;
    if (size) at = texc_step(cache, at, last, size, 0);
    while (at >= 0 && (*last)[size = strcspn(*last, "/")]) at = texc_step(cache, at, last, size, O_NOFOLLOW);
    return at;
}

/* Looks at a file by its path. Returns 0, or -1 with errno. */
int texc_look_at(texcache *cache, const texc_place *place, struct stat *seen)
{
    const char *last;
    if (!cache->options.refuse_links) return fstatat(cache->folder, place->name, seen, 0);
    int at = texc_walk(cache, place, &last);
    int failed = at < 0 ? -1 : fstatat(at, last, seen, AT_SYMLINK_NOFOLLOW);
    texc_end_walk(cache, at);
    return failed;
}

/* Opens a file by its path. Returns its descriptor, or -1 with errno. */
int texc_open_at(texcache *cache, const texc_place *place)
{
    const int flags = O_RDONLY | O_CLOEXEC | O_NONBLOCK | O_NOCTTY;
    const char *last;
    if (!cache->options.refuse_links) return texc_descriptor(cache, cache->folder, place->name, flags);
    int at = texc_walk(cache, place, &last);
    int fd = at < 0 ? -1 : texc_descriptor(cache, at, last, flags | O_NOFOLLOW);
    texc_end_walk(cache, at);
    return fd;
}

/* Whether a plain file was seen; notes what else it is. */
bool texc_is_plain(const struct stat *seen)
{
    if (S_ISREG(seen->st_mode)) return true;
    return texc_fails(S_ISDIR(seen->st_mode) ? "it is a folder"
                      : S_ISLNK(seen->st_mode) ? "it is a symbolic link, which the option refuse_links refuses"
                      : "it is not a plain file", 0);
}

/* ---- names. Whoever only reads the table needs no lock: nothing is taken out of it. */

static uint32_t texc_hash(const char *text)
{
    uint32_t hash = 2166136261u;
    for (; *text; text++) hash = (hash ^ (unsigned char)*text) * 16777619u;
    return hash % TEXC_NAMES;
}

/* The entry of a normal name, or NULL. */
static texc_name *texc_known_name(const texcache *cache, const char *text)
{
    texc_name *name = __atomic_load_n(&cache->names[texc_hash(text)], __ATOMIC_ACQUIRE);
    while (name && strcmp(name->text, text)) name = name->next;
    return name;
}

/* The entry of a normal name, which is made if there is none, or NULL; names_lock is held. */
static texc_name *texc_name_of(texcache *cache, const char *text)
{
    texc_name **first = &cache->names[texc_hash(text)], *name = texc_known_name(cache, text);
    if (name) return name;
    size_t size = strlen(text) + 1;
    if (!(name = malloc(sizeof *name + size))) return NULL;
    memset(name, 0, sizeof *name);
    memcpy(name->text, text, size);
    name->number = TEXC_NO_FILE;
    name->next = *first;
    __atomic_store_n(first, name, __ATOMIC_RELEASE);
    return name;
}

/* Gives the file of an entry a number; names_lock is held. */
static int texc_number_file(texcache *cache, texc_name *name, size_t root)
{
    texc_file *file = &cache->files[cache->count];
    if (pthread_mutex_init(&file->lock, NULL)) return TEXCACHE_NO_MEMORY;
    file->place.name = name->text;
    file->place.root = root;
    __atomic_store_n(&name->number, cache->count, __ATOMIC_RELEASE);
    __atomic_store_n(&cache->count, cache->count + 1, __ATOMIC_RELEASE);
    return TEXCACHE_OK;
}

/* Keeps that a name means the file at a place; names_lock is held. */
static int texc_keep_file(texcache *cache, const char *asked, const texc_place *place, uint32_t *file)
{
    texc_name *own = texc_known_name(cache, place->name);
    bool is_new = !own || own->number == TEXC_NO_FILE;
    if (is_new && cache->count == TEXC_MOST_FILES) return TEXCACHE_TOO_MANY_FILES;
    if (!(own = texc_name_of(cache, place->name))) return TEXCACHE_NO_MEMORY;
    int status = is_new ? texc_number_file(cache, own, place->root) : TEXCACHE_OK;
    texc_name *name = status ? NULL : texc_name_of(cache, asked);
    if (!name) return status ? status : TEXCACHE_NO_MEMORY;
    *file = own->number;
    __atomic_store_n(&name->number, own->number, __ATOMIC_RELEASE);
    return TEXCACHE_OK;
}

/* Keeps for a while that no file has a name, and why; names_lock is held. */
static void texc_keep_missing(texcache *cache, const char *asked)
{
    texc_name *name = texc_known_name(cache, asked);
    if (!cache->options.missing_ms || (!name && cache->missing_names == TEXC_MISSING_NAMES)) return;
    cache->missing_names += !name;
    if (!name && !(name = texc_name_of(cache, asked))) return;
    name->until = texc_later(cache);
    name->why = texc_noted();
}

/* Whether a name was not found a short while ago. Then it notes why. */
static bool texc_is_missing(texcache *cache, const texc_name *name)
{
    pthread_mutex_lock(&cache->names_lock);
    uint64_t until = name->until;
    texc_why why = name->why;
    pthread_mutex_unlock(&cache->names_lock);
    if (until <= texc_now()) return false;
    return !texc_fails(why.what, why.error_number);
}

/* ---- finding */

/* Whether a plain file is at a place where it may be found. Otherwise it notes why not, and keeps the reason that says
 * more than that there is none. */
static bool texc_is_there(texcache *cache, const texc_place *place)
{
    texc_why before = texc_noted();
    struct stat seen;
    if (!*place->name || !strcmp(place->name, cache->folders->path)) return texc_fails("it is a folder", 0);
    if (*place->name == '/' && !place->root && !cache->options.outside_paths)
        texc_fails("the path leads out of the folder and the search path, which only the option outside_paths allows", 0);
    else if (texc_look_at(cache, place, &seen))
        texc_fails("no plain file is found under this name", errno);
    else if (texc_is_plain(&seen))
        return true;
    if (before.what && before.error_number != ENOENT) texc_fails(before.what, before.error_number);
    return false;
}

/* Looks for a file in the folder, and then on the search path if its name is relative. */
static bool texc_seek(texcache *cache, const char *name, texc_path *path, texc_place *place)
{
    texc_notes(NULL, 0);
    for (const texc_folder *folder = cache->folders; folder; folder = *name == '/' ? NULL : folder->next) {
        if (!texc_make_path(path, folder->path, name)) return false;
        *place = texc_place_of(cache, path->text);
        if (texc_is_there(cache, place)) return true;
    }
    return false;
}

/* Gives a set a number, unless its name has one; names_lock is held. */
static int texc_keep_set(texcache *cache, const char *asked, texc_set *set, uint32_t *number)
{
    texc_name *name = texc_name_of(cache, asked);
    if (!name) return TEXCACHE_NO_MEMORY;
    if (name->number == TEXC_NO_FILE) {
        if (cache->set_count == TEXC_MOST_SETS) return TEXCACHE_TOO_MANY_FILES;
        __atomic_store_n(&cache->sets[cache->set_count], set, __ATOMIC_RELEASE);
        __atomic_store_n(&name->number, TEXC_FIRST_SET + cache->set_count++, __ATOMIC_RELEASE);
    }
    *number = name->number;
    return TEXCACHE_OK;
}

/* Makes the set of a name with marks. */
static int texc_find_set(texcache *cache, const char *asked, const char *name, uint32_t *number)
{
    texc_set *set = NULL;
    int status = texc_make_set(cache, name, &set);
    pthread_mutex_lock(&cache->names_lock);
    if (!status) status = texc_keep_set(cache, asked, set, number);
    else if (status == TEXCACHE_NO_NAME) texc_keep_missing(cache, asked);
    const bool is_kept = !status && cache->sets[*number - TEXC_FIRST_SET] == set;
    pthread_mutex_unlock(&cache->names_lock);
    if (!is_kept) free(set);
    return status;
}

/* The number of the file that a name means, or that of its set if it may mean one. */
static int texc_find(texcache *cache, const char *name, bool may_be_set, uint32_t *file)
{
    texc_path asked, path;
    texc_place place;
    texc_notes("the name is empty", 0);
    if (!*name || !texc_make_path(&asked, cache->folders->path, name)) return TEXCACHE_NO_NAME;
    const char *normal = texc_place_of(cache, asked.text).name;
    texc_name *known = texc_known_name(cache, normal);
    if (known && (*file = __atomic_load_n(&known->number, __ATOMIC_ACQUIRE)) != TEXC_NO_FILE) return TEXCACHE_OK;
    if (known && texc_is_missing(cache, known)) return TEXCACHE_NO_NAME;
    if (may_be_set && texc_has_mark(name)) return texc_find_set(cache, normal, name, file);
    bool is_there = texc_seek(cache, name, &path, &place);
    int status = TEXCACHE_NO_NAME;
    pthread_mutex_lock(&cache->names_lock);
    if (is_there) status = texc_keep_file(cache, normal, &place, file);
    else texc_keep_missing(cache, normal);
    pthread_mutex_unlock(&cache->names_lock);
    return status;
}

int texc_find_file(texcache *cache, const char *name, uint32_t *file)
{
    return texc_find(cache, name, false, file);
}

/* What is wrong with a call on names, or 0. */
int texc_refuse_names(const texcache *cache, const char *wrong)
{
    if (wrong) return texc_refuse(texc_keep(TEXCACHE_BAD_ARGUMENT, wrong), NULL);
    return cache->forks == texc_forks ? TEXCACHE_OK : texc_refuse(texc_keep(TEXCACHE_FORKED, NULL), NULL);
}

/* Ends a call on a name, and keeps why it failed. */
static int texc_end_find(int status, const char *name)
{
    if (status) texc_keep_name(status == TEXCACHE_NO_NAME ? texc_keep_reading(status) : texc_keep(status, NULL), name);
    return status;
}

int texcache_find(texcache *cache, const char *name, uint32_t *file)
{
    uint32_t found;
    int refused = texc_refuse_names(cache, !cache ? "cache is NULL" : !name ? "name is NULL" : !file ? "file is NULL" : NULL);
    if (refused) return refused;
    int status = texc_find(cache, name, true, &found);
    if (!status) *file = found;
    return texc_end_find(status, name);
}

uint32_t texcache_file_count(const texcache *cache)
{
    return cache ? texc_count(cache) : 0;
}

const char *texcache_file_name(const texcache *cache, uint32_t file)
{
    return !cache ? NULL : file < texc_count(cache) ? cache->files[file].place.name : texc_set_name(cache, file);
}

/* ---- all files of a folder */

/* Names of a folder, each with the folder's own before it. */
typedef struct texc_list {
    char **names;
    size_t count, room;
} texc_list;

static void texc_end_list(texc_list *list)
{
    while (list->count) free(list->names[--list->count]);
    free(list->names);
}

static bool texc_add_to_list(texc_list *list, const char *folder, const char *name)
{
    const size_t before = strlen(folder), size = strlen(name) + 1;
    if (list->count == list->room) {
        size_t more = list->room ? 2 * list->room : 64;
        char **names = realloc(list->names, more * sizeof *names);
        if (!names) return false;
        list->names = names;
        list->room = more;
    }
    char *whole = malloc(before + 1 + size);
    if (!whole) return false;
    memcpy(whole, folder, before);
    whole[before] = '/';
    memcpy(whole + before + 1, name, size);
    list->names[list->count++] = whole;
    return true;
}

static int texc_by_name(const void *a, const void *b)
{
    return strcmp(*(char *const *)a, *(char *const *)b);
}

/* Opens a folder by its path, to read its names, or returns NULL and notes why. */
static DIR *texc_open_names(texcache *cache, const texc_path *path)
{
    texc_place place = texc_place_of(cache, path->text);
    if (!strcmp(path->text, cache->folders->path)) place.name = ".";
    if (!*place.name) place.name = "/";
    int fd = texc_open_at(cache, &place);
    DIR *names = fd < 0 ? NULL : fdopendir(fd);
    if (names) return names;
    texc_notes("the folder cannot be opened", errno);
    if (fd >= 0) close(fd);
    return NULL;
}

/* Calls a function with each name of a folder, in the cache's folder and in all of the search path. */
void texc_each_name(texcache *cache, const char *folder, void takes(void *, const char *), void *given)
{
    texc_path path;
    for (const texc_folder *in = cache->folders; in; in = *folder == '/' ? NULL : in->next) {
        DIR *names = texc_make_path(&path, in->path, folder) ? texc_open_names(cache, &path) : NULL;
        for (const struct dirent *entry; names && (entry = readdir(names));) takes(given, entry->d_name);
        if (names) closedir(names);
    }
}

/* Lists what an open folder has, in the order of the names. */
static int texc_read_names(DIR *names, const char *folder, texc_list *list)
{
    for (;;) {
        errno = 0;
        const struct dirent *entry = readdir(names);
        if (!entry && errno) return texc_notes("the folder cannot be read", errno), TEXCACHE_NO_FOLDER;
        if (!entry) break;
        if (!strcmp(entry->d_name, ".") || !strcmp(entry->d_name, "..") || texc_has_mark(entry->d_name)) continue;
        if (!texc_add_to_list(list, folder, entry->d_name)) return TEXCACHE_NO_MEMORY;
    }
    if (list->count) qsort(list->names, list->count, sizeof *list->names, texc_by_name);
    return TEXCACHE_OK;
}

/* Lists a folder by its path. */
static int texc_list_folder(texcache *cache, const char *folder, texc_list *list)
{
    texc_path path;
    DIR *names = texc_make_path(&path, cache->folders->path, folder) ? texc_open_names(cache, &path) : NULL;
    if (!names) return TEXCACHE_NO_FOLDER;
    int status = texc_read_names(names, path.text, list);
    closedir(names);
    return status;
}

int texcache_find_all(texcache *cache, const char *folder, uint32_t *count)
{
    int refused = texc_refuse_names(cache, !cache ? "cache is NULL" : !folder ? "folder is NULL" : NULL);
    if (refused) return refused;
    texc_list list = {NULL, 0, 0};
    uint32_t found = 0, file;
    texc_notes(NULL, 0);
    int status = texc_list_folder(cache, folder, &list);
    for (size_t i = 0; !status && i < list.count; i++) {
        status = texc_find_file(cache, list.names[i], &file);
        found += !status;
        if (status == TEXCACHE_NO_NAME) status = TEXCACHE_OK;
    }
    texc_end_list(&list);
    if (count) *count = found;
    if (status) texc_keep_name(status == TEXCACHE_NO_FOLDER ? texc_keep_reading(status) : texc_keep(status, NULL), folder);
    return status;
}

/* ---- the folders of a cache */

/* Adds a folder behind the others, by its path from the root on. */
static int texc_add_folder(texc_folder ***end, const char *working, const char *name)
{
    texc_path path;
    if (!texc_make_path(&path, working, name)) return TEXCACHE_NO_FOLDER;
    texc_folder *folder = malloc(sizeof *folder + path.size + 1);
    if (!folder) return TEXCACHE_NO_MEMORY;
    folder->next = NULL;
    memcpy(folder->path, path.text, path.size + 1);
    **end = folder;
    *end = &folder->next;
    return TEXCACHE_OK;
}

/* Adds the folders of a search path, which are separated by colons or semicolons. */
static int texc_add_search_path(texc_folder ***end, const char *working, const char *names)
{
    char name[TEXC_PATH];
    int status = TEXCACHE_OK;
    while (names && *names && !status) {
        size_t size = strcspn(names, ":;");
        if (size >= sizeof name) return texc_notes("a folder of the search path is too long", ENAMETOOLONG), TEXCACHE_NO_FOLDER;
        memcpy(name, names, size);
        name[size] = 0;
        if (size) status = texc_add_folder(end, working, name);
        names += size + (names[size] != 0);
    }
    return status;
}

/* Opens the folder, and keeps where it and those of the search path are. */
int texc_open_folders(texcache *cache, const char *folder)
{
    char working[TEXC_PATH] = "";
    texc_folder **end = &cache->folders;
    cache->folder = open(folder, O_RDONLY | O_DIRECTORY | O_CLOEXEC);
    if (cache->folder < 0 || !getcwd(working, sizeof working)) {
        texc_notes("the folder cannot be opened", errno);
        return TEXCACHE_NO_FOLDER;
    }
    int status = texc_add_folder(&end, working, folder);
    if (!status) status = texc_add_search_path(&end, working, cache->options.search_path);
    cache->options.search_path = NULL;
    cache->files = status ? NULL : calloc(TEXC_MOST_FILES, sizeof *cache->files);
    return status || cache->files ? status : TEXCACHE_NO_MEMORY;
}

/* Frees the names and folders of a cache. */
void texc_end_paths(texcache *cache)
{
    for (size_t i = 0; i < TEXC_NAMES; i++)
        for (texc_name *name = cache->names[i], *next; name; name = next) {
            next = name->next;
            free(name);
        }
    for (uint32_t i = 0; i < cache->set_count; i++) free(cache->sets[i]);
    for (texc_folder *folder = cache->folders, *next; folder; folder = next) {
        next = folder->next;
        free(folder);
    }
    if (cache->folder >= 0) close(cache->folder);
}
