#include "powercut.h"

#include <dirent.h>
#include <errno.h>
#include <fcntl.h>
#include <signal.h>
#include <stdbool.h>
#include <stdio.h>
#include <stdlib.h>
#include <string.h>
#include <sys/stat.h>
#include <time.h>
#include <unistd.h>

#define ROOM 4096

/* The linker's names (--wrap) for the functions of the C library and for those in their place. */
ssize_t __real_write(int file, const void *bytes, size_t size);
int __real_rename(const char *from, const char *to);
int __real_unlink(const char *path);
int __real_flock(int file, int operation);
int __real_socket(int family, int type, int protocol);
ssize_t __wrap_write(int file, const void *bytes, size_t size);
int __wrap_fsync(int file);
int __wrap_rename(const char *from, const char *to);
int __wrap_unlink(const char *path);
int __wrap_flock(int file, int operation);
int __wrap_socket(int family, int type, int protocol);

/* Counts on. Whether the environment has this number. */
static bool is_at(const char *moment, unsigned long *count)
{
    const char *at = getenv(moment);
    ++*count;
    return at != NULL && strtoul(at, NULL, 10) == *count;
}

static void come_to(const char *moment, unsigned long *count)
{
    if (is_at(moment, count))
        raise(SIGKILL);
}

static void come_to_step(void)
{
    static unsigned long steps;
    come_to(BEFORE_STEP, &steps);
}

static void come_to_contact(void)
{
    static unsigned long contacts;
    come_to(BEFORE_CONTACT, &contacts);
}

static void marked(const char *path, const char *mark, char name[ROOM])
{
    if (snprintf(name, ROOM, "%s%s", path, mark) >= ROOM)
        abort();
}

static bool is_there(const char *path)
{
    struct stat found;
    return lstat(path, &found) == 0;
}

static void put_mark(const char *path, const char *mark)
{
    char name[ROOM];
    marked(path, mark, name);
    int file = open(name, O_WRONLY | O_CREAT | O_CLOEXEC, 0600);
    if (file < 0 || close(file) != 0)
        abort();
}

static void path_of(int file, char path[ROOM])
{
    char link[64];
    snprintf(link, sizeof link, "/proc/self/fd/%d", file);
    ssize_t size = readlink(link, path, ROOM - 1);
    if (size < 0)
        abort();
    path[size] = '\0';
}

static bool is_of_type(int file, mode_t type)
{
    struct stat found;
    return fstat(file, &found) == 0 && (found.st_mode & S_IFMT) == type;
}

/* Logs are no state: only files that the host has opened itself count. */
ssize_t __wrap_write(int file, const void *bytes, size_t size)
{
    if (file > STDERR_FILENO && is_of_type(file, S_IFREG)) {
        char path[ROOM];
        come_to_step();
        path_of(file, path);
        put_mark(path, MARK_TORN);
    }
    return __real_write(file, bytes, size);
}

/* Of a folder that was forced, renames and removals stand. */
static void settle_folder(const char *folder)
{
    static const char *const settled[] = {MARK_OLD, MARK_NEW, MARK_GONE};
    DIR *entries = opendir(folder);
    if (entries == NULL)
        abort();
    for (struct dirent *entry; (entry = readdir(entries)) != NULL;) {
        char path[ROOM];
        if (snprintf(path, sizeof path, "%s/%s", folder, entry->d_name) >= ROOM)
            abort();
        const char *mark = strstr(entry->d_name, ".~");
        for (size_t i = 0; mark != NULL && i < sizeof settled / sizeof *settled; i++)
            if (strcmp(mark, settled[i]) == 0)
                __real_unlink(path);
    }
    closedir(entries);
}

/* Up to a millisecond, by chance, in which nothing is forced yet. */
static void wait_as_for_a_disk(void)
{
    struct timespec now;
    clock_gettime(CLOCK_MONOTONIC, &now);
    usleep((useconds_t)(now.tv_nsec % 1000));
}

/* Nothing more is forced than the marks say: what the test sees does not depend on it, and its
   time and the machine's disk do. */
int __wrap_fsync(int file)
{
    static unsigned long forced;
    char path[ROOM];
    wait_as_for_a_disk();
    come_to_step();
    if (is_at(FORCING_FAILS, &forced)) {
        errno = EIO;
        return -1;
    }
    path_of(file, path);
    if (is_of_type(file, S_IFDIR)) {
        settle_folder(path);
    } else {
        char mark[ROOM];
        marked(path, MARK_TORN, mark);
        __real_unlink(mark);
    }
    return 0;
}

int __wrap_rename(const char *from, const char *to)
{
    static unsigned long renames;
    char old[ROOM], torn_from[ROOM], torn_to[ROOM];
    come_to_step();
    marked(to, MARK_OLD, old);
    marked(from, MARK_TORN, torn_from);
    marked(to, MARK_TORN, torn_to);
    /* Of several renames that are not yet forced, all may be undone: the oldest file counts. */
    if (!is_there(to))
        put_mark(to, MARK_NEW);
    else if (link(to, old) != 0 && errno != EEXIST)
        abort();
    int result = __real_rename(from, to);
    if (result == 0)
        __real_rename(torn_from, torn_to);
    come_to(AFTER_RENAME, &renames);
    return result;
}

int __wrap_unlink(const char *path)
{
    struct stat found;
    char gone[ROOM];
    if (lstat(path, &found) != 0 || !S_ISREG(found.st_mode))
        return __real_unlink(path);
    come_to_step();
    marked(path, MARK_GONE, gone);
    return __real_rename(path, gone);
}

int __wrap_flock(int file, int operation)
{
    come_to_contact();
    return __real_flock(file, operation);
}

int __wrap_socket(int family, int type, int protocol)
{
    come_to_contact();
    return __real_socket(family, type, protocol);
}
