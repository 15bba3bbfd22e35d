#include "powercut.h"
#include "test.h"

#include <dirent.h>
#include <errno.h>
#include <fcntl.h>
#include <inttypes.h>
#include <signal.h>
#include <stdio.h>
#include <stdlib.h>
#include <string.h>
#include <sys/stat.h>
#include <sys/wait.h>
#include <unistd.h>

#define PATIENCE 5000 /* milliseconds for a process to end */

bool deals_ahead = true;

static const char *program;
static const char *output = "log";
static pid_t children[PARTS];

void name_program(const char *path)
{
    program = path;
}

static bool direct(int stream, const char *path)
{
    int file = open(path, O_WRONLY | O_CREAT | O_APPEND | O_CLOEXEC, 0600);
    return file >= 0 && dup2(file, stream) >= 0;
}

/* In the child: what it says goes to the log, of which a failed test shows where it is. */
static void become(char *const arguments[])
{
    if (!direct(STDOUT_FILENO, output) || !direct(STDERR_FILENO, "log"))
        _exit(127);
    execv(program, arguments);
    _exit(127);
}

int start_program(char *const arguments[])
{
    pid_t process = fork();
    EXPECT(process >= 0, "fork: %s", strerror(errno));
    if (process == 0)
        become(arguments);
    return process;
}

/* The exit status, or 128 and the signal. */
int end_of(int process)
{
    const int64_t deadline = milliseconds_now() + PATIENCE;
    int status;
    for (pid_t ended; (ended = waitpid(process, &status, WNOHANG)) != process;) {
        EXPECT(ended == 0, "waitpid: %s", strerror(errno));
        if (milliseconds_now() > deadline)
            kill(process, SIGKILL);
        usleep(200);
    }
    return WIFEXITED(status) ? WEXITSTATUS(status) : 128 + WTERMSIG(status);
}

int run_to_end(char *const arguments[])
{
    return end_of(start_program(arguments));
}

long end_of_log(void)
{
    struct stat found;
    EXPECT(stat("log", &found) == 0, "no log");
    return (long)found.st_size;
}

void hear_log(long since, char said[SAID_ROOM])
{
    FILE *log = fopen("log", "r");
    EXPECT(log != NULL && fseek(log, since, SEEK_SET) == 0, "no log");
    said[fread(said, 1, SAID_ROOM - 1, log)] = '\0';
    fclose(log);
}

int run_with_output(char *const arguments[], const char *path)
{
    output = path;
    int status = run_to_end(arguments);
    output = "log";
    return status;
}

int run_and_hear(char *const arguments[], char said[SAID_ROOM])
{
    const long since = end_of_log();
    int status = run_to_end(arguments);
    hear_log(since, said);
    return status;
}

bool run_cut_short(
    char *const arguments[], const char *moment, unsigned at, char said[SAID_ROOM])
{
    char number[16];
    snprintf(number, sizeof number, "%u", at);
    EXPECT(setenv(moment, number, 1) == 0, "setenv: %s", strerror(errno));
    int status = run_and_hear(arguments, said);
    EXPECT(unsetenv(moment) == 0, "unsetenv: %s", strerror(errno));
    EXPECT(status == 0 || status == 128 + SIGKILL, "the program ended with status %d", status);
    return status != 0;
}

void put_file(const char *path, const void *bytes, size_t size)
{
    int file = open(path, O_WRONLY | O_CREAT | O_TRUNC, 0600);
    EXPECT(file >= 0 && write(file, bytes, size) == (ssize_t)size && close(file) == 0,
        "cannot write %s", path);
}

void start_child(enum part part)
{
    char *command = (char *)PART[part].command, *via = (char *)PART[WATCH].socket;
    char *const arguments[] = {"door-host", command, ".", "--via", via, NULL};
    char *const not_ahead[] = {"door-host", command, ".", "--no-ahead", "--via", via, NULL};
    bool as_usual = part != DEALER || deals_ahead;
    children[part] = start_program(as_usual ? arguments : not_ahead);
}

void kill_child(enum part part)
{
    EXPECT(children[part] > 0 && kill(children[part], SIGKILL) == 0, "no %s to kill",
        PART[part].title);
    int status = end_of(children[part]);
    children[part] = 0;
    EXPECT(status == 128 + SIGKILL, "the %s had ended by itself, status %d", PART[part].title,
        status);
}

bool child_runs(enum part part)
{
    if (children[part] > 0 && waitpid(children[part], NULL, WNOHANG) != 0)
        children[part] = 0;
    return children[part] > 0;
}

void stop_child(enum part part)
{
    pid_t process = children[part];
    EXPECT(child_runs(part) && kill(process, SIGTERM) == 0, "no %s to stop", PART[part].title);
    children[part] = 0;
    EXPECT(end_of(process) == 0, "the %s does not stop well", PART[part].title);
}

void stop_all(void)
{
    for (enum part part = CAMERA; part <= LOCK; part++) {
        stop_child(part);
        lose_stock(part);
    }
}

void start_all(void)
{
    for (enum part part = CAMERA; part <= LOCK; part++)
        start_child(part);
    settle();
}

void kill_what_is_left(void)
{
    for (enum part part = CAMERA; part < PARTS; part++)
        if (child_runs(part) && kill(children[part], SIGKILL) == 0)
            waitpid(children[part], NULL, 0);
}

/* A living dealer may force the same stick at this moment: then there is nothing to undo. */
static void undo_rename(const char *path, const char *marked)
{
    EXPECT(rename(marked, path) == 0 || errno == ENOENT, "undo of %s: %s", path, strerror(errno));
}

/* Cuts the file at a place by chance, as where only a part of it had come to the disk. */
static void tear(const char *path, const char *marked)
{
    struct stat found;
    (void)marked;
    if (stat(path, &found) == 0 && found.st_size > 0)
        EXPECT(truncate(path, (off_t)chance((uint64_t)found.st_size)) == 0, "truncate %s", path);
}

static void remove_new(const char *path, const char *marked)
{
    (void)marked;
    EXPECT(unlink(path) == 0 || errno == ENOENT, "undo of %s: %s", path, strerror(errno));
}

/* What a power cut may do where a mark stands. */
struct undo {
    const char *mark;
    void (*undo)(const char *path, const char *marked);
};

static const struct undo OWN[] = {
    {MARK_TORN, tear}, {MARK_NEW, remove_new}, {MARK_OLD, undo_rename}, {NULL, NULL}};
static const struct undo REMOVED[] = {{MARK_GONE, undo_rename}, {NULL, NULL}};

static void undo_marked(const char *folder, const struct undo *u)
{
    DIR *entries = opendir(folder);
    EXPECT(entries != NULL, "cannot look through %s", folder);
    for (struct dirent *entry; (entry = readdir(entries)) != NULL;) {
        char path[2 * PATH_ROOM], marked[3 * PATH_ROOM];
        const char *mark = strstr(entry->d_name, ".~");
        if (mark == NULL || strcmp(mark, u->mark) != 0)
            continue;
        snprintf(path, sizeof path, "%s/%.*s", folder, (int)(mark - entry->d_name), entry->d_name);
        snprintf(marked, sizeof marked, "%s%s", path, mark);
        if (chance(2) == 0)
            u->undo(path, marked);
        EXPECT(unlink(marked) == 0 || errno == ENOENT, "cannot remove %s", marked);
    }
    closedir(entries);
}

static void undo_in(const char *folder, const struct undo *undos)
{
    for (const struct undo *u = undos; u->mark != NULL; u++)
        undo_marked(folder, u);
}

/* The sticks are written by the dealer and cleared by the boxes: each loses only what it did. */
void cut_power(enum part part)
{
    undo_in(PART[part].command, OWN);
    if (part == DEALER) {
        undo_in("stick/camera", OWN);
        undo_in("stick/office", OWN);
    } else if (part == CAMERA) {
        undo_in("stick/camera", REMOVED);
    } else if (part == OFFICE) {
        undo_in("stick/office", REMOVED);
    }
}

uint64_t durable_last(enum part part)
{
    char path[PATH_ROOM], torn[2 * PATH_ROOM], old[2 * PATH_ROOM];
    uint64_t last;
    snprintf(path, sizeof path, "%s/last", PART[part].command);
    snprintf(torn, sizeof torn, "%s%s", path, MARK_TORN);
    snprintf(old, sizeof old, "%s%s", path, MARK_OLD);
    EXPECT(access(torn, F_OK) != 0, "%s was put in place before its bytes were forced to disk",
        path);
    FILE *file = fopen(old, "r");
    if (file == NULL)
        file = fopen(path, "r");
    EXPECT(file != NULL && fscanf(file, "%" SCNu64, &last) == 1, "cannot read %s", path);
    fclose(file);
    return last;
}
