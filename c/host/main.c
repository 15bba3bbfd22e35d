/*
 * door-host: dealer, camera box, office box and lock of one door, as processes that talk over
 * Unix sockets. README.md beside this file says how they work together.
 */
#include "host.h"

#include <stdio.h>
#include <string.h>
#include <sys/resource.h>
#include <sys/stat.h>

static int usage(void)
{
    fputs("usage: door-host setup FOLDER NAME CODE LENGTH THRESHOLD\n"
          "       door-host setup FOLDER NAME CODE LENGTH P Q\n"
          "       door-host setup FOLDER NAME CODE LENGTH table FILE\n"
          "       door-host dealer FOLDER [--no-ahead] [--via SOCKET]\n"
          "       door-host camera|office|lock FOLDER [--via SOCKET]\n"
          "       door-host enrol FOLDER FILE [--iris angles|rings]\n"
          "       door-host check FOLDER FILE [--iris angles|rings]\n"
          "       door-host status FOLDER\n"
          "       door-host watch FOLDER\n"
          "       door-host upgrade FOLDER\n"
          "       door-host trial FOLDER HALF    (exit status: 0 a box would take it, 1 none would, "
          "2 trouble)\n",
        stderr);
    return EXIT_TROUBLE;
}

/* Keys and masks are in memory: nobody else may read the files, and no core is written. */
static bool keep_secrets_in(void)
{
    const struct rlimit none = {0, 0};
    umask(077);
    if (setrlimit(RLIMIT_CORE, &none) == 0)
        return true;
    say_trouble("cannot turn off", "core files");
    return false;
}

static bool is_blank(const char *text)
{
    return text[strspn(text, " \t\r\n")] == '\0';
}

/* Folder, name, and the settings' numbers, or code, length, 'table' and its file. A blank one is not
   passed over: where it was to be the second mark, the first would be a threshold. */
static int run_setup(int count, char **arguments)
{
    char text[PATH_ROOM] = "";
    size_t size = 0;
    bool has_table = count == 6 && strcmp(arguments[4], TABLE_WORD) == 0;
    for (int i = 2; i < (has_table ? 5 : count); i++) {
        int more = snprintf(text + size, sizeof text - size, "%s ", arguments[i]);
        if (is_blank(arguments[i]) || more < 0 || (size_t)more >= sizeof text - size)
            return usage();
        size += (size_t)more;
    }
    return set_up(arguments[0], arguments[1], text, has_table ? arguments[5] : NULL);
}

/* The file's path is the caller's, so it is read before the working folder changes. */
static int run_check_of(const char *folder, const char *path, enum vector_form form)
{
    static struct vector vector;
    static struct settings settings;
    int status = EXIT_TROUBLE;
    if (read_vector_as(form, path, &vector) && go_to(folder)
        && (form == AS_TEXT || (read_settings(&settings) && takes_iris(&settings))))
        status = run_check(&vector);
    explicit_bzero(&vector, sizeof vector);
    return status;
}

/* From what stands behind the file's path. */
static bool parse_form(int count, char **arguments, enum vector_form *form)
{
    if (count == 0) {
        *form = AS_TEXT;
        return true;
    }
    if (count != 2 || strcmp(arguments[0], IRIS_OPTION) != 0)
        return false;
    *form = strcmp(arguments[1], "angles") == 0 ? IRIS_BY_ANGLES : IRIS_BY_RINGS;
    return *form == IRIS_BY_ANGLES || strcmp(arguments[1], "rings") == 0;
}

/* The command, its folder, a file and its form. Where the option stands in the folder's place or
   in the file's, that was left out. */
static int run_with_vector(int count, char **arguments)
{
    enum vector_form form;
    if (count < 3 || strcmp(arguments[1], IRIS_OPTION) == 0
        || strcmp(arguments[2], IRIS_OPTION) == 0
        || !parse_form(count - 3, arguments + 3, &form))
        return usage();
    if (strcmp(arguments[0], "enrol") == 0)
        return run_enrol(arguments[1], arguments[2], form);
    return run_check_of(arguments[1], arguments[2], form);
}

static int run_part(const char *command, const char *folder, bool deals_ahead, const char *via)
{
    bool is_dealer = strcmp(command, PART[DEALER].command) == 0;
    if (!deals_ahead && !is_dealer)
        return usage();
    if (!go_to(folder))
        return EXIT_TROUBLE;
    if (is_dealer)
        return run_dealer(via, deals_ahead);
    if (strcmp(command, PART[CAMERA].command) == 0)
        return run_box(CAMERA, via);
    if (strcmp(command, PART[OFFICE].command) == 0)
        return run_box(OFFICE, via);
    if (strcmp(command, PART[LOCK].command) == 0)
        return run_lock(via);
    if (via == NULL && strcmp(command, PART[WATCH].command) == 0)
        return run_watch();
    if (via == NULL && strcmp(command, "status") == 0)
        return run_status();
    if (via == NULL && strcmp(command, "upgrade") == 0)
        return run_upgrade();
    return usage();
}

/* A part's command, its folder, and the options behind them. */
static int run_part_with(int count, char **arguments)
{
    int at = 2;
    bool deals_ahead = !(count > at && strcmp(arguments[at], "--no-ahead") == 0);
    if (!deals_ahead)
        at++;
    if (count == at && at >= 2)
        return run_part(arguments[0], arguments[1], deals_ahead, NULL);
    if (count == at + 2 && strcmp(arguments[at], "--via") == 0)
        return run_part(arguments[0], arguments[1], deals_ahead, arguments[at + 1]);
    return usage();
}

int main(int count, char **arguments)
{
    if (!keep_secrets_in() || !stop_on_signals())
        return EXIT_TROUBLE;
    if ((count == 7 || count == 8) && strcmp(arguments[1], "setup") == 0)
        return run_setup(count - 2, arguments + 2);
    if (count >= 2 && (strcmp(arguments[1], "enrol") == 0 || strcmp(arguments[1], "check") == 0))
        return run_with_vector(count - 1, arguments + 1);
    if (count == 4 && strcmp(arguments[1], "trial") == 0)
        return run_trial(arguments[2], arguments[3]);
    return run_part_with(count - 1, arguments + 1);
}
