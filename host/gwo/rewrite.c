/*
 * gwo rewrite: a stored script written anew for the small chips, 52 to D8. The proved program does it; gwo lends it the script, standard output and
 * standard error, and has the exit status that the program lacks.
 */
#include "commands.h"
#include "out.h"
#include "say.h"
#include "source.h"

#include <argp.h>
#include <errno.h>
#include <fcntl.h>
#include <limits.h>
#include <spawn.h>
#include <stdio.h>
#include <string.h>
#include <sys/stat.h>
#include <sys/wait.h>
#include <unistd.h>

/* What the program is called, beside gwo where it is built, and in a folder of its own where it is installed. */
static const char *const places[] = {"/gwo-rewrite", "/../libexec/gwo/gwo-rewrite"};

/* A line of the program that begins so says that it has failed; all others are numbers of lines. */
static const char failing[] = "rewrite: ";

struct rewrite {
    const char *script;
    struct source from;
};

static error_t parse(int key, char *word, struct argp_state *state)
{
    struct rewrite *r = state->input;

    if (key != ARGP_KEY_ARG)
        return ARGP_ERR_UNKNOWN;
    if (state->arg_num > 0)
        argp_error(state, "one script is rewritten; '%s' is another", word);
    r->script = word;
    return 0;
}

static const struct argp argp = {
    NULL, parse, "[SCRIPT|-]",
    "Writes a stored script anew for the KH25L512 and the KH25L2006E, on which 52 is withdrawn: D8 in place of a frame's first byte 52, and no "
    "other byte changed. The new script goes to standard output, the numbers of the changed lines to standard error.",
    NULL, NULL, NULL};

/* The program's path; 0 where it is in neither place. */
static int find_program(char *path)
{
    ssize_t n = readlink("/proc/self/exe", path, PATH_MAX - 64);
    char *slash;
    size_t i;

    path[n < 0 ? 0 : n] = 0;
    slash = strrchr(path, '/');
    for (i = 0; slash != NULL && i < sizeof places / sizeof places[0]; i++) {
        strcpy(slash, places[i]);
        if (access(path, X_OK) == 0)
            return 1;
    }
    return 0;
}

/* The script is its standard input, the pipe its standard error; 0, or an errno. */
static int start(const char *path, int script, const int *told, pid_t *pid)
{
    char *const argv[] = {(char *)(uintptr_t)path, NULL};
    posix_spawn_file_actions_t files;
    int number = posix_spawn_file_actions_init(&files);

    if (number != 0)
        return number;
    number = posix_spawn_file_actions_adddup2(&files, script, STDIN_FILENO);
    if (number == 0)
        number = posix_spawn_file_actions_adddup2(&files, told[1], STDERR_FILENO);
    if (number == 0)
        number = posix_spawn(pid, path, &files, NULL, argv, environ);
    posix_spawn_file_actions_destroy(&files);
    return number;
}

/* How many characters of `failing` stand at the start of the line so far; all of them: the program has failed. */
static size_t watch(size_t matched, int *line_start, char c)
{
    if (failing[matched] == 0)
        return matched;
    if (*line_start || matched > 0)
        matched = c == failing[matched] ? matched + 1 : 0;
    *line_start = c == '\n';
    return matched;
}

/* What the program tells, handed on as it comes; COULD_NOT where it tells that it has failed, or standard error takes nothing. */
static int hand_on(int told)
{
    char part[4096];
    size_t matched = 0;
    int line_start = 1, status = WELL;
    ssize_t n, i;

    while ((n = read(told, part, sizeof part)) > 0 || (n < 0 && errno == EINTR)) {
        for (i = 0; i < n; i++)
            matched = watch(matched, &line_start, part[i]);
        if (n > 0 && write_all(STDERR_FILENO, part, (size_t)n) != 0)
            status = COULD_NOT;
    }
    return failing[matched] == 0 ? COULD_NOT : status;
}

/* The program has ended; a status or a signal of its own is said. */
static int ended(pid_t pid)
{
    int status;

    while (waitpid(pid, &status, 0) < 0)
        if (errno != EINTR)
            return refused_by_system("the program that rewrites");
    if (WIFSIGNALED(status))
        return could_not("the program that rewrites was ended by signal %d", WTERMSIG(status));
    return WEXITSTATUS(status) == 0 ? WELL : could_not("the program that rewrites ended with status %d", WEXITSTATUS(status));
}

static int rewrite_script(struct rewrite *r, const char *path)
{
    int told[2], number, status, last;
    pid_t pid;

    if (pipe2(told, O_CLOEXEC) != 0)
        return refused_by_system("a pipe");
    number = start(path, r->from.fd, told, &pid);
    close(told[1]);
    errno = number;
    status = number != 0 ? refused_by_system(path) : hand_on(told[0]);
    close(told[0]);
    last = number != 0 ? WELL : ended(pid);
    return status == WELL ? last : status;
}

int command_rewrite(int argc, char **argv)
{
    static struct rewrite r;
    char path[PATH_MAX];
    struct stat about;
    int status;

    r.script = "-";
    argp_parse(&argp, argc, argv, 0, NULL, &r);
    if (!find_program(path))
        return could_not("the program that rewrites is not where it should be: %s", path);
    status = source_open(&r.from, r.script);
    if (status != WELL)
        return status;
    if (fstat(r.from.fd, &about) == 0 && S_ISDIR(about.st_mode)) {
        errno = EISDIR;
        status = refused_by_system(r.from.name);
    } else {
        status = rewrite_script(&r, path);
    }
    source_close(&r.from);
    return status;
}
