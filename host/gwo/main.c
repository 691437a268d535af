/*
 * gwo: the bench in one program. A command a file; what a script line or a frame is answered comes from the proved archive.
 */
#include "bench.h"
#include "commands.h"
#include "gwo.h"
#include "say.h"

#include <argp.h>
#include <errno.h>
#include <fcntl.h>
#include <signal.h>
#include <stdio.h>
#include <stdlib.h>
#include <string.h>
#include <unistd.h>

struct command {
    const char *name, *title;
    int (*start)(int argc, char **argv);
};

static const struct command commands[] = {{"run", "gwo run", command_run},
                                          {"check", "gwo check", command_check},
                                          {"explain", "gwo explain", command_explain},
                                          {"compare", "gwo compare", command_compare},
                                          {"serve", "gwo serve", command_serve},
                                          {"rewrite", "gwo rewrite", command_rewrite},
                                          {"sfdp", "gwo sfdp", command_sfdp},
                                          {"pins", "gwo pins", command_pins}};

/* The command that was asked for, and its words. */
struct choice {
    const struct command *command;
    int argc;
    char **argv;
};

static const struct command *command_named(const char *name)
{
    size_t i;

    for (i = 0; i < sizeof commands / sizeof commands[0]; i++)
        if (strcmp(commands[i].name, name) == 0)
            return &commands[i];
    return NULL;
}

/* The first word that is no option is the command; the words after it are the command's own. */
static error_t parse(int key, char *word, struct argp_state *state)
{
    struct choice *c = state->input;

    switch (key) {
    case ARGP_KEY_ARG:
        c->command = command_named(word);
        if (c->command == NULL)
            argp_error(state, "there is no command '%s'", word);
        c->argc = state->argc - state->next + 1;
        c->argv = state->argv + state->next - 1;
        state->next = state->argc;
        return 0;
    case ARGP_KEY_NO_ARGS:
        argp_error(state, "which command?");
        return 0;
    default:
        return ARGP_ERR_UNKNOWN;
    }
}

static const char about[] =
    "A bench for firmware of the serial flash chips KH25L512, KH25L2006E and KH25L12845G: scripts and real programs are played to a model "
    "of the chip."
    "\vCommands:\n"
    "  run       play a script; its log goes to standard output\n"
    "  check     say every fold and every refusal of scripts; for CI too\n"
    "  explain   show each line of a script beside its answer in words\n"
    "  compare   play a script and compare its log with a stored one\n"
    "  serve     let flashrom, or another client of serprog, use the chip over TCP\n"
    "  rewrite   write a stored script anew for the small chips, 52 to D8\n"
    "  sfdp      print what stands in an SFDP table\n"
    "  pins      play a capture of the chip's pins, as a logic analyser records them\n"
    "\n`gwo COMMAND --help' says more of each.\n"
    "\nThe exit status is 0, 1 where something was found, and 2 where it could not be done.";

static const struct argp argp = {NULL, parse, "COMMAND [WORD...]", about, NULL, NULL, NULL};

static void print_version(FILE *to, struct argp_state *state)
{
    (void)state;
    fprintf(to, "gwo %s%s\n", GWO_VERSION, behind);
}

/* Whether somebody is to hear what is said. */
static int heard = 1;

/* Help and version go through C's own stream: a disk that is full is said, and is no 0. Nor is a standard error that takes nothing. */
static void close_streams(void)
{
    if (fflush(stdout) != 0 || ferror(stdout)) {
        refused_by_system("standard output");
        _exit(COULD_NOT);
    }
    if (heard && ferror(stderr))
        _exit(COULD_NOT);
}

/* A standard file that is closed stays unusable: no file that is opened later comes into its place. */
static void keep_standard_files(void)
{
    int fd;

    heard = fcntl(STDERR_FILENO, F_GETFD) >= 0;
    for (fd = STDIN_FILENO; fd <= STDERR_FILENO; fd++)
        if (fcntl(fd, F_GETFD) < 0 && open("/dev/null", fd == STDIN_FILENO ? O_WRONLY : O_RDONLY) != fd)
            _exit(COULD_NOT);
}

/* A word for argp, which does not change it. */
static char *word(const char *text)
{
    return (char *)(uintptr_t)text;
}

int main(int argc, char **argv)
{
    struct choice c = {NULL, 0, NULL};

    keep_standard_files();
    if (argc > 0)
        argv[0] = word(said_by); /* whatever file the program is in */
    signal(SIGPIPE, SIG_IGN);
    atexit(close_streams);
    argp_err_exit_status = COULD_NOT;
    argp_program_version_hook = print_version;
    argp_parse(&argp, argc, argv, ARGP_IN_ORDER, NULL, &c);
    said_by = c.command->title;
    c.argv[0] = word(said_by);
    return c.command->start(c.argc, c.argv);
}
