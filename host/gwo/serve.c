/* gwo serve: the chip for a client of serprog, such as flashrom, over TCP on this machine. */
#include "bench.h"
#include "commands.h"
#include "frames.h"
#include "image.h"
#include "out.h"
#include "say.h"
#include "serprog.h"
#include "wire.h"

#include <arpa/inet.h>
#include <errno.h>
#include <fcntl.h>
#include <netinet/in.h>
#include <netinet/tcp.h>
#include <poll.h>
#include <signal.h>
#include <string.h>
#include <sys/socket.h>
#include <unistd.h>

enum { FIRST_PORT = 7625 };

struct serve {
    struct chip_options chip;
    const char *save, *log;
    uint16_t port;
    int real_time;
    struct frames frames;
    struct serprog serprog;
    struct wire wire;
    struct out out;
};

static error_t parse(int key, char *word, struct argp_state *state)
{
    struct serve *s = state->input;
    uint64_t port;

    switch (key) {
    case ARGP_KEY_INIT: state->child_inputs[0] = &s->chip; return 0;
    case 'S': s->save = word; return 0;
    case 'L': s->log = word; return 0;
    case 'r': s->real_time = 1; return 0;
    case 'p':
        if (!read_number(word, 65535, &port))
            argp_error(state, "--port %s: it is 0 to 65535", word);
        s->port = (uint16_t)port;
        return 0;
    case ARGP_KEY_ARG: argp_error(state, "'%s' is one word too many", word); return 0;
    default: return ARGP_ERR_UNKNOWN;
    }
}

static const struct argp_option options[] = {
    {"port", 'p', "N", 0, "the port on 127.0.0.1 (7625); 0 takes a free one", 2},
    {"save", 'S', "FILE", 0, "write the cells to this file at the end, whole or not at all", 2},
    {"log", 'L', "FILE", 0, "write a row for each frame to this file", 2},
    {"real-time", 'r', NULL, 0, "time passes by the clock; otherwise by the client's delays alone", 2},
    {NULL, 0, NULL, 0, NULL, 0}};

static const struct argp_child children[] = {{&chip_argp, 0, "The chip:", 1}, {NULL, 0, NULL, 0}};

static const struct argp argp = {
    options, parse, NULL,
    "Lets a client of serprog use the chip over TCP, one client at a time: flashrom -p serprog:ip=127.0.0.1:7625. Ctrl-C ends it: the cells "
    "are saved then, if that was asked for, and what became of all frames is said.",
    children, NULL, NULL};

/* ---- Ctrl-C: the handler writes into a pipe, so that whoever waits wakes up */

static int stop_pipe[2] = {-1, -1};

static void on_stop(int number)
{
    const int kept = errno;
    const ssize_t wrote = write(stop_pipe[1], "", 1);

    (void)number;
    (void)wrote; /* a pipe that is full says the same */
    errno = kept;
}

static int watch_for_stop(void)
{
    struct sigaction act;

    memset(&act, 0, sizeof act);
    act.sa_handler = on_stop;
    if (pipe2(stop_pipe, O_CLOEXEC | O_NONBLOCK) != 0 || sigaction(SIGINT, &act, NULL) != 0 ||
        sigaction(SIGTERM, &act, NULL) != 0 || sigaction(SIGHUP, &act, NULL) != 0)
        return refused_by_system("signals");
    return WELL;
}

/* ---- the port */

/* The socket that clients come to; -1 where it cannot be had, which is said. */
static int open_port(struct serve *s)
{
    const int yes = 1;
    int fd = socket(AF_INET, SOCK_STREAM | SOCK_CLOEXEC | SOCK_NONBLOCK, 0);
    struct sockaddr_in here;
    socklen_t length = sizeof here;

    memset(&here, 0, sizeof here);
    here.sin_family = AF_INET;
    here.sin_addr.s_addr = htonl(INADDR_LOOPBACK);
    here.sin_port = htons(s->port);
    if (fd >= 0 && setsockopt(fd, SOL_SOCKET, SO_REUSEADDR, &yes, sizeof yes) == 0 &&
        bind(fd, (const struct sockaddr *)&here, sizeof here) == 0 && listen(fd, 16) == 0 &&
        getsockname(fd, (struct sockaddr *)&here, &length) == 0) {
        s->port = ntohs(here.sin_port);
        return fd;
    }
    could_not("port %u of 127.0.0.1: %s", (unsigned)s->port, strerror(errno));
    if (fd >= 0)
        close(fd);
    return -1;
}

/* The next client's socket; -1 where the server is to stop. */
static int next_client(int port)
{
    const int yes = 1;
    struct pollfd both[2] = {{port, POLLIN, 0}, {stop_pipe[0], POLLIN, 0}};
    int fd = -1;

    while (fd < 0) {
        if (poll(both, 2, -1) > 0 && both[1].revents != 0)
            return -1;
        fd = accept4(port, NULL, NULL, SOCK_CLOEXEC | SOCK_NONBLOCK);
    }
    setsockopt(fd, IPPROTO_TCP, TCP_NODELAY, &yes, sizeof yes);
    return fd;
}

/* ---- the service */

/* Client after client; WELL when it was stopped, COULD_NOT where the log could not be written. */
static int serve_clients(struct serve *s, int port)
{
    uint64_t client = 0;
    int fd, status = WELL;

    while (status == WELL && (fd = next_client(port)) >= 0) {
        wire_start(&s->wire, fd, fd, stop_pipe[0]);
        serprog_session(&s->serprog, &s->wire);
        close(fd);
        frames_client_gone(&s->frames, ++client);
        if (s->log != NULL)
            status = out_flush(&s->out);
    }
    return status;
}

static int open_log(struct serve *s)
{
    int fd;

    if (s->log == NULL)
        return WELL;
    fd = open(s->log, O_WRONLY | O_CREAT | O_TRUNC | O_CLOEXEC, 0666);
    if (fd < 0)
        return refused_by_system(s->log);
    out_start(&s->out, fd, s->log);
    return WELL;
}

static int close_log(struct serve *s)
{
    int status = WELL;

    if (s->log == NULL)
        return WELL;
    status = out_flush(&s->out);
    if (close(s->out.fd) != 0 && status == WELL)
        status = refused_by_system(s->log);
    return status;
}

static int serve_chip(struct serve *s, struct gwo_chip *chip)
{
    int port = open_port(s), status, closed;

    if (port < 0 || open_log(s) != WELL)
        return COULD_NOT;
    bench_say(chip, &s->chip);
    frames_start(&s->frames, chip, s->log == NULL ? NULL : &s->out);
    serprog_start(&s->serprog, &s->frames, s->real_time);
    say("waiting on 127.0.0.1:%u: flashrom -p serprog:ip=127.0.0.1:%u", (unsigned)s->port, (unsigned)s->port);
    status = serve_clients(s, port);
    close(port);
    frames_say_all(&s->frames);
    gwo_chip_finish(chip);
    if (s->save != NULL && save_whole(s->save, chip->array, chip->array_len) != WELL)
        status = COULD_NOT;
    closed = close_log(s);
    return status == WELL ? closed : status;
}

int command_serve(int argc, char **argv)
{
    static struct serve s;
    struct gwo_chip chip;
    int status;

    memset(&s, 0, sizeof s);
    s.chip = chip_options_start();
    s.port = FIRST_PORT;
    argp_parse(&argp, argc, argv, 0, NULL, &s);
    if ((s.save != NULL && save_possible(s.save) != WELL) || watch_for_stop() != WELL)
        return COULD_NOT;
    status = bench_open(&chip, &s.chip);
    if (status != WELL)
        return status;
    status = serve_chip(&s, &chip);
    bench_close(&chip);
    return status;
}
