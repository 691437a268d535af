/*
 * A client of gwo serve that does what it is told.
 *   client PORT STEP..
 * Steps: HEX is sent; =HEX has to come back; /N bytes have to come back, whatever they are; +US lets the chip's time pass by a delay;
 * noise:SEED:N sends N random bytes and reads whatever comes; flood:HEX:N sends the bytes N times and reads nothing; reset breaks the connection
 * off; shut says that nothing more is sent, and reads until the server closes. The status is 0 where every step went as it should.
 */
#include <arpa/inet.h>
#include <errno.h>
#include <netinet/in.h>
#include <poll.h>
#include <stdint.h>
#include <stdio.h>
#include <stdlib.h>
#include <string.h>
#include <sys/socket.h>
#include <unistd.h>

enum { PATIENCE_MS = 60000, MOST = 1 << 20 };

static int server;
static uint8_t bytes[MOST];

static void wrong(const char *step, const char *what)
{
    fprintf(stderr, "client: %.80s: %s\n", step, what);
    exit(1);
}

/* Waits until it can be read or written; which of the two. */
static short ready_for(const char *step, short events)
{
    struct pollfd one = {server, events, 0};

    if (poll(&one, 1, PATIENCE_MS) <= 0)
        wrong(step, "nothing happens for a minute");
    return one.revents;
}

static void send_all(const char *step, const uint8_t *from, size_t n)
{
    while (n > 0) {
        ssize_t sent = send(server, from, n, MSG_NOSIGNAL);

        if (sent < 0)
            wrong(step, strerror(errno));
        from += sent;
        n -= (size_t)sent;
    }
}

static void receive_all(const char *step, uint8_t *to, size_t n)
{
    while (n > 0) {
        ssize_t got;

        ready_for(step, POLLIN);
        got = recv(server, to, n, 0);
        if (got <= 0)
            wrong(step, got == 0 ? "the server has closed the connection" : strerror(errno));
        to += got;
        n -= (size_t)got;
    }
}

/* The bytes of a hex text; how many. */
static size_t from_hex(const char *step, const char *text, uint8_t *to)
{
    size_t n = 0;
    unsigned byte;

    for (; *text != 0 && *text != ':'; text += 2, n++) {
        if (n == MOST || sscanf(text, "%2x", &byte) != 1)
            wrong(step, "no hex");
        to[n] = (uint8_t)byte;
    }
    return n;
}

static void expect(const char *step)
{
    static uint8_t got[MOST];
    size_t n = from_hex(step, step + 1, bytes), i;

    receive_all(step, got, n);
    for (i = 0; i < n; i++)
        if (got[i] != bytes[i]) {
            fprintf(stderr, "client: %.80s: byte %zu is %02X\n", step, i, got[i]);
            exit(1);
        }
}

/* A delay put into the operation buffer, which is then run. */
static void pass_time(const char *step)
{
    const uint32_t us = (uint32_t)strtoul(step + 1, NULL, 10);
    const uint8_t delay[] = {0x0B, 0x0E, (uint8_t)us, (uint8_t)(us >> 8), (uint8_t)(us >> 16), (uint8_t)(us >> 24), 0x0F};

    send_all(step, delay, sizeof delay);
    receive_all(step, bytes, 3);
    if (memcmp(bytes, "\x06\x06\x06", 3) != 0)
        wrong(step, "a delay is not taken");
}

/* Whatever the server says is read, so that neither side waits for the other. */
static void noise(const char *step)
{
    static uint8_t sink[MOST];
    char *end;
    uint64_t at = strtoull(step + 6, &end, 10), left = strtoull(end + 1, NULL, 10);

    while (left > 0) {
        size_t n = left < 4096 ? (size_t)left : 4096, i;
        ssize_t sent;

        for (i = 0; i < n; i++) {
            at = at * 6364136223846793005u + 1442695040888963407u;
            bytes[i] = (uint8_t)(at >> 56);
        }
        if (ready_for(step, POLLIN | POLLOUT) & POLLIN && recv(server, sink, sizeof sink, MSG_DONTWAIT) == 0)
            return; /* closed: that is an answer too */
        sent = send(server, bytes, n, MSG_NOSIGNAL | MSG_DONTWAIT);
        if (sent < 0 && errno != EAGAIN)
            return;
        left -= sent > 0 ? (uint64_t)sent : 0;
    }
}

static void flood(const char *step)
{
    size_t n = from_hex(step, step + 6, bytes);
    unsigned long times = strtoul(strrchr(step, ':') + 1, NULL, 10);

    while (times-- > 0)
        if (send(server, bytes, n, MSG_NOSIGNAL | MSG_DONTWAIT) < 0)
            return; /* the server waits for this client to read */
}

static void shut(const char *step)
{
    shutdown(server, SHUT_WR);
    for (;;) {
        ready_for(step, POLLIN);
        if (recv(server, bytes, sizeof bytes, 0) <= 0)
            return;
    }
}

static void reset(void)
{
    const struct linger at_once = {1, 0};

    setsockopt(server, SOL_SOCKET, SO_LINGER, &at_once, sizeof at_once);
}

static void take(const char *step)
{
    if (*step == '=')
        expect(step);
    else if (*step == '/')
        receive_all(step, bytes, strtoul(step + 1, NULL, 10) % MOST);
    else if (*step == '+')
        pass_time(step);
    else if (strncmp(step, "noise:", 6) == 0)
        noise(step);
    else if (strncmp(step, "flood:", 6) == 0)
        flood(step);
    else if (strcmp(step, "reset") == 0)
        reset();
    else if (strcmp(step, "shut") == 0)
        shut(step);
    else
        send_all(step, bytes, from_hex(step, step, bytes));
}

int main(int argc, char **argv)
{
    struct sockaddr_in there;
    int i;

    if (argc < 2)
        return 2;
    memset(&there, 0, sizeof there);
    there.sin_family = AF_INET;
    there.sin_addr.s_addr = htonl(INADDR_LOOPBACK);
    there.sin_port = htons((uint16_t)strtoul(argv[1], NULL, 10));
    server = socket(AF_INET, SOCK_STREAM, 0);
    if (server < 0 || connect(server, (const struct sockaddr *)&there, sizeof there) != 0)
        wrong("connect", strerror(errno));
    for (i = 2; i < argc; i++)
        take(argv[i]);
    close(server);
    return 0;
}
