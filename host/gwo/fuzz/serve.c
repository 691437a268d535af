/*
 * A fuzzer of gwo serve: a client that sends these bytes. The first says which chip it is; all else goes through the protocol to the chip, and
 * the frames into a log.
 */
#include "bench.h"
#include "frames.h"
#include "say.h"
#include "serprog.h"

#include <fcntl.h>
#include <stdlib.h>
#include <string.h>
#include <sys/mman.h>
#include <unistd.h>

int LLVMFuzzerTestOneInput(const uint8_t *data, size_t n);

/* Where nothing is kept; standard error is that too, if it is closed. */
static int nowhere(void)
{
    static int fd = -1;

    while (fd <= STDERR_FILENO)
        fd = open("/dev/null", O_RDWR);
    return fd;
}

/* A chip from the factory; its memory is asked for once, since 16 MiB take long to fill byte by byte. */
static struct gwo_chip *fresh(uint32_t model, uint32_t strict)
{
    static struct gwo_chip chips[3];
    struct gwo_chip *chip = &chips[model - 1];
    struct chip_options options = chip_options_start();

    options.model = model;
    if (chip->array == NULL && bench_open(chip, &options) != WELL)
        abort();
    gwo_factory_state(chip->state);
    memset(chip->array, 0xFF, chip->array_len);
    memset(chip->wear, 0, chip->wear_len * sizeof chip->wear[0]);
    chip->strict = strict;
    return chip;
}

int LLVMFuzzerTestOneInput(const uint8_t *data, size_t n)
{
    static struct frames frames;
    static struct wire wire;
    static struct out log;
    struct serprog serprog;
    struct gwo_chip *chip;
    int fd = memfd_create("client", 0);

    if (n == 0 || fd < 0 || write(fd, data + 1, n - 1) != (ssize_t)(n - 1) || lseek(fd, 0, SEEK_SET) != 0) {
        close(fd);
        return 0;
    }
    chip = fresh(data[0] == 255 ? 3 : 1 + data[0] % 2u, data[0] >> 1 & 1);
    out_start(&log, nowhere(), "the log");
    frames_start(&frames, chip, &log);
    serprog_start(&serprog, &frames, 0);
    wire_start(&wire, fd, nowhere(), -1);
    if (serprog_session(&serprog, &wire) != WIRE_GONE || gwo_chip_left(chip) != 0)
        abort(); /* it ends when the client has gone, and the chip is at rest then */
    frames_client_gone(&frames, 1);
    if (out_flush(&log) != WELL)
        abort();
    close(fd);
    return 0;
}
