/* deorasaeng-bus dump, send and play. */
#include "bus_commands.h"
#include "clock.h"
#include "frame_text.h"
#include "unix_bus.h"

#include <errno.h>
#include <inttypes.h>
#include <poll.h>
#include <signal.h>
#include <stdbool.h>
#include <stdio.h>
#include <string.h>
#include <sys/socket.h>
#include <time.h>

/* How long a frame may take to stand on the bus: longer is a bus that nobody serves, or one of a few bits a second. */
#define SENT_WITHIN (5 * CLOCK_SECOND)

#define LINE_BYTES 256

struct joined {
    char path[UNIX_SOCKET_PATH_BYTES];
    int fd;
};

static struct joined buses[BUSES_MAX];
static int joined;

static bool wrong(const char *what, const char *why)
{
    fprintf(stderr, "deorasaeng-bus: %s: %s\n", what, why);
    return false;
}

static bool join(const char *path)
{
    struct joined *bus = &buses[joined];
    if (joined == BUSES_MAX)
        return wrong(path, "a ninth bus");
    bus->fd = unix_bus_join(path);
    if (bus->fd < 0)
        return wrong(path, strerror(errno));
    snprintf(bus->path, sizeof bus->path, "%s", path);
    joined++;
    return true;
}

/* Waits until `at` for something to be read at one of the buses. False: nothing came. */
static bool wait_until(int64_t at, const sigset_t *mask)
{
    struct pollfd polled[BUSES_MAX];
    int64_t now = clock_now(), left = at > now ? at - now : 0;
    struct timespec time = {(time_t)(left / CLOCK_SECOND), (long)(left % CLOCK_SECOND)};
    for (int i = 0; i < joined; i++)
        polled[i] = (struct pollfd){buses[i].fd, POLLIN, 0};
    return ppoll(polled, (nfds_t)joined, at == CLOCK_NEVER ? NULL : &time, mask) > 0;
}

/* The last part of a path stands for the interface's name. */
static const char *name_of(const struct joined *bus)
{
    const char *slash = strrchr(bus->path, '/');
    return slash == NULL ? bus->path : slash + 1;
}

static void print_frame(const struct joined *bus, const struct can_frame *frame)
{
    char text[FRAME_TEXT_BYTES];
    struct timespec now;
    if (clock_gettime(CLOCK_REALTIME, &now) != 0)
        return;
    frame_text_write(frame, text);
    printf("(%010" PRId64 ".%06ld) %s %s\n", (int64_t)now.tv_sec, now.tv_nsec / 1000, name_of(bus), text);
}

/* Prints what there is to read; false where the bus has ended. */
static bool print_all(const struct joined *bus)
{
    struct can_frame frame;
    uint32_t missed;
    for (;;)
        switch (unix_bus_receive(bus->fd, &frame, &missed)) {
        case UNIX_BUS_HEARD:
        case UNIX_BUS_SENT:
            print_frame(bus, &frame);
            break;
        case UNIX_BUS_MISSED:
            fprintf(stderr, "deorasaeng-bus: %s: %" PRIu32 " frames missed so far\n", bus->path, missed);
            break;
        case UNIX_BUS_NOTHING:
            return true;
        case UNIX_BUS_ENDED:
            return wrong(bus->path, "the bus has ended");
        }
}

static volatile sig_atomic_t ended;

static void end(int signal)
{
    (void)signal;
    ended = 1;
}

/* The signals come while it waits, so that what stands on the buses by then is printed. `waiting`: the mask for that. */
static bool catch_signals(sigset_t *waiting)
{
    sigset_t set;
    struct sigaction action;
    memset(&action, 0, sizeof action);
    action.sa_handler = end;
    return sigemptyset(&set) == 0 && sigaddset(&set, SIGTERM) == 0 && sigaddset(&set, SIGINT) == 0 && sigprocmask(SIG_BLOCK, &set, waiting) == 0 &&
           sigaction(SIGTERM, &action, NULL) == 0 && sigaction(SIGINT, &action, NULL) == 0;
}

int bus_dump(int count, char *paths[])
{
    sigset_t waiting;
    bool there = catch_signals(&waiting);
    for (int i = 0; i < count; i++)
        if (!join(paths[i]))
            return BUS_WRONG;
    while (there && ended == 0) {
        wait_until(CLOCK_NEVER, &waiting);
        for (int i = 0; i < joined; i++)
            there = print_all(&buses[i]) && there;
        if (fflush(stdout) != 0)
            there = wrong("standard output", strerror(errno));
    }
    return there ? BUS_DONE : BUS_FAILED;
}

/* Reads until an own frame is back, or until nothing waits where none is awaited. False where the bus has ended. */
static bool read_on(const struct joined *bus, bool *sent)
{
    struct can_frame frame;
    uint32_t missed;
    for (;;) {
        enum unix_bus_read read = unix_bus_receive(bus->fd, &frame, &missed);
        if (read == UNIX_BUS_ENDED)
            return wrong(bus->path, "the bus has ended");
        if (read == UNIX_BUS_NOTHING)
            return true;
        *sent = *sent || read == UNIX_BUS_SENT;
    }
}

/* Until `at` what arrives is read and passed over, so that no buffer is full when the echo comes. */
static bool rest_until(int64_t at)
{
    bool sent = false, there = true;
    while (there && wait_until(at, NULL))
        for (int i = 0; i < joined; i++)
            there = read_on(&buses[i], &sent) && there;
    return there;
}

/* Sends a frame and waits until it stood on the bus. */
static bool send_frame(const struct joined *bus, const struct can_frame *frame)
{
    bool sent = false, there = true;
    int64_t until = clock_now() + SENT_WITHIN;
    if (send(bus->fd, frame, sizeof *frame, MSG_NOSIGNAL) != (ssize_t)sizeof *frame)
        return wrong(bus->path, strerror(errno));
    while (there && !sent) {
        if (!wait_until(until, NULL))
            return wrong(bus->path, "a frame was not sent within 5 s");
        for (int i = 0; i < joined; i++) {
            bool own = false;
            there = read_on(&buses[i], &own) && there;
            sent = sent || own;
        }
    }
    return there;
}

int bus_send(const char *path, int count, char *frames[])
{
    struct can_frame frame;
    for (int i = 0; i < count; i++)
        if (!frame_text_read(frames[i], &frame)) {
            wrong(frames[i], "no frame; wanted is ID#BYTES in hex, the identifier with 3 or 8 digits");
            return BUS_WRONG;
        }
    if (!join(path))
        return BUS_WRONG;
    for (int i = 0; i < count; i++)
        if (!frame_text_read(frames[i], &frame) || !send_frame(&buses[0], &frame))
            return BUS_FAILED;
    return BUS_DONE;
}

static const struct joined *bus_at(const char *path)
{
    for (int i = 0; i < joined; i++)
        if (strcmp(buses[i].path, path) == 0)
            return &buses[i];
    return join(path) ? &buses[joined - 1] : NULL;
}

/* One line of a log: (seconds) path frame. */
static bool read_line(const char *line, int64_t *time, char path[UNIX_SOCKET_PATH_BYTES], struct can_frame *frame)
{
    char text[LINE_BYTES];
    double seconds;
    _Static_assert(UNIX_SOCKET_PATH_BYTES > 107 && LINE_BYTES > 255, "the widths below");
    if (sscanf(line, "(%lf) %107s %255s", &seconds, path, text) != 3 || !(seconds >= 0 && seconds < 1e10))
        return false;
    *time = (int64_t)(seconds * 1e6) * 1000;
    return frame_text_read(text, frame);
}

int bus_play(void)
{
    char line[LINE_BYTES], path[UNIX_SOCKET_PATH_BYTES];
    struct can_frame frame;
    int64_t time, first = 0, begin = 0;
    unsigned long number = 0;
    while (fgets(line, sizeof line, stdin) != NULL) {
        number++;
        if (!read_line(line, &time, path, &frame)) {
            fprintf(stderr, "deorasaeng-bus: line %lu: not a log's line: (SECONDS) PATH ID#BYTES\n", number);
            return BUS_WRONG;
        }
        const struct joined *bus = bus_at(path);
        if (bus == NULL)
            return BUS_WRONG;
        if (number == 1) {
            first = time;
            begin = clock_now();
        }
        if (!rest_until(begin + time - first) || !send_frame(bus, &frame))
            return BUS_FAILED;
    }
    return ferror(stdin) == 0 ? BUS_DONE : BUS_WRONG;
}
