/* deorasaeng-bus serve. */
#include "bus.h"
#include "bus_commands.h"
#include "clock.h"

#include <errno.h>
#include <inttypes.h>
#include <poll.h>
#include <signal.h>
#include <stdio.h>
#include <string.h>
#include <sys/signalfd.h>
#include <time.h>
#include <unistd.h>

/* The signals; of each bus its listener and its clients. */
#define POLLED (1 + BUSES_MAX * (1 + BUS_CLIENTS))

static struct bus buses[BUSES_MAX];

static int open_signals(void)
{
    sigset_t set;
    if (sigemptyset(&set) != 0 || sigaddset(&set, SIGTERM) != 0 || sigaddset(&set, SIGINT) != 0 || sigaddset(&set, SIGUSR1) != 0 ||
        sigprocmask(SIG_BLOCK, &set, NULL) != 0)
        return -1;
    return signalfd(-1, &set, SFD_NONBLOCK | SFD_CLOEXEC);
}

/* A client whose frame waits is not read. */
static short wanted(const struct bus_client *client)
{
    return (short)((client->waits ? 0 : POLLIN) | (client->missed != client->told ? POLLOUT : 0));
}

static void list_polled(int signals, int count, struct pollfd polled[POLLED])
{
    *polled++ = (struct pollfd){signals, POLLIN, 0};
    for (int b = 0; b < count; b++) {
        *polled++ = (struct pollfd){buses[b].listener, POLLIN, 0};
        for (int c = 0; c < BUS_CLIENTS; c++) {
            short events = wanted(&buses[b].clients[c]);
            *polled++ = (struct pollfd){events == 0 ? -1 : buses[b].clients[c].fd, events, 0};
        }
    }
}

static void wait_for(struct pollfd polled[POLLED], int count)
{
    int64_t at = CLOCK_NEVER, now = clock_now();
    for (int b = 0; b < count; b++)
        at = clock_earlier(at, bus_deadline(&buses[b]));
    int64_t left = at > now ? at - now : 0;
    struct timespec time = {(time_t)(left / CLOCK_SECOND), (long)(left % CLOCK_SECOND)};
    if (ppoll(polled, (nfds_t)(1 + count * (1 + BUS_CLIENTS)), at == CLOCK_NEVER ? NULL : &time, NULL) < 0)
        polled[0].revents = 0; /* interrupted: tried again */
}

static void attend(struct bus *bus, const struct pollfd polled[1 + BUS_CLIENTS], int64_t now)
{
    for (int c = 0; c < BUS_CLIENTS; c++) {
        short got = polled[1 + c].revents;
        if ((got & POLLOUT) != 0)
            bus_tell(&bus->clients[c]);
        if ((got & (POLLIN | POLLHUP | POLLERR)) != 0 && !bus->clients[c].waits)
            bus_read(bus, &bus->clients[c], now);
    }
    if ((polled[0].revents & POLLIN) != 0)
        bus_accept(bus);
    bus_step(bus, now);
}

static void summary(int count)
{
    for (int b = 0; b < count; b++)
        printf("%s: %" PRIu64 " frames, %" PRIu64 " missed by clients\n", buses[b].path, buses[b].frames, buses[b].missed);
    fflush(stdout);
}

/* True if it is to end. */
static bool signalled(int signals, int count)
{
    struct signalfd_siginfo info;
    if (read(signals, &info, sizeof info) != (ssize_t)sizeof info)
        return false;
    if (info.ssi_signo == SIGUSR1)
        summary(count);
    return info.ssi_signo != SIGUSR1;
}

static void run(int signals, int count)
{
    static struct pollfd polled[POLLED];
    for (int b = 0; b < count; b++)
        printf("%s: open\n", buses[b].path);
    fflush(stdout);
    do {
        list_polled(signals, count, polled);
        wait_for(polled, count);
        int64_t now = clock_now();
        for (int b = 0; b < count; b++)
            attend(&buses[b], &polled[1 + b * (1 + BUS_CLIENTS)], now);
    } while (polled[0].revents == 0 || !signalled(signals, count));
}

int bus_serve(uint32_t bitrate, int count, char *paths[])
{
    int signals = open_signals(), opened = 0;
    while (signals >= 0 && opened < count && bus_open(&buses[opened], paths[opened], bitrate))
        opened++;
    if (opened < count)
        fprintf(stderr, "deorasaeng-bus: %s: %s\n", signals < 0 ? "signalfd" : paths[opened], strerror(errno));
    else
        run(signals, count);
    for (int b = 0; b < opened; b++)
        bus_close(&buses[b]);
    if (opened == count)
        summary(count);
    return opened == count ? BUS_DONE : BUS_WRONG;
}
