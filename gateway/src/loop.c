#include "loop.h"

#include "clock.h"
#include "controller.h"
#include "links.h"
#include "status_server.h"

#include <errno.h>
#include <signal.h>
#include <string.h>
#include <sys/epoll.h>
#include <sys/signalfd.h>
#include <sys/timerfd.h>
#include <unistd.h>

/* What an event is about: below GATEWAY_PORTS_MAX a port. */
enum source {
    SOURCE_LINKS = GATEWAY_PORTS_MAX, SOURCE_TIMER, SOURCE_SIGNALS,
    SOURCE_STATUS, SOURCE_CONTROL, SOURCE_STATUS_CLIENT, /* and as many as there are places */
    SOURCE_CONTROL_CLIENT = SOURCE_STATUS_CLIENT + SERVER_CLIENTS,
    SOURCES = SOURCE_CONTROL_CLIENT + SERVER_CLIENTS
};

/* Of late the worst turn is that of the last 10 to 20 s. */
#define TURNS_WINDOW (10 * CLOCK_SECOND)

enum step { STEP_ON, STEP_END, STEP_FAILED };

static bool failed(const char *what)
{
    log_line(LOG_ERROR, "%s: %s", what, strerror(errno));
    return false;
}

static bool watch_for(const struct loop *loop, int fd, uint32_t source, uint32_t events)
{
    struct epoll_event event;
    memset(&event, 0, sizeof event);
    event.events = events;
    event.data.u32 = source;
    return epoll_ctl(loop->epoll, EPOLL_CTL_ADD, fd, &event) == 0 || failed("epoll_ctl");
}

static bool watch(const struct loop *loop, int fd, uint32_t source)
{
    return watch_for(loop, fd, source, EPOLLIN);
}

/* SIGTERM, SIGINT, SIGHUP and SIGCHLD are read from a descriptor; a client of the status socket that goes away is no reason to end. */
static int open_signals(void)
{
    sigset_t set;
    if (sigemptyset(&set) != 0 || sigaddset(&set, SIGTERM) != 0 || sigaddset(&set, SIGINT) != 0 || sigaddset(&set, SIGHUP) != 0 ||
        sigaddset(&set, SIGCHLD) != 0 || sigprocmask(SIG_BLOCK, &set, NULL) != 0 || signal(SIGPIPE, SIG_IGN) == SIG_ERR)
        return -1;
    return signalfd(-1, &set, SFD_NONBLOCK | SFD_CLOEXEC);
}

static bool open_status(struct loop *loop, const struct options *options)
{
    if (options->status == NULL)
        return true;
    mode_t mode = S_IRUSR | S_IWUSR | (options->status_group == NULL ? 0 : S_IRGRP | S_IWGRP);
    return server_listen(&loop->status, options->status, mode, options->status_gid) ? watch(loop, loop->status.fd, SOURCE_STATUS) : failed(options->status);
}

static bool open_control(struct loop *loop, const struct options *options)
{
    if (options->control == NULL)
        return true;
    return server_listen(&loop->control.server, options->control, S_IRUSR | S_IWUSR | S_IRGRP | S_IWGRP, options->control_gid)
               ? watch(loop, loop->control.server.fd, SOURCE_CONTROL) : failed(options->control);
}

bool loop_open(struct loop *loop, struct gateway *gateway)
{
    server_begin(&loop->status);
    server_begin(&loop->control.server);
    gateway->controllers = controller_open(); /* without it the status has no word on controllers */
    gateway->turns.window = TURNS_WINDOW;
    loop->armed = CLOCK_NEVER;
    loop->epoll = epoll_create1(EPOLL_CLOEXEC);
    if (loop->epoll < 0)
        return failed("epoll_create1");
    loop->timer = timerfd_create(CLOCK_MONOTONIC, TFD_NONBLOCK | TFD_CLOEXEC);
    if (loop->timer < 0)
        return failed("timerfd_create");
    loop->signals = open_signals();
    if (loop->signals < 0)
        return failed("signalfd");
    loop->links = links_open();
    if (loop->links < 0)
        return failed("rtnetlink");
    return watch(loop, loop->timer, SOURCE_TIMER) && watch(loop, loop->signals, SOURCE_SIGNALS) && watch(loop, loop->links, SOURCE_LINKS) &&
           open_status(loop, &gateway->options) && open_control(loop, &gateway->options);
}

static int64_t deadline(const struct loop *loop, const struct gateway *gateway)
{
    int64_t at = clock_earlier(gateway_claim_deadline(gateway), saver_deadline(&gateway->saver));
    at = clock_earlier(at, clock_earlier(server_deadline(&loop->status), control_server_deadline(&loop->control)));
    for (uint32_t i = 0; i < gateway->options.ports; i++)
        at = clock_earlier(at, port_deadline(&gateway->ports[i]));
    return at;
}

/* Arms the timer for the next deadline, where that is not the one it is armed for. */
static bool arm(struct loop *loop, int64_t at)
{
    struct itimerspec when;
    if (at == loop->armed)
        return true;
    memset(&when, 0, sizeof when); /* disarmed */
    if (at != CLOCK_NEVER) {
        int64_t ns = at > 0 ? at : 1;
        when.it_value.tv_sec = (time_t)(ns / CLOCK_SECOND);
        when.it_value.tv_nsec = (long)(ns % CLOCK_SECOND);
    }
    loop->armed = at;
    return timerfd_settime(loop->timer, TFD_TIMER_ABSTIME, &when, NULL) == 0 || failed("timerfd_settime");
}

static void timer_fired(struct loop *loop)
{
    uint64_t times;
    if (read(loop->timer, &times, sizeof times) == (ssize_t)sizeof times)
        loop->armed = CLOCK_NEVER;
}

static enum step signalled(const struct loop *loop, struct gateway *gateway, int64_t now)
{
    struct signalfd_siginfo info;
    if (read(loop->signals, &info, sizeof info) != (ssize_t)sizeof info)
        return STEP_ON;
    if (info.ssi_signo != SIGCHLD)
        return STEP_END;
    saver_reap(&gateway->saver, now);
    return STEP_ON;
}

static void look_at_links(const struct loop *loop, struct gateway *gateway)
{
    links_drain(loop->links);
    for (uint32_t i = 0; i < gateway->options.ports; i++)
        port_look(&gateway->ports[i]);
}

/* A client that cannot take its document at once is told when it can; where that fails it is not served. */
static void status_asked(struct loop *loop, const struct gateway *gateway, int64_t now)
{
    struct server_client *client = status_server_accept(&loop->status, gateway, now);
    if (client != NULL && !watch_for(loop, client->fd, SOURCE_STATUS_CLIENT + (uint32_t)(client - loop->status.clients), EPOLLOUT))
        server_close(client);
}

/* An event of a client that was closed meanwhile is void. */
static void status_ready(struct server_client *client)
{
    if (client->fd >= 0)
        status_server_ready(client);
}

/* Watches a client of the control socket for what it needs next. One that waits for its time is taken out of the set: that it has gone would be told again and again. */
static void watch_control(struct loop *loop, uint32_t place)
{
    static const uint32_t EVENTS[] = {[CONTROL_WAIT_READ] = EPOLLIN, [CONTROL_WAIT_WRITE] = EPOLLOUT, [CONTROL_WAIT_TIME] = 0};
    struct server_client *client = &loop->control.server.clients[place];
    if (client->fd < 0) { /* closed, and out of the set by that */
        loop->watched[place] = 0;
        return;
    }
    uint32_t events = EVENTS[control_server_wait(&loop->control, place)];
    if (events == loop->watched[place])
        return;
    bool done = loop->watched[place] == 0 || epoll_ctl(loop->epoll, EPOLL_CTL_DEL, client->fd, NULL) == 0 || failed("epoll_ctl");
    loop->watched[place] = events;
    if (!done || (events != 0 && !watch_for(loop, client->fd, SOURCE_CONTROL_CLIENT + place, events)))
        server_close(client);
}

static void control_ready(struct loop *loop, uint32_t place, struct gateway *gateway, int64_t now)
{
    if (loop->control.server.clients[place].fd >= 0)
        control_server_step(&loop->control, place, gateway, now);
    watch_control(loop, place);
}

static void control_asked(struct loop *loop, int64_t now)
{
    const struct server_client *client = control_server_accept(&loop->control, now);
    if (client == NULL)
        return;
    uint32_t place = (uint32_t)(client - loop->control.server.clients);
    loop->watched[place] = 0;
    watch_control(loop, place);
}

static void control_due(struct loop *loop, struct gateway *gateway, int64_t now)
{
    for (uint32_t place = 0; place < SERVER_CLIENTS; place++)
        if (control_server_is_due(&loop->control, place, now))
            control_ready(loop, place, gateway, now);
}

/* An event of a client of one of the sockets. */
static void client_ready(struct loop *loop, uint32_t source, struct gateway *gateway, int64_t now)
{
    if (source >= SOURCE_CONTROL_CLIENT)
        control_ready(loop, source - SOURCE_CONTROL_CLIENT, gateway, now);
    else
        status_ready(&loop->status.clients[source - SOURCE_STATUS_CLIENT]);
}

static enum step dispatch(struct loop *loop, struct gateway *gateway, uint32_t source, int64_t now)
{
    switch (source) {
    case SOURCE_LINKS:
        look_at_links(loop, gateway);
        return STEP_ON;
    case SOURCE_TIMER:
        timer_fired(loop);
        return STEP_ON;
    case SOURCE_SIGNALS:
        return signalled(loop, gateway, now);
    case SOURCE_STATUS:
        status_asked(loop, gateway, now);
        return STEP_ON;
    case SOURCE_CONTROL:
        control_asked(loop, now);
        return STEP_ON;
    default:
        if (source < GATEWAY_PORTS_MAX) {
            gateway_receive(gateway, &gateway->ports[source], now);
            gateway_transmit(gateway, now);
        } else
            client_ready(loop, source, gateway, now);
        return STEP_ON;
    }
}

/* The ports join the epoll set once they may be read, and a bus without CAN each time that it was joined. */
static bool read_ports(const struct loop *loop, struct gateway *gateway)
{
    for (uint32_t i = 0; gateway->reading && i < gateway->options.ports; i++) {
        struct interface *interface = &gateway->ports[i].interface;
        if (interface->watched || interface->fd < 0)
            continue;
        if (!watch(loop, interface->fd, i))
            return false;
        interface->watched = true;
    }
    return true;
}

/* What the clock, not an event, brings about; then what is to be sent. */
static bool settle(struct loop *loop, struct gateway *gateway)
{
    int64_t now = clock_now();
    for (uint32_t i = 0; i < gateway->options.ports; i++)
        port_due(&gateway->ports[i], now);
    if (!gateway_claim(gateway, now) || !read_ports(loop, gateway))
        return false;
    status_server_due(&loop->status, now);
    control_due(loop, gateway, now);
    saver_step(&gateway->saver, &gateway->unit.lists, now);
    gateway_transmit(gateway, now);
    return arm(loop, deadline(loop, gateway));
}

static enum step step(struct loop *loop, struct gateway *gateway)
{
    struct epoll_event events[SOURCES];
    if (!settle(loop, gateway))
        return STEP_FAILED;
    int64_t sleeps_at = clock_now();
    if (loop->woke_at != 0)
        worst_add(&gateway->turns, sleeps_at - loop->woke_at, sleeps_at);
    int count = epoll_wait(loop->epoll, events, SOURCES, -1);
    if (count < 0 && errno != EINTR)
        return failed("epoll_wait") ? STEP_ON : STEP_FAILED;
    int64_t now = clock_now();
    loop->woke_at = now;
    for (int i = 0; i < count; i++) {
        enum step next = dispatch(loop, gateway, events[i].data.u32, now);
        if (next != STEP_ON)
            return next;
    }
    return STEP_ON;
}

bool loop_run(struct loop *loop, struct gateway *gateway)
{
    enum step next;
    look_at_links(loop, gateway);
    do
        next = step(loop, gateway);
    while (next == STEP_ON);
    return next == STEP_END;
}
