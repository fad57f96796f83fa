/* The event loop: ports, interface changes, a timer, signals and the two sockets, by epoll in one thread. */
#ifndef GATEWAY_LOOP_H
#define GATEWAY_LOOP_H

#include "control_server.h"
#include "gateway.h"

struct loop {
    int epoll, timer, signals, links; /* file descriptors */
    struct server status;
    struct control_server control;
    uint32_t watched[SERVER_CLIENTS]; /* the events that a client of the control socket is in the epoll set for, 0 for none */
    int64_t armed;                    /* when the timer fires */
    int64_t woke_at;                  /* when this turn began, 0 before the first */
};

/* False, after a line in the log, where something cannot be had. */
bool loop_open(struct loop *loop, struct gateway *gateway);

/* Runs until SIGTERM, SIGINT or SIGHUP (true) or until something fails that it cannot do without (false). */
bool loop_run(struct loop *loop, struct gateway *gateway);

#endif
