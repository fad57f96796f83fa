#include "port.h"

#include "clock.h"
#include "log.h"

#include <errno.h>
#include <inttypes.h>
#include <string.h>

/* Two frames' time at 250 kbit/s. */
#define RETRY_AFTER (1 * CLOCK_MS)
/* Far longer than a frame waits for an idle bus, within the 50 ms of J1939-31, 5.2.2. */
#define ASSUME_AFTER (10 * CLOCK_MS)
#define TELL_EVERY CLOCK_SECOND
#define LOOK_EVERY (100 * CLOCK_MS)

bool port_open(struct port *port, uint32_t number, const char *interface)
{
    memset(port, 0, sizeof *port);
    port->number = number;
    port->assume_at = CLOCK_NEVER;
    return interface_open(&port->interface, interface);
}

uint64_t port_waiting(const struct port *port)
{
    return port->counts.accepted + port->counts.own - port->counts.taken;
}

void port_joined(struct port *port, int64_t now)
{
    port->waiting.window = CLOCK_SECOND;
    worst_add(&port->waiting, (int64_t)port_waiting(port), now);
}

void port_lost(struct port *port, int64_t now)
{
    port->lost_at = now;
}

static void give(struct port *port, const struct can_frame *frame, int64_t now)
{
    enum interface_sent sent = interface_send(&port->interface, frame);
    int number = errno;
    switch (sent) {
    case SENT_TAKEN:
        transmit_given(&port->transmit);
        break;
    case SENT_FULL:
        port->counts.full++;
        port->retry_at = now + RETRY_AFTER;
        break;
    case SENT_FAILED:
        log_line(LOG_WARNING, "port %" PRIu32 " (%s): send: %s", port->number, port->interface.name, strerror(number));
        port_failed(port, number == ENETDOWN ? INTERFACE_DOWN : INTERFACE_GONE);
        break;
    }
}

void port_transmit(struct port *port, struct unit *unit, int64_t now)
{
    struct can_frame frame;
    if (port->interface.state != INTERFACE_UP || now < port->retry_at)
        return;
    if (transmit_wants_frame(&port->transmit) && unit_take(unit, port->number, &frame)) {
        port->counts.taken++;
        transmit_take(&port->transmit, &frame);
    }
    const struct can_frame *next = transmit_next(&port->transmit);
    if (next != NULL)
        give(port, next, now);
}

static void count_done(struct port *port, enum transmit_flight done)
{
    if (done == FLIGHT_TAKEN)
        port->counts.out++;
    if (done == FLIGHT_ANSWER)
        port->counts.answers++;
    if (done != FLIGHT_NONE)
        port->assume_at = CLOCK_NEVER;
}

void port_echo(struct port *port, const struct can_frame *frame)
{
    port->counts.echoes++;
    count_done(port, transmit_echo(&port->transmit, frame));
}

void port_dropped(struct port *port, uint32_t dropped, int64_t now)
{
    uint32_t more = dropped - port->dropped;
    port->dropped = dropped;
    port->counts.missed += more;
    if (more > 0)
        port_lost(port, now);
    if (more > 0 && port->transmit.flight != FLIGHT_NONE && port->assume_at == CLOCK_NEVER)
        port->assume_at = now + ASSUME_AFTER;
}

void port_failed(struct port *port, enum interface_state state)
{
    if (port->interface.state == state)
        return;
    port->interface.state = state;
    port->assume_at = CLOCK_NEVER;
    if (transmit_return(&port->transmit))
        port->counts.again++;
    log_line(LOG_WARNING, "port %" PRIu32 " (%s): %s; %" PRIu64 " frames wait for it", port->number, port->interface.name,
             interface_state_word(state), port_waiting(port) + port->transmit.in_hand);
}

static void tell_up(const struct port *port)
{
    log_line(LOG_INFO, "port %" PRIu32 " (%s): up", port->number, port->interface.name);
}

void port_on_bus(struct port *port)
{
    if (port->interface.state != INTERFACE_BUS_OFF)
        return;
    port->interface.state = INTERFACE_UP;
    tell_up(port);
}

void port_look(struct port *port)
{
    enum interface_state before = port->interface.state;
    bool closed = port->interface.fd < 0;
    interface_look(&port->interface);
    enum interface_state after = port->interface.state;
    if (closed)
        port->dropped = 0; /* of a bus without CAN it is counted since it was joined */
    if (after == before)
        return;
    if (after == INTERFACE_UP) {
        tell_up(port);
        return;
    }
    port->interface.state = before;
    port_failed(port, after);
}

/* A bus without CAN that is gone, and of which no notice comes when it is back. */
static bool is_looked_for(const struct port *port)
{
    return port->interface.state == INTERFACE_GONE && interface_is_unix(&port->interface);
}

static void look_for(struct port *port, int64_t now)
{
    if (!is_looked_for(port) || now < port->look_at)
        return;
    port->look_at = now + LOOK_EVERY;
    port_look(port);
}

static void tell_losses(struct port *port, int64_t now)
{
    const struct port_counts *counts = &port->counts;
    uint64_t lost = counts->lost - port->told.lost, own = counts->own_lost - port->told.own_lost, missed = counts->missed - port->told.missed;
    if (lost + own + missed == 0 || now < port->tell_at)
        return;
    log_line(LOG_WARNING, "port %" PRIu32 " (%s): queue full, %" PRIu64 " frames and %" PRIu64 " own frames lost; %" PRIu64 " arrivals missed by the kernel",
             port->number, port->interface.name, lost, own, missed);
    port->told.lost = counts->lost;
    port->told.own_lost = counts->own_lost;
    port->told.missed = counts->missed;
    port->tell_at = now + TELL_EVERY;
}

void port_due(struct port *port, int64_t now)
{
    if (now >= port->assume_at) {
        port->counts.assumed += port->transmit.flight == FLIGHT_TAKEN;
        count_done(port, transmit_assume(&port->transmit));
        port->assume_at = CLOCK_NEVER;
    }
    look_for(port, now);
    tell_losses(port, now);
}

int64_t port_deadline(const struct port *port)
{
    const struct port_counts *counts = &port->counts;
    bool untold = counts->lost != port->told.lost || counts->own_lost != port->told.own_lost || counts->missed != port->told.missed;
    bool full = port->interface.state == INTERFACE_UP && transmit_next(&port->transmit) != NULL;
    int64_t deadline = port->assume_at;
    if (untold)
        deadline = clock_earlier(deadline, port->tell_at);
    if (full)
        deadline = clock_earlier(deadline, port->retry_at);
    if (is_looked_for(port))
        deadline = clock_earlier(deadline, port->look_at);
    return deadline;
}
