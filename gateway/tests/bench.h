/* A gateway on buses that are pairs of sockets: what a test sends at one end arrives at a port, and what a port sends comes out there. Time is the test's own. */
#ifndef GATEWAY_BENCH_H
#define GATEWAY_BENCH_H

#include "../src/clock.h"
#include "../src/gateway.h"
#include "check.h"

#include <sys/socket.h>
#include <unistd.h>

#define OWN_NAME UINT64_C(0x20001C000AC00123)
#define OWN_ADDRESS 0x80

static struct gateway gateway;
static int buses[GATEWAY_PORTS_MAX]; /* the test's ends */

static inline void bench_close(void)
{
    for (uint32_t i = 0; i < gateway.options.ports; i++)
        CHECK(close(buses[i]) == 0 && close(gateway.ports[i].interface.fd) == 0);
}

static inline void bench_open(uint32_t ports)
{
    memset(&gateway, 0, sizeof gateway);
    gateway.options.ports = ports;
    gateway.reading = true;
    for (uint32_t i = 0; i < ports; i++) {
        int ends[2];
        CHECK(socketpair(AF_UNIX, SOCK_SEQPACKET | SOCK_NONBLOCK, 0, ends) == 0);
        struct port *port = &gateway.ports[i];
        port->number = i + 1;
        port->assume_at = CLOCK_NEVER;
        port->interface.fd = ends[0];
        port->interface.state = INTERFACE_UP;
        snprintf(port->interface.name, sizeof port->interface.name, "bus%u", (unsigned)i + 1);
        buses[i] = ends[1];
    }
    CHECK(unit_power_on(&gateway.unit, OWN_NAME, OWN_ADDRESS, ports) == 0);
}

/* Takes what waits at every port off the unit, so that no queue fills: its frames are gone. */
static inline void bench_drain(void)
{
    struct can_frame frame;
    for (uint32_t i = 0; i < gateway.options.ports; i++)
        while (unit_take(&gateway.unit, i + 1, &frame))
            gateway.ports[i].counts.taken++;
}

static inline void bench_claimed(uint32_t ports)
{
    bench_open(ports);
    CHECK(gateway_claim(&gateway, 0) && gateway_claim(&gateway, 250 * CLOCK_MS));
    CHECK(unit_state(&gateway.unit) == DEORASAENG_STATE_CLAIMED);
    bench_drain();
}

/* A frame arrives at a port. */
static inline void bench_frame(uint32_t port, uint32_t id, const uint8_t *bytes, uint8_t length, int64_t now)
{
    struct can_frame frame;
    memset(&frame, 0, sizeof frame);
    frame.can_id = id | CAN_EFF_FLAG;
    frame.len = length;
    if (length > 0)
        memcpy(frame.data, bytes, length);
    CHECK(send(buses[port - 1], &frame, sizeof frame, 0) == (ssize_t)sizeof frame);
    gateway_receive(&gateway, &gateway.ports[port - 1], now);
}

/* A network message of 8 bytes from address 33. */
static inline void bench_message(uint32_t port, const uint8_t bytes[8])
{
    bench_frame(port, 0x18ED0021 | OWN_ADDRESS << 8, bytes, 8, 0);
    gateway.ports[port - 1].transmit.answers_count = 0; /* the bus has them */
}

#endif
