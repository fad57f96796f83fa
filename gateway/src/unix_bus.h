/* A bus without CAN: a Unix socket of SOCK_SEQPACKET at which `deorasaeng-bus serve` gives the frames of each client to the others.

   A client sends `struct can_frame`. It hears those of the others, and its own once they stood on the bus (the echo): in these the byte __res0, which SocketCAN has no use
   for, is UNIX_BUS_ECHO. A packet of four bytes tells how many frames the client has missed since it joined, its buffer being full. */
#ifndef GATEWAY_UNIX_BUS_H
#define GATEWAY_UNIX_BUS_H

#include "unix_socket.h"

#include <linux/can.h>
#include <stdbool.h>
#include <stdint.h>

/* What stands before the path in the name of such an interface. */
#define UNIX_BUS_PREFIX "unix:"

#define UNIX_BUS_ECHO 1

enum unix_bus_read { UNIX_BUS_HEARD, UNIX_BUS_SENT, UNIX_BUS_MISSED, UNIX_BUS_NOTHING, UNIX_BUS_ENDED };

/* The path in `unix:PATH`, or NULL for a name that is none. */
const char *unix_bus_path(const char *name);

/* Joins the bus, without waiting. A file descriptor, or -1 with errno. */
int unix_bus_join(const char *path);

/* Reads one packet without waiting: a frame of another client, or an own one that stood on the bus, in `frame`; or how many were missed, in `missed`. What is none of these is
   passed over as nothing. UNIX_BUS_ENDED: the bus is no more. */
enum unix_bus_read unix_bus_receive(int fd, struct can_frame *frame, uint32_t *missed);

#endif
