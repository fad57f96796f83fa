/* One interface: a raw socket of SocketCAN on it, or a bus without CAN (`unix:PATH`), and its state.

   The socket gets its own frames back as the driver has sent them (the echo). That is the only word the kernel has on a frame: a send that succeeds says no more than that
   it was queued, and on an interface without carrier it is dropped in silence. A bus without CAN gives the echo too. */
#ifndef GATEWAY_INTERFACE_H
#define GATEWAY_INTERFACE_H

#include "unix_bus.h"

#include <linux/can.h>
#include <stdbool.h>
#include <stdint.h>

enum interface_state { INTERFACE_GONE, INTERFACE_DOWN, INTERFACE_BUS_OFF, INTERFACE_UP };

/* The longest name, its end included: `unix:PATH`. */
#define INTERFACE_NAME_BYTES (sizeof UNIX_BUS_PREFIX - 1 + UNIX_SOCKET_PATH_BYTES)

struct interface {
    char name[INTERFACE_NAME_BYTES];
    int fd;                /* -1 where a bus without CAN is gone */
    bool watched;          /* the loop waits for what arrives; false for a socket that is new */
    int index;             /* the one that the socket is bound to */
    bool running;          /* IFF_RUNNING when last looked: the carrier, which a driver takes away at bus-off */
    enum interface_state state;
};

/* What stood on the bus. Own frames are ECHO, of whatever kind. */
enum arrival_kind { ARRIVAL_FRAME, ARRIVAL_ECHO, ARRIVAL_ELEVEN_BIT, ARRIVAL_REMOTE, ARRIVAL_FD, ARRIVAL_ERROR };

struct arrival {
    enum arrival_kind kind;
    struct can_frame frame; /* of FRAME and ECHO as they were; of ERROR the error classes in can_id; else without meaning */
    bool dropped_known;
    uint32_t dropped;       /* frames that found the socket's receive buffer full, since it was opened, modulo 2^32 */
};

/* READ_DROPPED: no frame, the count of dropped ones alone. */
enum interface_read { READ_ONE, READ_DROPPED, READ_NOTHING, READ_FAILED };
enum interface_sent { SENT_TAKEN, SENT_FULL, SENT_FAILED };

/* The word for a state, as the log and the status have it. */
const char *interface_state_word(enum interface_state state);

/* The kind of a message of `size` bytes with this identifier that was read with these flags. */
enum arrival_kind arrival_kind(canid_t id, size_t size, int flags);

/* Opens and binds. False: errno says why. */
bool interface_open(struct interface *interface, const char *name);

/* Looks at the interface's flags and binds again where it is a new one of the same name; joins a bus without CAN again. */
void interface_look(struct interface *interface);

/* Reads one frame. READ_FAILED: errno says why. */
enum interface_read interface_receive(const struct interface *interface, struct arrival *arrival);

/* Gives a frame to the kernel. SENT_FAILED: errno says why. */
enum interface_sent interface_send(const struct interface *interface, const struct can_frame *frame);

/* interface_unix.c: the same for a bus without CAN. */
bool interface_is_unix(const struct interface *interface);
bool interface_unix_open(struct interface *interface);
void interface_unix_look(struct interface *interface);
enum interface_read interface_unix_receive(const struct interface *interface, struct arrival *arrival);

#endif
