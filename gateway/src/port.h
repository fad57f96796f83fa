/* One port of the bridge: its interface, what it is sending, and its counts. */
#ifndef GATEWAY_PORT_H
#define GATEWAY_PORT_H

#include "interface.h"
#include "transmit.h"
#include "unit.h"
#include "worst.h"

/* Frames that are no matter of this bridge. */
enum other_kind { OTHER_ELEVEN_BIT, OTHER_REMOTE, OTHER_FD, OTHER_ERROR, OTHER_KINDS };

/* Since the program began. What stood on the bus = in + other + echoes + missed. As arrival port: in = consumed + refused + those whose pairs were asked. As exit:
   asked = accepted + stopped + lost, over the frames of the other ports, and accepted + own = out + waiting + in hand. */
struct port_counts {
    uint64_t in, consumed, refused[UNIT_NUMBERS + 1];
    uint64_t other[OTHER_KINDS];
    uint64_t echoes;                        /* own frames that came back as sent */
    uint64_t missed;                        /* dropped by the kernel, its receive buffer being full; an echo may be among them */
    uint64_t accepted, stopped, lost;
    uint64_t own, own_lost;                 /* the unit's own frames that joined, and that found the queue full */
    uint64_t taken, out;                    /* taken from the unit; sent, as the kernel confirmed */
    uint64_t again;                         /* given to the kernel once more, the interface having failed */
    uint64_t assumed;                       /* of out: counted as sent without the kernel's word, which was among the missed */
    uint64_t full;                          /* times that the kernel had no room (ENOBUFS) */
    uint64_t messages, messages_refused[UNIT_NUMBERS + 1];
    uint64_t answers, answers_unsent;       /* sent; over 8 bytes */
    uint64_t unheard;                       /* messages not handed in, there being no room for an answer */
};

struct port {
    uint32_t number; /* from 1 */
    struct interface interface;
    struct transmit transmit;
    struct port_counts counts;
    uint32_t dropped;        /* the kernel's count when last read */
    int64_t retry_at;        /* when to try again after ENOBUFS */
    int64_t assume_at;       /* when the frame with the kernel counts as sent, its echo maybe having been dropped */
    int64_t look_at;         /* a bus without CAN that is gone is not looked for before this */
    struct worst waiting;    /* the most frames that waited at once, ever and in the last second or two */
    int64_t lost_at;         /* when the last frame was lost, or arrival missed; 0 for never */
    int64_t tell_at;         /* the next line about losses is not before this */
    struct {
        uint64_t lost, own_lost, missed;
    } told;                  /* these counts as last told */
};

/* False: errno says why. */
bool port_open(struct port *port, uint32_t number, const char *interface);

/* Frames in the unit's queue of this port. */
uint64_t port_waiting(const struct port *port);

/* Frames joined the queue, or were lost there. */
void port_joined(struct port *port, int64_t now);
void port_lost(struct port *port, int64_t now);

/* Sends what there is to send, if the interface can: a frame is taken from the unit only then. */
void port_transmit(struct port *port, struct unit *unit, int64_t now);

/* An own frame came back as sent. */
void port_echo(struct port *port, const struct can_frame *frame);

/* The kernel's count of dropped frames. */
void port_dropped(struct port *port, uint32_t dropped, int64_t now);

/* Looks at the interface's state; tells where it changed. */
void port_look(struct port *port);

/* The interface failed (ENETDOWN, ENODEV), or its controller is off the bus: what is with the kernel is to be sent again. */
void port_failed(struct port *port, enum interface_state state);

/* The controller is on the bus again. */
void port_on_bus(struct port *port);

/* What is due by now. */
void port_due(struct port *port, int64_t now);

/* When the next thing is due. */
int64_t port_deadline(const struct port *port);

#endif
