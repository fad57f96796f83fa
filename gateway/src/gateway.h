/* The gateway: the unit, its ports, and the subjects around them. */
#ifndef GATEWAY_GATEWAY_H
#define GATEWAY_GATEWAY_H

#include "history.h"
#include "names.h"
#include "options.h"
#include "port.h"
#include "saver.h"
#include "unit.h"
#include "worst.h"

/* What became of the frames of a directed pair since the program began: crossed + lost are those that the reasons let through. */
struct pair_counts {
    uint64_t reasons[UNIT_REASONS];
    uint64_t crossed, lost;
};

struct gateway {
    struct options options;
    struct unit unit;
    struct port ports[GATEWAY_PORTS_MAX]; /* the first options.ports of them */
    struct pair_counts pairs[GATEWAY_PORTS_MAX][GATEWAY_PORTS_MAX]; /* from port p to port q at [p - 1][q - 1] */
    struct history history;
    struct names names;
    struct worst turns;      /* how long a turn of the loop took */
    int controllers;         /* the socket to ask the kernel about controllers with, or -1 */
    struct lists lists;      /* from the file */
    struct saver saver;
    bool reading;            /* the ports are read; not before the lists of a file stand */
    int64_t began_at;
    int64_t quiet_at;        /* 250 ms after Start, or after the last Defended */
    uint32_t kinds_told[GATEWAY_PORTS_MAX]; /* bit k: other_kind k was told */
};

/* receive.c: reads one frame at a port and acts on it. */
void gateway_receive(struct gateway *gateway, struct port *port, int64_t now);

/* claim.c: Start once the interfaces are up, Quiet 250 ms later, then the lists of the file. False where the unit refuses Start or the lists. */
bool gateway_claim(struct gateway *gateway, int64_t now);
int64_t gateway_claim_deadline(const struct gateway *gateway);

/* claim.c: another device contended for the address and the unit defended it: the 250 ms count anew. */
void gateway_contended(struct gateway *gateway, int64_t now);

/* message.c: a network message, from whomever; `answer` is the unit's. */
void gateway_message(struct gateway *gateway, const struct history_sender *sender, uint32_t port, uint32_t requester, const uint8_t *payload, size_t length,
                     int64_t now, struct message_answer *answer);

/* message.c: writes such a message down, in the log and in the journal. */
void gateway_note(struct gateway *gateway, const struct history_sender *sender, uint32_t port, uint32_t requester, const uint8_t *payload, size_t length,
                  int64_t now, const struct message_answer *answer);

/* receive.c: sends at every port that can. */
void gateway_transmit(struct gateway *gateway, int64_t now);

/* summary.c: a line for each port, to the log. */
void gateway_summary(const struct gateway *gateway);

#endif
