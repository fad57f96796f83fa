/* The last frames that were stopped, lost or refused, and the last commands: rings of 256, lent no storage but their own. */
#ifndef GATEWAY_HISTORY_H
#define GATEWAY_HISTORY_H

#include <stdbool.h>
#include <stdint.h>

#define HISTORY_SIZE 256

/* Ports are masks, bit p - 1 for port p. */
struct history_frame {
    int64_t at;           /* by the monotonic clock */
    uint32_t port, id;
    uint32_t number;      /* that refuses it, or 0 */
    uint64_t stopped, lost;
    uint64_t reasons;     /* DEORASAENG_REASON reads one */
};

/* Whom a program says it sends for, without its end. */
#define HISTORY_WHO 32

/* Who sent a command: a tool on a bus, or a program of this machine through the control socket. */
struct history_sender {
    bool control;
    uint32_t pid, uid, gid;    /* of that program */
    char who[HISTORY_WHO + 1]; /* its own word for whom it does it, or "" */
};

struct history_command {
    int64_t at;
    struct history_sender sender;
    uint32_t port, requester;
    uint32_t function, pair; /* the message's first two bytes */
    uint32_t number;         /* 0 for done */
    uint64_t entry;          /* the entry that was wrong, from 1, or 0 */
    uint64_t to, absent;     /* with 17: the To port that lacks a PGN, and that PGN */
};

struct history {
    uint64_t frames_count, commands_count; /* ever; the rings have the last 256 of them */
    struct history_frame frames[HISTORY_SIZE];
    struct history_command commands[HISTORY_SIZE];
};

void history_add_frame(struct history *history, const struct history_frame *frame);
void history_add_command(struct history *history, const struct history_command *command);

/* The i-th from the last, 0 for the last itself; NULL where there is none. */
const struct history_frame *history_frame(const struct history *history, uint32_t i);
const struct history_command *history_command(const struct history *history, uint32_t i);

#endif
