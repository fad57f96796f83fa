/* A line of the control socket: one JSON object, judged whole. Every member has to be one that its command has, once, of its kind: a slip changes nothing. */
#ifndef GATEWAY_CONTROL_REQUEST_H
#define GATEWAY_CONTROL_REQUEST_H

#include "history.h"
#include "lists.h"

/* A line is no longer, without its end. */
#define CONTROL_LINE_BYTES 16384
/* An answer is no longer than this. */
#define CONTROL_ANSWER_BYTES 65536
/* More PGNs than a message holds: that refusal is the unit's. */
#define CONTROL_ENTRIES 2048
#define CONTROL_ERROR_BYTES 120
/* All ports but From. */
#define CONTROL_TO_ALL 15

enum control_command { CONTROL_READ, CONTROL_ADD, CONTROL_DELETE, CONTROL_CREATE, CONTROL_CLEAR, CONTROL_REPLACE, CONTROL_RESET, CONTROL_ASK, CONTROL_NAME, CONTROL_COMMANDS };

struct control_request {
    enum control_command command;
    uint32_t port;      /* the tool is on this port, 1 where none is given */
    char who[HISTORY_WHO + 1]; /* for whom it is done, in the words of the program, or "" */
    bool pair;          /* From and To are given */
    uint32_t from, to;  /* 0 to 15 */
    enum list_mode mode;
    uint32_t count, pgns[CONTROL_ENTRIES]; /* each below 2^24 - 1 */
    bool guarded;       /* to be done only if the list is this one */
    struct list guard;
    uint32_t pgn, source; /* of `ask`; of `name` the PGN .. */
    uint64_t name, mask;  /* .. and these */
};

/* Reads a line, behind which a 0 stands. False: `error` says why. */
bool control_request_read(const char *line, size_t length, struct control_request *request, char error[CONTROL_ERROR_BYTES]);

#endif
