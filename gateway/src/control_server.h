/* The control socket: lines in, answers out, up to four connections. Limits: 16,384 bytes a line, 5 s for a line to be whole and for an answer to be taken, 60 s of
   silence, and 20 lines a second for each connection; what comes faster waits. */
#ifndef GATEWAY_CONTROL_SERVER_H
#define GATEWAY_CONTROL_SERVER_H

#include "control.h"
#include "server.h"

struct control_client {
    char line[CONTROL_LINE_BYTES + 2]; /* what was read: whole lines and the begin of one, with room for its end and a 0 */
    size_t length;
    bool ended;                        /* nothing more comes */
    int64_t ready_at;                  /* the next line is done then */
    char answer[CONTROL_ANSWER_BYTES];
};

struct control_server {
    struct server server;
    struct control_client clients[SERVER_CLIENTS];
};

/* The next connection, or NULL. */
struct server_client *control_server_accept(struct control_server *control, int64_t now);

/* What a client needs to be watched for: to be read, to be written to, or nothing before its time has come. */
enum control_wait { CONTROL_WAIT_READ, CONTROL_WAIT_WRITE, CONTROL_WAIT_TIME };
enum control_wait control_server_wait(const struct control_server *control, uint32_t place);

/* Reads what is there, does the lines whose time has come, sends the answers; closes the connection where it is over. */
void control_server_step(struct control_server *control, uint32_t place, struct gateway *gateway, int64_t now);

/* The time has come for a client that waits for it, or to give it up. */
bool control_server_is_due(const struct control_server *control, uint32_t place, int64_t now);
int64_t control_server_deadline(const struct control_server *control);

#endif
