/* The status socket: one document to each connection. */
#ifndef GATEWAY_STATUS_SERVER_H
#define GATEWAY_STATUS_SERVER_H

#include "server.h"
#include "status.h"

/* The next connection gets its document. The client that has not taken all of it yet, to be told when it can; else NULL. */
struct server_client *status_server_accept(struct server *server, const struct gateway *gateway, int64_t now);

/* A client can take more. */
void status_server_ready(struct server_client *client);

/* Gives up who is too slow. */
void status_server_due(struct server *server, int64_t now);

#endif
