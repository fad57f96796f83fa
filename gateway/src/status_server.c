#include "status_server.h"

#include "clock.h"
#include "log.h"

#include <errno.h>
#include <string.h>

#define PATIENCE (5 * CLOCK_SECOND)

void status_server_ready(struct server_client *client)
{
    if (!server_send(client))
        log_line(LOG_DEBUG, "status: send: %s", strerror(errno)); /* a client that has gone is none of the bridge's matter */
    else if (client->out_at < client->out_length)
        return;
    server_close(client);
}

struct server_client *status_server_accept(struct server *server, const struct gateway *gateway, int64_t now)
{
    static char documents[SERVER_CLIENTS][STATUS_BYTES];
    struct server_client *client = server_accept(server, "");
    if (client == NULL)
        return NULL;
    client->out = documents[client - server->clients];
    client->out_length = status_write(gateway, now, clock_wall(), client->out, STATUS_BYTES);
    client->give_up_at = now + PATIENCE;
    status_server_ready(client);
    return client->fd < 0 ? NULL : client;
}

void status_server_due(struct server *server, int64_t now)
{
    for (int i = 0; i < SERVER_CLIENTS; i++)
        if (server->clients[i].fd >= 0 && now >= server->clients[i].give_up_at)
            server_close(&server->clients[i]);
}
