#include "control_server.h"

#include "clock.h"

#include <errno.h>
#include <string.h>

#define LINE_PATIENCE (5 * CLOCK_SECOND)
#define SILENCE (60 * CLOCK_SECOND)
#define LINE_EVERY (50 * CLOCK_MS)
/* A client that was slow before may be as much faster. */
#define BURST CLOCK_SECOND

struct server_client *control_server_accept(struct control_server *control, int64_t now)
{
    struct server_client *client = server_accept(&control->server, "{\"error\":\"four connections are open already\"}\n");
    if (client == NULL)
        return NULL;
    struct control_client *own = &control->clients[client - control->server.clients];
    own->length = 0;
    own->ended = false;
    own->ready_at = now - BURST;
    client->out = own->answer;
    client->give_up_at = now + SILENCE;
    return client;
}

static bool sending(const struct server_client *client)
{
    return client->out_at < client->out_length;
}

/* A line is whole, or the last one that will come. */
static bool has_line(const struct control_client *own)
{
    return memchr(own->line, '\n', own->length) != NULL || (own->ended && own->length > 0);
}

enum control_wait control_server_wait(const struct control_server *control, uint32_t place)
{
    if (sending(&control->server.clients[place]))
        return CONTROL_WAIT_WRITE;
    return has_line(&control->clients[place]) || control->clients[place].ended ? CONTROL_WAIT_TIME : CONTROL_WAIT_READ;
}

/* Reads what is there. A client that has gone has nothing more to say. */
static void receive(const struct server_client *client, struct control_client *own)
{
    while (!own->ended && own->length < CONTROL_LINE_BYTES + 1) {
        ssize_t got = recv(client->fd, own->line + own->length, CONTROL_LINE_BYTES + 1 - own->length, MSG_DONTWAIT);
        if (got < 0 && errno == EINTR)
            continue;
        if (got < 0 && errno == EAGAIN)
            return;
        own->ended = got <= 0;
        own->length += got > 0 ? (size_t)got : 0;
    }
}

static void do_line(struct server_client *client, struct control_client *own, struct gateway *gateway, int64_t now)
{
    const struct history_sender sender = {true, (uint32_t)client->who.pid, client->who.uid, client->who.gid, ""};
    char *end = memchr(own->line, '\n', own->length);
    size_t length = end == NULL ? own->length : (size_t)(end - own->line), done = end == NULL ? length : length + 1;
    own->line[length] = '\0';
    client->out_at = 0;
    client->out_length = control_line(gateway, &sender, own->line, length, now, own->answer, sizeof own->answer);
    own->length -= done;
    memmove(own->line, own->line + done, own->length);
    own->ready_at = (own->ready_at > now - BURST ? own->ready_at : now - BURST) + LINE_EVERY;
}

/* A line that cannot become whole: said, and the connection is over. */
static void refuse_line(struct server_client *client, struct control_client *own)
{
    client->out_at = 0;
    client->out_length = control_error("a line of over 16,384 bytes", own->answer, sizeof own->answer);
    own->length = 0;
    own->ended = true;
}

/* Until when the client is waited for: counted from where it began to be slow, or from its last word. */
static void set_patience(struct server_client *client, const struct control_client *own, bool slow_before, int64_t now)
{
    bool slow = sending(client) || (own->length > 0 && !has_line(own));
    if (!slow)
        client->give_up_at = now + SILENCE;
    else if (!slow_before)
        client->give_up_at = now + LINE_PATIENCE;
}

void control_server_step(struct control_server *control, uint32_t place, struct gateway *gateway, int64_t now)
{
    struct server_client *client = &control->server.clients[place];
    struct control_client *own = &control->clients[place];
    bool slow = sending(client) || (own->length > 0 && !has_line(own)), here = now < client->give_up_at && server_send(client);
    if (here && !sending(client))
        receive(client, own);
    while (here && !sending(client) && has_line(own) && now >= own->ready_at) {
        do_line(client, own, gateway, now);
        here = server_send(client);
    }
    if (here && !sending(client) && !has_line(own) && own->length > CONTROL_LINE_BYTES) {
        refuse_line(client, own);
        here = server_send(client);
    }
    if (!here || (own->ended && own->length == 0 && !sending(client)))
        server_close(client);
    else
        set_patience(client, own, slow, now);
}

static int64_t due_at(const struct control_server *control, uint32_t place)
{
    const struct server_client *client = &control->server.clients[place];
    if (client->fd < 0)
        return CLOCK_NEVER;
    return control_server_wait(control, place) == CONTROL_WAIT_TIME ? clock_earlier(control->clients[place].ready_at, client->give_up_at) : client->give_up_at;
}

bool control_server_is_due(const struct control_server *control, uint32_t place, int64_t now)
{
    return now >= due_at(control, place);
}

int64_t control_server_deadline(const struct control_server *control)
{
    int64_t at = CLOCK_NEVER;
    for (uint32_t place = 0; place < SERVER_CLIENTS; place++)
        at = clock_earlier(at, due_at(control, place));
    return at;
}
