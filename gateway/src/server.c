#include "server.h"

#include "clock.h"
#include "log.h"
#include "unix_socket.h"

#include <errno.h>
#include <string.h>
#include <unistd.h>

#define BACKLOG 4

void server_begin(struct server *server)
{
    server->fd = -1;
    for (int i = 0; i < SERVER_CLIENTS; i++)
        server->clients[i].fd = -1;
}

/* Its rights are the owner's alone until the group is set. */
static bool bind_and_listen(int fd, const struct sockaddr_un *address, mode_t mode, gid_t group)
{
    mode_t before = umask(S_IRWXG | S_IRWXO | S_IXUSR);
    bool done = bind(fd, (const struct sockaddr *)address, sizeof *address) == 0;
    int number = errno;
    umask(before);
    errno = number;
    return done && (group == (gid_t)-1 || chown(address->sun_path, (uid_t)-1, group) == 0) && chmod(address->sun_path, mode) == 0 && listen(fd, BACKLOG) == 0;
}

bool server_listen(struct server *server, const char *path, mode_t mode, gid_t group)
{
    struct sockaddr_un address;
    if (!unix_socket_address(path, &address))
        return false;
    int fd = socket(AF_UNIX, SOCK_STREAM | SOCK_NONBLOCK | SOCK_CLOEXEC, 0);
    if (fd < 0)
        return false;
    if (unix_socket_abandoned(fd, &address) && unlink(path) != 0)
        log_line(LOG_WARNING, "%s: %s", path, strerror(errno));
    if (bind_and_listen(fd, &address, mode, group)) {
        server->fd = fd;
        return true;
    }
    int number = errno;
    if (close(fd) == 0)
        errno = number;
    return false;
}

static struct server_client *free_place(struct server *server)
{
    for (int i = 0; i < SERVER_CLIENTS; i++)
        if (server->clients[i].fd < 0)
            return &server->clients[i];
    return NULL;
}

struct server_client *server_accept(struct server *server, const char *full)
{
    struct server_client *client = free_place(server);
    int fd = accept4(server->fd, NULL, NULL, SOCK_NONBLOCK | SOCK_CLOEXEC);
    if (fd < 0) {
        if (errno != EAGAIN && errno != EINTR && errno != ECONNABORTED)
            log_line(LOG_WARNING, "accept: %s", strerror(errno));
        return NULL;
    }
    if (client == NULL) {
        if (send(fd, full, strlen(full), MSG_NOSIGNAL | MSG_DONTWAIT) < 0)
            log_line(LOG_DEBUG, "send: %s", strerror(errno));
        close(fd);
        return NULL;
    }
    socklen_t size = sizeof client->who;
    client->fd = fd;
    client->out_at = client->out_length = 0;
    if (getsockopt(fd, SOL_SOCKET, SO_PEERCRED, &client->who, &size) != 0)
        server_close(client);
    return client->fd < 0 ? NULL : client;
}

bool server_send(struct server_client *client)
{
    while (client->out_at < client->out_length) {
        ssize_t put = send(client->fd, client->out + client->out_at, client->out_length - client->out_at, MSG_NOSIGNAL | MSG_DONTWAIT);
        if (put < 0 && errno == EINTR)
            continue;
        if (put < 0)
            return errno == EAGAIN;
        client->out_at += (size_t)put;
    }
    return true;
}

void server_close(struct server_client *client)
{
    if (close(client->fd) != 0)
        log_line(LOG_DEBUG, "close: %s", strerror(errno));
    client->fd = -1;
}

int64_t server_deadline(const struct server *server)
{
    int64_t at = CLOCK_NEVER;
    for (int i = 0; i < SERVER_CLIENTS; i++)
        if (server->clients[i].fd >= 0)
            at = clock_earlier(at, server->clients[i].give_up_at);
    return at;
}
