/* A Unix socket of the gateway and the clients on it. Nobody is waited for: what a client does not take yet stays in its storage, and one that is slower than its time is
   given up. */
#ifndef GATEWAY_SERVER_H
#define GATEWAY_SERVER_H

#include <stdbool.h>
#include <stddef.h>
#include <stdint.h>
#include <sys/socket.h>
#include <sys/stat.h>

#define SERVER_CLIENTS 4

struct server_client {
    int fd;                  /* -1: this place is free */
    struct ucred who;        /* the process at the other end, as the kernel knows it */
    int64_t give_up_at;
    char *out;               /* what is to be sent: from out_at to out_length */
    size_t out_at, out_length;
};

struct server {
    int fd;                  /* that listens, or -1 */
    struct server_client clients[SERVER_CLIENTS];
};

/* No socket, no clients. */
void server_begin(struct server *server);

/* Listens at the path, whose rights are `mode`, and whose group is `group` where that is not -1; the socket of a program that has ended is replaced. False with errno. */
bool server_listen(struct server *server, const char *path, mode_t mode, gid_t group);

/* The next connection in a free place, or in none: NULL. `full` tells one that found no place, and was closed after these words. */
struct server_client *server_accept(struct server *server, const char *full);

/* Sends what can be sent. False where the client is gone. */
bool server_send(struct server_client *client);

void server_close(struct server_client *client);

/* When the first client is to be given up. */
int64_t server_deadline(const struct server *server);

#endif
