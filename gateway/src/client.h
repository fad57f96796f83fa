/* The other end of the gateway's sockets, for the programs that a person runs and for the service page. */
#ifndef GATEWAY_CLIENT_H
#define GATEWAY_CLIENT_H

#include "clock.h"

#include <stddef.h>
#include <sys/types.h>

/* How long a person waits. */
#define CLIENT_PATIENCE (5 * CLOCK_SECOND)

enum client_until { CLIENT_END, CLIENT_LINE };

/* Connects to the socket at the path, sends the line, of length 0 for none, and takes what comes until the other end closes, or until its first line is whole, with a 0
   behind it: the length, or -1 with errno (EMSGSIZE: more than fits, ETIMEDOUT: the other end was waited for longer than `patience`). */
ssize_t client_exchange(const char *path, const char *line, size_t length, char *reply, size_t size, enum client_until until, int64_t patience);

/* errno in words. */
const char *client_error(int number);

#endif
