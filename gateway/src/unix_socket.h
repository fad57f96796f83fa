/* Paths of Unix sockets. */
#ifndef GATEWAY_UNIX_SOCKET_H
#define GATEWAY_UNIX_SOCKET_H

#include <stdbool.h>
#include <sys/un.h>

/* A path's length, its end included. */
#define UNIX_SOCKET_PATH_BYTES (sizeof ((struct sockaddr_un *)0)->sun_path)

/* The address of a path. False with errno where it is empty or too long. */
bool unix_socket_address(const char *path, struct sockaddr_un *address);

/* Nobody listens any more at the socket of that address; `fd` is a socket of its kind that is not connected. */
bool unix_socket_abandoned(int fd, const struct sockaddr_un *address);

#endif
