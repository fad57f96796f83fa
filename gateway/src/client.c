#include "client.h"

#include "unix_socket.h"

#include <errno.h>
#include <poll.h>
#include <sys/socket.h>
#include <sys/time.h>
#include <unistd.h>

/* A connection to the socket at the path, or -1 with errno. */
static int connect_to(const char *path, int64_t patience)
{
    const struct timeval limit = {(time_t)(patience / CLOCK_SECOND), (suseconds_t)(patience % CLOCK_SECOND / 1000)};
    struct sockaddr_un address;
    if (!unix_socket_address(path, &address))
        return -1;
    int fd = socket(AF_UNIX, SOCK_STREAM | SOCK_CLOEXEC, 0);
    if (fd < 0)
        return -1;
    /* The limit of sending is that of connecting too. */
    if (setsockopt(fd, SOL_SOCKET, SO_SNDTIMEO, &limit, sizeof limit) == 0 && connect(fd, (const struct sockaddr *)&address, sizeof address) == 0)
        return fd;
    int number = errno == EAGAIN ? ETIMEDOUT : errno;
    if (close(fd) == 0)
        errno = number;
    return -1;
}

/* Sends the bytes whole. False with errno. */
static bool send_all(int fd, const char *bytes, size_t length)
{
    while (length > 0) {
        ssize_t put = send(fd, bytes, length, MSG_NOSIGNAL);
        if (put < 0 && errno == EINTR)
            continue;
        if (put < 0) {
            errno = errno == EAGAIN ? ETIMEDOUT : errno;
            return false;
        }
        bytes += put;
        length -= (size_t)put;
    }
    return true;
}

/* Waits until something can be read. False with errno. */
static bool await(int fd, int64_t deadline)
{
    for (;;) {
        struct pollfd watched = {fd, POLLIN, 0};
        int64_t left = deadline - clock_now();
        int count = left > 0 ? poll(&watched, 1, (int)(left / CLOCK_MS) + 1) : 0;
        if (count > 0)
            return true;
        if (count < 0 && errno == EINTR)
            continue;
        if (count == 0)
            errno = ETIMEDOUT;
        return false;
    }
}

static ssize_t receive(int fd, char *bytes, size_t size, enum client_until until, int64_t deadline)
{
    size_t length = 0;
    for (;;) {
        if (!await(fd, deadline))
            return -1;
        ssize_t got = read(fd, bytes + length, size - 1 - length);
        if (got < 0 && errno == EINTR)
            continue;
        if (got < 0)
            return -1;
        length += (size_t)got;
        bytes[length] = '\0';
        if (got == 0 || (until == CLIENT_LINE && memchr(bytes, '\n', length) != NULL))
            return (ssize_t)length;
        if (length == size - 1) {
            errno = EMSGSIZE;
            return -1;
        }
    }
}

ssize_t client_exchange(const char *path, const char *line, size_t length, char *reply, size_t size, enum client_until until, int64_t patience)
{
    int64_t deadline = clock_now() + patience;
    int fd = connect_to(path, patience);
    if (fd < 0)
        return -1;
    ssize_t got = send_all(fd, line, length) ? receive(fd, reply, size, until, deadline) : -1;
    int number = errno;
    if (close(fd) == 0)
        errno = number;
    return got;
}

const char *client_error(int number)
{
    switch (number) {
    case ETIMEDOUT:
        return "no answer within 5 s"; /* CLIENT_PATIENCE */
    case EMSGSIZE:
        return "an answer longer than any gateway's";
    case ECONNREFUSED:
        return "nobody listens there any more";
    default:
        return strerror(number);
    }
}
