#include "unix_bus.h"

#include <errno.h>
#include <string.h>
#include <sys/socket.h>
#include <unistd.h>

const char *unix_bus_path(const char *name)
{
    size_t length = strlen(UNIX_BUS_PREFIX);
    return strncmp(name, UNIX_BUS_PREFIX, length) == 0 ? name + length : NULL;
}

int unix_bus_join(const char *path)
{
    struct sockaddr_un address;
    if (!unix_socket_address(path, &address))
        return -1;
    int fd = socket(AF_UNIX, SOCK_SEQPACKET | SOCK_NONBLOCK | SOCK_CLOEXEC, 0);
    if (fd < 0 || connect(fd, (const struct sockaddr *)&address, sizeof address) == 0)
        return fd;
    int number = errno;
    if (close(fd) == 0)
        errno = number;
    return -1;
}

enum unix_bus_read unix_bus_receive(int fd, struct can_frame *frame, uint32_t *missed)
{
    unsigned char bytes[sizeof *frame];
    ssize_t got = recv(fd, bytes, sizeof bytes, MSG_DONTWAIT | MSG_TRUNC);
    if (got == (ssize_t)sizeof *frame) {
        memcpy(frame, bytes, sizeof *frame);
        if (frame->len > CAN_MAX_DLEN)
            return UNIX_BUS_NOTHING;
        bool echo = frame->__res0 == UNIX_BUS_ECHO;
        frame->__res0 = 0;
        return echo ? UNIX_BUS_SENT : UNIX_BUS_HEARD;
    }
    if (got == (ssize_t)sizeof *missed) {
        memcpy(missed, bytes, sizeof *missed);
        return UNIX_BUS_MISSED;
    }
    bool nothing = got > 0 || (got < 0 && (errno == EAGAIN || errno == EINTR));
    return nothing ? UNIX_BUS_NOTHING : UNIX_BUS_ENDED;
}
