#include "links.h"

#include <errno.h>
#include <linux/netlink.h>
#include <linux/rtnetlink.h>
#include <string.h>
#include <sys/socket.h>
#include <unistd.h>

int links_open(void)
{
    struct sockaddr_nl address;
    int fd = socket(AF_NETLINK, SOCK_RAW | SOCK_NONBLOCK | SOCK_CLOEXEC, NETLINK_ROUTE);
    if (fd < 0)
        return -1;
    memset(&address, 0, sizeof address);
    address.nl_family = AF_NETLINK;
    address.nl_groups = RTMGRP_LINK;
    if (bind(fd, (const struct sockaddr *)&address, sizeof address) == 0)
        return fd;
    int number = errno;
    if (close(fd) == 0)
        errno = number;
    return -1;
}

void links_drain(int fd)
{
    char bytes[8192];
    /* An overrun (ENOBUFS) says that messages were dropped: no matter, all interfaces are looked at. */
    ssize_t got;
    do
        got = recv(fd, bytes, sizeof bytes, MSG_DONTWAIT);
    while (got >= 0 || errno == ENOBUFS || errno == EINTR);
}
