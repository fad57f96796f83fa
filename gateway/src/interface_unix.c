/* An interface that is a bus without CAN. There is no notice of a bus that is back, so the port looks for it now and then. */
#include "interface.h"

#include <errno.h>
#include <sys/socket.h>
#include <unistd.h>

bool interface_is_unix(const struct interface *interface)
{
    return unix_bus_path(interface->name) != NULL;
}

bool interface_unix_open(struct interface *interface)
{
    interface->fd = unix_bus_join(unix_bus_path(interface->name));
    return interface->fd >= 0;
}

static bool alive(int fd)
{
    char byte;
    ssize_t got = recv(fd, &byte, sizeof byte, MSG_PEEK | MSG_DONTWAIT);
    return got > 0 || (got < 0 && (errno == EAGAIN || errno == EINTR));
}

/* A bus that is no more is left at one look and joined again at a later one, so that one which sends its clients away is not asked without pause. */
void interface_unix_look(struct interface *interface)
{
    bool there = interface->fd >= 0 ? alive(interface->fd) : interface_unix_open(interface);
    if (there && interface->state == INTERFACE_GONE)
        interface->state = INTERFACE_UP;
    if (there || interface->fd < 0)
        return;
    close(interface->fd);
    interface->fd = -1;
    interface->watched = false;
    interface->state = INTERFACE_GONE;
}

enum interface_read interface_unix_receive(const struct interface *interface, struct arrival *arrival)
{
    arrival->dropped_known = false;
    switch (unix_bus_receive(interface->fd, &arrival->frame, &arrival->dropped)) {
    case UNIX_BUS_HEARD:
        arrival->kind = arrival_kind(arrival->frame.can_id, CAN_MTU, 0);
        return READ_ONE;
    case UNIX_BUS_SENT:
        arrival->kind = ARRIVAL_ECHO;
        return READ_ONE;
    case UNIX_BUS_MISSED:
        return READ_DROPPED;
    case UNIX_BUS_NOTHING:
        return READ_NOTHING;
    case UNIX_BUS_ENDED:
        break;
    }
    errno = ENODEV;
    return READ_FAILED;
}
