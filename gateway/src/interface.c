#include "interface.h"

#include <errno.h>
#include <linux/can/raw.h>
#include <net/if.h>
#include <stdio.h>
#include <string.h>
#include <sys/ioctl.h>
#include <sys/socket.h>
#include <sys/uio.h>
#include <unistd.h>

/* Frames wait here while the program does not run. The kernel cuts it at net.core.rmem_max. */
#define RECEIVE_BYTES (2 * 1024 * 1024)

/* The least that the kernel gives (it raises it): no queue of frames behind the one that is sent. */
#define SEND_BYTES 1

static const char *const STATES[] = {"gone", "down", "bus-off", "up"};

const char *interface_state_word(enum interface_state state)
{
    return STATES[state];
}

enum arrival_kind arrival_kind(canid_t id, size_t size, int flags)
{
    if ((flags & MSG_CONFIRM) != 0)
        return ARRIVAL_ECHO;
    if (size != CAN_MTU)
        return ARRIVAL_FD;
    if ((id & CAN_ERR_FLAG) != 0)
        return ARRIVAL_ERROR;
    if ((id & CAN_RTR_FLAG) != 0)
        return ARRIVAL_REMOTE;
    return (id & CAN_EFF_FLAG) != 0 ? ARRIVAL_FRAME : ARRIVAL_ELEVEN_BIT;
}

/* Own frames back, error frames and FD frames too (they are counted), the count of what was dropped. */
static bool set_options(int fd)
{
    const int one = 1, receive = RECEIVE_BYTES, send = SEND_BYTES;
    const can_err_mask_t errors = CAN_ERR_MASK;
    return setsockopt(fd, SOL_CAN_RAW, CAN_RAW_RECV_OWN_MSGS, &one, sizeof one) == 0 &&
           setsockopt(fd, SOL_CAN_RAW, CAN_RAW_FD_FRAMES, &one, sizeof one) == 0 &&
           setsockopt(fd, SOL_CAN_RAW, CAN_RAW_ERR_FILTER, &errors, sizeof errors) == 0 &&
           setsockopt(fd, SOL_SOCKET, SO_RXQ_OVFL, &one, sizeof one) == 0 &&
           setsockopt(fd, SOL_SOCKET, SO_RCVBUF, &receive, sizeof receive) == 0 &&
           setsockopt(fd, SOL_SOCKET, SO_SNDBUF, &send, sizeof send) == 0;
}

/* Index and flags of the interface of that name; false if there is none. */
static bool look_up(const struct interface *interface, int *index, int *flags)
{
    struct ifreq request;
    memset(&request, 0, sizeof request);
    memcpy(request.ifr_name, interface->name, sizeof request.ifr_name - 1);
    if (ioctl(interface->fd, SIOCGIFINDEX, &request) != 0)
        return false;
    *index = request.ifr_ifindex;
    if (ioctl(interface->fd, SIOCGIFFLAGS, &request) != 0)
        return false;
    *flags = request.ifr_flags;
    return true;
}

/* A socket whose interface was taken away has lost its filter with it, and would hear nothing. */
static bool bind_to(struct interface *interface, int index)
{
    const struct can_filter all = {0, 0};
    struct sockaddr_can address;
    memset(&address, 0, sizeof address);
    address.can_family = AF_CAN;
    address.can_ifindex = index;
    if (setsockopt(interface->fd, SOL_CAN_RAW, CAN_RAW_FILTER, &all, sizeof all) != 0 ||
        bind(interface->fd, (const struct sockaddr *)&address, sizeof address) != 0)
        return false;
    interface->index = index;
    return true;
}

bool interface_open(struct interface *interface, const char *name)
{
    int index, flags;
    memset(interface, 0, sizeof *interface);
    snprintf(interface->name, sizeof interface->name, "%s", name);
    interface->state = INTERFACE_GONE;
    if (interface_is_unix(interface))
        return interface_unix_open(interface);
    interface->fd = socket(PF_CAN, SOCK_RAW | SOCK_NONBLOCK | SOCK_CLOEXEC, CAN_RAW);
    if (interface->fd < 0)
        return false;
    if (!look_up(interface, &index, &flags) || !set_options(interface->fd) || !bind_to(interface, index)) {
        int number = errno;
        if (close(interface->fd) == 0)
            errno = number;
        interface->fd = -1;
        return false;
    }
    return true;
}

/* Up now. What the socket has to say of the time before is void. */
static void come_up(struct interface *interface)
{
    int number;
    socklen_t length = sizeof number;
    if (getsockopt(interface->fd, SOL_SOCKET, SO_ERROR, &number, &length) == 0)
        interface->state = INTERFACE_UP;
}

void interface_look(struct interface *interface)
{
    int index, flags;
    if (interface_is_unix(interface)) {
        interface_unix_look(interface);
        return;
    }
    if (!look_up(interface, &index, &flags) || (index != interface->index && !bind_to(interface, index))) {
        interface->state = INTERFACE_GONE;
        interface->index = 0;
        return;
    }
    bool was_running = interface->running;
    interface->running = (flags & IFF_RUNNING) != 0;
    if ((flags & IFF_UP) == 0)
        interface->state = INTERFACE_DOWN;
    else if (!interface->running)
        interface->state = INTERFACE_BUS_OFF;
    else if (interface->state != INTERFACE_UP && (interface->state != INTERFACE_BUS_OFF || !was_running))
        come_up(interface); /* at bus-off the error frame comes first: with the carrier still there it stays bus-off */
}

/* The count of dropped frames that the kernel puts beside a frame. */
static void read_dropped(struct msghdr *message, struct arrival *arrival)
{
    arrival->dropped_known = false;
    for (struct cmsghdr *control = CMSG_FIRSTHDR(message); control != NULL; control = CMSG_NXTHDR(message, control))
        if (control->cmsg_level == SOL_SOCKET && control->cmsg_type == SO_RXQ_OVFL) {
            memcpy(&arrival->dropped, CMSG_DATA(control), sizeof arrival->dropped);
            arrival->dropped_known = true;
        }
}

enum interface_read interface_receive(const struct interface *interface, struct arrival *arrival)
{
    struct canfd_frame frame;
    struct iovec vector = {&frame, sizeof frame};
    _Alignas(struct cmsghdr) char control[CMSG_SPACE(sizeof arrival->dropped)];
    struct msghdr message;
    if (interface_is_unix(interface))
        return interface_unix_receive(interface, arrival);
    memset(&message, 0, sizeof message);
    message.msg_iov = &vector;
    message.msg_iovlen = 1;
    message.msg_control = control;
    message.msg_controllen = sizeof control;
    ssize_t got = recvmsg(interface->fd, &message, MSG_DONTWAIT);
    if (got < 0)
        return errno == EAGAIN || errno == EINTR ? READ_NOTHING : READ_FAILED;
    if ((size_t)got < CAN_MTU)
        return READ_NOTHING;
    arrival->kind = arrival_kind(frame.can_id, (size_t)got, message.msg_flags);
    memcpy(&arrival->frame, &frame, sizeof arrival->frame); /* an FD frame begins as a frame does */
    read_dropped(&message, arrival);
    return READ_ONE;
}

enum interface_sent interface_send(const struct interface *interface, const struct can_frame *frame)
{
    ssize_t put = send(interface->fd, frame, sizeof *frame, MSG_DONTWAIT | MSG_NOSIGNAL);
    if (put == (ssize_t)sizeof *frame)
        return SENT_TAKEN;
    if (put < 0 && errno != ENOBUFS && errno != EAGAIN && errno != EINTR)
        return SENT_FAILED;
    return SENT_FULL;
}
