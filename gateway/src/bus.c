#include "bus.h"

#include "clock.h"
#include "unix_bus.h"

#include <errno.h>
#include <stdio.h>
#include <string.h>
#include <sys/socket.h>
#include <unistd.h>

#define BACKLOG 8
/* Frames wait here while a client does not read. The kernel cuts it at net.core.wmem_max. */
#define SEND_BYTES (2 * 1024 * 1024)

bool bus_open(struct bus *bus, const char *path, uint32_t bitrate)
{
    struct sockaddr_un address;
    memset(bus, 0, sizeof *bus);
    bus->path = path;
    bus->bitrate = bitrate;
    for (int i = 0; i < BUS_CLIENTS; i++)
        bus->clients[i].fd = -1;
    if (!unix_socket_address(path, &address))
        return false;
    bus->listener = socket(AF_UNIX, SOCK_SEQPACKET | SOCK_NONBLOCK | SOCK_CLOEXEC, 0);
    if (bus->listener < 0)
        return false;
    if ((!unix_socket_abandoned(bus->listener, &address) || unlink(path) == 0) &&
        bind(bus->listener, (const struct sockaddr *)&address, sizeof address) == 0 && listen(bus->listener, BACKLOG) == 0)
        return true;
    int number = errno;
    if (close(bus->listener) == 0)
        errno = number;
    return false;
}

static struct bus_client *free_place(struct bus *bus)
{
    for (int i = 0; i < BUS_CLIENTS; i++)
        if (bus->clients[i].fd < 0)
            return &bus->clients[i];
    return NULL;
}

void bus_accept(struct bus *bus)
{
    const int room = SEND_BYTES;
    int fd = accept4(bus->listener, NULL, NULL, SOCK_NONBLOCK | SOCK_CLOEXEC);
    if (fd < 0)
        return;
    struct bus_client *client = free_place(bus);
    if (client == NULL || setsockopt(fd, SOL_SOCKET, SO_SNDBUF, &room, sizeof room) != 0) {
        fprintf(stderr, "deorasaeng-bus: %s: a client is turned away: %s\n", bus->path, client == NULL ? "there are 16" : strerror(errno));
        close(fd);
        return;
    }
    memset(client, 0, sizeof *client);
    client->fd = fd;
}

static void let_go(struct bus_client *client)
{
    close(client->fd);
    client->fd = -1;
}

static bool is_frame(const struct can_frame *frame, ssize_t size)
{
    return size == (ssize_t)sizeof *frame && frame->len <= CAN_MAX_DLEN;
}

void bus_read(struct bus *bus, struct bus_client *client, int64_t now)
{
    struct can_frame frame;
    ssize_t got = recv(client->fd, &frame, sizeof frame, MSG_DONTWAIT | MSG_TRUNC);
    if (got < 0 && errno == ECONNRESET) /* it left before it had read all; what it sent is still there */
        got = recv(client->fd, &frame, sizeof frame, MSG_DONTWAIT | MSG_TRUNC);
    if (got < 0 && (errno == EAGAIN || errno == EINTR))
        return;
    if (!is_frame(&frame, got)) {
        if (got > 0)
            fprintf(stderr, "deorasaeng-bus: %s: a client is let go: it sent %zd bytes that are no frame\n", bus->path, got);
        let_go(client);
        return;
    }
    client->frame = frame;
    client->frame.__res0 = 0;
    client->waits = true;
    client->since = now;
}

void bus_tell(struct bus_client *client)
{
    if (client->missed != client->told &&
        send(client->fd, &client->missed, sizeof client->missed, MSG_DONTWAIT | MSG_NOSIGNAL) == (ssize_t)sizeof client->missed)
        client->told = client->missed;
}

static void give(struct bus *bus, struct bus_client *client, const struct can_frame *frame)
{
    if (client->fd < 0)
        return;
    bus_tell(client);
    bool full = client->missed != client->told;
    if (!full)
        full = send(client->fd, frame, sizeof *frame, MSG_DONTWAIT | MSG_NOSIGNAL) < 0 && errno == EAGAIN;
    client->missed += full;
    bus->missed += full;
}

/* The bits as they follow each other on a bus, of which the lowest wins: 11 bits of the identifier, then the flags, by which 11-bit goes before 29-bit and data before
   remote, between them the other 18 bits. */
static uint32_t arbitration(const struct can_frame *frame)
{
    uint32_t id = frame->can_id, remote = (id & CAN_RTR_FLAG) != 0;
    if ((id & CAN_EFF_FLAG) == 0)
        return (id & CAN_SFF_MASK) << 21 | remote << 20;
    return (id & CAN_EFF_MASK) >> 18 << 21 | UINT32_C(3) << 19 | (id & 0x3FFFF) << 1 | remote;
}

/* Bits of a frame on a bus with the space behind it, without stuff bits. */
static int64_t bits(const struct can_frame *frame)
{
    int64_t data = (frame->can_id & CAN_RTR_FLAG) != 0 ? 0 : 8 * (int64_t)frame->len;
    return ((frame->can_id & CAN_EFF_FLAG) != 0 ? 67 : 47) + data;
}

static bool goes_before(const struct bus_client *a, const struct bus_client *b)
{
    uint32_t left = arbitration(&a->frame), right = arbitration(&b->frame);
    return left != right ? left < right : a->since < b->since;
}

static struct bus_client *winner(struct bus *bus)
{
    struct bus_client *first = NULL;
    for (int i = 0; i < BUS_CLIENTS; i++) {
        struct bus_client *client = &bus->clients[i];
        if (client->waits && (first == NULL || goes_before(client, first)))
            first = client;
    }
    return first;
}

/* The sender is told last: what it then does comes after what the others do who were told before. */
static void finish(struct bus *bus)
{
    struct bus_client *sender = bus->sender;
    struct can_frame frame = sender->frame;
    bus->sender = NULL;
    bus->frames++;
    sender->waits = false;
    for (int i = 0; i < BUS_CLIENTS; i++)
        if (&bus->clients[i] != sender)
            give(bus, &bus->clients[i], &frame);
    frame.__res0 = UNIX_BUS_ECHO;
    give(bus, sender, &frame);
    if (bus->bitrate != 0 && sender->fd >= 0)
        bus_read(bus, sender, bus->ends_at); /* its next one waits already: no gap */
}

void bus_step(struct bus *bus, int64_t now)
{
    for (;;) {
        if (bus->sender == NULL) {
            bus->sender = winner(bus);
            if (bus->sender == NULL)
                return;
            int64_t begin = bus->ends_at > bus->sender->since ? bus->ends_at : bus->sender->since;
            bus->ends_at = begin + (bus->bitrate == 0 ? 0 : bits(&bus->sender->frame) * CLOCK_SECOND / bus->bitrate);
        }
        if (now < bus->ends_at)
            return;
        finish(bus);
    }
}

int64_t bus_deadline(const struct bus *bus)
{
    return bus->sender == NULL ? CLOCK_NEVER : bus->ends_at;
}

void bus_close(struct bus *bus)
{
    if (unlink(bus->path) != 0)
        fprintf(stderr, "deorasaeng-bus: %s: %s\n", bus->path, strerror(errno));
}
