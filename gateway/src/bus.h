/* One bus without CAN, as deorasaeng-bus serves it: its socket and its clients.

   A client has one frame on the way, as a controller with one mailbox. Of those that wait the one that wins the arbitration goes first, takes the time of its bits where the
   bus has a bit rate, and is then given to every other client and back to its own. */
#ifndef GATEWAY_BUS_H
#define GATEWAY_BUS_H

#include <linux/can.h>
#include <stdbool.h>
#include <stdint.h>

#define BUS_CLIENTS 16

struct bus_client {
    int fd; /* -1: free */
    bool waits;
    struct can_frame frame; /* the one that waits .. */
    int64_t since;          /* .. and since when */
    uint32_t missed, told;  /* frames that found its buffer full; those that it was told of */
};

struct bus {
    const char *path;
    int listener;
    uint32_t bitrate; /* bits a second, 0: as fast as it goes */
    struct bus_client clients[BUS_CLIENTS];
    struct bus_client *sender; /* whose frame is on the bus, or NULL */
    int64_t ends_at;           /* when that frame ends, or the last one did */
    uint64_t frames, missed;   /* that stood on the bus; that found a client's buffer full */
};

/* Listens at the path; a socket at which nobody listens any more is replaced. False: errno says why. */
bool bus_open(struct bus *bus, const char *path, uint32_t bitrate);

/* Lets a client join. */
void bus_accept(struct bus *bus);

/* Reads a client's next frame; one that has gone, or that sends what is no frame, is let go. */
void bus_read(struct bus *bus, struct bus_client *client, int64_t now);

/* Tells a client what it missed, where there is room now. */
void bus_tell(struct bus_client *client);

/* Frames whose time is over are given to the clients, the next ones begin. */
void bus_step(struct bus *bus, int64_t now);

/* When bus_step has something to do. */
int64_t bus_deadline(const struct bus *bus);

/* Takes the socket away. */
void bus_close(struct bus *bus);

#endif
