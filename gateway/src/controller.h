/* What the kernel tells of a CAN controller through rtnetlink: bit rate, state, error counters. Virtual buses have none. */
#ifndef GATEWAY_CONTROLLER_H
#define GATEWAY_CONTROLLER_H

#include <stdbool.h>
#include <stddef.h>
#include <stdint.h>

struct controller {
    uint32_t bit_rate;          /* bits a second, 0 where it is not told */
    const char *state;          /* in words, NULL where it is not told */
    bool errors_told;
    uint32_t sent_errors, received_errors; /* the controller's two error counters */
    bool restart_told;
    uint32_t restart_ms;        /* after which it leaves bus-off by itself, 0: never */
};

/* A socket to ask with, or -1 with errno. */
int controller_open(void);

/* Asks for the interface of that index; what is not told stays 0. */
void controller_ask(int fd, int index, struct controller *controller);

/* Reads the kernel's answer. */
void controller_read(const void *answer, size_t length, struct controller *controller);

#endif
