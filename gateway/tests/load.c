/* Load on CAN buses, for measuring what lies between two of them.

   load COUNT WINDOW FROM TO   sends COUNT frames at FROM, at most WINDOW of them not yet seen at TO; prints the rate and the delay from send to arrival */
#include "../src/clock.h"

#include <errno.h>
#include <inttypes.h>
#include <linux/can.h>
#include <linux/can/raw.h>
#include <net/if.h>
#include <poll.h>
#include <stdbool.h>
#include <stdio.h>
#include <stdlib.h>
#include <string.h>
#include <sys/socket.h>
#include <unistd.h>

#define COUNT_MAX 100000
#define PATIENCE_MS 2000
#define ID_BASE (CAN_EFF_FLAG | UINT32_C(0x18FF0010))

static int64_t sent_at[COUNT_MAX], delays[COUNT_MAX];

static int open_bus(const char *name)
{
    struct sockaddr_can address;
    memset(&address, 0, sizeof address);
    address.can_family = AF_CAN;
    address.can_ifindex = (int)if_nametoindex(name);
    int fd = socket(PF_CAN, SOCK_RAW, CAN_RAW);
    if (address.can_ifindex == 0 || fd < 0 || bind(fd, (const struct sockaddr *)&address, sizeof address) != 0) {
        fprintf(stderr, "load: %s: %s\n", name, strerror(errno));
        exit(1);
    }
    return fd;
}

/* Frame number n: the PGN differs from frame to frame, the number stands in the bytes. */
static struct can_frame numbered(uint32_t n)
{
    struct can_frame frame;
    memset(&frame, 0, sizeof frame);
    frame.can_id = ID_BASE | (n & 0xFF) << 8;
    frame.len = CAN_MAX_DLEN;
    memcpy(frame.data, &n, sizeof n);
    return frame;
}

static bool send_numbered(int fd, uint32_t n)
{
    struct can_frame frame = numbered(n);
    return write(fd, &frame, sizeof frame) == (ssize_t)sizeof frame;
}

/* Waits for the next numbered frame at `fd`; its number, or -1 if none comes. */
static int64_t receive_numbered(int fd, uint32_t count)
{
    struct can_frame frame;
    struct pollfd ready = {fd, POLLIN, 0};
    uint32_t n;
    for (;;) {
        if (poll(&ready, 1, PATIENCE_MS) <= 0 || read(fd, &frame, sizeof frame) != (ssize_t)sizeof frame)
            return -1;
        memcpy(&n, frame.data, sizeof n);
        if (n < count && frame.can_id == numbered(n).can_id)
            return n;
    }
}

static int by_time(const void *a, const void *b)
{
    const int64_t *left = a, *right = b;
    return (*left > *right) - (*left < *right);
}

static void print_cross(uint32_t seen, uint32_t count, int64_t took)
{
    qsort(delays, seen, sizeof delays[0], by_time);
    printf("frames %" PRIu32 " of %" PRIu32 " rate %.0f delay_us median %.1f p99 %.1f max %.1f\n", seen, count,
           (double)seen * (double)CLOCK_SECOND / (double)took, (double)delays[seen / 2] / 1e3,
           (double)delays[(uint64_t)seen * 99 / 100] / 1e3, (double)delays[seen - 1] / 1e3);
}

static int cross(uint32_t count, uint32_t window, const char *from, const char *to)
{
    int out = open_bus(from), in = open_bus(to);
    uint32_t sent = 0, seen = 0;
    int64_t begin = clock_now();
    while (seen < count) {
        while (sent < count && sent - seen < window) {
            sent_at[sent] = clock_now();
            if (!send_numbered(out, sent)) {
                perror("load: write");
                return 1;
            }
            sent++;
        }
        int64_t n = receive_numbered(in, sent);
        if (n < 0)
            break;
        delays[seen++] = clock_now() - sent_at[n];
    }
    if (seen > 0)
        print_cross(seen, count, clock_now() - begin);
    return seen == count ? 0 : 1;
}

int main(int argc, char *argv[])
{
    if (argc == 5) {
        uint32_t count = (uint32_t)strtoul(argv[1], NULL, 10), window = (uint32_t)strtoul(argv[2], NULL, 10);
        if (count > 0 && count <= COUNT_MAX && window > 0)
            return cross(count, window, argv[3], argv[4]);
    }
    fprintf(stderr, "usage: load COUNT WINDOW FROM TO\n");
    return 2;
}
