/* A bus without CAN, by a clock of the test's own; and frames as text. */
#include "../src/bus.h"
#include "../src/clock.h"
#include "../src/frame_text.h"
#include "../src/unix_bus.h"
#include "check.h"

#include <errno.h>
#include <libgen.h>
#include <sys/socket.h>
#include <unistd.h>

/* 67 bits and 64 of data at 131 kbit/s. */
#define BITRATE 131000
#define FRAME_TIME (1 * CLOCK_MS)

static struct bus bus;
static const char path[] = "test_bus.socket"; /* beside the program */

static struct can_frame frame(canid_t id, uint8_t byte)
{
    struct can_frame made;
    memset(&made, 0, sizeof made);
    made.can_id = id;
    made.len = CAN_MAX_DLEN;
    made.data[0] = byte;
    return made;
}

static int join(void)
{
    int fd = unix_bus_join(path);
    bus_accept(&bus);
    return fd;
}

static void put(int fd, canid_t id, uint8_t byte)
{
    struct can_frame made = frame(id, byte);
    CHECK(send(fd, &made, sizeof made, 0) == (ssize_t)sizeof made);
}

/* Reads what the clients sent, where none of their frames waits; then what the bus does by `now`. */
static void run(int64_t now)
{
    for (int i = 0; i < BUS_CLIENTS; i++)
        if (bus.clients[i].fd >= 0 && !bus.clients[i].waits)
            bus_read(&bus, &bus.clients[i], now);
    bus_step(&bus, now);
}

/* The next packet is a frame with this first byte, of this kind. */
static bool next_is(int fd, enum unix_bus_read kind, uint8_t byte)
{
    struct can_frame got;
    uint32_t missed;
    return unix_bus_receive(fd, &got, &missed) == kind && got.data[0] == byte && got.__res0 == 0;
}

static bool nothing(int fd)
{
    struct can_frame got;
    uint32_t missed;
    return unix_bus_receive(fd, &got, &missed) == UNIX_BUS_NOTHING;
}

static void each_hears_the_others(void)
{
    CHECK(bus_open(&bus, path, 0));
    int a = join(), b = join(), c = join();
    CHECK(!bus_open(&(struct bus){0}, path, 0) && errno == EADDRINUSE);
    bus_accept(&bus); /* it had asked whether somebody listens */
    put(a, CAN_EFF_FLAG | 0x18FEF121, 1);
    run(0);
    CHECK(next_is(a, UNIX_BUS_SENT, 1) && next_is(b, UNIX_BUS_HEARD, 1) && next_is(c, UNIX_BUS_HEARD, 1));
    CHECK(nothing(a) && nothing(b) && nothing(c) && bus.frames == 1 && bus_deadline(&bus) == CLOCK_NEVER);
    put(b, CAN_EFF_FLAG | 0x18FEF122, 2); /* one that leaves at once, its buffer unread */
    put(a, CAN_EFF_FLAG | 0x18FEF121, 3);
    run(0);
    put(b, CAN_EFF_FLAG | 0x18FEF122, 4);
    close(b);
    run(0);
    run(0);
    CHECK(next_is(a, UNIX_BUS_SENT, 3) && next_is(a, UNIX_BUS_HEARD, 2) && next_is(a, UNIX_BUS_HEARD, 4) && nothing(a));
    CHECK(send(c, "no frame", 8, 0) == 8);
    run(0);
    run(0);
    struct can_frame got;
    uint32_t missed;
    while (unix_bus_receive(c, &got, &missed) == UNIX_BUS_HEARD)
        ;
    CHECK(unix_bus_receive(c, &got, &missed) == UNIX_BUS_ENDED);
    close(a);
    close(c);
    bus_close(&bus);
    close(bus.listener);
}

static void rate_and_arbitration(void)
{
    CHECK(bus_open(&bus, path, BITRATE));
    int a = join(), b = join(), c = join();
    put(a, CAN_EFF_FLAG | 0x18FEF121, 1);
    run(0);
    CHECK(nothing(b) && bus_deadline(&bus) == FRAME_TIME);
    put(a, CAN_EFF_FLAG | 0x18FEF121, 2);
    put(b, CAN_EFF_FLAG | 0x0CF00422, 3);
    put(c, 0x33C, 4); /* begins as 0CF00422 does */
    run(FRAME_TIME / 2);
    CHECK(nothing(b) && nothing(c));
    run(FRAME_TIME);
    CHECK(next_is(b, UNIX_BUS_HEARD, 1) && next_is(a, UNIX_BUS_SENT, 1) && nothing(b));
    CHECK(bus_deadline(&bus) == FRAME_TIME + 111 * CLOCK_SECOND / BITRATE);
    run(4 * FRAME_TIME); /* late: the bus was never idle in between */
    CHECK(next_is(b, UNIX_BUS_HEARD, 4) && next_is(b, UNIX_BUS_SENT, 3) && next_is(b, UNIX_BUS_HEARD, 2) && bus.frames == 4);
    CHECK(bus.ends_at == 3 * FRAME_TIME + 111 * CLOCK_SECOND / BITRATE);
    close(a);
    close(b);
    close(c);
    run(4 * FRAME_TIME);
    CHECK(bus.clients[0].fd < 0 && bus.clients[1].fd < 0 && bus.clients[2].fd < 0);
    bus_close(&bus);
    close(bus.listener);
}

/* A client that does not read misses frames, and is told how many as soon as it does. */
static void buffer_full(void)
{
    struct can_frame got;
    uint32_t told = 0, heard = 0;
    CHECK(bus_open(&bus, path, 0));
    int a = join(), b = join();
    for (uint32_t i = 0; bus.missed < 10 && i < 100000; i++) {
        put(a, CAN_EFF_FLAG | 0x18FEF121, 1);
        run(0);
        CHECK(next_is(a, UNIX_BUS_SENT, 1));
    }
    CHECK(bus.missed == 10);
    while (unix_bus_receive(b, &got, &told) == UNIX_BUS_HEARD)
        heard++;
    CHECK(heard + 10 == bus.frames && nothing(b));
    bus_tell(&bus.clients[1]);
    CHECK(unix_bus_receive(b, &got, &told) == UNIX_BUS_MISSED && told == 10);
    bus_tell(&bus.clients[1]);
    CHECK(nothing(b));
    close(a);
    close(b);
    bus_close(&bus);
    close(bus.listener);
}

/* What a bus of somebody else's may send. */
static void no_packets(void)
{
    int ends[2];
    uint32_t told;
    unsigned char bytes[64] = {0};
    struct can_frame got, long_one = frame(CAN_EFF_FLAG | 0x18FEF121, 1);
    long_one.len = CAN_MAX_DLEN + 1;
    CHECK(socketpair(AF_UNIX, SOCK_SEQPACKET, 0, ends) == 0);
    CHECK(send(ends[0], &long_one, sizeof long_one, 0) == (ssize_t)sizeof long_one);
    CHECK(unix_bus_receive(ends[1], &got, &told) == UNIX_BUS_NOTHING);
    for (size_t size = 1; size <= sizeof bytes; size++) {
        enum unix_bus_read wanted = size == sizeof got ? UNIX_BUS_HEARD : size == sizeof told ? UNIX_BUS_MISSED : UNIX_BUS_NOTHING;
        CHECK(send(ends[0], bytes, size, 0) == (ssize_t)size && unix_bus_receive(ends[1], &got, &told) == wanted);
    }
    close(ends[0]);
    CHECK(unix_bus_receive(ends[1], &got, &told) == UNIX_BUS_ENDED);
    close(ends[1]);
}

static void text(void)
{
    static const char *const FRAMES[] = {"18FEF121#0102", "1FFFFFFF#", "7FF#0011223344556677", "123#R", "00000123#R8", "20000040#0000000000000000"};
    static const char *const WRONG[] = {"",          "18FEF121",     "18FEF1#00",  "800#",      "3FFFFFFF##00", "18FEF121#0",           "18FEF121#0G",
                                        "E0000040#", "18FEF121##001", "123#R9", "123#R11", "123#RR",       "123#001122334455667788"};
    char written[FRAME_TEXT_BYTES];
    struct can_frame read;
    for (size_t i = 0; i < sizeof FRAMES / sizeof FRAMES[0]; i++) {
        CHECK(frame_text_read(FRAMES[i], &read));
        frame_text_write(&read, written);
        CHECK_TEXT(written, FRAMES[i]);
    }
    for (size_t i = 0; i < sizeof WRONG / sizeof WRONG[0]; i++)
        CHECK(!frame_text_read(WRONG[i], &read));
    CHECK(frame_text_read("18fef121#aB", &read) && read.can_id == (CAN_EFF_FLAG | 0x18FEF121) && read.len == 1 && read.data[0] == 0xAB);
    CHECK(frame_text_read("20000040#", &read) && read.can_id == (CAN_ERR_FLAG | 0x40));
    CHECK_TEXT(unix_bus_path("unix:a/b"), "a/b");
    CHECK(unix_bus_path("vcan0") == NULL);
}

int main(int argc, char *argv[])
{
    (void)argc;
    if (chdir(dirname(argv[0])) != 0)
        return 1;
    each_hears_the_others();
    rate_and_arbitration();
    buffer_full();
    no_packets();
    text();
    return checks_end("bus");
}
