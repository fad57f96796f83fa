/* A combine with eight buses, from C: the record is as long as its number of ports asks for, and every call reads that number there. `examples/run` compares what it prints. */
#include "../include/deorasaeng.h"
#include <inttypes.h>
#include <stdio.h>

enum { PORTS = 8, WORDS = DEORASAENG_RECORD_WORDS_FOR(PORTS) };

static uint64_t record[WORDS];

static void print_ports(const char *title, uint64_t ports)
{
    printf(", %s", title);
    for (int port = 1; port <= DEORASAENG_MOST_PORTS; port++)
        if (ports >> (port - 1) & 1)
            printf(" %d", port);
    if (ports == 0)
        printf(" none");
}

static void frame(uint32_t port, uint32_t id)
{
    static const uint8_t bytes[2] = {0x12, 0x34};
    uint64_t answer[DEORASAENG_FRAME_ANSWER];
    uint32_t number = deorasaeng_frame(record, WORDS, port, id, bytes, sizeof bytes, answer, DEORASAENG_FRAME_ANSWER);
    printf("frame %08" PRIX32 " at port %" PRIu32 ": %" PRIu32, id, port, number);
    if (number == DEORASAENG_DONE) {
        print_ports("accepted", answer[DEORASAENG_ACCEPTED]);
        printf(", compared %" PRIu64, answer[DEORASAENG_COMPARED]);
    }
    printf("\n");
}

static void take(uint32_t port)
{
    uint64_t answer[DEORASAENG_TAKE_ANSWER];
    uint8_t bytes[DEORASAENG_FRAME_BYTES];
    uint32_t number = deorasaeng_take(record, WORDS, port, answer, DEORASAENG_TAKE_ANSWER, bytes, DEORASAENG_FRAME_BYTES);
    printf("take at port %" PRIu32 ": %" PRIu32, port, number);
    if (number == DEORASAENG_DONE && answer[DEORASAENG_GIVEN])
        printf(", %08" PRIX64 " length %" PRIu64, answer[DEORASAENG_ID], answer[DEORASAENG_LENGTH]);
    printf("\n");
}

/* Pass lists with one PGN on every pair from a port: To 15. */
static void pass_alone(uint32_t port, uint32_t pgn)
{
    const uint8_t create[8] = {6, (uint8_t)(port << 4 | 15), 1, (uint8_t)pgn, (uint8_t)(pgn >> 8), (uint8_t)(pgn >> 16), 0xFF, 0xFF};
    static uint8_t reply[DEORASAENG_REPLY_BYTES];
    uint64_t answer[DEORASAENG_MESSAGE_ANSWER];
    uint32_t number = deorasaeng_message(record, WORDS, port, 0x21, create, sizeof create, reply, sizeof reply, answer, DEORASAENG_MESSAGE_ANSWER);
    printf("pass %" PRIu32 " alone from port %" PRIu32 ": %" PRIu32 "\n", pgn, port, number);
}

static void unit(size_t words)
{
    uint64_t answer[DEORASAENG_UNIT_ANSWER] = {0};
    uint32_t number = deorasaeng_unit(record, words, answer, DEORASAENG_UNIT_ANSWER);
    printf("unit: %" PRIu32 ", %" PRIu64 " ports, state %" PRIu64 "\n", number, answer[DEORASAENG_UNIT_PORTS], answer[DEORASAENG_UNIT_STATE]);
}

int main(void)
{
    uint64_t answer[DEORASAENG_START_ANSWER];
    printf("records of 2 to 8 ports, in words:");
    for (int ports = 2; ports <= 8; ports++)
        printf(" %d", DEORASAENG_RECORD_WORDS_FOR(ports));
    printf("\npower-on: %" PRIu32 "\n", deorasaeng_power_on_ports(record, WORDS, 0x20001C000AC00123, 0x80, PORTS));
    deorasaeng_start(record, WORDS, answer, DEORASAENG_START_ANSWER);
    for (uint32_t port = 1; port <= PORTS; port++)
        take(port); /* the claim goes out at every port */
    deorasaeng_quiet(record, WORDS);
    unit(WORDS);
    frame(8, 0x18FEF121); /* to ports 1 to 7 */
    pass_alone(8, 61444);
    frame(8, 0x18FEF121); /* to none */
    frame(8, 0x0CF00421); /* to ports 1 to 7 */
    frame(8, 0x18EEFF21); /* PGN 60928 is permanent: to ports 1 to 7, and no list is searched */
    frame(9, 0x0CF00421); /* 1 */
    take(7);              /* rank 3 before rank 6 */
    take(9);              /* 1 */
    /* Nine ports there are not: 27, and a fresh unit with four, on a record of four's length. */
    printf("power-on with 9 ports: %" PRIu32 "\n", deorasaeng_power_on_ports(record, DEORASAENG_RECORD_WORDS, 0x20001C000AC00123, 0x80, 9));
    unit(DEORASAENG_RECORD_WORDS);
    unit(WORDS); /* 2: not the length of four ports */
    return 0;
}
