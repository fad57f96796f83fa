/* A morning of the bridge from C: power-on, Start, the claim goes out, Quiet, frames, a filter set by a tool, takes. A line for each call. */
#include "../include/deorasaeng.h"
#include <inttypes.h>
#include <stdio.h>

static uint64_t record[DEORASAENG_RECORD_WORDS];

/* What a number says, for a person. */
static const char *words_of(uint32_t number)
{
    switch ((enum deorasaeng_number)number) {
    case DEORASAENG_DONE: return "done";
    case DEORASAENG_WRONG_PORT: return "port not 1 to the number of ports";
    case DEORASAENG_WRONG_IDENTIFIER: return "identifier 2^29 or more";
    case DEORASAENG_NOT_CLAIMED: return "unit not Claimed";
    case DEORASAENG_ACCESS_DENIED: return "pair or port not this tool's";
    case DEORASAENG_NOT_CLEARED: return "Create: a named pair not cleared";
    case DEORASAENG_PGN_ABSENT: return "Delete: a PGN absent from a named pair";
    case DEORASAENG_WRONG_STATE: return "Start not in Unstarted, Quiet not in Claiming";
    case DEORASAENG_WRONG_ENTRY: return "an entry is no PGN";
    default: return "one that this morning does not meet";
    }
}

/* By claim state. */
static const char *const states[] = {"Unstarted", "Claiming", "Claimed", "Lost"};

/* By reason. */
static const char *const reasons[] = {"not asked", "permanent", "cleared", "listed in pass", "not listed in block", "stopped as listed", "stopped as not listed"};

static void print_bytes(const uint8_t *bytes, uint64_t length)
{
    for (uint64_t i = 0; i < length; i++)
        printf(" %02X", bytes[i]);
    printf("\n");
}

static void print_ports(const char *title, uint64_t ports)
{
    printf(", %s", title);
    for (int port = 1; port <= 4; port++)
        if (ports >> (port - 1) & 1)
            printf(" %d", port);
    if (ports == 0)
        printf(" none");
}

static void start(void)
{
    uint64_t answer[DEORASAENG_START_ANSWER];
    uint32_t number = deorasaeng_start(record, DEORASAENG_RECORD_WORDS, answer, DEORASAENG_START_ANSWER);
    printf("Start: %" PRIu32 " %s", number, words_of(number));
    if (number == 0) {
        printf(", %s", states[answer[DEORASAENG_START_STATE]]);
        print_ports("own frame lost at", answer[DEORASAENG_START_OWN_LOST]);
    }
    printf("\n");
}

static void unit(void)
{
    uint64_t answer[DEORASAENG_UNIT_ANSWER];
    uint32_t number = deorasaeng_unit(record, DEORASAENG_RECORD_WORDS, answer, DEORASAENG_UNIT_ANSWER);
    printf("unit: %" PRIu32 " %s, %s, address ", number, words_of(number), states[answer[DEORASAENG_UNIT_STATE]]);
    if (answer[DEORASAENG_UNIT_ADDRESS] == DEORASAENG_NO_ADDRESS)
        printf("none");
    else
        printf("%" PRIu64, answer[DEORASAENG_UNIT_ADDRESS]);
    printf(", prefers %" PRIu64 ", NAME %016" PRIX64 ", %" PRIu64 " ports\n", answer[DEORASAENG_UNIT_PREFERRED], answer[DEORASAENG_UNIT_NAME],
           answer[DEORASAENG_UNIT_PORTS]);
}

static void frame(uint32_t port, uint32_t id, const uint8_t *bytes, size_t len)
{
    uint64_t answer[DEORASAENG_FRAME_ANSWER];
    uint32_t number = deorasaeng_frame(record, DEORASAENG_RECORD_WORDS, port, id, bytes, len, answer, DEORASAENG_FRAME_ANSWER);
    printf("frame %08" PRIX32 " at port %" PRIu32 ": %" PRIu32 " %s", id, port, number, words_of(number));
    if (number == 0) {
        printf(answer[DEORASAENG_CONSUMED] ? ", consumed" : ", for others");
        print_ports("accepted", answer[DEORASAENG_ACCEPTED]);
        print_ports("lost", answer[DEORASAENG_LOST]);
        printf(", event %" PRIu64, answer[DEORASAENG_EVENT]);
        if (answer[DEORASAENG_EVENT] == DEORASAENG_TOOK_OVER)
            printf(" from %016" PRIX64, answer[DEORASAENG_OLD_NAME]);
        print_ports("own frame lost at", answer[DEORASAENG_OWN_LOST]);
        printf(", compared %" PRIu64, answer[DEORASAENG_COMPARED]);
        for (uint32_t to = 1; to <= 4; to++)
            printf(", %" PRIu32 ": %s", to, reasons[DEORASAENG_REASON(answer[DEORASAENG_REASONS], to)]);
    }
    printf("\n");
}

static void print_take(const char *title, uint32_t port, uint32_t number, const uint64_t *answer, const uint8_t *bytes)
{
    printf("%s at port %" PRIu32 ": %" PRIu32 " %s", title, port, number, words_of(number));
    if (number != 0 || answer[DEORASAENG_GIVEN] == 0) {
        printf(number != 0 ? "\n" : ", nothing waiting\n");
        return;
    }
    printf(", %08" PRIX64 " length %" PRIu64 ":", answer[DEORASAENG_ID], answer[DEORASAENG_LENGTH]);
    print_bytes(bytes, answer[DEORASAENG_LENGTH]);
}

static void take(uint32_t port)
{
    uint64_t answer[DEORASAENG_TAKE_ANSWER];
    uint8_t bytes[DEORASAENG_FRAME_BYTES];
    uint32_t number = deorasaeng_take(record, DEORASAENG_RECORD_WORDS, port, answer, DEORASAENG_TAKE_ANSWER, bytes, DEORASAENG_FRAME_BYTES);
    print_take("take", port, number, answer, bytes);
}

/* What the transmit routine of one port does: it is handed that port's queue and can touch nothing else. */
static void transmit(uint32_t port, uint64_t queue[DEORASAENG_QUEUE_WORDS])
{
    uint64_t answer[DEORASAENG_TAKE_ANSWER];
    uint8_t bytes[DEORASAENG_FRAME_BYTES];
    uint32_t number = deorasaeng_take_queue(queue, answer, DEORASAENG_TAKE_ANSWER, bytes, DEORASAENG_FRAME_BYTES);
    print_take("transmit", port, number, answer, bytes);
}

/* What a service page asks every second. */
static void counts(uint32_t port)
{
    uint64_t answer[DEORASAENG_COUNTS_ANSWER];
    uint32_t number = deorasaeng_counts(record, DEORASAENG_RECORD_WORDS, port, answer, DEORASAENG_COUNTS_ANSWER);
    printf("counts at port %" PRIu32 ": %" PRIu32 " %s", port, number, words_of(number));
    if (number == 0) {
        printf(", waiting");
        for (int priority = 0; priority < 8; priority++)
            printf(" %" PRIu64, answer[DEORASAENG_COUNTS_WAITING + priority]);
        printf(", accepted %" PRIu64 ", taken %" PRIu64, answer[DEORASAENG_COUNTS_ACCEPTED], answer[DEORASAENG_COUNTS_TAKEN]);
    }
    printf("\n");
}

static void message(uint32_t port, uint32_t requester, const uint8_t *payload, size_t length)
{
    uint64_t answer[DEORASAENG_MESSAGE_ANSWER];
    uint8_t reply[DEORASAENG_REPLY_BYTES];
    uint32_t number = deorasaeng_message(record, DEORASAENG_RECORD_WORDS, port, requester, payload, length, reply, DEORASAENG_REPLY_BYTES,
                                         answer, DEORASAENG_MESSAGE_ANSWER);
    printf("message %u at port %" PRIu32 ": %" PRIu32 " %s", payload[0], port, number, words_of(number));
    if (answer[DEORASAENG_ENTRY] != 0)
        printf(", entry %" PRIu64, answer[DEORASAENG_ENTRY]);
    if (number == DEORASAENG_PGN_ABSENT)
        printf(", PGN %" PRIu64 " from %u to %" PRIu64, answer[DEORASAENG_ABSENT], payload[1] >> 4, answer[DEORASAENG_TO]);
    printf(", PGN %" PRIu64 ":", answer[DEORASAENG_PGN]);
    print_bytes(reply, answer[DEORASAENG_WRITTEN]);
}

int main(void)
{
    static const uint8_t engine[8] = {0xF0, 0x7D, 0x83, 0x00, 0x10, 0x0E, 0xFF, 0xFF};
    static const uint8_t sprayer[8] = {0x21, 0x00, 0xC0, 0x0C, 0x00, 0x80, 0x0C, 0x20};
    static const uint8_t baler[8] = {0x11, 0x00, 0xC0, 0x0B, 0x00, 0x80, 0x0B, 0x20};
    static const uint8_t create[8] = {6, 0x12, 0, 0x04, 0xF0, 0x00, 0xFF, 0xFF};
    static const uint8_t request[8] = {0, 0x12, 0xFF, 0xFF, 0xFF, 0xFF, 0xFF, 0xFF};
    static const uint8_t swapped[8] = {2, 0x12, 0x0B, 0xF0, 0x00, 0x00, 0xFE, 0xF1};
    static const uint8_t delete[8] = {3, 0x12, 0x04, 0xF0, 0x00, 0x0B, 0xF0, 0x00};
    static const uint8_t addresses[8] = {64, 3, 0xFF, 0xFF, 0xFF, 0xFF, 0xFF, 0xFF};

    printf("power-on: %" PRIu32 "\n", deorasaeng_power_on(record, DEORASAENG_RECORD_WORDS, 0x20001C000AC00123, 0x80));
    unit();
    take(1);
    message(1, 0x21, request, sizeof request); /* not Claimed yet: 6 */
    start();
    start(); /* 18 */
    for (uint32_t port = 1; port <= 4; port++)
        take(port); /* the claim goes out at every port */
    printf("Quiet: %" PRIu32 "\n", deorasaeng_quiet(record, DEORASAENG_RECORD_WORDS));
    unit();
    frame(3, 0x18EEFF90, sprayer, 8);          /* Recorded */
    frame(2, 0x18EEFF90, baler, 8);            /* a lower NAME: TookOver */
    frame(1, 0x0CF00400, engine, 8);           /* to ports 2, 3 and 4 */
    message(1, 0x21, create, sizeof create);   /* block PGN 61444 from 1 to 2 */
    message(1, 0x21, create, sizeof create);   /* 14: the pair is not cleared any more */
    message(1, 0x21, swapped, sizeof swapped); /* 22: the second PGN's bytes are in the wrong order */
    message(1, 0x21, delete, sizeof delete);   /* 17: 61451 was not added */
    message(1, 0x21, request, sizeof request);
    message(3, 0x21, request, sizeof request); /* 11: not a pair of port 3 */
    message(1, 0x21, addresses, sizeof addresses);
    frame(1, 0x0CF00400, engine, 8);           /* to ports 3 and 4 alone */
    frame(1, 0x18FEF100, NULL, 0);             /* no bytes */
    frame(5, 0x0CF00400, engine, 8);           /* 1 */
    frame(1, 0x20000000, engine, 8);           /* 3 */
    counts(2);                                 /* one of rank 3, two of rank 6; the unit's claim has left */
    take(2);                                   /* rank 3 before rank 6 */
    transmit(2, record + DEORASAENG_QUEUE_AT(2));
    transmit(2, record + DEORASAENG_QUEUE_AT(2));
    transmit(2, record + DEORASAENG_QUEUE_AT(2));
    counts(2);                                 /* all that was accepted was taken */
    counts(5);                                 /* 1 */
    take(3);
    return 0;
}
