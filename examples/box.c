/* The loop of a box, with the hardware left open: docs/INTEGRATION.md says why it is so. Interrupts fill rings and set flags; one loop makes all calls. `examples/run` compiles it. */
#include "../include/deorasaeng.h"
#include <stdbool.h>
#include <string.h>

struct can_frame {
    uint32_t id;     /* 29 bits */
    uint8_t len;
    uint8_t bytes[8];
};

/* The hardware's side. Rings are filled by the receive interrupts and read here alone; 11-bit, remote and error frames and the box's own frames stay out of them. */
bool ring_pop(uint32_t port, struct can_frame *frame);
bool can_send(uint32_t port, const struct can_frame *frame); /* false: no room now */
bool transport_feed(uint32_t port, const struct can_frame *frame, uint32_t *sender, const uint8_t **message, size_t *length);
void transport_send(uint32_t port, uint32_t destination, const uint8_t *message, size_t length);
uint32_t milliseconds(void);
void count_lost(uint64_t ports);
void count_own_lost(uint64_t ports);

/* A box with another number of buses has it here. */
enum { PORTS = 4, WORDS = DEORASAENG_RECORD_WORDS_FOR(PORTS) };

static uint64_t unit[WORDS];
static const uint32_t address = 0x80;

/* For each port: a frame that was taken and is not sent yet, and an answer to a network message that is to go out first. */
static struct can_frame taken[PORTS], answer_frame[PORTS];
static bool has_taken[PORTS], has_answer[PORTS];
static uint32_t quiet_at;
static bool is_claiming;

static void begin(void)
{
    uint64_t told[DEORASAENG_START_ANSWER];
    deorasaeng_power_on_ports(unit, WORDS, 0x20001C000AC00123, address, PORTS);
    if (deorasaeng_start(unit, WORDS, told, DEORASAENG_START_ANSWER) != DEORASAENG_DONE)
        return; /* a preferred address over 253 */
    count_own_lost(told[DEORASAENG_START_OWN_LOST]);
    is_claiming = told[DEORASAENG_START_STATE] == DEORASAENG_STATE_CLAIMING; /* Lost: a lower NAME has the address already */
    quiet_at = milliseconds() + 250;
}

/* A whole network message, and what is sent back for it: a reply to the requester, an acknowledgment to all, priority 6. */
static void message(uint32_t port, uint32_t requester, const uint8_t *payload, size_t length)
{
    static uint8_t reply[DEORASAENG_REPLY_BYTES];
    uint64_t told[DEORASAENG_MESSAGE_ANSWER];
    deorasaeng_message(unit, WORDS, port, requester, payload, length, reply, sizeof reply, told, DEORASAENG_MESSAGE_ANSWER);
    if (told[DEORASAENG_WRITTEN] > 8) {
        transport_send(port, requester, reply, told[DEORASAENG_WRITTEN]);
        return;
    }
    if (told[DEORASAENG_WRITTEN] == 0)
        return;
    uint32_t destination = told[DEORASAENG_PGN] == DEORASAENG_ACKNOWLEDGMENT_PGN ? 255 : requester;
    struct can_frame *out = &answer_frame[port - 1];
    out->id = UINT32_C(6) << 26 | (uint32_t)told[DEORASAENG_PGN] << 8 | destination << 8 | address;
    out->len = 8;
    memcpy(out->bytes, reply, 8);
    has_answer[port - 1] = true;
}

/* A consumed frame: a network message of 8 bytes, or a part of a longer one, which the transport protocol puts together. */
static void consumed(uint32_t port, const struct can_frame *frame)
{
    uint32_t pgn = frame->id >> 8 & 0x3FF00, requester = frame->id & 0xFF;
    const uint8_t *whole;
    size_t length;
    if (pgn == DEORASAENG_NETWORK_MESSAGE_PGN)
        message(port, requester, frame->bytes, frame->len);
    else if (transport_feed(port, frame, &requester, &whole, &length))
        message(port, requester, whole, length);
}

static void received(uint32_t port, const struct can_frame *frame)
{
    uint64_t told[DEORASAENG_FRAME_ANSWER];
    if (deorasaeng_frame(unit, WORDS, port, frame->id, frame->bytes, frame->len, told, DEORASAENG_FRAME_ANSWER) != DEORASAENG_DONE)
        return;
    count_lost(told[DEORASAENG_LOST]);
    count_own_lost(told[DEORASAENG_OWN_LOST]);
    if (told[DEORASAENG_EVENT] == DEORASAENG_DEFENDED)
        quiet_at = milliseconds() + 250;
    if (told[DEORASAENG_CONSUMED])
        consumed(port, frame);
}

/* A take is final: what it gave is kept until the controller has it. */
static void transmit(uint32_t port)
{
    uint32_t i = port - 1;
    if (has_answer[i] && can_send(port, &answer_frame[i]))
        has_answer[i] = false;
    if (!has_taken[i]) {
        uint64_t told[DEORASAENG_TAKE_ANSWER];
        deorasaeng_take(unit, WORDS, port, told, DEORASAENG_TAKE_ANSWER, taken[i].bytes, DEORASAENG_FRAME_BYTES);
        taken[i].id = (uint32_t)told[DEORASAENG_ID];
        taken[i].len = (uint8_t)told[DEORASAENG_LENGTH];
        has_taken[i] = told[DEORASAENG_GIVEN] != 0;
    }
    if (has_taken[i] && can_send(port, &taken[i]))
        has_taken[i] = false;
}

int main(void)
{
    struct can_frame frame;
    begin();
    for (;;) {
        for (uint32_t port = 1; port <= PORTS; port++) {
            if (!has_answer[port - 1] && ring_pop(port, &frame)) /* an answer goes out before the next frame comes in */
                received(port, &frame);
            transmit(port);
        }
        if (is_claiming && (int32_t)(milliseconds() - quiet_at) >= 0) {
            deorasaeng_quiet(unit, WORDS);
            is_claiming = false;
        }
    }
}
