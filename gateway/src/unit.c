#include "unit.h"

#include "identifier.h"

#include <string.h>

static const char *const STATES[] = {"Unstarted", "Claiming", "Claimed", "Lost"};
static const char *const EVENTS[] = {NULL, "Withdrew", "Defended", "Displaced", "Recorded", "Refreshed", "TookOver", "Beaten"};

static const char *const REASONS[] = {
    "not asked", "permanent", "cleared", "listed in pass", "not listed in block", "stopped as listed", "stopped as not listed",
};
_Static_assert(sizeof REASONS / sizeof REASONS[0] == UNIT_REASONS, "a word for each reason");
_Static_assert(sizeof STATES / sizeof STATES[0] == DEORASAENG_STATE_LOST + 1, "a word for each state");
_Static_assert(sizeof EVENTS / sizeof EVENTS[0] == DEORASAENG_BEATEN + 1, "a word for each event");

const char *claim_state_word(enum deorasaeng_state state)
{
    return STATES[state];
}

const char *claim_event_word(uint64_t event)
{
    return event < sizeof EVENTS / sizeof EVENTS[0] ? EVENTS[event] : "unknown";
}

const char *reason_word(enum deorasaeng_reason reason)
{
    return reason < UNIT_REASONS ? REASONS[reason] : "unknown";
}

uint32_t unit_power_on(struct unit *unit, uint64_t name, uint32_t preferred, uint32_t ports)
{
    memset(unit, 0, sizeof *unit);
    unit->words = DEORASAENG_RECORD_WORDS_FOR(ports);
    unit->ports = ports;
    return deorasaeng_power_on_ports(unit->record, unit->words, name, preferred, ports);
}

struct unit_answer unit_tell(const struct unit *unit)
{
    uint64_t words[DEORASAENG_UNIT_ANSWER] = {0};
    deorasaeng_unit(unit->record, unit->words, words, DEORASAENG_UNIT_ANSWER);
    return (struct unit_answer){
        .state = (enum deorasaeng_state)words[DEORASAENG_UNIT_STATE],
        .address = (uint32_t)words[DEORASAENG_UNIT_ADDRESS],
        .preferred = (uint32_t)words[DEORASAENG_UNIT_PREFERRED],
        .name = words[DEORASAENG_UNIT_NAME],
        .ports = (uint32_t)words[DEORASAENG_UNIT_PORTS],
    };
}

enum deorasaeng_state unit_state(const struct unit *unit)
{
    return unit_tell(unit).state;
}

struct queue_counts unit_counts(const struct unit *unit, uint32_t port)
{
    uint64_t words[DEORASAENG_COUNTS_ANSWER] = {0};
    struct queue_counts counts;
    deorasaeng_counts(unit->record, unit->words, port, words, DEORASAENG_COUNTS_ANSWER);
    memcpy(counts.waiting, words + DEORASAENG_COUNTS_WAITING, sizeof counts.waiting);
    counts.accepted = words[DEORASAENG_COUNTS_ACCEPTED];
    counts.taken = words[DEORASAENG_COUNTS_TAKEN];
    return counts;
}

/* A request for address claimed, which a unit that has started answers if it is to all or was consumed. */
static bool answered_request(const struct unit *unit, const struct can_frame *frame, bool consumed)
{
    static const uint8_t ADDRESS_CLAIMED[] = {0x00, 0xEE, 0x00};
    uint32_t id = frame->can_id & CAN_EFF_MASK;
    return unit_state(unit) != DEORASAENG_STATE_UNSTARTED && identifier_pgn(id) == PGN_REQUEST && frame->len == sizeof ADDRESS_CLAIMED &&
           memcmp(frame->data, ADDRESS_CLAIMED, sizeof ADDRESS_CLAIMED) == 0 &&
           (consumed || identifier_destination(id) == ADDRESS_GLOBAL);
}

void unit_frame(struct unit *unit, uint32_t port, const struct can_frame *frame, struct frame_answer *answer)
{
    uint64_t words[DEORASAENG_FRAME_ANSWER];
    memset(answer, 0, sizeof *answer);
    answer->number = deorasaeng_frame(unit->record, unit->words, port, frame->can_id & CAN_EFF_MASK, frame->data, frame->len,
                                      words, DEORASAENG_FRAME_ANSWER);
    if (answer->number != 0)
        return;
    answer->consumed = words[DEORASAENG_CONSUMED] != 0;
    answer->accepted = words[DEORASAENG_ACCEPTED];
    answer->lost = words[DEORASAENG_LOST];
    answer->event = words[DEORASAENG_EVENT];
    answer->old_name = words[DEORASAENG_OLD_NAME];
    answer->own_lost = words[DEORASAENG_OWN_LOST];
    answer->reasons = words[DEORASAENG_REASONS];
    answer->own_sent = answer->event == DEORASAENG_DEFENDED || answer->event == DEORASAENG_DISPLACED ||
                       answered_request(unit, frame, answer->consumed);
}

bool unit_take(struct unit *unit, uint32_t port, struct can_frame *frame)
{
    uint64_t words[DEORASAENG_TAKE_ANSWER];
    memset(frame, 0, sizeof *frame);
    uint32_t number = deorasaeng_take(unit->record, unit->words, port, words, DEORASAENG_TAKE_ANSWER, frame->data,
                                      DEORASAENG_FRAME_BYTES);
    if (number != 0 || words[DEORASAENG_GIVEN] == 0)
        return false;
    frame->can_id = (canid_t)words[DEORASAENG_ID] | CAN_EFF_FLAG;
    frame->len = (uint8_t)words[DEORASAENG_LENGTH];
    return true;
}

uint32_t unit_start(struct unit *unit, uint64_t *own_lost)
{
    uint64_t words[DEORASAENG_START_ANSWER];
    uint32_t number = deorasaeng_start(unit->record, unit->words, words, DEORASAENG_START_ANSWER);
    *own_lost = number == 0 ? words[DEORASAENG_START_OWN_LOST] : 0;
    return number;
}

uint32_t unit_quiet(struct unit *unit)
{
    return deorasaeng_quiet(unit->record, unit->words);
}
