#include "transmit.h"

#include "identifier.h"

#include <stddef.h>
#include <string.h>

bool transmit_wants_frame(const struct transmit *transmit)
{
    return !transmit->in_hand && transmit->flight == FLIGHT_NONE;
}

void transmit_take(struct transmit *transmit, const struct can_frame *frame)
{
    transmit->taken = *frame;
    transmit->in_hand = true;
}

bool transmit_has_room(const struct transmit *transmit)
{
    return transmit->answers_count < TRANSMIT_ANSWERS;
}

void transmit_answer(struct transmit *transmit, const struct can_frame *frame)
{
    if (!transmit_has_room(transmit))
        return;
    transmit->answers[(transmit->answers_first + transmit->answers_count) % TRANSMIT_ANSWERS] = *frame;
    transmit->answers_count++;
}

/* Which of the two is to go first. */
static enum transmit_flight first(const struct transmit *transmit)
{
    if (transmit->answers_count == 0)
        return transmit->in_hand ? FLIGHT_TAKEN : FLIGHT_NONE;
    uint32_t answer = transmit->answers[transmit->answers_first].can_id;
    bool higher = transmit->in_hand && identifier_priority(transmit->taken.can_id) < identifier_priority(answer);
    return higher ? FLIGHT_TAKEN : FLIGHT_ANSWER;
}

static const struct can_frame *frame_of(const struct transmit *transmit, enum transmit_flight flight)
{
    return flight == FLIGHT_TAKEN ? &transmit->taken : &transmit->answers[transmit->answers_first];
}

const struct can_frame *transmit_next(const struct transmit *transmit)
{
    enum transmit_flight next = first(transmit);
    if (transmit->flight != FLIGHT_NONE || next == FLIGHT_NONE)
        return NULL;
    return frame_of(transmit, next);
}

void transmit_given(struct transmit *transmit)
{
    transmit->flight = first(transmit);
}

static bool same_frame(const struct can_frame *a, const struct can_frame *b)
{
    return a->can_id == b->can_id && a->len == b->len && a->len <= CAN_MAX_DLEN && memcmp(a->data, b->data, a->len) == 0;
}

enum transmit_flight transmit_echo(struct transmit *transmit, const struct can_frame *frame)
{
    if (transmit->flight == FLIGHT_NONE || !same_frame(frame_of(transmit, transmit->flight), frame))
        return FLIGHT_NONE;
    return transmit_assume(transmit);
}

enum transmit_flight transmit_assume(struct transmit *transmit)
{
    enum transmit_flight done = transmit->flight;
    transmit->flight = FLIGHT_NONE;
    if (done == FLIGHT_TAKEN)
        transmit->in_hand = false;
    if (done == FLIGHT_ANSWER) {
        transmit->answers_first = (transmit->answers_first + 1) % TRANSMIT_ANSWERS;
        transmit->answers_count--;
    }
    return done;
}

bool transmit_return(struct transmit *transmit)
{
    bool was = transmit->flight != FLIGHT_NONE;
    transmit->flight = FLIGHT_NONE;
    return was;
}
