/* What a port is sending, and the kinds of what arrives. */
#include "../src/interface.h"
#include "../src/transmit.h"
#include "check.h"

#include <sys/socket.h>

static struct can_frame frame(uint32_t id, uint8_t byte)
{
    struct can_frame made;
    memset(&made, 0, sizeof made);
    made.can_id = id | CAN_EFF_FLAG;
    made.len = 1;
    made.data[0] = byte;
    return made;
}

static bool next_is(const struct transmit *transmit, const struct can_frame *wanted)
{
    const struct can_frame *next = transmit_next(transmit);
    return next != NULL && memcmp(next, wanted, sizeof *next) == 0;
}

static void one_frame(void)
{
    struct transmit transmit = {0};
    struct can_frame a = frame(0x18FEF121, 1), b = frame(0x18FEF121, 2);
    CHECK(transmit_wants_frame(&transmit) && transmit_next(&transmit) == NULL);
    transmit_take(&transmit, &a);
    CHECK(!transmit_wants_frame(&transmit) && next_is(&transmit, &a));
    CHECK(next_is(&transmit, &a)); /* the kernel was full: the frame stays in hand */
    transmit_given(&transmit);
    CHECK(transmit_next(&transmit) == NULL && !transmit_wants_frame(&transmit));
    CHECK(transmit_echo(&transmit, &b) == FLIGHT_NONE && transmit.in_hand);
    CHECK(transmit_echo(&transmit, &a) == FLIGHT_TAKEN && transmit_wants_frame(&transmit));
    CHECK(transmit_echo(&transmit, &a) == FLIGHT_NONE); /* an echo twice */
}

static void interface_fails(void)
{
    struct transmit transmit = {0};
    struct can_frame a = frame(0x18FEF121, 1);
    transmit_take(&transmit, &a);
    CHECK(!transmit_return(&transmit) && next_is(&transmit, &a)); /* not with the kernel yet */
    transmit_given(&transmit);
    CHECK(transmit_return(&transmit) && next_is(&transmit, &a));  /* to be given again */
    transmit_given(&transmit);
    CHECK(transmit_assume(&transmit) == FLIGHT_TAKEN && transmit_wants_frame(&transmit));
    CHECK(transmit_assume(&transmit) == FLIGHT_NONE);
}

/* An answer has priority 6: it goes before 6 and 7, after 0 to 5. */
static void answers_by_rank(void)
{
    for (uint32_t priority = 0; priority < 8; priority++) {
        struct transmit transmit = {0};
        struct can_frame taken = frame(priority << 26 | 0xFEF121, 1), answer = frame(0x18E8FF80, 2);
        transmit_take(&transmit, &taken);
        transmit_answer(&transmit, &answer);
        CHECK(next_is(&transmit, priority < 6 ? &taken : &answer));
        transmit_given(&transmit);
        CHECK(transmit_echo(&transmit, priority < 6 ? &taken : &answer) == (priority < 6 ? FLIGHT_TAKEN : FLIGHT_ANSWER));
        CHECK(next_is(&transmit, priority < 6 ? &answer : &taken));
    }
}

static void answers_in_order(void)
{
    struct transmit transmit = {0};
    struct can_frame answer;
    for (uint8_t round = 0; round < 20; round++) {
        for (uint8_t i = 0; i < TRANSMIT_ANSWERS; i++) {
            CHECK(transmit_has_room(&transmit));
            answer = frame(0x18E8FF80, i);
            transmit_answer(&transmit, &answer);
        }
        CHECK(!transmit_has_room(&transmit));
        transmit_answer(&transmit, &answer); /* no room: nothing happens */
        for (uint8_t i = 0; i < TRANSMIT_ANSWERS; i++) {
            answer = frame(0x18E8FF80, i);
            CHECK(next_is(&transmit, &answer));
            transmit_given(&transmit);
            CHECK(transmit_echo(&transmit, &answer) == FLIGHT_ANSWER);
        }
        CHECK(transmit_next(&transmit) == NULL && transmit_wants_frame(&transmit));
    }
}

static void kinds(void)
{
    struct canfd_frame made;
    memset(&made, 0, sizeof made);
    made.can_id = 0x123;
    CHECK(arrival_kind(made.can_id, CAN_MTU, 0) == ARRIVAL_ELEVEN_BIT);
    made.can_id = 0x123 | CAN_EFF_FLAG;
    CHECK(arrival_kind(made.can_id, CAN_MTU, 0) == ARRIVAL_FRAME);
    CHECK(arrival_kind(made.can_id, CAN_MTU, MSG_DONTROUTE) == ARRIVAL_FRAME); /* from another program of this machine */
    CHECK(arrival_kind(made.can_id, CAN_MTU, MSG_DONTROUTE | MSG_CONFIRM) == ARRIVAL_ECHO);
    CHECK(arrival_kind(made.can_id, CANFD_MTU, 0) == ARRIVAL_FD);
    made.can_id = 0x123 | CAN_EFF_FLAG | CAN_RTR_FLAG;
    CHECK(arrival_kind(made.can_id, CAN_MTU, 0) == ARRIVAL_REMOTE);
    made.can_id = 0x40 | CAN_ERR_FLAG;
    CHECK(arrival_kind(made.can_id, CAN_MTU, 0) == ARRIVAL_ERROR);
}

int main(void)
{
    one_frame();
    interface_fails();
    answers_by_rank();
    answers_in_order();
    kinds();
    return checks_end("transmit");
}
