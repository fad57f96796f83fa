/* What one port is sending.

   At most one frame that was taken from the unit is in hand, and at most one frame at all is with the kernel. A frame is done with when the kernel has given it back
   as sent (its echo); one that was with the kernel when the interface failed is sent again, so nothing that was taken is lost. Answers to network messages wait
   beside the hand: they go before a frame of their own rank or a lower one, and after a higher. No system calls here. */
#ifndef GATEWAY_TRANSMIT_H
#define GATEWAY_TRANSMIT_H

#include <linux/can.h>
#include <stdbool.h>
#include <stdint.h>

#define TRANSMIT_ANSWERS 8

enum transmit_flight { FLIGHT_NONE, FLIGHT_TAKEN, FLIGHT_ANSWER };

struct transmit {
    struct can_frame taken;
    bool in_hand;
    struct can_frame answers[TRANSMIT_ANSWERS]; /* a ring */
    uint32_t answers_first, answers_count;
    enum transmit_flight flight;                /* which of the two is with the kernel */
};

/* A frame may be taken from the unit: nothing is in hand and nothing with the kernel. */
bool transmit_wants_frame(const struct transmit *transmit);

/* The frame that was taken. */
void transmit_take(struct transmit *transmit, const struct can_frame *frame);

bool transmit_has_room(const struct transmit *transmit);

/* An answer to be sent; there has to be room. */
void transmit_answer(struct transmit *transmit, const struct can_frame *frame);

/* The frame to give to the kernel now, or NULL. */
const struct can_frame *transmit_next(const struct transmit *transmit);

/* The kernel took what transmit_next gave. */
void transmit_given(struct transmit *transmit);

/* The kernel sent this frame: what is done with by that, FLIGHT_NONE for an echo that is not of the frame awaited. */
enum transmit_flight transmit_echo(struct transmit *transmit, const struct can_frame *frame);

/* The frame with the kernel counts as sent without its echo. */
enum transmit_flight transmit_assume(struct transmit *transmit);

/* The frame with the kernel will not be sent: it is to be given again. True if there was one. */
bool transmit_return(struct transmit *transmit);

#endif
