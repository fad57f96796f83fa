/* How the answer to a network message is sent. */
#ifndef GATEWAY_ANSWERS_H
#define GATEWAY_ANSWERS_H

#include "unit.h"

/* The answer as one frame, for an answer of 1 to 8 bytes: a reply to the requester, an acknowledgment to all (its byte 5 names the requester), priority 6.
   False for no answer and for a longer one. */
bool answer_frame(const struct message_answer *answer, uint32_t requester, uint32_t source, struct can_frame *frame);

#endif
