#include "answers.h"

#include "identifier.h"

#include <string.h>

#define PRIORITY UINT32_C(6)

bool answer_frame(const struct message_answer *answer, uint32_t requester, uint32_t source, struct can_frame *frame)
{
    if (answer->pgn == 0 || answer->length == 0 || answer->length > CAN_MAX_DLEN)
        return false;
    uint32_t destination = answer->pgn == PGN_ACKNOWLEDGMENT ? ADDRESS_GLOBAL : requester;
    memset(frame, 0, sizeof *frame);
    frame->can_id = CAN_EFF_FLAG | PRIORITY << 26 | (uint32_t)answer->pgn << 8 | destination << 8 | source;
    frame->len = (uint8_t)answer->length;
    memcpy(frame->data, answer->bytes, answer->length);
    return true;
}
