/* The unit's network messages: those that arrive, and those by which the program itself sets and reads lists, as a tool on the service port would. */
#include "unit.h"

#include "identifier.h"
#include "name_entries.h"

#include <string.h>

#define SERVICE_PORT 1
#define REPLY_HEAD 3 /* bytes before the entries of a list */

/* As from a tool on a port. */
static void send_message(struct unit *unit, uint32_t port, uint32_t requester, const uint8_t *payload, size_t length,
                         struct message_answer *answer)
{
    uint64_t words[DEORASAENG_MESSAGE_ANSWER] = {0};
    answer->number = deorasaeng_message(unit->record, unit->words, port, requester, payload, length, answer->bytes,
                                        sizeof answer->bytes, words, DEORASAENG_MESSAGE_ANSWER);
    answer->pgn = words[DEORASAENG_PGN];
    answer->length = words[DEORASAENG_WRITTEN];
    answer->entry = words[DEORASAENG_ENTRY];
    answer->to = words[DEORASAENG_TO];
    answer->absent = words[DEORASAENG_ABSENT];
    if (answer->number == 0 && answer->pgn == PGN_ACKNOWLEDGMENT) /* a command was done */
        name_entries_follow(&unit->lists, unit->ports, payload, length);
}

void unit_tool(struct unit *unit, uint32_t port, const struct payload *payload, struct message_answer *answer)
{
    send_message(unit, port, unit_tell(unit).address, payload->bytes, payload->length, answer);
}

struct unit *unit_copy(const struct unit *unit)
{
    static struct unit copy;
    copy = *unit;
    return &copy;
}

/* A reply has no entries and mode 0 for a cleared pair and for an emptied block list. Delete of a PGN is refused for both, by different numbers. */
static enum list_mode mode_of_empty(struct unit *unit, uint32_t port, uint32_t from, uint32_t to)
{
    static struct payload payload;
    static struct message_answer answer;
    static const uint32_t ANY[] = {0};
    payload_delete(&payload, from, to, ANY, 1);
    unit_tool(unit, port, &payload, &answer);
    return answer.number == DEORASAENG_IS_CLEARED ? LIST_CLEARED : LIST_BLOCK;
}

/* The entries behind a reply's first bytes, up to the filling of a reply of 8 bytes: FF FF FF is no PGN, and two bytes are no entry. */
static void read_entries(const struct message_answer *answer, struct list *list)
{
    for (size_t at = REPLY_HEAD; at + PAYLOAD_ENTRY <= answer->length && list->count < LISTS_ENTRIES; at += PAYLOAD_ENTRY) {
        uint32_t pgn = payload_entry(answer->bytes + at);
        if (pgn == 0xFFFFFF)
            return;
        list->pgns[list->count++] = pgn;
    }
}

/* The only place where a list is read off the unit, as a tool on that port is told it: 0, or the number that refuses. */
static uint32_t read_list(struct unit *unit, uint32_t port, uint32_t from, uint32_t to, struct list *list)
{
    static struct payload payload;
    static struct message_answer answer;
    payload_request(&payload, from, to);
    unit_tool(unit, port, &payload, &answer);
    if (answer.number != 0 || answer.length < PAYLOAD_LEAST || answer.bytes[0] != FUNCTION_REQUEST_REPLY)
        return answer.number;
    list->count = 0; /* the NAME entries stay: no reply tells them */
    memset(list->pgns, 0, sizeof list->pgns);
    read_entries(&answer, list);
    list->mode = answer.bytes[2] != 0 ? LIST_PASS : list->count > 0 ? LIST_BLOCK : mode_of_empty(unit, port, from, to);
    return 0;
}

uint32_t unit_read_list(const struct unit *unit, uint32_t port, uint32_t from, uint32_t to, struct list *list)
{
    memset(list, 0, sizeof *list);
    if (from >= 1 && from <= unit->ports && to >= 1 && to <= unit->ports)
        *list = unit->lists.pair[from - 1][to - 1];
    return read_list(unit_copy(unit), port, from, to, list);
}

static void read_lists(struct unit *unit)
{
    for (uint32_t from = 1; from <= unit->ports; from++)
        for (uint32_t to = 1; to <= unit->ports; to++)
            if (from != to)
                read_list(unit, SERVICE_PORT, from, to, &unit->lists.pair[from - 1][to - 1]);
}

void unit_message(struct unit *unit, uint32_t port, uint32_t requester, const uint8_t *payload, size_t length, struct message_answer *answer)
{
    send_message(unit, port, requester, payload, length, answer);
    if (answer->number == 0 && answer->pgn == PGN_ACKNOWLEDGMENT) /* a command was done */
        read_lists(unit);
}

static uint32_t set_list(struct unit *unit, uint32_t from, uint32_t to, const struct list *list)
{
    static struct payload payloads[2];
    static struct message_answer answer;
    uint32_t count = payload_create(payloads, from, to, list->mode == LIST_PASS, list->pgns, list->count);
    answer.number = 0;
    for (uint32_t i = 0; i < count && answer.number == 0; i++)
        unit_tool(unit, SERVICE_PORT, &payloads[i], &answer);
    for (uint32_t i = 0; i < list->names_count && answer.number == 0; i++) {
        payload_name(&payloads[0], from, to, &list->names[i]);
        unit_tool(unit, SERVICE_PORT, &payloads[0], &answer);
    }
    return answer.number;
}

uint32_t unit_set_lists(struct unit *unit, const struct lists *lists)
{
    uint32_t number = 0;
    for (uint32_t from = 1; from <= unit->ports && number == 0; from++)
        for (uint32_t to = 1; to <= unit->ports && number == 0; to++)
            if (lists->pair[from - 1][to - 1].mode != LIST_CLEARED)
                number = set_list(unit, from, to, &lists->pair[from - 1][to - 1]);
    read_lists(unit);
    return number;
}

/* A counter of losses. False where it is not told. */
static bool read_losses(struct unit *unit, bool pair, uint32_t from, uint32_t to, uint32_t *value)
{
    static struct payload payload;
    static struct message_answer answer;
    payload_losses(&payload, pair, from, to);
    unit_tool(unit, SERVICE_PORT, &payload, &answer);
    if (answer.number != 0 || answer.length != PAYLOAD_LEAST || answer.bytes[0] != (pair ? FUNCTION_PAIR_PARAMETER_REPLY : FUNCTION_PARAMETER_REPLY))
        return false;
    *value = (uint32_t)answer.bytes[3] | (uint32_t)answer.bytes[4] << 8;
    return true;
}

void unit_losses(const struct unit *unit, struct unit_losses *losses)
{
    struct unit *copy = unit_copy(unit);
    memset(losses, 0, sizeof *losses);
    losses->told = read_losses(copy, false, 0, 0, &losses->general);
    for (uint32_t from = 1; from <= unit->ports; from++)
        for (uint32_t to = 1; to <= unit->ports; to++)
            if (from != to)
                losses->told = read_losses(copy, true, from, to, &losses->pair[from - 1][to - 1]) && losses->told;
}

int unit_addresses(const struct unit *unit, uint32_t port, uint8_t addresses[UNIT_ADDRESSES])
{
    static struct payload payload;
    static struct message_answer answer;
    int count = 0;
    payload_addresses(&payload, port);
    unit_tool(unit_copy(unit), SERVICE_PORT, &payload, &answer);
    if (answer.number != 0 || answer.length < PAYLOAD_LEAST || answer.bytes[0] != FUNCTION_ADDRESSES_REPLY)
        return -1;
    for (size_t at = 2; at < answer.length && answer.bytes[at] != 0xFF && count < UNIT_ADDRESSES; at++)
        addresses[count++] = answer.bytes[at];
    return count;
}
