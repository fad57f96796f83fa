/* A network message from a bus or through the control socket: handed in, written down, and saved where it changed a list. */
#include "gateway.h"
#include "identifier.h"
#include "log.h"
#include "refusal.h"

#include <inttypes.h>
#include <stdio.h>

#define WORDS_BYTES 128

/* Which entry was wrong, in words; empty where the unit does not say. */
static void entry_words(const struct message_answer *answer, char words[WORDS_BYTES])
{
    words[0] = '\0';
    if (answer->entry != 0 && answer->to != 0)
        snprintf(words, WORDS_BYTES, ", entry %" PRIu64 ": PGN %" PRIu64 " is not listed to port %" PRIu64, answer->entry, answer->absent, answer->to);
    else if (answer->entry != 0)
        snprintf(words, WORDS_BYTES, ", entry %" PRIu64, answer->entry);
}

static void tell(const struct history_command *command, const struct message_answer *answer)
{
    char entry[WORDS_BYTES], who[WORDS_BYTES];
    entry_words(answer, entry);
    if (command->sender.control)
        snprintf(who, sizeof who, "process %" PRIu32 " of user %" PRIu32 "%s%s", command->sender.pid, command->sender.uid, command->sender.who[0] == '\0' ? "" : " for ", command->sender.who);
    else
        snprintf(who, sizeof who, "address %" PRIu32, command->requester);
    if (command->number == 0)
        log_line(LOG_INFO, "port %" PRIu32 ": message from %s, function %" PRIu32 ", pair %02" PRIX32 ": done", command->port, who, command->function, command->pair);
    else
        log_line(LOG_INFO, "port %" PRIu32 ": message from %s, function %" PRIu32 ", pair %02" PRIX32 ": refused with %" PRIu32 " (%s%s)", command->port, who,
                 command->function, command->pair, command->number, refusal_words(command->number), entry);
}

void gateway_note(struct gateway *gateway, const struct history_sender *sender, uint32_t port, uint32_t requester, const uint8_t *payload, size_t length,
                  int64_t now, const struct message_answer *answer)
{
    const struct history_command command = {
        .at = now, .sender = *sender, .port = port, .requester = requester,
        .function = length > 0 ? payload[0] : 0, .pair = length > 1 ? payload[1] : 0,
        .number = answer->number, .entry = answer->entry, .to = answer->to, .absent = answer->absent,
    };
    tell(&command, answer);
    /* A request that was answered is no command; one that was refused tells who tried. */
    if (answer->number != 0 || answer->pgn == PGN_ACKNOWLEDGMENT)
        history_add_command(&gateway->history, &command);
}

void gateway_message(struct gateway *gateway, const struct history_sender *sender, uint32_t port, uint32_t requester, const uint8_t *payload, size_t length,
                     int64_t now, struct message_answer *answer)
{
    struct lists before = gateway->unit.lists;
    unit_message(&gateway->unit, port, requester, payload, length, answer);
    gateway_note(gateway, sender, port, requester, payload, length, now, answer);
    if (!lists_equal(&before, &gateway->unit.lists))
        saver_want(&gateway->saver);
}
