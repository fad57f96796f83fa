/* The last frames that did not cross and the last commands in the status document, the last one first. */
#include "identifier.h"
#include "refusal.h"
#include "status.h"

#include <inttypes.h>
#include <stdio.h>

/* The ports of a mask. */
static void write_mask(struct json *json, const char *name, uint64_t mask)
{
    json_array(json, name);
    for (uint32_t port = 1; port <= GATEWAY_PORTS_MAX; port++)
        if ((mask >> (port - 1) & 1) != 0)
            json_number(json, NULL, port);
    json_end_array(json);
}

/* The number that refuses it, with its words. */
static void write_number(struct json *json, uint32_t number)
{
    json_number(json, "number", number);
    json_string(json, "words", refusal_words(number));
}

static void write_frame(struct json *json, const struct history_frame *frame, uint32_t ports, const struct status_moment *moment)
{
    char id[16];
    snprintf(id, sizeof id, "%08" PRIX32, frame->id);
    json_object(json, NULL);
    status_time(json, moment, frame->at);
    json_number(json, "port", frame->port);
    json_string(json, "id", id);
    json_number(json, "pgn", identifier_pgn(frame->id));
    json_number(json, "source", identifier_source(frame->id));
    if (frame->number != 0)
        write_number(json, frame->number);
    else {
        write_mask(json, "stopped", frame->stopped);
        write_mask(json, "lost", frame->lost);
        json_array(json, "reasons");
        for (uint32_t port = 1; port <= ports; port++)
            json_string(json, NULL, reason_word(DEORASAENG_REASON(frame->reasons, port)));
        json_end_array(json);
    }
    json_end_object(json);
}

void status_frames(struct json *json, const struct gateway *gateway, const struct status_moment *moment)
{
    json_array(json, "frames");
    for (uint32_t i = 0; i < HISTORY_SIZE; i++) {
        const struct history_frame *frame = history_frame(&gateway->history, i);
        if (frame != NULL)
            write_frame(json, frame, gateway->options.ports, moment);
    }
    json_end_array(json);
}

static void write_sender(struct json *json, const struct history_command *command)
{
    json_string(json, "by", command->sender.control ? "control" : "bus");
    json_number(json, "port", command->port);
    if (!command->sender.control) {
        json_number(json, "requester", command->requester);
        return;
    }
    json_number(json, "pid", command->sender.pid);
    json_number(json, "uid", command->sender.uid);
    json_number(json, "gid", command->sender.gid);
    if (command->sender.who[0] != '\0')
        json_string(json, "who", command->sender.who);
}

static void write_command(struct json *json, const struct history_command *command, const struct status_moment *moment)
{
    char pair[8];
    snprintf(pair, sizeof pair, "%02" PRIX32, command->pair & 0xFF);
    json_object(json, NULL);
    status_time(json, moment, command->at);
    write_sender(json, command);
    json_number(json, "function", command->function);
    json_string(json, "pair", pair);
    write_number(json, command->number);
    if (command->entry != 0)
        json_number(json, "entry", command->entry);
    if (command->to != 0) {
        json_number(json, "to", command->to);
        json_number(json, "absent", command->absent);
    }
    json_end_object(json);
}

void status_commands(struct json *json, const struct gateway *gateway, const struct status_moment *moment)
{
    json_array(json, "commands");
    for (uint32_t i = 0; i < HISTORY_SIZE; i++) {
        const struct history_command *command = history_command(&gateway->history, i);
        if (command != NULL)
            write_command(json, command, moment);
    }
    json_end_array(json);
}
