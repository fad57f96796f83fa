#include "control.h"

#include "refusal.h"
#include "status.h"

#include <string.h>

/* Clear, Create and what empties the new list. */
#define STEPS_MAX 3

/* What a command is in messages: done as one step, whole or not at all. */
struct steps {
    uint32_t count;
    struct payload payloads[STEPS_MAX];
};

static void make_steps(const struct control_request *request, struct steps *steps)
{
    uint32_t from = request->from, to = request->to;
    bool pass = request->mode == LIST_PASS;
    steps->count = 1;
    switch (request->command) {
    case CONTROL_ADD:
        payload_add(&steps->payloads[0], from, to, request->pgns, request->count);
        break;
    case CONTROL_DELETE:
        payload_delete(&steps->payloads[0], from, to, request->pgns, request->count);
        break;
    case CONTROL_CREATE:
        steps->count = payload_create(steps->payloads, from, to, pass, request->pgns, request->count);
        break;
    case CONTROL_REPLACE:
        payload_clear(&steps->payloads[0], from, to);
        if (request->mode != LIST_CLEARED)
            steps->count += payload_create(&steps->payloads[1], from, to, pass, request->pgns, request->count);
        break;
    case CONTROL_NAME:
        payload_name(&steps->payloads[0], from, to, &(struct name_entry){request->pgn, request->name, request->mask});
        break;
    case CONTROL_RESET:
        payload_reset(&steps->payloads[0], request->pair, from, to);
        break;
    default:
        payload_clear(&steps->payloads[0], from, to);
        break;
    }
}

/* The first step that a copy of the record refuses, or the number of steps; calls on the record itself will end the same. */
static uint32_t try_steps(const struct gateway *gateway, uint32_t port, const struct steps *steps, struct message_answer *answer)
{
    struct unit *copy = unit_copy(&gateway->unit);
    for (uint32_t i = 0; i < steps->count; i++) {
        unit_tool(copy, port, &steps->payloads[i], answer);
        if (answer->number != 0)
            return i;
    }
    return steps->count;
}

static void do_steps(struct gateway *gateway, const struct history_sender *sender, uint32_t port, const struct steps *steps, int64_t now,
                     struct message_answer *answer)
{
    uint32_t requester = unit_tell(&gateway->unit).address, refused = try_steps(gateway, port, steps, answer);
    if (refused < steps->count) {
        gateway_note(gateway, sender, port, requester, steps->payloads[refused].bytes, steps->payloads[refused].length, now, answer);
        return;
    }
    for (uint32_t i = 0; i < steps->count && answer->number == 0; i++)
        gateway_message(gateway, sender, port, requester, steps->payloads[i].bytes, steps->payloads[i].length, now, answer);
}

static void write_number(struct json *json, uint32_t number)
{
    json_number(json, "number", number);
    json_string(json, "words", refusal_words(number));
}

/* Which entry was wrong. */
static void write_entry(struct json *json, const struct message_answer *answer)
{
    if (answer->entry != 0)
        json_number(json, "entry", answer->entry);
    if (answer->to != 0) {
        json_number(json, "to", answer->to);
        json_number(json, "absent", answer->absent);
    }
}

/* The pair is one that the request names. */
static bool named(const struct control_request *request, uint32_t from, uint32_t to)
{
    return from != to && (!request->pair || (from == request->from && (to == request->to || request->to == CONTROL_TO_ALL)));
}

/* The lists of the named pairs as they are now, as far as a tool on that port is told them. */
static void write_lists(struct json *json, const struct gateway *gateway, const struct control_request *request)
{
    json_array(json, "lists");
    for (uint32_t from = 1; from <= gateway->options.ports; from++)
        for (uint32_t to = 1; to <= gateway->options.ports; to++) {
            struct list list;
            if (named(request, from, to) && unit_read_list(&gateway->unit, request->port, from, to, &list) == 0)
                status_list(json, from, to, &list);
        }
    json_end_array(json);
}

/* The number of a read: that of the one pair, else 0 where the tool is told any. */
static uint32_t read_number(const struct gateway *gateway, const struct control_request *request)
{
    struct list list;
    uint32_t number = 0;
    if (request->pair && request->to != CONTROL_TO_ALL)
        return unit_read_list(&gateway->unit, request->port, request->from, request->to, &list);
    for (uint32_t from = 1; from <= gateway->options.ports; from++)
        for (uint32_t to = 1; to <= gateway->options.ports; to++) {
            if (!named(request, from, to))
                continue;
            number = unit_read_list(&gateway->unit, request->port, from, to, &list);
            if (number == 0)
                return 0;
        }
    return request->pair && number == 0 ? (uint32_t)DEORASAENG_WRONG_PAIR : number; /* From is no port */
}

/* Why a frame of that PGN and source would cross to each port, or not; a tool is told of its own pairs. */
static void write_asked(struct json *json, const struct gateway *gateway, const struct control_request *request)
{
    struct can_frame frame;
    struct frame_answer answer;
    uint32_t first = 0;
    memset(&frame, 0, sizeof frame);
    uint32_t destination = (request->pgn >> 8 & 0xFF) < 240 ? 0xFF00 : 0; /* to all */
    frame.can_id = CAN_EFF_FLAG | UINT32_C(6) << 26 | request->pgn << 8 | destination | request->source;
    unit_frame(unit_copy(&gateway->unit), request->from, &frame, &answer);
    if (answer.number == 0 && unit_state(&gateway->unit) != DEORASAENG_STATE_CLAIMED)
        first = DEORASAENG_NOT_CLAIMED;
    write_number(json, answer.number != 0 ? answer.number : first);
    if (answer.number != 0 || first != 0)
        return;
    json_array(json, "ports");
    for (uint32_t port = 1; port <= gateway->options.ports; port++) {
        struct list list;
        if (port == request->from)
            continue;
        uint32_t number = unit_read_list(&gateway->unit, request->port, request->from, port, &list);
        json_object(json, NULL);
        json_number(json, "port", port);
        if (number == 0)
            json_string(json, "reason", reason_word(DEORASAENG_REASON(answer.reasons, port)));
        else
            write_number(json, number);
        json_end_object(json);
    }
    json_end_array(json);
}

/* The list that the request was made for is there no more, or never was. A tool that may not read it gets no further by a guard. */
static bool guard_fails(const struct gateway *gateway, const struct control_request *request)
{
    struct list list;
    return request->guarded && unit_read_list(&gateway->unit, request->port, request->from, request->to, &list) == 0 && !list_same_pgns(&list, &request->guard);
}

static void answer_request(struct json *json, struct gateway *gateway, const struct history_sender *sender, const struct control_request *request, int64_t now)
{
    static struct steps steps;
    static struct message_answer answer;
    if (request->command == CONTROL_ASK) {
        write_asked(json, gateway, request);
        return;
    }
    if (guard_fails(gateway, request))
        json_string(json, "error", "the list is not the one of if_list_is: nothing is done");
    else if (request->command == CONTROL_READ)
        write_number(json, read_number(gateway, request));
    else {
        make_steps(request, &steps);
        do_steps(gateway, sender, request->port, &steps, now, &answer);
        write_number(json, answer.number);
        write_entry(json, &answer);
    }
    if (request->pair || request->command == CONTROL_READ)
        write_lists(json, gateway, request);
}

/* Closes the document and its line. One that does not fit, which cannot be, is an error in its place. */
static size_t finish(struct json *json, size_t size)
{
    json_end_object(json);
    if (json->full || json->length == size)
        return control_error("an answer that does not fit", json->bytes, size);
    json->bytes[json->length++] = '\n';
    return json->length;
}

size_t control_error(const char *words, char *answer, size_t size)
{
    struct json json;
    json_begin(&json, answer, size);
    json_object(&json, NULL);
    json_string(&json, "error", words);
    json_end_object(&json);
    if (json.full || json.length == size)
        return 0;
    answer[json.length++] = '\n';
    return json.length;
}

size_t control_line(struct gateway *gateway, const struct history_sender *sender, const char *line, size_t length, int64_t now, char *answer, size_t size)
{
    static struct control_request request;
    char error[CONTROL_ERROR_BYTES];
    struct json json;
    if (!control_request_read(line, length, &request, error))
        return control_error(error, answer, size);
    struct history_sender whose = *sender;
    memcpy(whose.who, request.who, sizeof whose.who);
    json_begin(&json, answer, size);
    json_object(&json, NULL);
    answer_request(&json, gateway, &whose, &request, now);
    return finish(&json, size);
}
