#include "command.h"

#include "../../gateway/src/json.h"
#include "../../gateway/src/json_reader.h"

#include <stdio.h>
#include <string.h>

static const char *const WORDS[] = {
    [CONTROL_READ] = "read", [CONTROL_ADD] = "add", [CONTROL_DELETE] = "delete", [CONTROL_CREATE] = "create", [CONTROL_CLEAR] = "clear",
    [CONTROL_REPLACE] = "replace", [CONTROL_RESET] = "reset", [CONTROL_ASK] = "ask", [CONTROL_NAME] = "name",
};
_Static_assert(sizeof WORDS / sizeof WORDS[0] == CONTROL_COMMANDS, "a word for each command");

const char *command_word(const struct command *command)
{
    return WORDS[command->request.command];
}

static void put_pgns(struct json *json, const uint32_t *pgns, uint32_t count)
{
    json_array(json, "pgns");
    for (uint32_t i = 0; i < count; i++)
        json_number(json, NULL, pgns[i]);
    json_end_array(json);
}

/* The pair, or for `ask` the port that the frame comes from. */
static void put_pair(struct json *json, const struct control_request *request)
{
    if (!request->pair && request->command != CONTROL_ASK)
        return;
    json_number(json, "from", request->from);
    if (request->command == CONTROL_ASK)
        return;
    if (request->to == CONTROL_TO_ALL)
        json_string(json, "to", "all");
    else
        json_number(json, "to", request->to);
}

static void put_body(struct json *json, const struct control_request *request)
{
    switch (request->command) {
    case CONTROL_CREATE:
    case CONTROL_REPLACE:
        json_string(json, "mode", list_mode_word(request->mode));
        put_pgns(json, request->pgns, request->count);
        break;
    case CONTROL_ADD:
    case CONTROL_DELETE:
        put_pgns(json, request->pgns, request->count);
        break;
    case CONTROL_ASK:
        json_number(json, "pgn", request->pgn);
        json_number(json, "source", request->source);
        break;
    case CONTROL_NAME:
        json_number(json, "pgn", request->pgn);
        json_hex(json, "name", request->name);
        json_hex(json, "mask", request->mask);
        break;
    default:
        break;
    }
    if (request->guarded) {
        json_object(json, "if_list_is");
        json_string(json, "mode", list_mode_word(request->guard.mode));
        put_pgns(json, request->guard.pgns, request->guard.count);
        json_end_object(json);
    }
}

/* False where it does not fit. */
static bool write_line(struct command *command, const struct user *user)
{
    struct json json;
    json_begin(&json, command->line, CONTROL_LINE_BYTES);
    json_object(&json, NULL);
    json_string(&json, "do", command_word(command));
    json_number(&json, "port", user->port);
    json_string(&json, "who", user->name);
    put_pair(&json, &command->request);
    put_body(&json, &command->request);
    json_end_object(&json);
    if (json.full)
        return false;
    command->line[json.length] = '\n';
    command->length = json.length + 1;
    return true;
}

enum command_judged command_judge(struct command *command, const char *text, size_t length, const struct user *user)
{
    command->error[0] = '\0';
    if (!control_request_read(text, length, &command->request, command->error))
        return COMMAND_WRONG;
    const char *object = text + strspn(text, " \t\r\n");
    if (json_member(object, "port") != NULL || json_member(object, "who") != NULL) {
        snprintf(command->error, sizeof command->error, "port and who are the page's to say");
        return COMMAND_WRONG;
    }
    bool asks = command->request.command == CONTROL_READ || command->request.command == CONTROL_ASK;
    if (user->role == ROLE_VIEWER && !asks)
        return COMMAND_NOT_YOURS;
    if (write_line(command, user))
        return COMMAND_GOOD;
    snprintf(command->error, sizeof command->error, "more than a line of the control socket holds");
    return COMMAND_WRONG;
}
