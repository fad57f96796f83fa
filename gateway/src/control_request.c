#include "control_request.h"

#include "json_reader.h"
#include "number.h"

#include <stdarg.h>
#include <stdio.h>
#include <string.h>

#define PORT_MAX 15            /* what half a byte holds; the unit says which are ports */
#define ENTRY_MAX 0xFFFFFE     /* three bytes; FF FF FF is filling */
#define SOURCE_MAX 255

enum member { MEMBER_DO = 1, MEMBER_PORT = 2, MEMBER_FROM = 4, MEMBER_TO = 8, MEMBER_MODE = 16, MEMBER_PGNS = 32, MEMBER_GUARD = 64, MEMBER_PGN = 128, MEMBER_SOURCE = 256, MEMBER_NAME = 512, MEMBER_MASK = 1024,
              MEMBER_WHO = 2048 };

#define PAIR (MEMBER_FROM | MEMBER_TO)
#define LIST (PAIR | MEMBER_MODE | MEMBER_PGNS)

/* What a command needs, and what it may have besides. */
static const struct {
    const char *name;
    unsigned needed, allowed;
} COMMANDS[] = {
    [CONTROL_READ] = {"read", 0, PAIR},
    [CONTROL_ADD] = {"add", PAIR | MEMBER_PGNS, MEMBER_GUARD},
    [CONTROL_DELETE] = {"delete", PAIR | MEMBER_PGNS, MEMBER_GUARD},
    [CONTROL_CREATE] = {"create", LIST, MEMBER_GUARD},
    [CONTROL_CLEAR] = {"clear", PAIR, MEMBER_GUARD},
    [CONTROL_REPLACE] = {"replace", LIST, MEMBER_GUARD},
    [CONTROL_RESET] = {"reset", 0, PAIR},
    [CONTROL_ASK] = {"ask", MEMBER_FROM | MEMBER_PGN | MEMBER_SOURCE, 0},
    [CONTROL_NAME] = {"name", PAIR | MEMBER_PGN | MEMBER_NAME | MEMBER_MASK, MEMBER_GUARD},
};
_Static_assert(sizeof COMMANDS / sizeof COMMANDS[0] == CONTROL_COMMANDS, "a row for each command");

static const struct {
    const char *name;
    enum member member;
} MEMBERS[] = {
    {"do", MEMBER_DO},     {"port", MEMBER_PORT}, {"from", MEMBER_FROM},        {"to", MEMBER_TO},   {"mode", MEMBER_MODE},
    {"pgns", MEMBER_PGNS}, {"pgn", MEMBER_PGN},   {"if_list_is", MEMBER_GUARD}, {"source", MEMBER_SOURCE},
    {"name", MEMBER_NAME}, {"mask", MEMBER_MASK}, {"who", MEMBER_WHO},
};
#define MEMBERS_COUNT (sizeof MEMBERS / sizeof MEMBERS[0])

__attribute__((format(printf, 2, 3))) static bool wrong(char *error, const char *format, ...)
{
    va_list values;
    va_start(values, format);
    vsnprintf(error, CONTROL_ERROR_BYTES, format, values);
    va_end(values);
    return false;
}

static bool read_number(const char *value, uint32_t max, const char *name, uint32_t *number, char *error)
{
    uint64_t read;
    if (!json_is_number(value, max, &read))
        return wrong(error, "%s is not a number of 0 to %u", name, (unsigned)max);
    *number = (uint32_t)read;
    return true;
}

static bool read_to(const char *value, uint32_t *to, char *error)
{
    if (!json_is_string(value, "all"))
        return read_number(value, PORT_MAX, "to", to, error);
    *to = CONTROL_TO_ALL;
    return true;
}

static bool read_mode(const char *value, enum list_mode *mode, char *error)
{
    for (int i = LIST_CLEARED; i <= LIST_PASS; i++)
        if (json_is_string(value, list_mode_word((enum list_mode)i))) {
            *mode = (enum list_mode)i;
            return true;
        }
    return wrong(error, "mode is not block, pass or cleared");
}

static bool read_pgns(const char *value, uint32_t *pgns, uint32_t max, uint32_t *count, char *error)
{
    if (*value != '[')
        return wrong(error, "pgns is not an array of numbers");
    *count = 0;
    for (const char *element = json_first(value); element != NULL; element = json_next(element)) {
        uint64_t read;
        if (*count == max)
            return wrong(error, "pgns has more than %u entries", (unsigned)max);
        if (!json_is_number(element, ENTRY_MAX, &read))
            return wrong(error, "pgns: entry %u is not a number of 0 to %u", (unsigned)*count + 1, (unsigned)ENTRY_MAX);
        pgns[(*count)++] = (uint32_t)read;
    }
    return true;
}

/* {"mode":"block","pgns":[61444]}, and nothing else in it. */
static bool read_guard(const char *value, struct control_request *request, char *error)
{
    unsigned names = 0;
    const char *mode = json_member(value, "mode"), *pgns = json_member(value, "pgns");
    for (const char *name = json_first_name(value); name != NULL; name = json_next_name(name))
        names++;
    if (mode == NULL || pgns == NULL || names != 2)
        return wrong(error, "if_list_is needs mode and pgns, and no other");
    request->guarded = true;
    return read_mode(mode, &request->guard.mode, error) && read_pgns(pgns, request->guard.pgns, LISTS_ENTRIES, &request->guard.count, error);
}

static bool read_hex(const char *value, const char *name, uint64_t *number, char *error)
{
    char digits[24];
    json_read_string(value, digits, sizeof digits);
    return number_read_hex(digits, number) || wrong(error, "%s is not a string of up to 16 hex digits", name);
}

/* Printable ASCII without blanks, quotes and backslashes: a word that the log and the journal can have as it is. */
static bool read_who(const char *value, char who[HISTORY_WHO + 1], char *error)
{
    char word[HISTORY_WHO + 2];
    json_read_string(value, word, sizeof word);
    size_t length = strlen(word);
    for (size_t i = 0; i < length; i++)
        if (word[i] <= ' ' || word[i] > '~' || word[i] == '"' || word[i] == '\\')
            length = 0;
    if (length == 0 || length > HISTORY_WHO)
        return wrong(error, "who is not a word of 1 to %d printable characters", HISTORY_WHO);
    memcpy(who, word, length + 1);
    return true;
}

static bool read_command(const char *value, enum control_command *command, char *error)
{
    for (int i = 0; i < CONTROL_COMMANDS; i++)
        if (json_is_string(value, COMMANDS[i].name)) {
            *command = (enum control_command)i;
            return true;
        }
    return wrong(error, "do is not read, add, delete, create, clear, replace, reset, ask or name");
}

static bool read_member(enum member member, const char *value, struct control_request *request, char *error)
{
    switch (member) {
    case MEMBER_DO:
        return read_command(value, &request->command, error);
    case MEMBER_PORT:
        return read_number(value, PORT_MAX, "port", &request->port, error);
    case MEMBER_FROM:
        return read_number(value, PORT_MAX, "from", &request->from, error);
    case MEMBER_TO:
        return read_to(value, &request->to, error);
    case MEMBER_MODE:
        return read_mode(value, &request->mode, error);
    case MEMBER_PGNS:
        return read_pgns(value, request->pgns, CONTROL_ENTRIES, &request->count, error);
    case MEMBER_GUARD:
        return read_guard(value, request, error);
    case MEMBER_PGN:
        return read_number(value, ENTRY_MAX, "pgn", &request->pgn, error);
    case MEMBER_SOURCE:
        return read_number(value, SOURCE_MAX, "source", &request->source, error);
    case MEMBER_NAME:
        return read_hex(value, "name", &request->name, error);
    case MEMBER_MASK:
        return read_hex(value, "mask", &request->mask, error);
    case MEMBER_WHO:
        return read_who(value, request->who, error);
    }
    return false;
}

/* The members that the object has, each read; 0 where one is wrong. */
static unsigned read_members(const char *object, struct control_request *request, char *error)
{
    unsigned found = 0;
    for (const char *name = json_first_name(object); name != NULL; name = json_next_name(name)) {
        size_t i = 0;
        while (i < MEMBERS_COUNT && !json_is_string(name, MEMBERS[i].name))
            i++;
        if (i == MEMBERS_COUNT)
            return wrong(error, "a member that no command has");
        if ((found & MEMBERS[i].member) != 0)
            return wrong(error, "%s stands there twice", MEMBERS[i].name);
        if (!read_member(MEMBERS[i].member, json_value(name), request, error))
            return 0;
        found |= MEMBERS[i].member;
    }
    if ((found & MEMBER_DO) == 0)
        return wrong(error, "do is missing: read, add, delete, create, clear, replace, reset, ask or name");
    return found;
}

/* The first member of a set, by its name. */
static const char *name_of(unsigned set)
{
    for (size_t i = 0; i < MEMBERS_COUNT; i++)
        if ((set & MEMBERS[i].member) != 0)
            return MEMBERS[i].name;
    return "";
}

/* What holds of members together. */
static bool judge(struct control_request *request, unsigned found, char *error)
{
    unsigned needed = COMMANDS[request->command].needed, allowed = needed | COMMANDS[request->command].allowed | MEMBER_DO | MEMBER_PORT | MEMBER_WHO;
    const char *command = COMMANDS[request->command].name;
    if ((needed & ~found) != 0)
        return wrong(error, "%s needs %s", command, name_of(needed & ~found));
    if ((found & ~allowed) != 0)
        return wrong(error, "%s has no %s", command, name_of(found & ~allowed));
    if (request->command != CONTROL_ASK && (found & PAIR) != 0 && (found & PAIR) != PAIR)
        return wrong(error, "%s needs from and to, or neither", command);
    request->pair = (found & PAIR) == PAIR;
    if (request->guarded && request->to == CONTROL_TO_ALL)
        return wrong(error, "if_list_is is for one pair");
    if ((request->command == CONTROL_ADD || request->command == CONTROL_DELETE) && request->count == 0)
        return wrong(error, "%s needs at least one PGN", command);
    if (request->mode == LIST_CLEARED && (found & MEMBER_MODE) != 0 && (request->command == CONTROL_CREATE || request->count > 0))
        return wrong(error, "a cleared pair has no list: %s", request->command == CONTROL_CREATE ? "mode is block or pass" : "pgns is to be []");
    if (request->command == CONTROL_ASK && !number_is_pgn(request->pgn))
        return wrong(error, "pgn is not a PGN");
    return true;
}

bool control_request_read(const char *line, size_t length, struct control_request *request, char error[CONTROL_ERROR_BYTES])
{
    const char *object = line + strspn(line, " \t\r\n");
    memset(request, 0, sizeof *request);
    request->port = 1;
    if (!json_whole(line, length) || *object != '{')
        return wrong(error, "not a JSON object");
    unsigned found = read_members(object, request, error);
    return found != 0 && judge(request, found, error);
}
