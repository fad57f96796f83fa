/* deorasaeng-control: a command to the gateway's control socket, in words there and back. */
#include "client.h"
#include "control_request.h"
#include "json.h"
#include "json_reader.h"
#include "number.h"
#include "version.h"

#include <errno.h>
#include <inttypes.h>
#include <stdio.h>
#include <string.h>

#define REPLY_BYTES 131072
#define INPUT_BYTES 65536
#define WORDS_BYTES 160

static const char PROGRAM[] = "deorasaeng-control";
static const char USAGE[] =
    "usage: deorasaeng-control [--port PORT] [--if LIST] [--json] PATH COMMAND ..\n"
    "Asks or changes the gateway whose --control PATH this is, as a tool on port PORT, 1 where none is given.\n"
    "  read [FROM TO]                            the list from a port to another; without ports all that the tool may read\n"
    "  add FROM TO PGN ..                        to a list that is there\n"
    "  delete FROM TO PGN ..                     from it\n"
    "  create FROM TO block|pass [PGN ..]        a list on a cleared pair\n"
    "  clear FROM TO                             the pair lets all cross\n"
    "  replace FROM TO block|pass|cleared [PGN ..]  whatever was there; done whole or not at all\n"
    "  reset [FROM TO]                           the counter of lost frames, of a pair or of the unit\n"
    "  ask FROM PGN SOURCE                       why a frame from that port would cross to each port, or not\n"
    "  name FROM TO PGN NAME MASK                an entry by who sent it, for a list that is there; NAME and MASK are hex\n"
    "TO may be `all`. Numbers are decimal or 0x hex; PGNs may be parted by commas or semicolons too, and - reads them from standard input.\n"
    "--if 'block 61444 65265' does it only if the list is that one now. --json prints the answer as it comes.\n"
    "The status is 0 for done, 1 for refused or no answer, 2 for a wrong command line.\n";

/* What the command line says. */
struct order {
    bool json;
    const char *port, *guard, *path;
    char *const *words; /* the command and what stands behind it */
    int count;
};

static uint32_t entries[CONTROL_ENTRIES];
static uint32_t entries_count;

static void complain(const char *what, const char *why)
{
    fprintf(stderr, "%s: %s: %s\n", PROGRAM, what, why);
}

/* A number as a member; false after a message. */
static bool put_number(struct json *json, const char *name, const char *word)
{
    uint32_t number;
    if (!number_read(word, UINT32_MAX, &number)) {
        complain(word, "not a number, decimal or 0x hex");
        return false;
    }
    json_number(json, name, number);
    return true;
}

/* PGNs that are parted by blanks, commas or semicolons; the text is cut up by that. */
static bool put_pgns(struct json *json, char *text)
{
    for (char *rest, *word = strtok_r(text, " \t\r\n,;", &rest); word != NULL; word = strtok_r(NULL, " \t\r\n,;", &rest)) {
        if (entries_count == CONTROL_ENTRIES || !put_number(json, NULL, word)) {
            if (entries_count == CONTROL_ENTRIES)
                complain(word, "more PGNs than a line holds");
            return false;
        }
        if (!number_read(word, UINT32_MAX, &entries[entries_count++]))
            return false;
    }
    return true;
}

static bool put_input(struct json *json)
{
    static char text[INPUT_BYTES];
    size_t length = fread(text, 1, sizeof text - 1, stdin);
    text[length] = '\0';
    if (ferror(stdin) != 0 || feof(stdin) == 0) {
        complain("standard input", ferror(stdin) != 0 ? strerror(errno) : "more PGNs than a line holds");
        return false;
    }
    return put_pgns(json, text);
}

static bool put_list(struct json *json, char *const *words, int count)
{
    json_array(json, "pgns");
    for (int i = 0; i < count; i++)
        if (!(strcmp(words[i], "-") == 0 ? put_input(json) : put_pgns(json, words[i])))
            return false;
    json_end_array(json);
    return true;
}

static bool put_pair(struct json *json, char *const *words)
{
    if (!put_number(json, "from", words[0]))
        return false;
    if (strcmp(words[1], "all") != 0)
        return put_number(json, "to", words[1]);
    json_string(json, "to", "all");
    return true;
}

/* The list of --if: its mode and its PGNs in one word. */
static bool put_guard(struct json *json, const char *guard)
{
    static char text[INPUT_BYTES];
    if (guard == NULL)
        return true;
    if (snprintf(text, sizeof text, "%s", guard) >= (int)sizeof text) {
        complain("--if", "more PGNs than a line holds");
        return false;
    }
    char *rest, *mode = strtok_r(text, " \t,;:", &rest);
    json_object(json, "if_list_is");
    json_string(json, "mode", mode == NULL ? "" : mode);
    json_array(json, "pgns");
    uint32_t before = entries_count;
    bool done = mode == NULL || put_pgns(json, rest);
    entries_count = before;
    json_end_array(json);
    json_end_object(json);
    return done;
}

/* How many words a command has behind it: at least, at most, and whether a pair, a mode and PGNs are among them. */
static const struct form {
    const char *name;
    int least, most;
    bool mode, pgns;
} FORMS[] = {
    {"read", 0, 2, false, false},    {"add", 3, INT16_MAX, false, true},     {"delete", 3, INT16_MAX, false, true}, {"create", 3, INT16_MAX, true, true},
    {"clear", 2, 2, false, false},   {"replace", 3, INT16_MAX, true, true},  {"reset", 0, 2, false, false},         {"ask", 3, 3, false, false},
    {"name", 5, 5, false, false},
};

static const struct form *form_of(const char *name)
{
    for (size_t i = 0; i < sizeof FORMS / sizeof FORMS[0]; i++)
        if (strcmp(name, FORMS[i].name) == 0)
            return &FORMS[i];
    return NULL;
}

static bool put_words(struct json *json, const struct form *form, char *const *words, int count)
{
    if (strcmp(form->name, "ask") == 0)
        return put_number(json, "from", words[0]) && put_number(json, "pgn", words[1]) && put_number(json, "source", words[2]);
    if (count > 0 && !put_pair(json, words))
        return false;
    if (strcmp(form->name, "name") == 0) {
        json_string(json, "name", words[3]);
        json_string(json, "mask", words[4]);
        return put_number(json, "pgn", words[2]);
    }
    if (form->mode)
        json_string(json, "mode", words[2]);
    return !form->pgns || put_list(json, words + 2 + form->mode, count - 2 - form->mode);
}

/* The request as a line: its length, or 0 after a message. */
static size_t write_line(const struct order *order, char *line, size_t size)
{
    struct json json;
    const struct form *form = form_of(order->words[0]);
    int count = order->count - 1;
    if (form == NULL || count < form->least || count > form->most || (form->least == 0 && count == 1)) {
        complain(order->words[0], form == NULL ? "no such command" : "words are missing or too many");
        fputs(USAGE, stderr);
        return 0;
    }
    json_begin(&json, line, size - 1);
    json_object(&json, NULL);
    json_string(&json, "do", form->name);
    if ((order->port != NULL && !put_number(&json, "port", order->port)) || !put_words(&json, form, order->words + 1, count) || !put_guard(&json, order->guard))
        return 0;
    json_end_object(&json);
    if (json.full) {
        complain("PGNs", "more than a line holds");
        return 0;
    }
    line[json.length] = '\n';
    return json.length + 1;
}

static void show_pgns(const char *pgns)
{
    for (const char *pgn = json_first(pgns); pgn != NULL; pgn = json_next(pgn))
        printf(" %" PRIu64, json_read_number(pgn));
}

static void show_names(const char *names)
{
    for (const char *entry = json_first(names); entry != NULL; entry = json_next(entry)) {
        char name[WORDS_BYTES], mask[WORDS_BYTES];
        json_read_string(json_member(entry, "name"), name, sizeof name);
        json_read_string(json_member(entry, "mask"), mask, sizeof mask);
        printf("    %" PRIu64 " of NAME %s, mask %s\n", json_read_number(json_member(entry, "pgn")), name, mask);
    }
}

static void show_lists(const char *lists)
{
    for (const char *list = json_first(lists); list != NULL; list = json_next(list)) {
        char mode[WORDS_BYTES];
        json_read_string(json_member(list, "mode"), mode, sizeof mode);
        printf("  %" PRIu64 " to %" PRIu64 " %s", json_read_number(json_member(list, "from")), json_read_number(json_member(list, "to")), mode);
        if (strcmp(mode, "cleared") != 0)
            printf(":");
        show_pgns(json_member(list, "pgns"));
        printf("\n");
        show_names(json_member(list, "names"));
    }
}

static void show_ports(const char *ports)
{
    for (const char *port = json_first(ports); port != NULL; port = json_next(port)) {
        char words[WORDS_BYTES];
        const char *reason = json_member(port, "reason");
        json_read_string(reason == NULL ? json_member(port, "words") : reason, words, sizeof words);
        printf("  to port %" PRIu64 ": %s\n", json_read_number(json_member(port, "port")), words);
    }
}

/* Which entry was wrong, by what was typed. */
static void show_entry(const char *reply)
{
    uint64_t entry;
    if (!json_is_number(json_member(reply, "entry"), UINT32_MAX, &entry))
        return;
    printf("; entry %" PRIu64, entry);
    if (entry >= 1 && entry <= entries_count)
        printf(" is %" PRIu32, entries[entry - 1]);
    if (json_member(reply, "to") != NULL)
        printf(", which is not in the list to port %" PRIu64, json_read_number(json_member(reply, "to")));
}

static int show(const char *reply)
{
    char words[WORDS_BYTES];
    uint64_t number = 0;
    const char *error = json_member(reply, "error");
    json_read_string(error == NULL ? json_member(reply, "words") : error, words, sizeof words);
    if (error == NULL && !json_is_number(json_member(reply, "number"), UINT32_MAX, &number)) {
        complain("the answer", "neither a number nor an error");
        return 1;
    }
    if (error != NULL)
        printf("not done: %s", words);
    else if (number != 0)
        printf("refused with %" PRIu64 ": %s", number, words);
    else
        printf("%s", words);
    show_entry(reply);
    printf("\n");
    show_ports(json_member(reply, "ports"));
    show_lists(json_member(reply, "lists"));
    return error != NULL || number != 0;
}

static int run(const struct order *order)
{
    static char line[CONTROL_LINE_BYTES + 2], reply[REPLY_BYTES];
    size_t length = write_line(order, line, sizeof line);
    if (length == 0)
        return 2;
    ssize_t got = client_exchange(order->path, line, length, reply, sizeof reply, CLIENT_LINE, CLIENT_PATIENCE);
    bool whole = got > 0 && reply[got - 1] == '\n' && *reply == '{' && json_whole(reply, (size_t)got);
    if (!whole) {
        complain(order->path, got < 0 ? client_error(errno) : "an answer that is empty, cut or garbled");
        return 1;
    }
    int status = order->json ? fputs(reply, stdout) < 0 || json_member(reply, "error") != NULL || json_read_number(json_member(reply, "number")) != 0 : show(reply);
    return fflush(stdout) == 0 ? status : 1;
}

/* The options in front: how many words they take, or -1. */
static int read_options(int argc, char *argv[], struct order *order)
{
    int at = 1;
    for (; at < argc && strncmp(argv[at], "--", 2) == 0; at++) {
        if (strcmp(argv[at], "--json") == 0)
            order->json = true;
        else if (strcmp(argv[at], "--port") == 0 && at + 1 < argc)
            order->port = argv[++at];
        else if (strcmp(argv[at], "--if") == 0 && at + 1 < argc)
            order->guard = argv[++at];
        else
            return -1;
    }
    return at;
}

int main(int argc, char *argv[])
{
    struct order order = {false, NULL, NULL, NULL, NULL, 0};
    if (argc == 2 && (strcmp(argv[1], "--help") == 0 || strcmp(argv[1], "-h") == 0))
        return fputs(USAGE, stdout) >= 0 && fflush(stdout) == 0 ? 0 : 1;
    if (argc == 2 && strcmp(argv[1], "--version") == 0)
        return printf("%s %s\n", PROGRAM, GATEWAY_VERSION) > 0 && fflush(stdout) == 0 ? 0 : 1;
    int at = read_options(argc, argv, &order);
    if (at < 0 || argc - at < 2) {
        fputs(USAGE, stderr);
        return 2;
    }
    order.path = argv[at];
    order.words = argv + at + 1;
    order.count = argc - at - 1;
    return run(&order);
}
