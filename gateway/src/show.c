/* deorasaeng-status: asks the gateway's status socket and prints the answer for a person, or as it came with --json. */
#include "client.h"
#include "json_reader.h"
#include "status_schema.h"
#include "version.h"

#include <errno.h>
#include <inttypes.h>
#include <stdio.h>
#include <string.h>

#define DOCUMENT_BYTES (STATUS_BYTES + 1)
#define WORD_BYTES 128 /* an interface's name, `unix:PATH`, is the longest */
#define WORDS_BYTES 96
#define PORTS_MAX 8
#define LAST_SHOWN 8 /* of frames and commands; the document has 256 of each */

static char document[DOCUMENT_BYTES];

static uint64_t number_in(const char *object, const char *name)
{
    return json_read_number(json_member(object, name));
}

/* The counts of [{"number":5,"count":2}], added. */
static uint64_t sum_of(const char *numbers)
{
    uint64_t sum = 0;
    for (const char *entry = json_first(numbers); entry != NULL; entry = json_next(entry))
        sum += number_in(entry, "count");
    return sum;
}

static void show_unit(const char *unit)
{
    char name[WORD_BYTES], state[WORD_BYTES];
    json_read_string(json_member(unit, "name"), name, sizeof name);
    json_read_string(json_member(unit, "state"), state, sizeof state);
    uint64_t address;
    if (json_is_number(json_member(unit, "address"), UINT8_MAX, &address))
        printf("unit: NAME %s, address %" PRIu64 ", %s", name, address, state);
    else
        printf("unit: NAME %s, no address, %s", name, state);
    printf(", %" PRIu64 " ports, for %" PRIu64 " s\n\n", number_in(unit, "ports"), number_in(unit, "seconds"));
}

/* Where the clock of the machine stands, and what answered. */
static void show_head(void)
{
    char time[WORD_BYTES], program[WORD_BYTES];
    json_read_string(json_member(document, "time"), time, sizeof time);
    json_read_string(json_member(document, "program"), program, sizeof program);
    printf("deorasaeng-gateway %s, interface %" PRIu64 ", at %s\n", program, number_in(document, "interface"), time);
}

static void show_port(const char *port)
{
    static const char *const COLUMNS[] = {"in", "consumed", "missed", "out", "stopped", "lost", "own_lost", "waiting", "again"};
    char interface[WORD_BYTES], state[WORD_BYTES];
    const char *other = json_member(port, "other");
    json_read_string(json_member(port, "interface"), interface, sizeof interface);
    json_read_string(json_member(port, "state"), state, sizeof state);
    printf("%4" PRIu64 "  %-15s %-8s", number_in(port, "port"), interface, state);
    for (size_t i = 0; i < sizeof COLUMNS / sizeof COLUMNS[0]; i++)
        printf("%10" PRIu64, number_in(port, COLUMNS[i]));
    printf("%10" PRIu64 "%10" PRIu64 "\n", sum_of(json_member(port, "refused")),
           number_in(other, "eleven_bit") + number_in(other, "remote") + number_in(other, "fd") + number_in(other, "error"));
}

/* A line for each port that refused something. */
static void show_refused(const char *port, const char *title, const char *numbers)
{
    if (json_first(numbers) == NULL)
        return;
    printf("port %" PRIu64 ", %s refused by number:", number_in(port, "port"), title);
    for (const char *entry = json_first(numbers); entry != NULL; entry = json_next(entry))
        printf(" %" PRIu64 ": %" PRIu64, number_in(entry, "number"), number_in(entry, "count"));
    printf("\n");
}

/* Queue and controller of a port, where there is something to tell. */
static void show_queue(const char *port)
{
    const char *queue = json_member(port, "queue"), *loss = json_member(queue, "last_loss"), *controller = json_member(port, "controller");
    char time[WORD_BYTES], state[WORD_BYTES];
    json_read_string(json_member(loss, "time"), time, sizeof time);
    json_read_string(json_member(controller, "state"), state, sizeof state);
    printf("port %" PRIu64 ", queue: most at once %" PRIu64 ", waiting by priority 0 to 7:", number_in(port, "port"), number_in(queue, "high_water"));
    for (const char *count = json_first(json_member(queue, "waiting_by_priority")); count != NULL; count = json_next(count))
        printf(" %" PRIu64, json_read_number(count));
    printf("%s%s", time[0] == '\0' ? "" : "; last loss at ", time);
    if (state[0] != '\0')
        printf("; controller %s, %" PRIu64 " bit/s", state, number_in(controller, "bit_rate"));
    printf("\n");
}

static void show_ports(const char *ports)
{
    printf("port  interface       state           in  consumed    missed       out   stopped      lost  own lost   waiting     again   refused     other\n");
    for (const char *port = json_first(ports); port != NULL; port = json_next(port))
        show_port(port);
    for (const char *port = json_first(ports); port != NULL; port = json_next(port)) {
        show_refused(port, "frames", json_member(port, "refused"));
        show_refused(port, "messages", json_member(json_member(port, "messages"), "refused"));
        show_queue(port);
    }
}

/* The reasons of a pair that were given, with how often. */
static void show_reasons(const char *reasons)
{
    for (const char *name = json_first_name(reasons); name != NULL; name = json_next_name(name)) {
        char word[WORD_BYTES];
        json_read_string(name, word, sizeof word);
        if (json_read_number(json_value(name)) > 0)
            printf(", %s %" PRIu64, word, json_read_number(json_value(name)));
    }
}

static void show_pairs(const char *pairs)
{
    printf("\npairs with traffic\n");
    for (const char *pair = json_first(pairs); pair != NULL; pair = json_next(pair)) {
        uint64_t asked = 0;
        const char *reasons = json_member(pair, "reasons");
        for (const char *name = json_first_name(reasons); name != NULL; name = json_next_name(name))
            asked += json_read_number(json_value(name));
        if (asked == 0)
            continue;
        printf("  %" PRIu64 " to %" PRIu64 ": crossed %" PRIu64 ", lost %" PRIu64, number_in(pair, "from"), number_in(pair, "to"), number_in(pair, "crossed"),
               number_in(pair, "lost"));
        show_reasons(reasons);
        printf("\n");
    }
}

static void show_numbers(const char *array)
{
    for (const char *number = json_first(array); number != NULL; number = json_next(number))
        printf(" %" PRIu64, json_read_number(number));
    printf("\n");
}

/* The entries of a list by who sent it. */
static void show_names(const char *names)
{
    for (const char *entry = json_first(names); entry != NULL; entry = json_next(entry)) {
        char name[WORD_BYTES], mask[WORD_BYTES];
        json_read_string(json_member(entry, "name"), name, sizeof name);
        json_read_string(json_member(entry, "mask"), mask, sizeof mask);
        printf("    %" PRIu64 " of NAME %s, mask %s\n", number_in(entry, "pgn"), name, mask);
    }
}

static bool is_true(const char *value)
{
    return value != NULL && *value == 't';
}

static void show_lists(const char *lists, const char *saved, const char *edited)
{
    unsigned shown = 0;
    printf("\nlists%s\n", is_true(edited) ? " (not saved: their file was changed meanwhile and is not overwritten)"
                          : saved != NULL && *saved == 'f' ? " (not saved yet)" : "");
    for (const char *list = json_first(lists); list != NULL; list = json_next(list)) {
        char mode[WORD_BYTES];
        json_read_string(json_member(list, "mode"), mode, sizeof mode);
        if (strcmp(mode, "cleared") == 0)
            continue;
        printf("  %" PRIu64 " to %" PRIu64 " %s:", number_in(list, "from"), number_in(list, "to"), mode);
        show_numbers(json_member(list, "pgns"));
        show_names(json_member(list, "names"));
        shown++;
    }
    printf(shown == 0 ? "  all pairs are cleared\n" : "  all other pairs are cleared\n");
}

/* A field of a NAME. */
static void show_field(const char *address, const char *name, const char *title)
{
    uint64_t value;
    if (json_is_number(json_member(address, name), UINT32_MAX, &value))
        printf(", %s %" PRIu64, title, value);
}

static void show_address(const char *address)
{
    char name[WORD_BYTES];
    json_read_string(json_member(address, "name"), name, sizeof name);
    printf("    %3" PRIu64 "  NAME %s", number_in(address, "address"), name[0] == '\0' ? "not heard" : name);
    show_field(address, "manufacturer", "manufacturer");
    show_field(address, "function", "function");
    show_field(address, "function_instance", "instance");
    show_field(address, "device_class", "device class");
    show_field(address, "industry_group", "industry group");
    show_field(address, "identity", "identity");
    printf("\n");
}

static void show_addresses(const char *addresses)
{
    printf("\naddresses%s\n", json_first(addresses) == NULL ? ": not told while the unit is not Claimed" : "");
    for (const char *port = json_first(addresses); port != NULL; port = json_next(port)) {
        const char *first = json_first(json_member(port, "addresses"));
        printf("  port %" PRIu64 "%s\n", number_in(port, "port"), first == NULL ? ": none" : "");
        for (const char *address = first; address != NULL; address = json_next(address))
            show_address(address);
    }
}

/* What became of a frame that did not cross everywhere: the number that refused it, or the reasons by port. */
static void show_fate(const char *frame)
{
    char word[WORDS_BYTES];
    unsigned port = 0;
    if (json_member(frame, "number") != NULL) {
        json_read_string(json_member(frame, "words"), word, sizeof word);
        printf(" refused with %" PRIu64 " (%s)", number_in(frame, "number"), word);
        return;
    }
    for (const char *reason = json_first(json_member(frame, "reasons")); reason != NULL; reason = json_next(reason)) {
        port++;
        json_read_string(reason, word, sizeof word);
        if (!json_is_string(reason, "not asked"))
            printf(" %u: %s", port, word);
    }
    for (const char *lost = json_first(json_member(frame, "lost")); lost != NULL; lost = json_next(lost))
        printf(", lost at %" PRIu64, json_read_number(lost));
}

static void show_frames(const char *frames)
{
    unsigned shown = 0;
    printf("\nlast frames that were stopped, lost or refused: %zu kept\n", json_length(frames));
    for (const char *frame = json_first(frames); frame != NULL && shown < LAST_SHOWN; frame = json_next(frame), shown++) {
        char time[WORD_BYTES], id[WORD_BYTES];
        json_read_string(json_member(frame, "time"), time, sizeof time);
        json_read_string(json_member(frame, "id"), id, sizeof id);
        printf("  %s port %" PRIu64 " %s PGN %" PRIu64 " from %" PRIu64 ":", time, number_in(frame, "port"), id, number_in(frame, "pgn"), number_in(frame, "source"));
        show_fate(frame);
        printf("\n");
    }
}

static void show_commands(const char *commands)
{
    unsigned shown = 0;
    printf("\nlast commands: %zu kept\n", json_length(commands));
    for (const char *command = json_first(commands); command != NULL && shown < LAST_SHOWN; command = json_next(command), shown++) {
        char time[WORD_BYTES], pair[WORD_BYTES], words[WORDS_BYTES];
        bool control = json_is_string(json_member(command, "by"), "control");
        json_read_string(json_member(command, "time"), time, sizeof time);
        json_read_string(json_member(command, "pair"), pair, sizeof pair);
        json_read_string(json_member(command, "words"), words, sizeof words);
        printf("  %s port %" PRIu64 " %s %" PRIu64 ": function %" PRIu64 ", pair %s: %" PRIu64 " (%s)", time, number_in(command, "port"),
               control ? "control, user" : "address", number_in(command, control ? "uid" : "requester"), number_in(command, "function"), pair,
               number_in(command, "number"), words);
        json_read_string(json_member(command, "who"), words, sizeof words);
        if (words[0] != '\0')
            printf(" for %s", words);
        show_field(command, "entry", "entry");
        show_field(command, "to", "to port");
        show_field(command, "absent", "PGN absent");
        printf("\n");
    }
}

/* The document into `document`, with a 0 at its end: its length, or -1 with errno. */
static ssize_t fetch(const char *path)
{
    return client_exchange(path, NULL, 0, document, DOCUMENT_BYTES, CLIENT_END, CLIENT_PATIENCE);
}

/* Each list has a mode: a document without would show a pair as cleared that is not. */
static bool lists_are_whole(const char *lists, uint64_t ports)
{
    if (json_length(lists) != ports * (ports - 1))
        return false;
    for (const char *list = json_first(lists); list != NULL; list = json_next(list)) {
        const char *mode = json_member(list, "mode"), *pgns = json_member(list, "pgns");
        if (!(json_is_string(mode, "cleared") || json_is_string(mode, "block") || json_is_string(mode, "pass")) || pgns == NULL || *pgns != '[')
            return false;
    }
    return true;
}

/* The members that are shown beside. */
static bool all_there(void)
{
    static const char *const NAMES[] = {"time", "program", "interface", "lists_saved", "lists_edited", "addresses", "frames", "commands"};
    for (size_t i = 0; i < sizeof NAMES / sizeof NAMES[0]; i++)
        if (json_member(document, NAMES[i]) == NULL)
            return false;
    return true;
}

/* What is wrong with the document, or NULL: nothing is shown of one that is not whole, least of all that a list is not there. */
static const char *wrong_with(size_t length)
{
    uint64_t ports, schema;
    if (length == 0)
        return "an empty answer";
    if (!json_whole(document, length) || *document != '{')
        return "an answer that is cut or garbled";
    if (json_is_number(json_member(document, "schema"), UINT32_MAX, &schema) && schema != STATUS_SCHEMA)
        return "a status of another schema: take the deorasaeng-status of the same version as the gateway";
    if (json_member(document, "schema") == NULL || !json_is_number(json_member(json_member(document, "unit"), "ports"), PORTS_MAX, &ports) || ports < 2 ||
        json_length(json_member(document, "ports")) != ports || !lists_are_whole(json_member(document, "lists"), ports) ||
        json_length(json_member(document, "pairs")) != ports * (ports - 1) || !all_there())
        return "an answer that is no status of a gateway";
    return NULL;
}

static void show(void)
{
    show_head();
    show_unit(json_member(document, "unit"));
    show_ports(json_member(document, "ports"));
    show_pairs(json_member(document, "pairs"));
    show_lists(json_member(document, "lists"), json_member(document, "lists_saved"), json_member(document, "lists_edited"));
    show_addresses(json_member(document, "addresses"));
    show_frames(json_member(document, "frames"));
    show_commands(json_member(document, "commands"));
}

static const char USAGE[] = "usage: deorasaeng-status [--json] PATH\n"
                            "Prints the state of the gateway whose --status PATH this is; with --json as it comes.\n"
                            "The status is 1 where there is no answer within 5 s or none that is whole, 2 for a wrong command line.\n";

static int say(const char *text)
{
    return fputs(text, stdout) >= 0 && fflush(stdout) == 0 ? 0 : 1;
}

/* Prints the document, or what is wrong with it. */
static int tell(const char *path, bool json)
{
    ssize_t length = fetch(path);
    const char *wrong = length < 0 ? client_error(errno) : wrong_with((size_t)length);
    if (wrong != NULL) {
        fprintf(stderr, "deorasaeng-status: %s: %s\n", path, wrong);
        return 1;
    }
    if (json)
        printf("%s\n", document);
    else
        show();
    return say("");
}

int main(int argc, char *argv[])
{
    bool json = argc > 1 && strcmp(argv[1], "--json") == 0;
    if (argc == 2 && (strcmp(argv[1], "--help") == 0 || strcmp(argv[1], "-h") == 0))
        return say(USAGE);
    if (argc == 2 && strcmp(argv[1], "--version") == 0)
        return say("deorasaeng-status " GATEWAY_VERSION "\n");
    if (argc != 2 + json || argv[1 + json][0] == '-') {
        fputs(USAGE, stderr);
        return 2;
    }
    return tell(argv[1 + json], json);
}
