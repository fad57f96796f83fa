/* The control socket: lines done as a tool would, refusals, wrong input (fuzzed), limits, and the program that a person runs. Arguments: the programs' folder, and how many
   lines to fuzz. */
#include "../src/control_server.h"
#include "../src/json_reader.h"
#include "bench.h"

#include <poll.h>
#include <signal.h>
#include <stdlib.h>
#include <sys/un.h>
#include <sys/wait.h>

static char answer[CONTROL_ANSWER_BYTES + 1];
static const struct history_sender SENDER = {true, 4711, 1000, 1001, ""};

/* Does a line; its answer is one line, and whole. */
static const char *tell(const char *line)
{
    size_t length = control_line(&gateway, &SENDER, line, strlen(line), 0, answer, CONTROL_ANSWER_BYTES);
    answer[length] = '\0';
    CHECK(length > 0 && answer[length - 1] == '\n' && strchr(answer, '\n') == answer + length - 1 && json_whole(answer, length));
    return answer;
}

static uint64_t number(const char *reply, const char *name)
{
    uint64_t value = UINT64_MAX;
    json_is_number(json_member(reply, name), UINT32_MAX, &value);
    return value;
}

/* The answer to a line begins so. */
static bool gives(const char *line, const char *wanted)
{
    bool same = strncmp(tell(line), wanted, strlen(wanted)) == 0;
    if (!same)
        printf("%s\ngives %s", line, answer);
    return same;
}

static bool list_is(int from, int to, enum list_mode mode, uint32_t count)
{
    const struct list *list = &gateway.unit.lists.pair[from - 1][to - 1];
    return list->mode == mode && list->count == count;
}

static void commands(void)
{
    bench_claimed(4);
    CHECK(gives("{\"do\":\"read\",\"from\":1,\"to\":2}", "{\"number\":0,\"words\":\"done\",\"lists\":[{\"from\":1,\"to\":2,\"mode\":\"cleared\",\"pgns\":[],\"names\":[]}]}\n"));
    CHECK(gives("{\"do\":\"create\",\"from\":1,\"to\":2,\"mode\":\"block\",\"pgns\":[61444]}",
                "{\"number\":0,\"words\":\"done\",\"lists\":[{\"from\":1,\"to\":2,\"mode\":\"block\",\"pgns\":[61444],\"names\":[]}]}\n"));
    CHECK(gives(" { \"to\" : 2 , \"do\" : \"add\" , \"from\" : 1 , \"pgns\" : [ 65265 , 65265 , 0 ] } ",
                "{\"number\":0,\"words\":\"done\",\"lists\":[{\"from\":1,\"to\":2,\"mode\":\"block\",\"pgns\":[61444,65265,0],\"names\":[]}]}\n"));
    CHECK(gives("{\"do\":\"delete\",\"from\":1,\"to\":2,\"pgns\":[61444,0]}", "{\"number\":0,") && list_is(1, 2, LIST_BLOCK, 1));
    CHECK(gives("{\"do\":\"replace\",\"from\":1,\"to\":2,\"mode\":\"pass\",\"pgns\":[]}", "{\"number\":0,") && list_is(1, 2, LIST_PASS, 0));
    CHECK(gives("{\"do\":\"replace\",\"from\":1,\"to\":2,\"mode\":\"cleared\",\"pgns\":[]}", "{\"number\":0,") && list_is(1, 2, LIST_CLEARED, 0));
    CHECK(gives("{\"do\":\"create\",\"from\":2,\"to\":\"all\",\"mode\":\"block\",\"pgns\":[]}", "{\"number\":0,") && list_is(2, 1, LIST_BLOCK, 0) && list_is(2, 4, LIST_BLOCK, 0));
    CHECK(json_length(json_member(answer, "lists")) == 3);
    CHECK(gives("{\"do\":\"clear\",\"from\":2,\"to\":15}", "{\"number\":0,") && list_is(2, 3, LIST_CLEARED, 0));
    CHECK(json_length(json_member(tell("{\"do\":\"read\"}"), "lists")) == 12 && number(answer, "number") == 0);
    CHECK(json_length(json_member(tell("{\"do\":\"read\",\"port\":3}"), "lists")) == 6 && number(answer, "number") == 0);
    CHECK(gives("{\"do\":\"reset\"}", "{\"number\":0,\"words\":\"done\"}\n"));
    CHECK(gives("{\"do\":\"reset\",\"from\":1,\"to\":2}", "{\"number\":0,\"words\":\"done\",\"lists\""));
    const struct history_command *last = history_command(&gateway.history, 0);
    CHECK(last->sender.control && last->sender.pid == 4711 && last->sender.uid == 1000 && last->sender.gid == 1001 && last->function == 133 && last->port == 1);
    bench_close();
}

/* For whom a program does it: a word of its own, in the journal and the status beside who the kernel says it is. */
static void for_whom(void)
{
    bench_claimed(4);
    CHECK(gives("{\"do\":\"clear\",\"from\":1,\"to\":2,\"who\":\"<b>&'anna\"}", "{\"number\":0,"));
    CHECK_TEXT(history_command(&gateway.history, 0)->sender.who, "<b>&'anna");
    CHECK(gives("{\"who\":\"12345678901234567890123456789012\",\"do\":\"clear\",\"from\":1,\"to\":2,\"port\":3}", "{\"number\":11,"));
    CHECK_TEXT(history_command(&gateway.history, 0)->sender.who, "12345678901234567890123456789012");
    CHECK(gives("{\"do\":\"clear\",\"from\":1,\"to\":2}", "{\"number\":0,"));
    CHECK_TEXT(history_command(&gateway.history, 0)->sender.who, "");
    bench_close();
}

/* The unit's own refusals, with the entry that was wrong; a command of several messages is done whole or not at all. */
static void refusals(void)
{
    static char many[CONTROL_LINE_BYTES];
    bench_claimed(4);
    CHECK(gives("{\"do\":\"add\",\"from\":1,\"to\":2,\"pgns\":[61444]}", "{\"number\":15,"));
    CHECK(gives("{\"do\":\"create\",\"from\":1,\"to\":2,\"mode\":\"block\",\"pgns\":[61444,65265,70001]}", "{\"number\":22,\"words\":\"an entry is no PGN\",\"entry\":3,\"lists\""));
    CHECK(gives("{\"do\":\"create\",\"from\":1,\"to\":2,\"mode\":\"block\",\"pgns\":[61444]}", "{\"number\":0,"));
    CHECK(gives("{\"do\":\"create\",\"from\":1,\"to\":2,\"mode\":\"block\",\"pgns\":[61444]}", "{\"number\":14,"));
    CHECK(gives("{\"do\":\"delete\",\"from\":1,\"to\":2,\"pgns\":[61444,65265]}",
                "{\"number\":17,\"words\":\"Delete: a PGN absent from a named pair\",\"entry\":2,\"to\":2,\"absent\":65265,\"lists\":[{\"from\":1,\"to\":2,\"mode\":\"block\",\"pgns\":[61444],\"names\":[]}]}"));
    CHECK(gives("{\"do\":\"replace\",\"from\":1,\"to\":2,\"mode\":\"pass\",\"pgns\":[65265,70001]}", "{\"number\":22,\"words\":\"an entry is no PGN\",\"entry\":2,"));
    CHECK(list_is(1, 2, LIST_BLOCK, 1) && history_command(&gateway.history, 0)->number == 22 && history_command(&gateway.history, 0)->function == 6);
    CHECK(gives("{\"do\":\"read\",\"from\":1,\"to\":1}", "{\"number\":10,"));
    CHECK(gives("{\"do\":\"read\",\"from\":5,\"to\":\"all\"}", "{\"number\":10,"));
    CHECK(gives("{\"do\":\"read\",\"from\":1,\"to\":2,\"port\":5}", "{\"number\":1,"));
    CHECK(gives("{\"do\":\"read\",\"port\":3,\"from\":1,\"to\":2}", "{\"number\":11,\"words\":\"pair or port not this tool's\",\"lists\":[]}\n"));
    CHECK(gives("{\"do\":\"clear\",\"port\":3,\"from\":1,\"to\":2}", "{\"number\":11,\"words\":\"pair or port not this tool's\",\"lists\":[]}\n"));
    CHECK(gives("{\"do\":\"clear\",\"port\":3,\"from\":1,\"to\":2,\"if_list_is\":{\"mode\":\"pass\",\"pgns\":[]}}", "{\"number\":11,"));
    CHECK(gives("{\"do\":\"reset\",\"port\":3}", "{\"number\":11,") && list_is(1, 2, LIST_BLOCK, 1));
    size_t length = (size_t)snprintf(many, sizeof many, "{\"do\":\"add\",\"from\":1,\"to\":2,\"pgns\":[0");
    for (int i = 0; i < 594; i++)
        length += (size_t)snprintf(many + length, sizeof many - length, ",0");
    snprintf(many + length, sizeof many - length, "]}");
    CHECK(gives(many, "{\"number\":7,"));
    memset(&gateway.unit, 0, sizeof gateway.unit);
    CHECK(unit_power_on(&gateway.unit, OWN_NAME, OWN_ADDRESS, 4) == 0);
    CHECK(gives("{\"do\":\"read\",\"from\":1,\"to\":2}", "{\"number\":6,") && gives("{\"do\":\"clear\",\"from\":1,\"to\":2}", "{\"number\":6,"));
    CHECK(gives("{\"do\":\"ask\",\"from\":1,\"pgn\":61444,\"source\":33}", "{\"number\":6,"));
    bench_close();
}

/* An entry by who sent it: done where the unit has function 7, and then in the copy; else refused with 9. */
static void names(void)
{
    bench_claimed(4);
    tell("{\"do\":\"create\",\"from\":1,\"to\":2,\"mode\":\"pass\",\"pgns\":[]}");
    const struct list *list = &gateway.unit.lists.pair[0][1];
    uint64_t got = number(tell("{\"do\":\"name\",\"from\":1,\"to\":2,\"pgn\":65265,\"name\":\"A00086000AC00123\",\"mask\":\"0xFF\"}"), "number");
    CHECK(got == 0 && list->names_count == 1 && list->names[0].pgn == 65265 && list->names[0].mask == 0xFF);
    CHECK(history_command(&gateway.history, 0)->function == 7);
    gateway.unit.lists.pair[0][1].names_count = 1;
    gateway.unit.lists.pair[0][1].names[0] = (struct name_entry){65265, 1, 2};
    CHECK(gives("{\"do\":\"read\",\"from\":1,\"to\":2}", "{\"number\":0,\"words\":\"done\",\"lists\":[{\"from\":1,\"to\":2,\"mode\":\"pass\",\"pgns\":[],"
                "\"names\":[{\"pgn\":65265,\"name\":\"0000000000000001\",\"mask\":\"0000000000000002\"}]}]}"));
    CHECK(gives("{\"do\":\"read\",\"port\":3,\"from\":1,\"to\":2}", "{\"number\":11,\"words\":\"pair or port not this tool's\",\"lists\":[]}"));
    CHECK(gives("{\"do\":\"add\",\"from\":1,\"to\":2,\"pgns\":[0]}", "{\"number\":0,") && list->names_count == 1);
    CHECK(gives("{\"do\":\"replace\",\"from\":1,\"to\":2,\"mode\":\"pass\",\"pgns\":[]}", "{\"number\":0,") && list->names_count == 0);
    bench_close();
}

static void guards(void)
{
    bench_claimed(4);
    CHECK(gives("{\"do\":\"create\",\"from\":1,\"to\":2,\"mode\":\"block\",\"pgns\":[61444,0],\"if_list_is\":{\"mode\":\"cleared\",\"pgns\":[]}}", "{\"number\":0,"));
    CHECK(gives("{\"do\":\"add\",\"from\":1,\"to\":2,\"pgns\":[65265],\"if_list_is\":{\"mode\":\"block\",\"pgns\":[61444]}}",
                "{\"error\":\"the list is not the one of if_list_is: nothing is done\",\"lists\":[{\"from\":1,\"to\":2,\"mode\":\"block\",\"pgns\":[61444,0],\"names\":[]}]}"));
    CHECK(list_is(1, 2, LIST_BLOCK, 2));
    CHECK(gives("{\"do\":\"add\",\"from\":1,\"to\":2,\"pgns\":[65265],\"if_list_is\":{\"mode\":\"block\",\"pgns\":[61444,0]}}", "{\"number\":0,") && list_is(1, 2, LIST_BLOCK, 3));
    CHECK(gives("{\"do\":\"clear\",\"from\":1,\"to\":2,\"if_list_is\":{\"mode\":\"pass\",\"pgns\":[61444,0,65265]}}", "{\"error\""));
    bench_close();
}

/* Nothing is sent, and a tool is told of its own pairs. */
static void asked(void)
{
    bench_claimed(4);
    tell("{\"do\":\"create\",\"from\":1,\"to\":2,\"mode\":\"block\",\"pgns\":[61444]}");
    tell("{\"do\":\"create\",\"from\":1,\"to\":3,\"mode\":\"pass\",\"pgns\":[]}");
    struct unit before = gateway.unit;
    CHECK(gives("{\"do\":\"ask\",\"from\":1,\"pgn\":61444,\"source\":33}",
                "{\"number\":0,\"words\":\"done\",\"ports\":[{\"port\":2,\"reason\":\"stopped as listed\"},{\"port\":3,\"reason\":\"stopped as not listed\"},{\"port\":4,\"reason\":\"cleared\"}]}"));
    CHECK(gives("{\"do\":\"ask\",\"from\":1,\"pgn\":60928,\"source\":33}", "{\"number\":0,\"words\":\"done\",\"ports\":[{\"port\":2,\"reason\":\"permanent\"}"));
    CHECK(gives("{\"do\":\"ask\",\"from\":1,\"pgn\":61440,\"source\":33,\"port\":2}",
                "{\"number\":0,\"words\":\"done\",\"ports\":[{\"port\":2,\"reason\":\"not listed in block\"},{\"port\":3,\"number\":11,"));
    CHECK(gives("{\"do\":\"ask\",\"from\":5,\"pgn\":61444,\"source\":33}", "{\"number\":1,") && gives("{\"do\":\"ask\",\"from\":1,\"pgn\":61444,\"source\":255}", "{\"number\":5,"));
    CHECK(memcmp(&before, &gateway.unit, sizeof before) == 0 && gateway.pairs[0][1].crossed == 0 && gateway.history.frames_count == 0);
    bench_close();
}

static const char *const WRONG[][2] = {
    {"", "not a JSON object"}, {"[]", "not a JSON object"}, {"{\"do\":\"read\"", "not a JSON object"}, {"{}", "do is missing"},
    {"{\"do\":\"reed\"}", "do is not read"}, {"{\"do\":1}", "do is not read"}, {"{\"do\":\"read\",\"do\":\"read\"}", "do stands there twice"},
    {"{\"do\":\"read\",\"form\":1}", "a member that no command has"}, {"{\"do\":\"read\",\"from\":1}", "read needs from and to, or neither"},
    {"{\"do\":\"clear\",\"from\":1}", "clear needs to"}, {"{\"do\":\"clear\",\"from\":1,\"to\":16}", "to is not a number of 0 to 15"},
    {"{\"do\":\"clear\",\"from\":-1,\"to\":2}", "from is not a number of 0 to 15"}, {"{\"do\":\"clear\",\"from\":\"1\",\"to\":2}", "from is not a number"},
    {"{\"do\":\"clear\",\"from\":1.0,\"to\":2}", "from is not a number"}, {"{\"do\":\"clear\",\"from\":1,\"to\":\"every\"}", "to is not a number"},
    {"{\"do\":\"clear\",\"from\":1,\"to\":2,\"pgns\":[]}", "clear has no pgns"}, {"{\"do\":\"add\",\"from\":1,\"to\":2,\"pgns\":[]}", "add needs at least one PGN"},
    {"{\"do\":\"add\",\"from\":1,\"to\":2,\"pgns\":5}", "pgns is not an array"}, {"{\"do\":\"add\",\"from\":1,\"to\":2,\"pgns\":[0,16777215]}", "pgns: entry 2 is not a number of 0 to 16777214"},
    {"{\"do\":\"add\",\"from\":1,\"to\":2,\"pgns\":[[1]]}", "pgns: entry 1"}, {"{\"do\":\"create\",\"from\":1,\"to\":2,\"mode\":\"cleared\",\"pgns\":[]}", "a cleared pair has no list"},
    {"{\"do\":\"replace\",\"from\":1,\"to\":2,\"mode\":\"cleared\",\"pgns\":[0]}", "a cleared pair has no list"},
    {"{\"do\":\"create\",\"from\":1,\"to\":2,\"mode\":\"bloc\",\"pgns\":[]}", "mode is not block, pass or cleared"},
    {"{\"do\":\"clear\",\"from\":1,\"to\":15,\"if_list_is\":{\"mode\":\"pass\",\"pgns\":[]}}", "if_list_is is for one pair"},
    {"{\"do\":\"clear\",\"from\":1,\"to\":2,\"if_list_is\":{\"mode\":\"pass\"}}", "if_list_is needs mode and pgns"},
    {"{\"do\":\"clear\",\"from\":1,\"to\":2,\"if_list_is\":{\"mode\":\"pass\",\"pgns\":[],\"x\":1}}", "if_list_is needs mode and pgns"},
    {"{\"do\":\"clear\",\"from\":1,\"to\":2,\"if_list_is\":7}", "if_list_is needs mode and pgns"},
    {"{\"do\":\"ask\",\"from\":1,\"pgn\":61445,\"source\":256}", "source is not a number of 0 to 255"}, {"{\"do\":\"ask\",\"from\":1,\"pgn\":1,\"source\":1}", "pgn is not a PGN"},
    {"{\"do\":\"name\",\"from\":1,\"to\":2,\"pgn\":0,\"name\":\"x\",\"mask\":\"1\"}", "name is not a string of up to 16 hex digits"},
    {"{\"do\":\"name\",\"from\":1,\"to\":2,\"pgn\":0,\"name\":\"1\",\"mask\":1}", "mask is not a string of up to 16 hex digits"},
    {"{\"do\":\"name\",\"from\":1,\"to\":2,\"pgn\":0,\"name\":\"1\"}", "name needs mask"},
    {"{\"do\":\"ask\",\"from\":1,\"to\":2,\"pgn\":0,\"source\":1}", "ask has no to"},
    {"{\"do\":\"read\",\"who\":\"\"}", "who is not a word of 1 to 32 printable characters"},
    {"{\"do\":\"read\",\"who\":7}", "who is not a word"},
    {"{\"do\":\"read\",\"who\":\"a b\"}", "who is not a word"},
    {"{\"do\":\"read\",\"who\":\"a\\\"b\"}", "who is not a word"},
    {"{\"do\":\"read\",\"who\":\"\xC3\xA4\"}", "who is not a word"},
    {"{\"do\":\"read\",\"who\":\"123456789012345678901234567890123\"}", "who is not a word"},
    {"{\"do\":\"read\",\"who\":\"a\",\"who\":\"a\"}", "who stands there twice"},
};

static void wrong_lines(void)
{
    bench_claimed(4);
    tell("{\"do\":\"create\",\"from\":1,\"to\":2,\"mode\":\"block\",\"pgns\":[61444]}");
    struct unit before = gateway.unit;
    for (size_t i = 0; i < sizeof WRONG / sizeof WRONG[0]; i++) {
        char text[CONTROL_ERROR_BYTES];
        json_read_string(json_member(tell(WRONG[i][0]), "error"), text, sizeof text);
        CHECK(json_member(answer, "number") == NULL && json_member(answer, "lists") == NULL);
        check_that(strstr(text, WRONG[i][1]) != NULL, text[0] == '\0' ? WRONG[i][0] : text, __FILE__, __LINE__);
    }
    CHECK(memcmp(&before, &gateway.unit, sizeof before) == 0 && gateway.history.commands_count == 1);
    bench_close();
}

static const char *const SEEDS[] = {
    "{\"do\":\"read\"}", "{\"do\":\"read\",\"from\":1,\"to\":2,\"port\":3}", "{\"do\":\"add\",\"from\":1,\"to\":2,\"pgns\":[65265,61444,0]}",
    "{\"do\":\"delete\",\"from\":2,\"to\":\"all\",\"pgns\":[65265]}", "{\"do\":\"create\",\"from\":2,\"to\":3,\"mode\":\"pass\",\"pgns\":[65265,256]}",
    "{\"do\":\"clear\",\"from\":1,\"to\":15}", "{\"do\":\"replace\",\"from\":3,\"to\":1,\"mode\":\"block\",\"pgns\":[65265],\"if_list_is\":{\"mode\":\"block\",\"pgns\":[61444]}}",
    "{\"do\":\"reset\",\"from\":1,\"to\":2}", "{\"do\":\"ask\",\"from\":1,\"pgn\":61444,\"source\":33,\"port\":2}", "{\"do\":\"replace\",\"from\":1,\"to\":4,\"mode\":\"cleared\",\"pgns\":[]}",
    "{\"do\":\"name\",\"from\":1,\"to\":2,\"pgn\":65265,\"name\":\"A00086000AC00123\",\"mask\":\"FFFFFFFFFFFFFFFF\"}",
    "{\"do\":\"clear\",\"from\":1,\"to\":2,\"who\":\"anna\"}",
};

/* A seed with some bytes changed, taken out, put in or joined with another's end. */
static size_t mutate(char *line, size_t size)
{
    static const char BYTES[] = "{}[]\",:0123456789truefalsnl\\u-.eE \t\x01\x7f\xff";
    const char *seed = SEEDS[(size_t)rand() % (sizeof SEEDS / sizeof SEEDS[0])], *other = SEEDS[(size_t)rand() % (sizeof SEEDS / sizeof SEEDS[0])];
    size_t length = (size_t)snprintf(line, size, "%s", seed);
    if (rand() % 8 == 0) {
        size_t cut = (size_t)rand() % length, from = (size_t)rand() % strlen(other);
        length = cut + (size_t)snprintf(line + cut, size - cut, "%s", other + from);
    }
    for (int i = rand() % 4; i > 0; i--) {
        size_t at = (size_t)rand() % (length + 1);
        char byte = BYTES[(size_t)rand() % (sizeof BYTES - 1)];
        if (rand() % 3 == 0 && at < length)
            memmove(line + at, line + at + 1, length-- - at);
        else if (rand() % 2 == 0 && at < length)
            line[at] = byte;
        else {
            memmove(line + at + 1, line + at, length++ - at + 1);
            line[at] = byte;
        }
    }
    line[length] = '\0';
    return length;
}

/* Whatever comes: an answer that is whole, and where it is not "done" not a word of the record is another. */
static void fuzz(long count)
{
    static struct unit before;
    static struct control_request request;
    char error[CONTROL_ERROR_BYTES];
    unsigned done = 0, refused = 0, wrong = 0;
    bench_claimed(4);
    srand(5);
    for (long i = 0; i < count; i++) {
        char line[1024];
        size_t length = mutate(line, sizeof line - 16);
        memcpy(&before, &gateway.unit, sizeof before);
        size_t got = control_line(&gateway, &SENDER, line, length, 0, answer, CONTROL_ANSWER_BYTES);
        answer[got] = '\0';
        bool good = got > 0 && answer[got - 1] == '\n' && json_whole(answer, got), failed = json_member(answer, "error") != NULL, does = number(answer, "number") == 0;
        bool asks = control_request_read(line, length, &request, error) && (request.command == CONTROL_READ || request.command == CONTROL_ASK);
        bool same = memcmp(&before, &gateway.unit, sizeof before) == 0;
        CHECK(good && failed != (json_member(answer, "number") != NULL) && (same || (does && !asks)));
        done += does;
        wrong += failed;
        refused += !does && !failed;
    }
    CHECK(done > (unsigned)count / 50 && refused > (unsigned)count / 50 && wrong > (unsigned)count / 50);
    printf("fuzzed lines: %ld, of them done %u, refused by the unit %u, wrong %u\n", count, done, refused, wrong);
    bench_close();
}

static struct control_server control;
static char path[] = "/tmp/gateway-control-XXXXXX";

static void listen_there(void)
{
    struct stat about;
    CHECK(close(mkstemp(path)) == 0 && unlink(path) == 0);
    server_begin(&control.server);
    CHECK(server_listen(&control.server, path, S_IRUSR | S_IWUSR | S_IRGRP | S_IWGRP, getegid()) && stat(path, &about) == 0 && (about.st_mode & 0777) == 0660);
    CHECK(about.st_gid == getegid());
}

static int connect_there(void)
{
    struct sockaddr_un address;
    memset(&address, 0, sizeof address);
    address.sun_family = AF_UNIX;
    snprintf(address.sun_path, sizeof address.sun_path, "%s", path);
    int fd = socket(AF_UNIX, SOCK_STREAM, 0);
    CHECK(fd >= 0 && connect(fd, (const struct sockaddr *)&address, sizeof address) == 0);
    return fd;
}

/* How many lines a client has got by now. */
static int lines_of(int fd, char *last, size_t size)
{
    static char bytes[200000];
    ssize_t got = recv(fd, bytes, sizeof bytes - 1, MSG_DONTWAIT);
    int lines = 0;
    for (ssize_t i = 0; i < got; i++)
        lines += bytes[i] == '\n';
    bytes[got > 0 ? got : 0] = '\0';
    snprintf(last, size, "%.*s", (int)size - 1, bytes);
    return lines;
}

static void put(int fd, const char *text)
{
    CHECK(send(fd, text, strlen(text), MSG_NOSIGNAL) == (ssize_t)strlen(text));
}

/* A line in pieces, two at once, one behind the end, one that is too long, a client that falls silent. */
static void client_lines(void)
{
    char last[256];
    static char big[CONTROL_LINE_BYTES + 1];
    bench_claimed(4);
    int fd = connect_there();
    CHECK(control_server_accept(&control, 0) == &control.server.clients[0] && control_server_wait(&control, 0) == CONTROL_WAIT_READ);
    CHECK(control_server_deadline(&control) == 60 * CLOCK_SECOND);
    put(fd, "{\"do\":");
    control_server_step(&control, 0, &gateway, CLOCK_SECOND);
    CHECK(lines_of(fd, last, sizeof last) == 0 && control_server_deadline(&control) == 6 * CLOCK_SECOND);
    put(fd, "\"read\"}\n{\"do\":\"clear\",\"from\":1,\"to\":2}\n");
    control_server_step(&control, 0, &gateway, 2 * CLOCK_SECOND);
    CHECK(lines_of(fd, last, sizeof last) == 2 && control_server_deadline(&control) == 62 * CLOCK_SECOND);
    const struct history_command *command = history_command(&gateway.history, 0);
    CHECK(command != NULL && command->sender.control && command->sender.uid == getuid() && command->sender.pid == (uint32_t)getpid() && command->function == 4);
    put(fd, "nonsense");
    CHECK(shutdown(fd, SHUT_WR) == 0);
    control_server_step(&control, 0, &gateway, 3 * CLOCK_SECOND);
    CHECK(lines_of(fd, last, sizeof last) == 1 && strncmp(last, "{\"error\":\"not a JSON object\"}", 29) == 0 && control.server.clients[0].fd < 0 && close(fd) == 0);
    fd = connect_there();
    CHECK(control_server_accept(&control, 0) != NULL);
    memset(big, ' ', sizeof big);
    CHECK(send(fd, big, sizeof big, 0) == (ssize_t)sizeof big);
    control_server_step(&control, 0, &gateway, 0);
    CHECK(lines_of(fd, last, sizeof last) == 1 && strstr(last, "a line of over 16,384 bytes") != NULL && control.server.clients[0].fd < 0 && close(fd) == 0);
    fd = connect_there();
    CHECK(control_server_accept(&control, 0) != NULL);
    big[CONTROL_LINE_BYTES] = '\n';
    CHECK(send(fd, big, sizeof big, 0) == (ssize_t)sizeof big);
    control_server_step(&control, 0, &gateway, 0);
    CHECK(lines_of(fd, last, sizeof last) == 1 && strstr(last, "not a JSON object") != NULL);
    CHECK(!control_server_is_due(&control, 0, 60 * CLOCK_SECOND - 1) && control_server_is_due(&control, 0, 60 * CLOCK_SECOND));
    control_server_step(&control, 0, &gateway, 60 * CLOCK_SECOND);
    CHECK(control.server.clients[0].fd < 0 && control_server_deadline(&control) == CLOCK_NEVER && close(fd) == 0);
    bench_close();
}

/* 20 lines a second after a first burst; what is faster waits and is done. */
static void rate(void)
{
    char last[64];
    int fds[SERVER_CLIENTS + 1];
    bench_claimed(2);
    for (int i = 0; i <= SERVER_CLIENTS; i++) {
        fds[i] = connect_there();
        CHECK((control_server_accept(&control, 10 * CLOCK_SECOND) != NULL) == (i < SERVER_CLIENTS));
    }
    CHECK(lines_of(fds[SERVER_CLIENTS], last, sizeof last) == 1 && strstr(last, "four connections are open already") != NULL);
    for (int i = 0; i < 50; i++)
        put(fds[0], "{\"do\":\"reset\"}\n");
    control_server_step(&control, 0, &gateway, 10 * CLOCK_SECOND);
    int at_once = lines_of(fds[0], last, sizeof last);
    CHECK(at_once == 21 && control_server_wait(&control, 0) == CONTROL_WAIT_TIME && control_server_deadline(&control) == 10 * CLOCK_SECOND + 50 * CLOCK_MS);
    control_server_step(&control, 0, &gateway, 10 * CLOCK_SECOND + 49 * CLOCK_MS);
    CHECK(lines_of(fds[0], last, sizeof last) == 0);
    control_server_step(&control, 0, &gateway, 10 * CLOCK_SECOND + 500 * CLOCK_MS);
    CHECK(lines_of(fds[0], last, sizeof last) == 10);
    control_server_step(&control, 0, &gateway, 20 * CLOCK_SECOND);
    CHECK(lines_of(fds[0], last, sizeof last) == 19 && control_server_wait(&control, 0) == CONTROL_WAIT_READ && gateway.history.commands_count == 50);
    for (int i = 0; i <= SERVER_CLIENTS; i++)
        CHECK(close(fds[i]) == 0);
    for (uint32_t place = 0; place < SERVER_CLIENTS; place++) {
        control_server_step(&control, place, &gateway, 20 * CLOCK_SECOND); /* they have gone */
        CHECK(control.server.clients[place].fd < 0);
    }
    bench_close();
}

/* The gateway's part of the loop in a process of its own, until it is ended. */
static pid_t serve(void)
{
    pid_t child = fork();
    if (child != 0)
        return child;
    for (;;) {
        struct pollfd waits[SERVER_CLIENTS + 1] = {{control.server.fd, POLLIN, 0}};
        for (int i = 0; i < SERVER_CLIENTS; i++)
            waits[i + 1] = (struct pollfd){control.server.clients[i].fd, POLLIN, 0};
        if (poll(waits, SERVER_CLIENTS + 1, 100) < 0)
            _exit(1);
        if (waits[0].revents != 0)
            control_server_accept(&control, clock_now());
        for (uint32_t i = 0; i < SERVER_CLIENTS; i++)
            if (control.server.clients[i].fd >= 0)
                control_server_step(&control, i, &gateway, clock_now());
    }
}

static char printed[8192];

static int run(const char *folder, const char *before, const char *arguments)
{
    char command[2048];
    snprintf(command, sizeof command, "P=%s; %s %s/deorasaeng-control %s 2>&1", path, before, folder, arguments);
    FILE *pipe = popen(command, "r");
    size_t length = pipe == NULL ? 0 : fread(printed, 1, sizeof printed - 1, pipe);
    printed[length] = '\0';
    int status = pipe == NULL ? -1 : pclose(pipe);
    return WIFEXITED(status) ? WEXITSTATUS(status) : -1;
}

static bool says(const char *words)
{
    if (strstr(printed, words) == NULL)
        printf("not said: %s\nbut: %s\n", words, printed);
    return strstr(printed, words) != NULL;
}

static void person(const char *folder)
{
    bench_claimed(4);
    pid_t server = serve();
    CHECK(run(folder, "", "$P create 1 2 block") == 0 && says("done\n  1 to 2 block:\n"));
    CHECK(run(folder, "", "$P add 1 2 65265 0xFEF1 61444") == 0 && says("done\n  1 to 2 block: 65265 61444\n"));
    CHECK(run(folder, "printf '65226, 65227;\\n65228\\n' |", "$P add 1 2 -") == 0 && says("1 to 2 block: 65265 61444 65226 65227 65228\n"));
    CHECK(run(folder, "", "$P add 1 2 '65229,70001'") == 1 && says("refused with 22: an entry is no PGN; entry 2 is 70001\n") && says("65228\n"));
    CHECK(run(folder, "", "$P delete 1 2 61444 65270") == 1 && says("refused with 17: ") && says("entry 2 is 65270, which is not in the list to port 2"));
    CHECK(run(folder, "", "--if 'block 61444' $P clear 1 2") == 1 && says("not done: the list is not the one of if_list_is"));
    CHECK(run(folder, "", "--if 'block 65265 61444 65226 65227 65228' $P replace 1 2 pass 61444") == 0 && says("1 to 2 pass: 61444\n"));
    CHECK(run(folder, "", "$P ask 1 0xF004 33") == 0 && says("to port 2: listed in pass\n") && says("to port 3: cleared\n"));
    CHECK(run(folder, "", "--port 3 $P read 1 2") == 1 && says("refused with 11: pair or port not this tool's"));
    CHECK(run(folder, "", "$P clear 1 all") == 0 && says("1 to 2 cleared\n") && says("1 to 4 cleared\n"));
    CHECK(run(folder, "", "$P reset") == 0 && says("done\n") && run(folder, "", "--json $P read 2 3") == 0 && says("{\"number\":0,\"words\":\"done\",\"lists\":[{\"from\":2"));
    CHECK(run(folder, "", "$P") == 2 && says("usage:") && run(folder, "", "$P frobnicate") == 2 && says("no such command"));
    CHECK(run(folder, "", "$P add 1 2") == 2 && says("words are missing") && run(folder, "", "$P add 1 2 010") == 2 && says("010: not a number"));
    CHECK(run(folder, "", "--help") == 0 && says("usage:") && run(folder, "", "--version") == 0 && says("deorasaeng-control 1.0"));
    CHECK(kill(server, SIGKILL) == 0 && waitpid(server, NULL, 0) == server && close(control.server.fd) == 0);
    CHECK(run(folder, "", "$P read") == 1 && says("nobody listens there any more"));
    CHECK(unlink(path) == 0 && run(folder, "", "$P read") == 1 && says("No such file"));
    bench_close();
}

int main(int argc, char *argv[])
{
    log_open(LOG_ERROR);
    commands();
    for_whom();
    refusals();
    names();
    guards();
    asked();
    wrong_lines();
    fuzz(argc > 2 ? atol(argv[2]) : 20000);
    listen_there();
    client_lines();
    rate();
    person(argc > 1 ? argv[1] : ".");
    return checks_end("control");
}
