/* The status document: what it tells of frames, pairs, queues, commands and controllers; its longest; and the socket that gives it out. */
#include "../src/controller.h"
#include "../src/json_reader.h"
#include "../src/status_server.h"
#include "bench.h"

#include <errno.h>
#include <fcntl.h>
#include <linux/can/netlink.h>
#include <linux/if_link.h>
#include <linux/rtnetlink.h>
#include <stdlib.h>
#include <sys/un.h>

#define WALL INT64_C(1795000000123000000) /* 2026-11-18 */

static char bytes[STATUS_BYTES + 1];

static const char *document(int64_t now)
{
    size_t length = status_write(&gateway, now, WALL + now, bytes, STATUS_BYTES);
    bytes[length] = '\0';
    CHECK(length > 0 && json_whole(bytes, length));
    return bytes;
}

static const char *element(const char *array, int place)
{
    const char *at = json_first(array);
    while (at != NULL && place-- > 0)
        at = json_next(at);
    return at;
}

static uint64_t number(const char *object, const char *name)
{
    uint64_t value = UINT64_MAX;
    CHECK(json_is_number(json_member(object, name), UINT64_MAX, &value));
    return value;
}

static void document_head(void)
{
    char text[CLOCK_TEXT];
    bench_claimed(4);
    const char *all = document(1500 * CLOCK_MS);
    CHECK(number(all, "schema") == STATUS_SCHEMA && number(all, "interface") == DEORASAENG_VERSION && json_is_string(json_member(all, "program"), "1.0"));
    CHECK(json_is_string(json_member(all, "time"), "2026-11-18T11:06:41.623Z"));
    CHECK(strncmp(json_member(json_member(all, "unit"), "seconds"), "1.500,", 6) == 0 && number(json_member(all, "unit"), "losses") == 0);
    CHECK(*json_member(all, "lists_saved") == 'n' && *json_member(all, "lists_edited") == 'f');
    clock_text(INT64_C(951782400) * CLOCK_SECOND, text);
    CHECK_TEXT(text, "2000-02-29T00:00:00.000Z");
    clock_text(INT64_C(951868799) * CLOCK_SECOND, text);
    CHECK_TEXT(text, "2000-02-29T23:59:59.000Z");
    clock_text(INT64_C(1893455999999) * CLOCK_MS, text);
    CHECK_TEXT(text, "2029-12-31T23:59:59.999Z");
    clock_text(-1, text);
    CHECK_TEXT(text, "1970-01-01T00:00:00.000Z");
    bench_close();
}

/* A frame that a list stops, one that is lost, one that is refused: in the ring, at the pair, at the port. */
static void frames(void)
{
    static const uint8_t block[8] = {6, 0x12, 0, 0xF1, 0xFE, 0, 255, 255};
    bench_claimed(3);
    bench_message(1, block);
    for (int i = 0; i < 33; i++)
        bench_frame(1, 0x18FEF121, NULL, 0, 2 * CLOCK_SECOND);
    bench_frame(3, 0x18FEF1FF, NULL, 0, 3 * CLOCK_SECOND);
    CHECK(number(json_member(element(json_member(document(2500 * CLOCK_MS), "ports"), 2), "queue"), "recent_high") == 32);
    const char *all = document(4 * CLOCK_SECOND), *ring = json_member(all, "frames"), *pair = json_first(json_member(all, "pairs"));
    CHECK(json_length(ring) == 34 && number(element(ring, 0), "number") == 5 && number(element(ring, 0), "port") == 3);
    CHECK(json_is_string(json_member(element(ring, 0), "time"), "2026-11-18T11:06:43.123Z"));
    const char *lost = element(ring, 1), *stopped = element(ring, 2);
    CHECK(number(lost, "pgn") == 65265 && number(lost, "source") == 33 && json_is_string(json_member(lost, "id"), "18FEF121"));
    CHECK(json_length(json_member(lost, "lost")) == 1 && json_read_number(json_first(json_member(lost, "lost"))) == 3);
    CHECK(json_is_string(element(json_member(lost, "reasons"), 2), "cleared") && json_length(json_member(lost, "reasons")) == 3);
    CHECK(json_length(json_member(stopped, "lost")) == 0 && json_read_number(json_first(json_member(stopped, "stopped"))) == 2);
    CHECK(json_is_string(element(json_member(stopped, "reasons"), 1), "stopped as listed"));
    CHECK(number(pair, "crossed") == 0 && number(pair, "lost") == 0 && number(json_member(pair, "reasons"), "stopped as listed") == 33);
    pair = json_next(pair);
    CHECK(number(pair, "to") == 3 && number(pair, "crossed") == 32 && number(pair, "lost") == 1 && number(pair, "losses") == 1);
    CHECK(number(json_member(pair, "reasons"), "cleared") == 33 && number(json_member(all, "unit"), "losses") == 1);
    const char *port = element(json_member(all, "ports"), 2), *queue = json_member(port, "queue");
    CHECK(number(queue, "high_water") == 32 && number(queue, "recent_high") == 0 && json_read_number(element(json_member(queue, "waiting_by_priority"), 6)) == 32);
    CHECK(number(queue, "accepted") == 33 && number(queue, "taken") == 1 && *json_member(json_member(port, "controller"), "bit_rate") == 'n');
    CHECK(strncmp(json_member(json_member(queue, "last_loss"), "seconds"), "2.000", 5) == 0);
    CHECK(*json_member(json_member(json_first(json_member(all, "ports")), "queue"), "last_loss") == 'n');
    bench_close();
}

/* Commands and refusals are in the journal with the entry that was wrong; a request that was answered is not. */
static void commands(void)
{
    static const uint8_t request[8] = {0, 0x12, 255, 255, 255, 255, 255, 255}, create[8] = {6, 0x12, 0, 0xF1, 0xFE, 0, 255, 255};
    static const uint8_t wrong[8] = {2, 0x12, 0xF1, 0xFE, 0, 1, 1, 1}, absent[8] = {3, 0x12, 0xF1, 0xFE, 0, 0x04, 0xF0, 0};
    bench_claimed(3);
    bench_message(1, create);
    bench_message(1, request);
    bench_message(1, wrong);
    bench_message(1, absent);
    bench_message(3, request);
    const char *journal = json_member(document(CLOCK_SECOND), "commands"), *denied = element(journal, 0), *deleted = element(journal, 1);
    CHECK(json_length(journal) == 4 && number(element(journal, 3), "number") == 0 && number(element(journal, 3), "function") == 6);
    CHECK(json_is_string(json_member(element(journal, 3), "pair"), "12") && number(element(journal, 3), "requester") == 33);
    CHECK(number(element(journal, 2), "number") == 22 && number(element(journal, 2), "entry") == 2 && json_member(element(journal, 2), "to") == NULL);
    CHECK(number(deleted, "number") == 17 && number(deleted, "entry") == 2 && number(deleted, "to") == 2 && number(deleted, "absent") == 61444);
    CHECK(number(denied, "number") == 11 && number(denied, "port") == 3 && json_is_string(json_member(denied, "by"), "bus"));
    CHECK(json_is_string(json_member(denied, "words"), "pair or port not this tool's"));
    bench_close();
}

/* The rings keep the last 256 and no more. */
static void rings(void)
{
    static struct history history;
    CHECK(history_frame(&history, 0) == NULL && history_command(&history, 0) == NULL);
    for (uint32_t i = 0; i < 600; i++) {
        const struct history_frame frame = {.id = i};
        const struct history_command command = {.requester = i};
        history_add_frame(&history, &frame);
        history_add_command(&history, &command);
        CHECK(history_frame(&history, 0)->id == i && history_command(&history, 0)->requester == i);
        CHECK(i < 255 ? history_frame(&history, i)->id == 0 && history_frame(&history, i + 1) == NULL : history_frame(&history, 255)->id == i - 255);
        CHECK(history_frame(&history, 256) == NULL && history_command(&history, UINT32_MAX) == NULL);
    }
}

static void address_names(void)
{
    static const uint8_t name[8] = {0x23, 0x01, 0xC0, 0x0A, 0xFF, 0x1C, 0x00, 0x20};
    bench_claimed(2);
    bench_frame(2, 0x18EEFF21, name, 8, 0);
    const char *port = element(json_member(document(0), "addresses"), 1), *address = json_first(json_member(port, "addresses"));
    CHECK(number(port, "port") == 2 && number(address, "address") == 33 && json_is_string(json_member(address, "name"), "20001CFF0AC00123"));
    CHECK(number(address, "manufacturer") == 0x56 && number(address, "function") == 0x1C && number(address, "identity") == 0x123 && number(address, "industry_group") == 2);
    CHECK(*json_member(address, "function_instance") == 'n' && *json_member(address, "ecu_instance") == 'n' && *json_member(address, "self_configurable") == 'f');
    bench_close();
}

/* Since when an address is a NAME's, and who contended for it. */
static void address_conflicts(void)
{
    uint8_t name[8] = {5, 0, 0, 0, 0, 0, 0, 0x30};
    bench_claimed(2);
    bench_frame(2, 0x18EEFF21, name, 8, 2 * CLOCK_SECOND);
    bench_frame(2, 0x18EEFF21, name, 8, 3 * CLOCK_SECOND);
    const char *address = json_first(json_member(element(json_member(document(9 * CLOCK_SECOND), "addresses"), 1), "addresses"));
    CHECK(strncmp(json_member(json_member(address, "since"), "seconds"), "2.000", 5) == 0);
    CHECK(number(address, "conflicts") == 0 && *json_member(address, "last_conflict") == 'n');
    name[0] = 6; /* a higher NAME is beaten */
    bench_frame(1, 0x18EEFF21, name, 8, 4 * CLOCK_SECOND);
    address = json_first(json_member(element(json_member(document(9 * CLOCK_SECOND), "addresses"), 1), "addresses"));
    CHECK(number(address, "conflicts") == 1 && json_is_string(json_member(json_member(address, "last_conflict"), "name"), "3000000000000006"));
    CHECK(strncmp(json_member(json_member(address, "since"), "seconds"), "2.000", 5) == 0 && json_is_string(json_member(address, "name"), "3000000000000005"));
    name[0] = 4; /* a lower one takes over */
    bench_frame(2, 0x18EEFF21, name, 8, 5 * CLOCK_SECOND);
    address = json_first(json_member(element(json_member(document(9 * CLOCK_SECOND), "addresses"), 1), "addresses"));
    CHECK(number(address, "conflicts") == 2 && json_is_string(json_member(json_member(address, "last_conflict"), "name"), "3000000000000005"));
    CHECK(strncmp(json_member(json_member(address, "since"), "seconds"), "5.000", 5) == 0 && json_is_string(json_member(address, "name"), "3000000000000004"));
    bench_frame(2, 0x18EEFF00 | OWN_ADDRESS, name, 8, 6 * CLOCK_SECOND); /* of the unit's: defended, then lost */
    const char *unit = json_member(document(9 * CLOCK_SECOND), "unit");
    CHECK(number(unit, "conflicts") == 1 && json_is_string(json_member(json_member(unit, "last_conflict"), "name"), "3000000000000004"));
    gateway.options.name = OWN_NAME;
    name[7] = 0x10;
    bench_frame(2, 0x18EEFF00 | OWN_ADDRESS, name, 8, 7 * CLOCK_SECOND);
    unit = json_member(document(9 * CLOCK_SECOND), "unit");
    CHECK(number(unit, "conflicts") == 2 && json_is_string(json_member(json_member(unit, "last_conflict"), "name"), "20001C000AC00123"));
    bench_close();
}

static void worst_turns(void)
{
    bench_claimed(2);
    gateway.turns.window = 10 * CLOCK_SECOND;
    worst_add(&gateway.turns, 900 * 1000, CLOCK_SECOND);
    worst_add(&gateway.turns, 100 * 1000, 2 * CLOCK_SECOND);
    const char *loop = json_member(document(3 * CLOCK_SECOND), "loop");
    CHECK(number(loop, "worst_us") == 900 && number(loop, "recent_worst_us") == 900);
    worst_add(&gateway.turns, 300 * 1000, 12 * CLOCK_SECOND);
    CHECK(number(json_member(document(13 * CLOCK_SECOND), "loop"), "recent_worst_us") == 900);
    worst_add(&gateway.turns, 200 * 1000, 23 * CLOCK_SECOND);
    loop = json_member(document(24 * CLOCK_SECOND), "loop");
    CHECK(number(loop, "worst_us") == 900 && number(loop, "recent_worst_us") == 300);
    CHECK(number(json_member(document(35 * CLOCK_SECOND), "loop"), "recent_worst_us") == 200);
    CHECK(number(json_member(document(50 * CLOCK_SECOND), "loop"), "recent_worst_us") == 0);
    bench_close();
}

static void full_lists(struct lists *lists)
{
    memset(lists, 0, sizeof *lists);
    for (int from = 0; from < LISTS_PORTS; from++)
        for (int to = 0; to < LISTS_PORTS; to++)
            if (from != to) {
                lists->pair[from][to].mode = LIST_BLOCK;
                lists->pair[from][to].count = LISTS_ENTRIES;
                for (uint32_t i = 0; i < LISTS_ENTRIES; i++)
                    lists->pair[from][to].pgns[i] = 0x3FFE0 + i;
                for (uint32_t i = 0; i < LISTS_NAMES; i++)
                    lists->pair[from][to].names[i] = (struct name_entry){0x3FFE0, i, UINT64_MAX};
            }
}

static void full_history(void)
{
    for (uint32_t i = 0; i < HISTORY_SIZE; i++) {
        const struct history_frame frame = {INT64_MAX / 2, 8, 0x1FFFFFFF, 0, 255, 255, UINT64_C(0x66666666)};
        const struct history_command command = {INT64_MAX / 2, {true, UINT32_MAX, UINT32_MAX, UINT32_MAX, "<<<<<<<<<<<<<<<<<<<<<<<<<<<<<<<<"}, 8, 253, 255, 255, 5, 594, 8, 262143};
        history_add_frame(&gateway.history, &frame);
        history_add_command(&gateway.history, &command);
    }
}

/* What makes the longest document: full lists, every address, every count at its highest, both rings full. */
static void full_gateway(void)
{
    static struct lists lists;
    bench_claimed(GATEWAY_PORTS_MAX);
    full_lists(&lists);
    CHECK(unit_set_lists(&gateway.unit, &lists) == 0);
    for (int from = 0; from < LISTS_PORTS; from++)
        for (int to = 0; to < LISTS_PORTS; to++) {
            memcpy(gateway.unit.lists.pair[from][to].names, lists.pair[from][to].names, sizeof lists.pair[from][to].names);
            gateway.unit.lists.pair[from][to].names_count = from == to ? 0 : LISTS_NAMES;
        }
    for (uint32_t address = 0; address < UNIT_ADDRESSES; address++) {
        uint8_t name[8] = {(uint8_t)address, 0, 0xE0, 0xFE, 0xFE, 0xFE, 0xFC, 0xFE};
        bench_frame(4, 0x18EEFF00 | address, name, 8, 0);
    }
    full_history();
    memset(gateway.pairs, 0xFF, sizeof gateway.pairs);
    for (uint32_t i = 0; i < GATEWAY_PORTS_MAX; i++) {
        struct port *port = &gateway.ports[i];
        memset(&port->counts, 0xFF, sizeof port->counts);
        memset(port->interface.name, '"', INTERFACE_NAME_BYTES - 1);
        port->waiting.ever = INT64_MAX;
        port->lost_at = INT64_MAX / 2;
    }
}

static void longest(void)
{
    full_gateway();
    const char *all = document(INT64_MAX / 2);
    size_t length = strlen(all);
    const char *list = json_first(json_member(all, "lists"));
    CHECK(number(json_next(list), "to") == 3 && json_read_number(json_first(json_member(list, "pgns"))) == 0x3FFE0);
    CHECK(json_read_number(json_member(json_first(json_member(all, "ports")), "lost")) == UINT64_MAX && json_length(json_member(all, "frames")) == HISTORY_SIZE);
    CHECK(json_length(json_member(element(json_member(all, "addresses"), 3), "addresses")) == UNIT_ADDRESSES - 1);
    CHECK(length < STATUS_BYTES - STATUS_BYTES / 8 && status_write(&gateway, INT64_MAX / 2, WALL + INT64_MAX / 2, bytes, length - 1) == 0);
    printf("longest status document: %zu bytes\n", length);
    bench_close();
}

static int connect_to(const char *path)
{
    struct sockaddr_un address;
    memset(&address, 0, sizeof address);
    address.sun_family = AF_UNIX;
    snprintf(address.sun_path, sizeof address.sun_path, "%s", path);
    int fd = socket(AF_UNIX, SOCK_STREAM, 0);
    CHECK(fd >= 0 && connect(fd, (const struct sockaddr *)&address, sizeof address) == 0);
    return fd;
}

/* What a client reads until the other end closes, or nothing is left to read at once. */
static size_t read_some(int fd)
{
    size_t length = 0;
    ssize_t got;
    while (length < sizeof bytes && (got = recv(fd, bytes + length, sizeof bytes - length, MSG_DONTWAIT)) > 0)
        length += (size_t)got;
    return length;
}

/* A client that does not read is not waited for; it gets the rest when it can, or is given up after 5 s. A fifth finds no place. */
static void socket_clients(void)
{
    static char path[] = "/tmp/gateway-status-XXXXXX";
    struct server server;
    int fds[SERVER_CLIENTS + 1];
    struct stat about;
    full_gateway();
    CHECK(close(mkstemp(path)) == 0 && unlink(path) == 0);
    server_begin(&server);
    CHECK(server_listen(&server, path, S_IRUSR | S_IWUSR, (gid_t)-1) && stat(path, &about) == 0 && (about.st_mode & 0777) == 0600);
    size_t got = 0;
    for (int i = 0; i <= SERVER_CLIENTS; i++) {
        fds[i] = connect_to(path);
        const struct server_client *client = status_server_accept(&server, &gateway, 0);
        CHECK(i < SERVER_CLIENTS ? client != NULL && client->out_at < client->out_length : client == NULL && read_some(fds[i]) == 0);
    }
    size_t length = server.clients[0].out_length;
    for (int round = 0; round < 1000 && server.clients[0].fd >= 0; round++) {
        got += read_some(fds[0]);
        status_server_ready(&server.clients[0]);
    }
    CHECK(got + read_some(fds[0]) == length);
    CHECK(server.clients[1].fd >= 0 && server_deadline(&server) == 5 * CLOCK_SECOND);
    status_server_due(&server, 5 * CLOCK_SECOND - 1);
    CHECK(server.clients[1].fd >= 0);
    status_server_due(&server, 5 * CLOCK_SECOND);
    for (int i = 0; i < SERVER_CLIENTS; i++)
        CHECK(server.clients[i].fd < 0);
    CHECK(server_deadline(&server) == CLOCK_NEVER && close(server.fd) == 0);
    /* The socket of a program that has ended is replaced; a file is not. */
    CHECK(server_listen(&server, path, S_IRUSR | S_IWUSR, (gid_t)-1) && close(server.fd) == 0 && unlink(path) == 0);
    int file = open(path, O_CREAT | O_WRONLY, 0600);
    CHECK(file >= 0 && close(file) == 0 && !server_listen(&server, path, S_IRUSR, (gid_t)-1) && errno == EADDRINUSE && unlink(path) == 0);
    for (int i = 0; i <= SERVER_CLIENTS; i++)
        CHECK(close(fds[i]) == 0);
    bench_close();
}

/* The kernel's answer on a controller, as bytes. */
struct answer {
    uint8_t at[1024];
    size_t length;
};

static size_t begin(struct answer *answer, uint16_t type)
{
    size_t place = answer->length;
    const struct rtattr head = {0, type};
    memcpy(answer->at + place, &head, sizeof head);
    answer->length += RTA_LENGTH(0);
    return place;
}

static void end(struct answer *answer, size_t place)
{
    uint16_t length = (uint16_t)(answer->length - place);
    memcpy(answer->at + place, &length, sizeof length);
    answer->length = place + RTA_ALIGN(length);
}

static void attribute(struct answer *answer, uint16_t type, const void *value, size_t length)
{
    size_t place = begin(answer, type);
    memcpy(answer->at + answer->length, value, length);
    answer->length += length;
    end(answer, place);
}

static void make_answer(struct answer *answer, const char *kind)
{
    const struct can_bittiming timing = {.bitrate = 250000};
    const struct can_berr_counter errors = {96, 7};
    const uint32_t state = CAN_STATE_ERROR_WARNING, restart = 100;
    memset(answer, 0, sizeof *answer);
    answer->length = NLMSG_SPACE(sizeof(struct ifinfomsg));
    attribute(answer, IFLA_IFNAME, "can0", 5);
    size_t info = begin(answer, IFLA_LINKINFO);
    attribute(answer, IFLA_INFO_KIND, kind, strlen(kind) + 1);
    size_t data = begin(answer, IFLA_INFO_DATA);
    attribute(answer, IFLA_CAN_BITTIMING, &timing, sizeof timing);
    attribute(answer, IFLA_CAN_STATE, &state, sizeof state);
    attribute(answer, IFLA_CAN_BERR_COUNTER, &errors, sizeof errors);
    attribute(answer, IFLA_CAN_RESTART_MS, &restart, sizeof restart);
    end(answer, data);
    end(answer, info);
    const struct nlmsghdr head = {.nlmsg_len = (uint32_t)answer->length, .nlmsg_type = RTM_NEWLINK};
    memcpy(answer->at, &head, sizeof head);
}

static void controllers(void)
{
    static struct answer answer;
    struct controller told;
    make_answer(&answer, "can");
    controller_read(answer.at, answer.length, &told);
    CHECK(told.bit_rate == 250000 && told.state != NULL && strcmp(told.state, "error-warning") == 0);
    CHECK(told.errors_told && told.sent_errors == 96 && told.received_errors == 7 && told.restart_told && told.restart_ms == 100);
    for (size_t length = 0; length < answer.length; length++) { /* cut */
        controller_read(answer.at, length, &told);
        CHECK(told.bit_rate == 0 && told.state == NULL);
    }
    srand(4);
    for (int i = 0; i < 100000; i++) { /* garbled: the sanitizers watch */
        struct answer wrong = answer;
        for (int j = rand() % 4; j >= 0; j--)
            wrong.at[rand() % (int)wrong.length] = (uint8_t)rand();
        controller_read(wrong.at, wrong.length, &told);
    }
    make_answer(&answer, "vcan");
    controller_read(answer.at, answer.length, &told);
    CHECK(told.bit_rate == 0 && told.state == NULL && !told.errors_told && !told.restart_told);
    int fd = controller_open();
    controller_ask(fd, 1, &told); /* the kernel's own: lo is no controller */
    CHECK(told.bit_rate == 0 && told.state == NULL && (fd < 0 || close(fd) == 0));
}

int main(void)
{
    log_open(LOG_ERROR);
    document_head();
    frames();
    commands();
    rings();
    address_names();
    address_conflicts();
    worst_turns();
    longest();
    socket_clients();
    controllers();
    return checks_end("status");
}
