/* The library's functions on this machine, each made on the target by far.c, which runs there under an emulator: the command is in the variable DEORASAENG_EMULATOR. What is linked with
   the library on x86-64 is linked with this instead, and tries the library of the target. A guard that changed, or lent storage that may not be written and was, ends the
   program. At its end it tells the stack that each call took at most. */
#include "wire.h"
#include <inttypes.h>
#include <stdio.h>
#include <stdlib.h>
#include <string.h>
#include <sys/wait.h>
#include <unistd.h>

enum { GUARD = 64, GUARD_BYTE = 0xC3 };

static const char *const names[CALLS] = {"power-on", "power-on with ports", "frame", "take", "message", "Start", "Quiet", "unit", "counts", "take on a queue", "plan", "plan as links"};

/* A piece of memory that the caller lends. */
struct lent {
    const void *memory;
    size_t bytes;
    int is_written;
};

static int to_far = -1, from_far = -1;
static pid_t emulator;
static uint64_t calls, stack[CALLS];
static uint8_t image[IMAGE], back[IMAGE];
static struct request request;
static struct lent lent[ARGUMENTS];
static int arguments;

static void stop(const char *why)
{
    fprintf(stderr, "near: call %" PRIu64 ", %s: %s\n", calls, names[request.call], why);
    _exit(3);
}

/* The far end ends where its input does. */
static void end(void)
{
    int status;
    close(to_far);
    if (waitpid(emulator, &status, 0) != emulator || status != 0)
        fprintf(stderr, "near: the emulator ended with status %d\n", status);
    fprintf(stderr, "%" PRIu64 " calls on the target", calls);
    for (int call = 0; call < CALLS; call++)
        if (stack[call] != 0)
            fprintf(stderr, "; stack of %s %" PRIu64, names[call], stack[call]);
    fprintf(stderr, "\n");
}

static void begin_far(void)
{
    int there[2], here[2];
    const char *command = getenv("DEORASAENG_EMULATOR");
    if (command == NULL || pipe(there) != 0 || pipe(here) != 0 || (emulator = fork()) < 0)
        stop("no emulator");
    if (emulator == 0) {
        dup2(there[0], 0);
        dup2(here[1], 1);
        close(there[1]);
        close(here[0]);
        execl("/bin/sh", "sh", "-c", command, (char *)NULL);
        _exit(127);
    }
    close(there[0]);
    close(here[1]);
    to_far = there[1];
    from_far = here[0];
    atexit(end);
}

static void write_all(const void *memory, size_t bytes)
{
    for (const char *at = memory; bytes > 0;) {
        ssize_t written = write(to_far, at, bytes);
        if (written <= 0)
            stop("the emulator takes no more");
        at += written;
        bytes -= (size_t)written;
    }
}

static void read_all(void *memory, size_t bytes)
{
    for (char *at = memory; bytes > 0;) {
        ssize_t got = read(from_far, at, bytes);
        if (got <= 0)
            stop("the emulator has ended");
        at += got;
        bytes -= (size_t)got;
    }
}

static void begin(enum call call)
{
    if (to_far < 0)
        begin_far();
    memset(&request, 0, sizeof request);
    request.call = call;
    request.image_len = GUARD;
    memset(image, GUARD_BYTE, GUARD);
    arguments = 0;
    calls++;
}

static void number(uint64_t value)
{
    lent[arguments] = (struct lent){NULL, 0, 0};
    request.value[arguments++] = value;
}

/* Lent storage of so many elements, with a guard behind it and the next piece aligned. */
static void lend(const void *memory, uint64_t length, size_t element, int is_written)
{
    size_t bytes = length * element, at = request.image_len, room = (bytes + 7) / 8 * 8 + GUARD;
    if (length > IMAGE || at + room > IMAGE)
        stop("more is lent than the image has room for");
    memset(image + at, GUARD_BYTE, room);
    if (bytes > 0)
        memcpy(image + at, memory, bytes);
    lent[arguments] = (struct lent){memory, bytes, is_written};
    request.value[arguments] = length;
    request.at[arguments++] = at;
    request.image_len += room;
}

/* Of what came back the storage that may be written, which is then made equal in what was sent; the rest has to be equal as it is. */
static void give_back(void)
{
    for (int i = 0; i < arguments; i++)
        if (lent[i].is_written && lent[i].bytes > 0) {
            memcpy((void *)(uintptr_t)lent[i].memory, back + request.at[i], lent[i].bytes);
            memcpy(image + request.at[i], back + request.at[i], lent[i].bytes);
        }
    if (memcmp(image, back, request.image_len) != 0)
        stop("a guard, or storage that is only read, was written");
}

static uint32_t made(void)
{
    struct reply reply;
    write_all(&request, sizeof request);
    write_all(image, request.image_len);
    read_all(&reply, sizeof reply);
    read_all(back, request.image_len);
    give_back();
    if (reply.stack > stack[request.call])
        stack[request.call] = reply.stack;
    if (reply.number > UINT32_MAX)
        stop("a number of more than 32 bits");
    return (uint32_t)reply.number;
}

#define WRITTEN(memory, length) lend(memory, length, sizeof *(memory), 1)
#define READ(memory, length) lend(memory, length, sizeof *(memory), 0)

uint32_t deorasaeng_power_on(uint64_t *record, deorasaeng_size record_len, uint64_t name, uint32_t preferred)
{
    begin(POWER_ON);
    WRITTEN(record, record_len);
    number(name);
    number(preferred);
    return made();
}

uint32_t deorasaeng_power_on_ports(uint64_t *record, deorasaeng_size record_len, uint64_t name, uint32_t preferred, uint32_t ports)
{
    begin(POWER_ON_PORTS);
    WRITTEN(record, record_len);
    number(name);
    number(preferred);
    number(ports);
    return made();
}

uint32_t deorasaeng_frame(uint64_t *record, deorasaeng_size record_len, uint32_t port, uint32_t id, const uint8_t *bytes, deorasaeng_size len, uint64_t *answer,
                          deorasaeng_size answer_len)
{
    begin(FRAME);
    WRITTEN(record, record_len);
    number(port);
    number(id);
    READ(bytes, len);
    WRITTEN(answer, answer_len);
    return made();
}

uint32_t deorasaeng_take(uint64_t *record, deorasaeng_size record_len, uint32_t port, uint64_t *answer, deorasaeng_size answer_len, uint8_t *bytes, deorasaeng_size bytes_len)
{
    begin(TAKE);
    WRITTEN(record, record_len);
    number(port);
    WRITTEN(answer, answer_len);
    WRITTEN(bytes, bytes_len);
    return made();
}

uint32_t deorasaeng_message(uint64_t *record, deorasaeng_size record_len, uint32_t port, uint32_t requester, const uint8_t *payload, deorasaeng_size payload_len,
                            uint8_t *reply, deorasaeng_size reply_len, uint64_t *answer, deorasaeng_size answer_len)
{
    begin(MESSAGE);
    WRITTEN(record, record_len);
    number(port);
    number(requester);
    READ(payload, payload_len);
    WRITTEN(reply, reply_len);
    WRITTEN(answer, answer_len);
    return made();
}

uint32_t deorasaeng_start(uint64_t *record, deorasaeng_size record_len, uint64_t *answer, deorasaeng_size answer_len)
{
    begin(START);
    WRITTEN(record, record_len);
    WRITTEN(answer, answer_len);
    return made();
}

uint32_t deorasaeng_quiet(uint64_t *record, deorasaeng_size record_len)
{
    begin(QUIET);
    WRITTEN(record, record_len);
    return made();
}

uint32_t deorasaeng_unit(const uint64_t *record, deorasaeng_size record_len, uint64_t *answer, deorasaeng_size answer_len)
{
    begin(UNIT);
    READ(record, record_len);
    WRITTEN(answer, answer_len);
    return made();
}

uint32_t deorasaeng_counts(const uint64_t *record, deorasaeng_size record_len, uint32_t port, uint64_t *answer, deorasaeng_size answer_len)
{
    begin(COUNTS);
    READ(record, record_len);
    number(port);
    WRITTEN(answer, answer_len);
    return made();
}

uint32_t deorasaeng_take_queue(uint64_t queue[DEORASAENG_QUEUE_WORDS], uint64_t *answer, deorasaeng_size answer_len, uint8_t *bytes, deorasaeng_size bytes_len)
{
    begin(TAKE_QUEUE);
    WRITTEN(queue, DEORASAENG_QUEUE_WORDS);
    WRITTEN(answer, answer_len);
    WRITTEN(bytes, bytes_len);
    return made();
}

/* What both calls on a plan have behind the ports or the links. */
static uint32_t planned(const uint64_t *lists, deorasaeng_size lists_len, uint32_t segments, uint32_t units, uint32_t first, uint32_t pgn, uint64_t *answer,
                        deorasaeng_size answer_len)
{
    READ(lists, lists_len);
    number(segments);
    number(units);
    number(first);
    number(pgn);
    WRITTEN(answer, answer_len);
    return made();
}

uint32_t deorasaeng_plan(const uint64_t *ports, deorasaeng_size ports_len, const uint64_t *lists, deorasaeng_size lists_len, uint32_t segments, uint32_t units,
                         uint32_t first, uint32_t pgn, uint64_t *answer, deorasaeng_size answer_len)
{
    begin(PLAN);
    READ(ports, ports_len);
    return planned(lists, lists_len, segments, units, first, pgn, answer, answer_len);
}

uint32_t deorasaeng_plan_links(const struct deorasaeng_link *links, deorasaeng_size links_len, const uint64_t *lists, deorasaeng_size lists_len, uint32_t segments,
                               uint32_t units, uint32_t first, uint32_t pgn, uint64_t *answer, deorasaeng_size answer_len)
{
    begin(PLAN_LINKS);
    READ(links, links_len);
    return planned(lists, lists_len, segments, units, first, pgn, answer, answer_len);
}
