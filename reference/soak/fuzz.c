/* A fuzz run: the exported functions on records of any words, of every number of ports, and on buffers of any length, each exactly as long as it says. The library is not instrumented, so a
   buffer ends at a page that faults, or begins behind one, or is of the heap, where the sanitizer watches what goes through memcpy; one of no length is null every
   other time. usage: fuzz SEED CALLS */
#define _DEFAULT_SOURCE
#include "common.h"
#include <sys/mman.h>

enum { ROOM = 262144, PAGE = 65536, LENT = 4 };

/* A buffer of one call: its place, its bytes, and what it held before. */
struct lent {
    uint8_t *fenced, *at, *heap, old[ROOM];
    size_t size;
};

/* the record or queue, or a plan's ports or links; the answer; bytes or reply; and what is handed in, or a plan's lists */
static struct lent lent[LENT];

static uint8_t *fence(void)
{
    uint8_t *all = mmap(NULL, ROOM + 2 * PAGE, PROT_NONE, MAP_PRIVATE | MAP_ANONYMOUS, -1, 0);
    check(all != MAP_FAILED && mprotect(all + PAGE, ROOM, PROT_READ | PROT_WRITE) == 0, "no memory");
    return all + PAGE;
}

static uint64_t nulls;

/* What a buffer holds from now on; C's own memcpy may not be given null. */
static void keep(int which)
{
    if (lent[which].size != 0)
        memcpy(lent[which].old, lent[which].at, lent[which].size);
}

/* `size` bytes at the end of the fenced room, at its start, or of the heap; null, or any of these, for none. */
static void *lend(int which, size_t size)
{
    struct lent *to = &lent[which];
    check(size <= ROOM, "too long");
    to->size = size;
    to->heap = below(4) == 0 && size != 0 ? malloc(size) : NULL;
    to->at = to->heap ? to->heap : below(4) == 0 ? to->fenced : to->fenced + ROOM - size;
    if (size == 0 && below(2) == 0) {
        to->at = NULL;
        nulls++;
    }
    for (size_t i = 0; i < size; i += 8) {
        uint64_t word = next() >> (below(3) == 0 ? 0 : 40 + below(24));
        memcpy(to->at + i, &word, size - i < 8 ? size - i : 8);
    }
    keep(which);
    return to->at;
}

static int unchanged(int which)
{
    return lent[which].size == 0 || memcmp(lent[which].at, lent[which].old, lent[which].size) == 0;
}

static void take_back(void)
{
    for (int which = 0; which < LENT; which++) {
        free(lent[which].heap);
        lent[which].heap = NULL;
        lent[which].size = 0;
    }
}

/* A length: the right one mostly, else near it, none, or any. */
static size_t some_size(size_t right, uint32_t most)
{
    switch (below(8)) {
    case 0: return right + below(3) - (right != 0);
    case 1: return below(4) == 0 ? 0 : below(most);
    default: return right;
    }
}

/* The words in rising order: those of the list, others, or left any. */
static void fill_rising(uint64_t *pair)
{
    uint64_t *rising = pair + RISING_AT;
    uint32_t kind = below(4);
    for (int j = 0; j < LIST && kind != 0; j++) {
        uint64_t pgn = kind == 1 ? some_pgn() : pair[2 + j];
        int k = j;
        for (; k > 0 && rising[k - 1] > pgn && (kind != 1 || below(16) != 0); k--)
            rising[k] = rising[k - 1];
        rising[k] = pgn;
    }
}

/* A record whose claim state is one of the four, whose modes, lists, NAME entries and queues are likely or of likely lengths, of whose counts some are likely or the last before
   2^64, and of whose counters of losses some are near the most. */
static void fill_record(uint64_t *record, uint32_t likely, size_t length)
{
    record[0] = below(3) ? 2 : below(5);
    record[1] = record[2] = 0x80;
    for (size_t i = LOSSES_AT(likely); i < length; i++)
        if (below(2) == 0)
            record[i] = below(4) == 0 ? below(300) : MOST_LOSSES - 3 + below(6);
    for (uint64_t *pair = record + PAIRS_AT(likely); pair < record + LOSSES_AT(likely); pair += PAIR_WORDS) {
        pair[0] = below(8) ? below(6) : next();
        pair[1] = below(LIST + 4);
        for (int j = 0; j < LIST; j++)
            pair[2 + j] = some_pgn();
        pair[NAMES_AT] = below(8) ? below(NAMES + 4) : next();
        for (uint64_t *name = pair + NAMES_AT + 1; name < pair + RISING_AT; name += NAME_WORDS) {
            name[0] = below(2) ? 0xF000 + below(4) : some_pgn();
            name[1] = some_near_name();
            name[2] = some_mask();
        }
        fill_rising(pair);
    }
    for (uint32_t port = 1; port <= likely; port++) {
        uint64_t *queue = record + DEORASAENG_QUEUE_AT(port);
        queue[0] = below(QUEUE + 4);
        for (int i = COUNTS_AT; i < FRAMES_AT; i++)
            if (below(4) == 0)
                queue[i] = below(4) ? below(QUEUE) : UINT64_MAX;
    }
}

/* The record's or queue's words before the call. */
static const uint64_t *old_words(void)
{
    static uint64_t words[ROOM / 8];
    memcpy(words, lent[0].old, lent[0].size);
    return words;
}

static size_t record_words; /* what the record's own count asks for */

/* A record that says so many ports, or any word in place of that. */
static uint64_t *some_record(size_t length, uint32_t likely)
{
    uint64_t *record = lend(0, 8 * length);
    if (length > PORTS_AT && below(8) != 0)
        record[PORTS_AT] = likely;
    if (length == DEORASAENG_RECORD_WORDS_FOR(likely) && below(4) != 0)
        fill_record(record, likely, length);
    keep(0);
    ports = ports_of(record, length);
    record_words = DEORASAENG_RECORD_WORDS_FOR(ports);
    return record;
}

static int is_port(uint32_t port)
{
    return port >= 1 && port <= ports;
}

/* Number 1, then 2, exactly; a refusal changes nothing that was lent. */
static void judge(enum kind kind, uint32_t number, int has_port, int right)
{
    count(kind, number);
    check(has_port ? number != 1 : number == 1, "number 1");
    if (has_port)
        check(right ? number != 2 : number == 2, "number 2");
    check(unchanged(3), "what was handed in changed");
    if (number != 0)
        check(unchanged(0), "a refusal changed the record");
    if (number != 0 && kind != MESSAGE)
        check(unchanged(1) && unchanged(2), "a refusal changed what was lent");
}

/* A frame of no bytes whose pointer is null is any other frame of no bytes. */
static void judge_null(uint32_t port, uint32_t id, uint32_t number, const uint64_t *record, const uint64_t *answer)
{
    static uint64_t again[MOST_WORDS];
    uint64_t told[DEORASAENG_FRAME_ANSWER];
    uint8_t none = 0;
    memcpy(again, lent[0].old, 8 * record_words);
    memcpy(told, lent[1].old, sizeof told);
    check(deorasaeng_frame(again, record_words, port, id, &none, 0, told, DEORASAENG_FRAME_ANSWER) == number, "null: another number");
    check(memcmp(again, record, 8 * record_words) == 0 && memcmp(told, answer, sizeof told) == 0, "null: another record or answer");
}

/* 27 makes a fresh unit with four ports; 2 changes no word. */
static void fuzz_power_on_ports(size_t length, uint64_t *record, uint32_t likely)
{
    uint32_t asked = below(4) ? likely : below(2) ? below(12) : (uint32_t)next();
    int good = asked >= FEWEST_PORTS && asked <= MOST_PORTS, right = length == DEORASAENG_RECORD_WORDS_FOR(asked);
    uint64_t name = next();
    uint32_t preferred = (uint32_t)next(), number = deorasaeng_power_on_ports(record, length, name, preferred, asked);
    count(POWER_ON_PORTS, number);
    check(number == (!right ? 2u : good ? 0u : 27u), "number of a power-on");
    if (!right) {
        check(unchanged(0), "a refused power-on changed the record");
        return;
    }
    uint64_t own[TABLE_AT] = {0, 254, preferred, name, good ? asked : USUAL_PORTS};
    check(memcmp(record, own, sizeof own) == 0, "the unit's own words");
    for (size_t i = TABLE_AT; i < length; i++)
        check(record[i] == 0, "a word of a fresh unit");
}

/* Whether the unit sent its own frame shows in the totals: it joined where one more was accepted than forwarded. */
static void judge_joined(const uint64_t *record, uint32_t id, uint64_t accepted, uint64_t own_lost)
{
    const uint64_t *before = old_words();
    int own = own_lost != 0;
    for (uint32_t q = 1; q <= ports; q++) {
        size_t at = DEORASAENG_QUEUE_AT(q) + COUNTS_AT + DEORASAENG_COUNTS_ACCEPTED;
        own |= record[at] != before[at] + (accepted >> (q - 1) & 1);
    }
    check_joined(record, before, id, accepted, own, own_lost);
}

static void fuzz_frame(size_t length, uint64_t *record)
{
    uint32_t port = some_port(), id = below(4) ? some_id() : (uint32_t)next();
    size_t words = some_size(DEORASAENG_FRAME_ANSWER, 20), size = below(8) ? some_length(id) : below(100);
    uint64_t *answer = lend(1, 8 * words);
    uint8_t *bytes = lend(3, size);
    some_bytes(bytes, id, size);
    keep(3);
    uint32_t number = deorasaeng_frame(record, length, port, id, bytes, size, answer, words);
    int right = length == record_words && words == DEORASAENG_FRAME_ANSWER;
    judge(FRAME, number, is_port(port), right);
    if (right && bytes == NULL)
        judge_null(port, id, number, record, answer);
    if (number == 0) {
        check_reasons(port, id, answer);
        judge_joined(record, id, answer[DEORASAENG_ACCEPTED], answer[DEORASAENG_OWN_LOST]);
        check_losses(record, old_words(), port, answer[DEORASAENG_LOST], answer[DEORASAENG_OWN_LOST]);
        check_due(port, id, old_words(), answer);
    }
    if (is_port(port) && right) {
        check((id >> 29 != 0) == (number == 3), "number 3");
        check((id >> 29 == 0 && size > 8) == (number == 4), "number 4");
    }
    check(number == 0 || number == 5 || number == 1 || number == 2 || !right || id >> 29 != 0 || size > 8, "a number of a frame");
}

static void fuzz_take(size_t length, uint64_t *record, int by_queue)
{
    uint32_t port = by_queue ? 1 : some_port();
    size_t words = some_size(DEORASAENG_TAKE_ANSWER, 20), size = some_size(DEORASAENG_FRAME_BYTES, 40);
    uint64_t *answer = lend(1, 8 * words);
    uint8_t *bytes = lend(2, size);
    int right = words == DEORASAENG_TAKE_ANSWER && size == DEORASAENG_FRAME_BYTES;
    uint32_t number;
    if (by_queue)
        number = deorasaeng_take_queue(record, answer, words, bytes, size);
    else
        number = deorasaeng_take(record, length, port, answer, words, bytes, size);
    judge(by_queue ? TAKE_QUEUE : TAKE, number, is_port(port), right && (by_queue || length == record_words));
    if (number == 0 && answer[DEORASAENG_GIVEN] == 0)
        check(unchanged(0) && unchanged(2), "a take of nothing changed something");
    if (number != 0)
        return;
    size_t at = by_queue ? 0 : DEORASAENG_QUEUE_AT(port);
    check_left(record + at, old_words() + at, answer);
    for (uint64_t i = answer[DEORASAENG_GIVEN] ? answer[DEORASAENG_LENGTH] : 8; i < 8; i++)
        check(bytes[i] == 0, "a byte past the frame's length");
}

static void fuzz_message(size_t length, uint64_t *record)
{
    uint32_t port = some_port(), requester = below(20) ? below(254) : (uint32_t)next();
    size_t words = some_size(DEORASAENG_MESSAGE_ANSWER, 20), room = some_size(DEORASAENG_REPLY_BYTES, 4000);
    size_t size = some_payload_length();
    uint64_t *answer = lend(1, 8 * words);
    uint8_t *reply = lend(2, room), *payload = lend(3, size);
    if (below(8) != 0)
        some_payload(payload, size);
    if (length == record_words)
        name_there(payload, size, record);
    keep(3);
    uint32_t number = deorasaeng_message(record, length, port, requester, payload, size, reply, room, answer, words);
    int right = length == record_words && words == DEORASAENG_MESSAGE_ANSWER && room >= DEORASAENG_REPLY_BYTES;
    judge(MESSAGE, number, is_port(port), right);
    if (words != DEORASAENG_MESSAGE_ANSWER) {
        check(unchanged(1) && unchanged(2), "a wrong answer was written to");
        return;
    }
    size_t written = answer[DEORASAENG_WRITTEN];
    check(written <= room, "more written than there is room for");
    check(written == room || memcmp(reply + written, lent[2].old + written, room - written) == 0, "a byte past what was written");
    check((number >= 1 && number <= 8) == (written == 0), "written");
    check_entry(number, payload, size, answer);
    if (written == 0)
        return;
    check((number == DEORASAENG_WRONG_FUNCTION) == !is_function(payload[0]), "number 9");
    if (is_parameter(payload[0])) {
        check(memcmp(record, old_words(), 8 * LOSSES_AT(ports)) == 0, "a message of parameters changed a list");
        check_parameter(number, port, payload, size, record, old_words(), reply);
    } else {
        check(memcmp(record + LOSSES_AT(ports), old_words() + LOSSES_AT(ports), 8 * (length - LOSSES_AT(ports))) == 0, "a command changed a counter of losses");
        check(number != DEORASAENG_WRONG_PARAMETER, "number 23");
    }
    if (payload[0] == 7 && (number == 0 || number >= DEORASAENG_WRONG_BODY))
        check_name_entry(number, payload, size, record, old_words(), answer);
}

static void fuzz_start(size_t length, uint64_t *record)
{
    size_t words = some_size(DEORASAENG_START_ANSWER, 20);
    uint64_t *answer = lend(1, 8 * words);
    uint32_t number = deorasaeng_start(record, length, answer, words);
    judge(START, number, 1, length == record_words && words == DEORASAENG_START_ANSWER);
    if (number != 0)
        return;
    check_joined(record, old_words(), 0, 0, 1, answer[DEORASAENG_START_OWN_LOST]);
    check_losses(record, old_words(), 0, 0, answer[DEORASAENG_START_OWN_LOST]);
}

static void fuzz_unit(size_t length, uint64_t *record)
{
    size_t words = some_size(DEORASAENG_UNIT_ANSWER, 20);
    uint64_t *answer = lend(1, 8 * words);
    uint32_t number = deorasaeng_unit(record, length, answer, words);
    judge(UNIT, number, 1, length == record_words && words == DEORASAENG_UNIT_ANSWER);
    check(unchanged(0), "reading the unit changed the record");
}

/* The counts are the record's words, whatever they are. */
static void fuzz_counts(size_t length, uint64_t *record)
{
    uint32_t port = some_port();
    size_t words = some_size(DEORASAENG_COUNTS_ANSWER, 20);
    uint64_t *answer = lend(1, 8 * words);
    uint32_t number = deorasaeng_counts(record, length, port, answer, words);
    judge(COUNTS, number, is_port(port), length == record_words && words == DEORASAENG_COUNTS_ANSWER);
    check(unchanged(0), "reading the counts changed the record");
    if (number == 0)
        check(memcmp(answer, record + DEORASAENG_QUEUE_AT(port) + COUNTS_AT, 8 * DEORASAENG_COUNTS_ANSWER) == 0, "other counts");
}

/* Units in a chain, some of them with one port more; as links where there is room for them. */
static void fill_ports(uint64_t *words, size_t length)
{
    memset(words, 0, 8 * length);
    for (size_t i = 0; i + MOST_PORTS <= length && i < PLAN_PORTS - MOST_PORTS; i += MOST_PORTS) {
        words[i + i / MOST_PORTS % 5] = 1 + i / MOST_PORTS;
        words[i + 5 + below(3)] = 2 + i / MOST_PORTS;
        if (below(64) == 0)
            words[i + below(MOST_PORTS)] = below(MOST_SEGMENTS + 2);
    }
}

static void fill_links(struct deorasaeng_link *links, size_t length)
{
    for (size_t i = 0; i < length; i++) {
        links[i] = (struct deorasaeng_link){1 + i / 2, 1 + i % 2 * (1 + below(7)), 1 + i / 2 + i % 2};
        if (below(128) == 0)
            links[i] = (struct deorasaeng_link){below(18), below(10), below(18)};
    }
}

/* Lists whose words are in range, but for one now and then. */
static void fill_lists(uint64_t *lists, size_t length)
{
    for (size_t i = 0; i < length; i++)
        lists[i] = i % PLAN_PAIR_WORDS == 0 ? below(3) : i % PLAN_PAIR_WORDS == 1 ? below(LIST + 1) : 0xF000u + below(60);
    if (length != 0 && below(4) == 0)
        lists[below((uint32_t)length)] = next();
}

static void fuzz_plan(enum kind kind)
{
    size_t length = kind == PLAN ? some_size(PLAN_PORTS, 200) : below(8) ? 2 * below(MOST_UNITS) : below(200);
    size_t list_words = some_size(PLAN_LISTS, PLAN_LISTS), words = some_size(DEORASAENG_PLAN_ANSWER, 4);
    void *on = lend(0, (kind == PLAN ? sizeof(uint64_t) : sizeof(struct deorasaeng_link)) * length);
    uint64_t *answer = lend(1, 8 * words), *lists = lend(3, 8 * list_words);
    if (below(8) && kind == PLAN && length != 0)
        fill_ports(on, length);
    if (below(8) && kind == PLAN_LINKS)
        fill_links(on, length);
    if (below(8))
        fill_lists(lists, list_words);
    keep(0);
    keep(3);
    uint32_t segments = below(8) ? MOST_SEGMENTS : below(18), units = below(8) ? MOST_UNITS : below(18);
    uint32_t first = below(8) ? 1 + below(MOST_SEGMENTS) : below(18), pgn = some_pgn();
    uint32_t number = kind == PLAN ? deorasaeng_plan(on, length, lists, list_words, segments, units, first, pgn, answer, words)
                                   : deorasaeng_plan_links(on, length, lists, list_words, segments, units, first, pgn, answer, words);
    judge(kind, number, 1, (kind == PLAN_LINKS || length == PLAN_PORTS) && list_words == PLAN_LISTS && words == DEORASAENG_PLAN_ANSWER);
    check(unchanged(0), "asking a plan changed it");
    if (number == 0)
        check(answer[0] >> (first - 1) & 1 && answer[0] >> segments == 0, "the first segment does not hear, or one that is not there");
}

static void fuzz(void)
{
    enum kind kind = below(4) ? FRAME + below(3) : below(KINDS);
    if (kind == PLAN || kind == PLAN_LINKS) {
        fuzz_plan(kind);
        take_back();
        return;
    }
    uint32_t likely = kind == POWER_ON && below(2) ? USUAL_PORTS : FEWEST_PORTS + below(7);
    size_t length = kind == TAKE_QUEUE ? DEORASAENG_QUEUE_WORDS : some_size(DEORASAENG_RECORD_WORDS_FOR(likely), 7000);
    uint64_t *record = some_record(length, likely);
    switch (kind) {
    case POWER_ON: judge(kind, deorasaeng_power_on(record, length, next(), (uint32_t)next()), 1, length == DEORASAENG_RECORD_WORDS); break;
    case POWER_ON_PORTS: fuzz_power_on_ports(length, record, likely); break;
    case FRAME: fuzz_frame(length, record); break;
    case MESSAGE: fuzz_message(length, record); break;
    case START: fuzz_start(length, record); break;
    case UNIT: fuzz_unit(length, record); break;
    case COUNTS: fuzz_counts(length, record); break;
    case QUIET: judge(kind, deorasaeng_quiet(record, length), 1, length == record_words); break;
    default: fuzz_take(length, record, kind == TAKE_QUEUE); break;
    }
    take_back();
}

int main(int argc, char **argv)
{
    seed = argc > 1 ? strtoull(argv[1], NULL, 10) : 1;
    uint64_t total = argc > 2 ? strtoull(argv[2], NULL, 10) : 2000000;
    for (int which = 0; which < LENT; which++)
        lent[which].fenced = fence();
    for (calls = 0; calls < total; calls++)
        fuzz();
    print_counts();
    print_losses();
    print_names();
    print_probes();
    printf("%" PRIu64 " buffers of no length were null\n", nulls);
    printf("%" PRIu64 " fuzzed calls from seed %s: every check held\n", calls, argc > 1 ? argv[1] : "1");
    return 0;
}
