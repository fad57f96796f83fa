/* A soak: one unit after the other, of every number of ports, through the C interface, every buffer between guards. After each call the guards hold, a refusal has changed nothing, what the answer
   says agrees with what the record's words say, and every port's counts equal a recount and the history, as the losses do. usage: soak SEED CALLS */
#include "common.h"

enum { GUARDS = 16, LONGEST = 2000, MOST_ANSWER = DEORASAENG_COUNTS_ANSWER };

static const uint64_t WORD = 0xA5A55A5AA5A55A5A;
static const uint8_t BYTE = 0x5C;

static uint64_t record_area[GUARDS + MOST_WORDS + GUARDS], before[MOST_WORDS];
static size_t words; /* of the record, as the unit's number of ports has it */
static uint64_t *const record = record_area + GUARDS;
static uint64_t answer_area[GUARDS + MOST_ANSWER + GUARDS];
static uint64_t *const answer = answer_area + GUARDS;
static uint8_t byte_area[GUARDS + LONGEST + GUARDS];
static uint8_t *const bytes = byte_area + GUARDS;
static uint8_t handed_in[LONGEST];
static uint64_t later_entry, later_pair; /* told with 17 */
static uint64_t accepted_at[MOST_PORTS + 1], taken_at[MOST_PORTS + 1]; /* frames since power-on, read off the answers */
static uint64_t counts_of_full, counts_of_none;
static uint64_t lost_on[MOST_PORTS * (MOST_PORTS - 1) + 1]; /* frames since power-on or the last reset, read off the answers, in the order of the record's counters */

/* Everything that is lent is filled with the guards' pattern first. */
static void lend(size_t byte_length)
{
    for (size_t i = 0; i < sizeof answer_area / sizeof *answer_area; i++)
        answer_area[i] = WORD;
    memset(byte_area, BYTE, GUARDS + byte_length + GUARDS);
    memcpy(before, record, sizeof before);
}

static int words_are(const uint64_t *from, size_t length, uint64_t word)
{
    for (size_t i = 0; i < length; i++)
        if (from[i] != word)
            return 0;
    return 1;
}

static int bytes_are(const uint8_t *from, size_t length, uint8_t byte)
{
    for (size_t i = 0; i < length; i++)
        if (from[i] != byte)
            return 0;
    return 1;
}

/* `answered` words of the answer and `written` of `byte_length` bytes may have changed. */
static void check_lent(size_t answered, size_t written, size_t byte_length)
{
    check(words_are(answer_area, GUARDS, WORD), "a guard before the answer");
    check(words_are(answer + answered, MOST_ANSWER - answered + GUARDS, WORD), "a word behind the answer");
    check(bytes_are(byte_area, GUARDS, BYTE), "a guard before the bytes");
    check(bytes_are(bytes + written, byte_length - written + GUARDS, BYTE), "a byte past what was written");
    check(words_are(record_area, GUARDS, WORD) && words_are(record + words, MOST_WORDS - words + GUARDS, WORD), "a guard of the record");
}

static void check_same(size_t from, size_t to, const char *otherwise)
{
    check(memcmp(record + from, before + from, (to - from) * sizeof *record) == 0, otherwise);
}

static uint64_t waiting(const uint64_t *unit, uint32_t port)
{
    return waiting_in(unit + DEORASAENG_QUEUE_AT(port));
}

/* Each counter is what the history says, and no more than the most. */
static void check_loss_history(void)
{
    for (uint32_t i = 0; i <= ports * (ports - 1); i++)
        check(record[LOSSES_AT(ports) + i] == losses_of(lost_on[i]), "losses of another history");
}

/* What a frame's answer, or Start's, adds to the history. */
static void add_losses(uint32_t port, uint64_t lost, uint64_t own_lost)
{
    for (uint32_t q = 1; q <= ports; q++) {
        uint64_t one = lost >> (q - 1) & 1;
        if (one)
            lost_on[pair_number(ports, port, q)]++;
        lost_on[ports * (ports - 1)] += one + (own_lost >> (q - 1) & 1);
    }
}

/* At each port the counts equal a recount, the totals are those of the history, and accepted is taken and waiting. */
static void check_recount(void)
{
    for (uint32_t q = 1; q <= ports; q++) {
        const uint64_t *queue = record + DEORASAENG_QUEUE_AT(q), *counts = queue + COUNTS_AT;
        uint64_t ranks[RANKS] = {0};
        for (uint64_t i = 0; i < queue[0]; i++)
            ranks[rank_of(queue[FRAMES_AT + 2 * i])]++;
        check(memcmp(counts, ranks, sizeof ranks) == 0, "counts that are no recount");
        check(counts[DEORASAENG_COUNTS_ACCEPTED] == accepted_at[q] && counts[DEORASAENG_COUNTS_TAKEN] == taken_at[q], "totals of another history");
        check(accepted_at[q] == taken_at[q] + queue[0], "accepted is not taken and waiting");
    }
}

static void power_on(void)
{
    static const uint32_t preferred[8] = {0x80, 0x80, 0x80, 0x80, 0x80, 0x80, 0, 254};
    uint64_t name = 0xA000000000000000u + (below(8) == 0 ? 8 : 0); /* the lowest but for a few, so that the unit is seldom displaced */
    static const uint32_t counts[16] = {2, 3, 4, 5, 6, 7, 8, 4, 2, 8, 8, 4, 4, 0, 9, 4294967295};
    uint32_t number, asked = counts[below(16)];
    int good = asked >= FEWEST_PORTS && asked <= MOST_PORTS, plain = asked == USUAL_PORTS && below(2);
    for (size_t i = 0; i < sizeof record_area / sizeof *record_area; i++)
        record_area[i] = WORD;
    words = DEORASAENG_RECORD_WORDS_FOR(asked);
    if (plain)
        number = deorasaeng_power_on(record, words, name, preferred[below(8)]);
    else
        number = deorasaeng_power_on_ports(record, words, name, preferred[below(8)], asked);
    count(plain ? POWER_ON : POWER_ON_PORTS, number);
    ports = good ? asked : USUAL_PORTS;
    memset(accepted_at, 0, sizeof accepted_at);
    memset(taken_at, 0, sizeof taken_at);
    memset(lost_on, 0, sizeof lost_on);
    check(number == (good ? 0 : 27) && record[PORTS_AT] == ports && words_are(record + TABLE_AT, words - TABLE_AT, 0), "power-on");
    check(words_are(record + words, MOST_WORDS - words + GUARDS, WORD), "power-on wrote behind the record");
}

/* Whether a frame made the unit send its own: a claim that it defends against or loses to, or a request for address claimed that it answers. */
static int sends_own(uint32_t id, size_t length)
{
    uint64_t event = answer[DEORASAENG_EVENT];
    int to_all = (id >> 8 & 0xFF) == 255 && before[0] != DEORASAENG_STATE_UNSTARTED;
    if (event == DEORASAENG_DEFENDED || event == DEORASAENG_DISPLACED)
        return 1;
    return pgn_of(id) == 59904 && length == 3 && memcmp(handed_in, "\x00\xEE\x00", 3) == 0 && (answer[DEORASAENG_CONSUMED] || to_all);
}

/* The unit's own frame is its claim or cannot-claim, with its NAME. */
static void check_own(uint64_t own_lost)
{
    for (uint32_t q = 1; q <= ports; q++) {
        if (own_lost >> (q - 1) & 1)
            continue;
        const uint64_t *last = record + DEORASAENG_QUEUE_AT(q) + FRAMES_AT + 2 * (waiting(record, q) - 1);
        check(last[0] == (UINT64_C(8) << 32 | 0x18EEFF00 | record[1]) && last[1] == record[3], "another frame of the unit's own");
        accepted_at[q]++;
    }
}

/* Where frames joined, by the answer and the rules alone. */
static void check_frame_joined(uint32_t port, uint32_t id, size_t length)
{
    uint64_t accepted = answer[DEORASAENG_ACCEPTED], lost = answer[DEORASAENG_LOST], own_lost = answer[DEORASAENG_OWN_LOST];
    int own = sends_own(id, length);
    check_joined(record, before, id, accepted, own, own_lost);
    for (uint32_t q = 1; q <= ports; q++) {
        check(!(lost >> (q - 1) & 1) || waiting(before, q) == QUEUE, "lost though there was room");
        accepted_at[q] += accepted >> (q - 1) & 1;
    }
    if (own)
        check_own(own_lost);
    check((accepted & lost) == 0 && !((accepted | lost) >> (port - 1) & 1), "accepted and lost ports");
    check((accepted | lost | own_lost) >> ports == 0, "ports");
}

static void frame(void)
{
    uint32_t port = some_port(), id = some_id();
    size_t length = some_length(id);
    some_bytes(handed_in, id, length);
    lend(0);
    uint32_t number = deorasaeng_frame(record, words, port, id, handed_in, length, answer, DEORASAENG_FRAME_ANSWER);
    count(FRAME, number);
    check_lent(number == 0 ? DEORASAENG_FRAME_ANSWER : 0, 0, 0);
    if (number != 0) {
        check_same(0, words, "a refused frame changed the record");
        return;
    }
    check_same(PAIRS_AT(ports), LOSSES_AT(ports), "a frame changed a list");
    check_frame_joined(port, id, length);
    check_losses(record, before, port, answer[DEORASAENG_LOST], answer[DEORASAENG_OWN_LOST]);
    add_losses(port, answer[DEORASAENG_LOST], answer[DEORASAENG_OWN_LOST]);
    int has_address = before[0] == DEORASAENG_STATE_CLAIMING || before[0] == DEORASAENG_STATE_CLAIMED;
    check(answer[DEORASAENG_CONSUMED] == (has_address && (id >> 16 & 0xFF) < 240 && (id >> 8 & 0xFF) == before[1]), "consumed or not");
    if (answer[DEORASAENG_CONSUMED])
        check((answer[DEORASAENG_ACCEPTED] | answer[DEORASAENG_LOST] | answer[DEORASAENG_COMPARED]) == 0, "consumed and forwarded");
    check_reasons(port, id, answer);
    check_due(port, id, before, answer);
    check(answer[DEORASAENG_EVENT] <= 7 && (answer[DEORASAENG_EVENT] == 6 || answer[DEORASAENG_OLD_NAME] == 0), "event");
}

/* The frame that a take must give: the first of the lowest priority number. */
static const uint64_t *due(uint32_t port)
{
    const uint64_t *frames = before + DEORASAENG_QUEUE_AT(port) + FRAMES_AT, *best = frames;
    for (uint64_t i = 1; i < waiting(before, port); i++)
        if (rank_of(frames[2 * i]) < rank_of(*best))
            best = frames + 2 * i;
    return best;
}

static void check_taken(uint32_t port)
{
    uint64_t given = waiting(before, port) != 0;
    size_t at = DEORASAENG_QUEUE_AT(port);
    check_same(0, at, "a take changed a word before its queue");
    check_same(at + DEORASAENG_QUEUE_WORDS, words, "a take changed a word behind its queue");
    check(answer[DEORASAENG_GIVEN] == given, "nothing waiting");
    check_left(record + at, before + at, answer);
    taken_at[port] += given;
    check_lent(DEORASAENG_TAKE_ANSWER, given ? 8 : 0, DEORASAENG_FRAME_BYTES);
    if (!given) {
        check(answer[DEORASAENG_ID] == 0 && answer[DEORASAENG_LENGTH] == 0, "an identifier of nothing");
        check_same(0, words, "a take of nothing changed the record");
        return;
    }
    const uint64_t *frame = due(port);
    check(answer[DEORASAENG_ID] + (answer[DEORASAENG_LENGTH] << 32) == frame[0], "another frame");
    for (int i = 0; i < 8; i++)
        check(bytes[i] == (uint8_t)(frame[1] >> 8 * i), "another byte");
}

static void take(void)
{
    uint32_t port = some_port();
    int by_queue = port >= 1 && port <= ports && below(4) == 0;
    lend(DEORASAENG_FRAME_BYTES);
    uint32_t number;
    if (by_queue)
        number = deorasaeng_take_queue(record + DEORASAENG_QUEUE_AT(port), answer, DEORASAENG_TAKE_ANSWER, bytes, DEORASAENG_FRAME_BYTES);
    else
        number = deorasaeng_take(record, words, port, answer, DEORASAENG_TAKE_ANSWER, bytes, DEORASAENG_FRAME_BYTES);
    count(by_queue ? TAKE_QUEUE : TAKE, number);
    if (number == 0) {
        check_taken(port);
        return;
    }
    check_lent(0, 0, DEORASAENG_FRAME_BYTES);
    check_same(0, words, "a refused take changed the record");
}

/* Whether a pair's words list a PGN. */
static int lists(uint32_t from, uint32_t to, uint32_t pgn)
{
    const uint64_t *pair = pair_of(record, from, to);
    for (uint64_t i = 0; i < pair[1]; i++)
        if (pair[2 + i] == pgn)
            return 1;
    return 0;
}

/* 17 by the lists: the pair told lacks the entry told and has those before it; the pairs to lower ports have every entry. */
static void check_absent(const uint8_t *payload, size_t length)
{
    uint32_t from = payload[1] >> 4, to = (uint32_t)answer[DEORASAENG_TO];
    uint64_t entry = answer[DEORASAENG_ENTRY], entries = entries_of(payload, length);
    check(!lists(from, to, entry_at(payload, entry)), "absent, though listed");
    for (uint64_t i = 1; i < entry; i++)
        check(lists(from, to, entry_at(payload, i)), "an earlier entry is absent too");
    for (uint32_t q = 1; q < to; q++)
        for (uint64_t i = 1; i <= entries && q != from && (payload[1] & 15) == 15; i++)
            check(lists(from, q, entry_at(payload, i)), "an earlier pair lacks an entry too");
    later_entry += entry > 1;
    later_pair += (payload[1] & 15) == 15 && to > 1u + (from == 1);
}

/* The words in rising order of every pair that a command names are strictly rising and the PGNs of its list. */
static void check_order(const uint8_t *payload)
{
    uint32_t from = payload[1] >> 4, named = payload[1] & 15;
    for (uint32_t to = 1; to <= ports; to++) {
        if (to == from || (named != 15 && named != to))
            continue;
        const uint64_t *pair = pair_of(record, from, to), *rising = pair + RISING_AT;
        uint64_t probes;
        for (uint64_t i = 0; i < pair[1] && pair[0] != CLEARED; i++) {
            check(i == 0 || rising[i - 1] < rising[i], "a list that does not rise");
            check(halves_to(pair, pair[2 + i], &probes), "a PGN that is not among those in rising order");
        }
    }
}

/* A list's command changes no counter; a message of parameters no list. */
static void check_parameters(uint32_t number, uint32_t port, size_t length)
{
    check((number == DEORASAENG_WRONG_FUNCTION) == !is_function(handed_in[0]), "number 9");
    if (!is_parameter(handed_in[0])) {
        check_same(LOSSES_AT(ports), words, "a command changed a counter of losses");
        check(number != DEORASAENG_WRONG_PARAMETER, "number 23");
        return;
    }
    check_same(0, LOSSES_AT(ports), "a message of parameters changed a list");
    check_parameter(number, port, handed_in, length, record, before, bytes);
    if (number == 0 && (handed_in[0] == 130 || handed_in[0] == 133))
        lost_on[handed_in[0] == 130 ? ports * (ports - 1) : pair_number(ports, handed_in[1] >> 4, handed_in[1] & 15)] = 0;
}

static void message(void)
{
    size_t length = some_payload_length();
    uint32_t port = some_port(), requester = below(100) == 0 ? 254 : below(254);
    size_t room = below(50) == 0 ? DEORASAENG_REPLY_BYTES - 1 : DEORASAENG_REPLY_BYTES;
    some_payload(handed_in, length);
    name_there(handed_in, length, record);
    lend(room);
    uint32_t number =
        deorasaeng_message(record, words, port, requester, handed_in, length, bytes, room, answer, DEORASAENG_MESSAGE_ANSWER);
    count(MESSAGE, number);
    uint64_t pgn = answer[DEORASAENG_PGN], written = answer[DEORASAENG_WRITTEN];
    check_lent(DEORASAENG_MESSAGE_ANSWER, written, room);
    check_same(0, PAIRS_AT(ports), "a message changed the unit, the table or a queue");
    if (number != 0)
        check_same(0, words, "a refused message changed the record");
    check_entry(number, handed_in, length, answer);
    if (pgn != 0)
        check_parameters(number, port, length);
    if (pgn != 0 && handed_in[0] == 7 && (number == 0 || number >= DEORASAENG_WRONG_BODY))
        check_name_entry(number, handed_in, length, record, before, answer);
    if (number == DEORASAENG_PGN_ABSENT)
        check_absent(handed_in, length);
    if (number == 0 && (handed_in[0] == 2 || handed_in[0] == 3 || handed_in[0] == 6))
        check_order(handed_in);
    if (pgn == 60672)
        check(number == 0 && written >= 8 && written <= 256, "a reply");
    else if (pgn == 59392)
        check((number == 0 || number >= 9) && written == 8 && bytes[0] == (number == 0 ? 0 : number == 11 ? 2 : 1), "an acknowledgment");
    else
        check(number >= 1 && number <= 8 && pgn == 0 && written == 0, "a silent refusal");
}

static void start(void)
{
    lend(0);
    uint32_t number = deorasaeng_start(record, words, answer, DEORASAENG_START_ANSWER);
    count(START, number);
    check_lent(number == 0 ? DEORASAENG_START_ANSWER : 0, 0, 0);
    if (number != 0) {
        check_same(0, words, "a refused Start changed the record");
        return;
    }
    check_same(PAIRS_AT(ports), LOSSES_AT(ports), "Start changed a list");
    check_joined(record, before, 0, 0, 1, answer[DEORASAENG_START_OWN_LOST]);
    check_losses(record, before, 0, 0, answer[DEORASAENG_START_OWN_LOST]);
    add_losses(0, 0, answer[DEORASAENG_START_OWN_LOST]);
    check_own(answer[DEORASAENG_START_OWN_LOST]);
    uint64_t state = answer[DEORASAENG_START_STATE];
    check(state == record[0] && (state == DEORASAENG_STATE_CLAIMING || state == DEORASAENG_STATE_LOST), "what became of the unit");
}

static void quiet(void)
{
    lend(0);
    uint32_t number = deorasaeng_quiet(record, words);
    count(QUIET, number);
    check_lent(0, 0, 0);
    check(number != 0 || (before[0] == 1 && record[0] == 2), "Quiet");
    check_same(number == 0, words, "Quiet changed another word");
}

/* The unit is what its own words say; its address is the preferred one or none. */
static void unit(void)
{
    lend(0);
    uint32_t number = deorasaeng_unit(record, words, answer, DEORASAENG_UNIT_ANSWER);
    count(UNIT, number);
    check_lent(DEORASAENG_UNIT_ANSWER, 0, 0);
    check_same(0, words, "reading the unit changed the record");
    int has = record[0] == DEORASAENG_STATE_CLAIMING || record[0] == DEORASAENG_STATE_CLAIMED;
    check(number == 0 && answer[DEORASAENG_UNIT_STATE] == record[0], "claim state");
    check(answer[DEORASAENG_UNIT_ADDRESS] == (has ? record[2] : DEORASAENG_NO_ADDRESS), "address");
    check(answer[DEORASAENG_UNIT_PREFERRED] == record[2] && answer[DEORASAENG_UNIT_NAME] == record[3], "preferred address, NAME");
    check(answer[DEORASAENG_UNIT_PORTS] == ports, "number of ports");
}

/* The counts are the record's words; `check_recount` has said what those are. */
static void counts(void)
{
    uint32_t port = some_port();
    lend(0);
    uint32_t number = deorasaeng_counts(record, words, port, answer, DEORASAENG_COUNTS_ANSWER);
    count(COUNTS, number);
    check_lent(number == 0 ? DEORASAENG_COUNTS_ANSWER : 0, 0, 0);
    check_same(0, words, "reading the counts changed the record");
    if (number != 0)
        return;
    check(memcmp(answer, record + DEORASAENG_QUEUE_AT(port) + COUNTS_AT, 8 * DEORASAENG_COUNTS_ANSWER) == 0, "other counts");
    counts_of_full += waiting(record, port) == QUEUE;
    counts_of_none += waiting(record, port) == 0;
}

int main(int argc, char **argv)
{
    seed = argc > 1 ? strtoull(argv[1], NULL, 10) : 1;
    uint64_t total = argc > 2 ? strtoull(argv[2], NULL, 10) : 50000000;
    uint64_t full = 0;
    power_on();
    for (calls = 1; calls < total; calls++) {
        int breaks = !storm && (calls >> 19 & 7) == 7;
        storm = (calls >> 19 & 7) == 7; /* half a million calls without a take, on a unit of its own: the counters of losses stay */
        uint32_t takes = storm ? 0 : calls >> 12 & 3 ? 55 : 25, pick = below(100);
        if (breaks || (!storm && below(record[0] == 3 ? 2000 : 20000) == 0))
            power_on();
        else if (below(record[0] == 0 || record[0] == 1 ? 50 : 2000) == 0)
            (record[0] == 1) == (below(10) != 0) ? quiet() : start();
        else if (below(500) == 0)
            unit();
        else if (below(50) == 0)
            counts();
        else if (pick < takes)
            take();
        else if (pick < takes + 12)
            message();
        else
            frame();
        check_recount();
        check_loss_history();
        full += waiting(record, 1) == QUEUE;
    }
    print_counts();
    print_losses();
    print_names();
    print_probes();
    printf("17 at an entry behind the first %" PRIu64 ", at a pair of all behind the first %" PRIu64 "\n", later_entry, later_pair);
    printf("counts of a full queue %" PRIu64 ", of an empty one %" PRIu64 "\n", counts_of_full, counts_of_none);
    printf("%" PRIu64 " calls from seed %s, %" PRIu64 " with port 1 full: every check held\n", calls, argc > 1 ? argv[1] : "1", full);
    return 0;
}
