/* What the soak and the fuzz run share: a seeded generator, calls that look like a bus, and the counts that are printed. */
#ifndef SOAK_COMMON_H
#define SOAK_COMMON_H

#include "../layout.h"
#include <inttypes.h>
#include <stdio.h>
#include <stdlib.h>
#include <string.h>

enum kind { POWER_ON, POWER_ON_PORTS, FRAME, TAKE, MESSAGE, START, QUIET, UNIT, COUNTS, TAKE_QUEUE, PLAN, PLAN_LINKS, KINDS };

/* One more than the highest number. */
enum { NUMBERS = DEORASAENG_TWO_PATHS + 1 };

static const char *const kind_name[KINDS] = {"power-on", "power-on with ports", "frame", "take", "message", "Start", "Quiet", "unit", "counts", "take on a queue", "plan", "plan as links"};

/* The numbers that each call can give. */
static const uint32_t allowed[KINDS] = {
    1u << 0 | 1u << 2,
    1u << 0 | 1u << 2 | 1u << 27,
    0x3Fu,
    0x7u,
    0x7u | 0x3FFC0u | 1u << 22 | 1u << DEORASAENG_WRONG_PARAMETER,
    1u << 0 | 1u << 2 | 1u << 8 | 1u << 18,
    1u << 0 | 1u << 2 | 1u << 18,
    1u << 0 | 1u << 2,
    0x7u,
    1u << 0 | 1u << 2,
    1u << 0 | 1u << 2 | 1u << 28 | 1u << 29,
    1u << 0 | 1u << 2 | 1u << 28 | 1u << 29,
};

static uint64_t seed, calls, number_count[KINDS][NUMBERS];

/* How many ports the unit has that is called. */
static uint32_t ports = USUAL_PORTS;

/* splitmix64 */
static uint64_t next(void)
{
    uint64_t mixed = seed += 0x9E3779B97F4A7C15u;
    mixed = (mixed ^ mixed >> 30) * 0xBF58476D1CE4E5B9u;
    mixed = (mixed ^ mixed >> 27) * 0x94D049BB133111EBu;
    return mixed ^ mixed >> 31;
}

static uint32_t below(uint32_t limit)
{
    return (uint32_t)(next() % limit);
}

static void check(int holds, const char *otherwise)
{
    if (holds)
        return;
    printf("call %" PRIu64 ": %s\n", calls, otherwise);
    fflush(stdout);
    abort();
}

static void count(enum kind kind, uint32_t number)
{
    check(number < NUMBERS && (allowed[kind] >> number & 1), "a number that this call does not have");
    number_count[kind][number]++;
}

static void print_counts(void)
{
    for (int kind = 0; kind < KINDS; kind++) {
        uint64_t all = 0;
        for (int number = 0; number < NUMBERS; number++)
            all += number_count[kind][number];
        if (all == 0)
            continue;
        printf("%s:", kind_name[kind]);
        for (int number = 0; number < NUMBERS; number++)
            if (number_count[kind][number] != 0)
                printf("  %d: %" PRIu64, number, number_count[kind][number]);
        printf("\n");
    }
}

/* Some PGNs, so that lists and frames meet. */
static uint32_t some_pgn(void)
{
    static const uint32_t listed[10] = {61444, 65265, 59904, 60928, 0x1EA00, 0x2EE00, 61184, 0x1F004, 0x3FFFF, 0};
    uint32_t pgn = below(3) == 0 ? 0xF000 + below(60) : listed[below(10)];
    return below(40) == 0 ? below(1u << 24) : pgn;
}

static uint32_t some_id(void)
{
    uint32_t priority = below(8) << 26;
    uint32_t source = below(8) == 0 ? 0x80 : below(64) == 0 ? 254 + below(2) : below(254);
    switch (below(9)) {
    case 0: return 0x18EEFF00u | (below(6) == 0 ? 254 : source);
    case 1: return 0x18EA0000u | (below(2) ? 0xFF00u : 0x8000u) | (below(4) == 0 ? 254 : source);
    case 2: return priority | 61184u << 8 | 0x8000u | source;
    case 3: return below(64) == 0 ? (uint32_t)next() : (uint32_t)next() & 0x1FFFFFFF;
    case 4: return priority | (below(4) ? 0 : below(4) << 24) | (below(2) ? 0xEE0000u : 0xEA0000u) | below(256) << 8 | source;
    case 5: return priority | (0xF000u + below(4)) << 8 | source;
    default: return priority | (some_pgn() & 0x3FFFF) << 8 | source;
    }
}

static uint32_t pgn_of(uint32_t id)
{
    return id >> 8 & ((id >> 16 & 0xFF) < 240 ? 0x3FF00 : 0x3FFFF);
}

static int is_permanent(uint32_t pgn)
{
    return pgn == 60928 || pgn == 59904;
}

/* A pair is asked at every port but the arrival port, unless the frame is consumed. Its reason lets the frame through exactly where it is accepted or lost, and is
   "permanent" exactly for a permanent PGN, for which no entry is compared. */
static void check_reasons(uint32_t port, uint32_t id, const uint64_t *answer)
{
    uint64_t word = answer[DEORASAENG_REASONS], crossed = answer[DEORASAENG_ACCEPTED] | answer[DEORASAENG_LOST];
    int permanent = is_permanent(pgn_of(id));
    for (uint32_t q = 1; q <= ports; q++) {
        uint32_t reason = DEORASAENG_REASON(word, q);
        int asked = q != port && !answer[DEORASAENG_CONSUMED];
        check(asked == (reason != DEORASAENG_REASON_NOT_ASKED) && reason <= DEORASAENG_REASON_STOPPED_AS_NOT_LISTED, "asked or not");
        check((crossed >> (q - 1) & 1) == (asked && reason < DEORASAENG_REASON_STOPPED_AS_LISTED), "a reason and what became of the frame");
        check((asked && permanent) == (reason == DEORASAENG_REASON_PERMANENT), "a permanent PGN");
    }
    check(word >> 4 * ports == 0, "a reason of no port");
    check(!permanent || answer[DEORASAENG_COMPARED] == 0, "a permanent PGN that was compared");
}

static uint64_t at_most(uint64_t n, uint64_t size)
{
    return n < size ? n : size;
}

/* The words of the pair from a port to another. */
static const uint64_t *pair_of(const uint64_t *record, uint32_t from, uint32_t to)
{
    return record + PAIRS_AT(ports) + PAIR_WORDS * pair_number(ports, from, to);
}

/* How many NAME entries a pair has; its entry at an index. */
static uint64_t names_of(const uint64_t *pair)
{
    return pair[0] < BLOCK_NAMED ? 0 : at_most(pair[NAMES_AT], NAMES);
}

static const uint64_t *name_at(const uint64_t *pair, uint64_t i)
{
    return pair + NAMES_AT + 1 + NAME_WORDS * i;
}

static int is_block(uint64_t mode)
{
    return mode == BLOCK || mode == BLOCK_NAMED;
}

/* The probes of a list, of whatever words: of a PGN that was absent, and of one that was found. */
enum { MOST_PROBES = 6 };
static uint64_t probed[2][MOST_PROBES + 1];

/* Whether the halving rule finds a PGN in a pair's words in rising order, and by how many probes: each is the middle place of those left, the lower of two. */
static int halves_to(const uint64_t *pair, uint64_t pgn, uint64_t *probes)
{
    uint64_t from = RISING_AT, to = RISING_AT + at_most(pair[1], LIST);
    int found = 0;
    *probes = 0;
    while (from < to && !found) {
        uint64_t middle = (from + to - 1) / 2;
        ++*probes;
        found = pair[middle] == pgn;
        if (pair[middle] < pgn)
            from = middle + 1;
        else
            to = middle;
    }
    check(*probes <= MOST_PROBES, "a list of more than 32");
    return found;
}

static void print_probes(void)
{
    for (int found = 0; found < 2; found++) {
        printf("lists looked up, the PGN %s, by probes:", found ? "found" : "absent");
        for (int probes = 0; probes <= MOST_PROBES; probes++)
            printf("  %d: %" PRIu64, probes, probed[found][probes]);
        printf("\n");
    }
}

/* How often a NAME entry listed a frame, in block and in pass; and how often one was added, was there already, and was the ninth. */
static uint64_t by_name[2], names_added, names_there, names_ninth;

/* What a pair's words and the table's say of a PGN from an address; the entries that are compared are added. */
static enum deorasaeng_reason due_reason(const uint64_t *record, const uint64_t *pair, uint32_t pgn, uint32_t source, uint64_t *compared)
{
    uint64_t names = names_of(pair), j = 0, probes;
    const uint64_t *place = record + TABLE_AT + PLACE_WORDS * source;
    if (is_permanent(pgn))
        return DEORASAENG_REASON_PERMANENT;
    if (pair[0] == CLEARED)
        return DEORASAENG_REASON_CLEARED;
    int found = halves_to(pair, pgn, &probes);
    probed[found][probes]++;
    while (!found && j < names && !(place[0] != 0 && name_at(pair, j)[0] == pgn && ((name_at(pair, j)[1] ^ place[1]) & name_at(pair, j)[2]) == 0))
        j++;
    int listed = found || j < names;
    *compared += probes + (found ? 0 : j < names ? j + 1 : names);
    by_name[!is_block(pair[0])] += !found && listed;
    if (is_block(pair[0]))
        return listed ? DEORASAENG_REASON_STOPPED_AS_LISTED : DEORASAENG_REASON_NOT_LISTED_IN_BLOCK;
    return listed ? DEORASAENG_REASON_LISTED_IN_PASS : DEORASAENG_REASON_STOPPED_AS_NOT_LISTED;
}

/* Every port's reason, and the entries compared, by the record before the frame. */
static void check_due(uint32_t port, uint32_t id, const uint64_t *before, const uint64_t *answer)
{
    uint64_t compared = 0;
    for (uint32_t q = 1; q <= ports && !answer[DEORASAENG_CONSUMED]; q++)
        check(q == port || DEORASAENG_REASON(answer[DEORASAENG_REASONS], q) == due_reason(before, pair_of(before, port, q), pgn_of(id), id & 0xFF, &compared), "another reason");
    check(answer[DEORASAENG_COMPARED] == compared, "compared");
}

/* How many frames wait in a queue. */
static uint64_t waiting_in(const uint64_t *queue)
{
    return queue[0] < QUEUE ? queue[0] : QUEUE;
}

static uint32_t rank_of(uint64_t id)
{
    return id >> 26 & 7;
}

/* A queue's counts are those that it had, with one more for each of the frames that joined, by the rank of its identifier, and one less for a frame that left, all modulo 2^64. */
struct changes {
    uint64_t ranks[RANKS], accepted, taken;
};

static void joins(struct changes *changes, uint64_t id)
{
    changes->ranks[rank_of(id)]++;
    changes->accepted++;
}

static void leaves(struct changes *changes, uint64_t id)
{
    changes->ranks[rank_of(id)]--;
    changes->taken++;
}

static void check_counts(const uint64_t *queue, const uint64_t *before, const struct changes *changes)
{
    const uint64_t *now = queue + COUNTS_AT, *old = before + COUNTS_AT;
    for (int rank = 0; rank < RANKS; rank++)
        check(now[rank] == old[rank] + changes->ranks[rank], "the count of a rank");
    check(now[DEORASAENG_COUNTS_ACCEPTED] == old[DEORASAENG_COUNTS_ACCEPTED] + changes->accepted, "frames accepted");
    check(now[DEORASAENG_COUNTS_TAKEN] == old[DEORASAENG_COUNTS_TAKEN] + changes->taken, "frames taken");
    check(waiting_in(queue) == waiting_in(before) + changes->accepted - changes->taken, "frames waiting");
}

/* The forwarded frame joins where it is accepted, the unit's own, if it is sent, at every port save where it is lost; each is counted where it joins, and nothing else is. */
static void check_joined(const uint64_t *record, const uint64_t *before, uint32_t id, uint64_t accepted, int own, uint64_t own_lost)
{
    check(own || own_lost == 0, "own frame lost, and none was sent");
    for (uint32_t q = 1; q <= ports; q++) {
        const uint64_t *queue = record + DEORASAENG_QUEUE_AT(q);
        uint64_t bit = 1u << (q - 1);
        struct changes changes = {{0}, 0, 0};
        if (accepted & bit)
            joins(&changes, id);
        if (own && !(own_lost & bit) && waiting_in(queue) != 0)
            joins(&changes, queue[FRAMES_AT + 2 * (waiting_in(queue) - 1)]);
        check_counts(queue, before + DEORASAENG_QUEUE_AT(q), &changes);
        check(!(own_lost & bit) || waiting_in(queue) == QUEUE, "own frame lost though there was room");
    }
}

/* A take that gave a frame counts it, one that gave nothing counts nothing. */
static void check_left(const uint64_t *queue, const uint64_t *before, const uint64_t *answer)
{
    struct changes changes = {{0}, 0, 0};
    if (answer[DEORASAENG_GIVEN])
        leaves(&changes, answer[DEORASAENG_ID]);
    check_counts(queue, before, &changes);
}

/* What a counter of losses tells: a word above the most is the most. */
static uint64_t losses_of(uint64_t word)
{
    return word < MOST_LOSSES ? word : MOST_LOSSES;
}

/* The word after so many more: one that tells the most is left as it is. */
static uint64_t with_losses(uint64_t word, uint64_t losses)
{
    return word >= MOST_LOSSES ? word : losses_of(word + losses);
}

/* The forwarded frame's losses are counted for its pairs and in general, the unit's own in general alone; without a port it is the unit's own that is sent. */
static void check_losses(const uint64_t *record, const uint64_t *before, uint32_t port, uint64_t lost, uint64_t own_lost)
{
    uint64_t all = 0;
    for (uint32_t from = 1; from <= ports; from++)
        for (uint32_t to = 1; to <= ports; to++) {
            if (from == to)
                continue;
            size_t at = LOSSES_AT(ports) + pair_number(ports, from, to);
            uint64_t one = from == port && (lost >> (to - 1) & 1);
            check(record[at] == with_losses(before[at], one), "the losses of a pair");
            all += one;
        }
    for (uint32_t q = 1; q <= ports; q++)
        all += own_lost >> (q - 1) & 1;
    check(record[GENERAL_AT(ports)] == with_losses(before[GENERAL_AT(ports)], all), "the losses in general");
}

/* A message of the functions of parameters: 128 request and 130 reset in general, 131 and 133 of a pair. */
static int is_parameter(uint8_t function)
{
    return function == 128 || function == 130 || function == 131 || function == 133;
}

static int is_function(uint8_t function)
{
    return function == 0 || function == 2 || function == 3 || function == 4 || function == 6 || function == 7 || function == 64 || is_parameter(function);
}

/* What a reply tells of a pair whose words these are, and of its counter: sizes, entries, losses. */
static uint64_t value_of(uint8_t parameter, const uint64_t *pair, uint64_t counter)
{
    switch (parameter) {
    case 1: return 13 * QUEUE;
    case 2: return 3 * LIST;
    case 3: return pair[0] == CLEARED ? 0 : at_most(pair[1], LIST);
    default: return losses_of(counter);
    }
}

/* The same in general, read with the number of ports. */
static uint64_t general_value(uint8_t parameter, const uint64_t *record)
{
    uint64_t sum = 0;
    for (uint32_t i = 0; i < ports * (ports - 1); i++)
        sum += value_of(3, record + PAIRS_AT(ports) + PAIR_WORDS * i, 0);
    switch (parameter) {
    case 1: return 13 * QUEUE * ports;
    case 2: return 3 * LIST * ports * (ports - 1);
    case 3: return sum;
    default: return losses_of(record[GENERAL_AT(ports)]);
    }
}

/* How often a counter was told, and told at the most; resets of a counter that was not 0. */
static uint64_t told_losses[2], told_most[2], resets[2];

/* 10, 11, 23 and 12 of a message of parameters, in this order; the general functions are port 1's, and their pair byte is not looked at. */
static uint32_t parameter_number(uint32_t port, const uint8_t *payload, size_t length)
{
    uint32_t from = payload[1] >> 4, to = payload[1] & 15;
    int general = payload[0] < 131, resetting = payload[0] == 130 || payload[0] == 133;
    int held = payload[2] == 9 || (!resetting && payload[2] >= 1 && payload[2] <= 3);
    if (!general && (from < 1 || from > ports || to < 1 || to > ports || from == to))
        return DEORASAENG_WRONG_PAIR;
    if (port != 1 && (general || (port != from && port != to)))
        return DEORASAENG_ACCESS_DENIED;
    if (!held)
        return DEORASAENG_WRONG_PARAMETER;
    return length != 8 ? DEORASAENG_WRONG_BODY : DEORASAENG_DONE;
}

/* The number, where it is none of those that write nothing; and what is done: the reply's bytes, or the one counter that is 0 now. The record's words up to the losses are
   the same before and after, which the caller has checked. */
static void check_parameter(uint32_t number, uint32_t port, const uint8_t *payload, size_t length, const uint64_t *record, const uint64_t *before,
                            const uint8_t *reply)
{
    uint8_t function = payload[0], parameter = payload[2];
    int general = function < 131, resetting = function == 130 || function == 133;
    check(number == parameter_number(port, payload, length), "the number of a message of parameters");
    if (number != 0)
        return;
    uint32_t pair = general ? ports * (ports - 1) : pair_number(ports, payload[1] >> 4, payload[1] & 15);
    size_t at = LOSSES_AT(ports) + pair;
    if (resetting) {
        check(record[at] == 0, "a counter that was reset");
        for (size_t i = LOSSES_AT(ports); i <= GENERAL_AT(ports); i++)
            check(i == at || record[i] == before[i], "a reset of another counter");
        resets[general] += before[at] != 0;
        return;
    }
    uint64_t value = general ? general_value(parameter, record) : value_of(parameter, record + PAIRS_AT(ports) + PAIR_WORDS * pair, record[at]);
    uint8_t due[8] = {(uint8_t)(function + 1), general ? 0xFF : payload[1], parameter, (uint8_t)value, (uint8_t)(value >> 8), 0xFF, 0xFF, 0xFF};
    check(memcmp(reply, due, 8) == 0, "a parameter's reply");
    told_losses[general] += parameter == 9;
    told_most[general] += parameter == 9 && value == MOST_LOSSES;
}

static void print_losses(void)
{
    for (int general = 0; general < 2; general++)
        printf("losses %s told %" PRIu64 ", at the most %" PRIu64 ", counters that were not 0 reset %" PRIu64 "\n", general ? "in general" : "of a pair",
               told_losses[general], told_most[general], resets[general]);
}

static int is_pgn(uint32_t number)
{
    return number < 1u << 18 && ((number >> 8 & 0xFF) >= 240 || (number & 0xFF) == 0);
}

/* The bytes of function 7: function, pair byte, PGN, NAME, mask, rate. */
enum { NAME_BYTES = 23 };

static uint64_t number_at(const uint8_t *bytes, int length)
{
    uint64_t number = 0;
    while (length-- > 0)
        number = number << 8 | bytes[length];
    return number;
}

/* Whether a pair has the NAME entry of these words. */
static int has_name(const uint64_t *pair, const uint64_t *entry)
{
    for (uint64_t i = 0; i < names_of(pair); i++)
        if (memcmp(name_at(pair, i), entry, NAME_WORDS * sizeof *entry) == 0)
            return 1;
    return 0;
}

/* 12, 22, 15 and 16 of function 7 by the record before, in this order. */
static uint32_t name_number(const uint64_t *pair, const uint64_t *entry, size_t length)
{
    if (length != NAME_BYTES)
        return DEORASAENG_WRONG_BODY;
    if (!is_pgn((uint32_t)entry[0]))
        return DEORASAENG_WRONG_ENTRY;
    if (pair[0] == CLEARED)
        return DEORASAENG_IS_CLEARED;
    return names_of(pair) == NAMES && !has_name(pair, entry) ? DEORASAENG_LIST_FULL : DEORASAENG_DONE;
}

/* Function 7 that is not refused with 1 to 11: its number; and where it is done, the entry behind those that were there, unless it is one of them, and nothing else. */
static void check_name_entry(uint32_t number, const uint8_t *payload, size_t length, const uint64_t *record, const uint64_t *before, const uint64_t *answer)
{
    uint32_t from = payload[1] >> 4, to = payload[1] & 15;
    const uint64_t *pair = pair_of(record, from, to), *old = pair_of(before, from, to);
    uint64_t entry[NAME_WORDS] = {0}, names = names_of(old);
    if (length == NAME_BYTES) {
        entry[0] = number_at(payload + 2, 3);
        entry[1] = number_at(payload + 5, 8);
        entry[2] = number_at(payload + 13, 8);
    }
    check(number == name_number(old, entry, length), "the number of function 7");
    check(answer[DEORASAENG_ENTRY] == (number == DEORASAENG_WRONG_ENTRY), "the entry of function 7");
    names_ninth += number == DEORASAENG_LIST_FULL;
    if (number != 0)
        return;
    size_t at = (size_t)(pair - record);
    check(memcmp(record, before, at * sizeof *record) == 0, "function 7 changed a word before its pair");
    check(memcmp(pair + PAIR_WORDS, old + PAIR_WORDS, (GENERAL_AT(ports) + 1 - at - PAIR_WORDS) * sizeof *record) == 0, "function 7 changed a word behind its pair");
    if (has_name(old, entry)) {
        check(memcmp(pair, old, PAIR_WORDS * sizeof *pair) == 0, "one already there changed something");
        names_there++;
        return;
    }
    names_added++;
    check(pair[0] >= BLOCK_NAMED && is_block(pair[0]) == is_block(old[0]) && names_of(pair) == names + 1, "one NAME entry more");
    check(memcmp(pair + 1, old + 1, (NAMES_AT - 1) * sizeof *pair) == 0, "function 7 changed the list");
    check(memcmp(pair + RISING_AT, old + RISING_AT, LIST * sizeof *pair) == 0, "function 7 changed the list in rising order");
    check(memcmp(name_at(pair, 0), name_at(old, 0), NAME_WORDS * names * sizeof *pair) == 0, "function 7 changed another NAME entry");
    check(memcmp(name_at(pair, names), entry, sizeof entry) == 0, "another NAME entry than was sent");
}

static void print_names(void)
{
    printf("listed by NAME in pass %" PRIu64 ", in block %" PRIu64 "; NAME entries added %" PRIu64 ", already there %" PRIu64 ", a ninth refused %" PRIu64 "\n", by_name[1], by_name[0],
           names_added, names_there, names_ninth);
}

/* The entry of a command at a place from 1. */
static uint32_t entry_at(const uint8_t *payload, uint64_t place)
{
    const uint8_t *bytes = payload + (payload[0] == 6 ? 3 : 2) + 3 * (place - 1);
    return bytes[0] | (uint32_t)bytes[1] << 8 | (uint32_t)bytes[2] << 16;
}

/* How many entries a command has, 0 if its length or its filling is wrong. */
static uint64_t entries_of(const uint8_t *payload, size_t length)
{
    size_t first = payload[0] == 6 ? 3 : 2;
    int filled = length == 8;
    for (size_t i = first + 3; filled && i < length; i++)
        filled = payload[i] == 0xFF;
    if (filled)
        return 1;
    return (length - first) % 3 == 0 ? (length - first) / 3 : 0;
}

/* 12, and 22 with the first entry that is no PGN, exactly; both stand before 13. */
static void check_body(uint32_t number, const uint8_t *payload, size_t length, const uint64_t *answer)
{
    uint64_t entries = entries_of(payload, length), wrong = 1;
    while (wrong <= entries && is_pgn(entry_at(payload, wrong)))
        wrong++;
    check((number == DEORASAENG_WRONG_BODY) == (entries == 0), "number 12");
    check((number == DEORASAENG_WRONG_ENTRY) == (wrong <= entries), "number 22");
    check(number != DEORASAENG_WRONG_ENTRY || answer[DEORASAENG_ENTRY] == wrong, "the first entry that is no PGN");
}

/* What a message's answer tells of an entry, as far as the command alone says it. */
static void check_entry(uint32_t number, const uint8_t *payload, size_t length, const uint64_t *answer)
{
    uint64_t entry = answer[DEORASAENG_ENTRY], to = answer[DEORASAENG_TO], pgn = answer[DEORASAENG_ABSENT];
    int judged = number == DEORASAENG_DONE || number >= DEORASAENG_WRONG_BODY;
    if (judged && (payload[0] == 2 || payload[0] == 3 || payload[0] == 6))
        check_body(number, payload, length, answer);
    if (number == DEORASAENG_PGN_ABSENT) {
        uint32_t named = payload[1] & 15;
        check(payload[0] == 3 && entry >= 1 && entry <= entries_of(payload, length) && pgn == entry_at(payload, entry), "the PGN that is absent");
        check(to >= 1 && to <= ports && to != payload[1] >> 4 && (named == 15 || to == named), "the port of the pair that lacks it");
    } else {
        check((to | pgn) == 0 && (entry == 0 || number == DEORASAENG_WRONG_ENTRY), "an entry told with another number");
    }
}

/* A NAME near the unit's, as most claims have; a mask of no bit, all, one, those in which such NAMEs differ, or any. */
static uint64_t some_near_name(void)
{
    return 0xA000000000000000u + below(16);
}

static uint64_t some_mask(void)
{
    const uint64_t masks[8] = {0, 0, UINT64_MAX, UINT64_MAX, 15, 15, UINT64_C(1) << below(64), next()};
    return masks[below(8)];
}

/* In a storm of losses the NAMEs are near the unit's, so that it is not displaced, and of its resets one in so many is made, so that the others add up. */
static int storm;
enum { RESETS_IN_A_STORM = 10000 };

static void some_bytes(uint8_t *bytes, uint32_t id, size_t length)
{
    static const uint8_t request[3] = {0x00, 0xEE, 0x00};
    uint64_t name = storm || below(64) ? some_near_name() : next();
    for (size_t i = 0; i < length; i++)
        bytes[i] = (uint8_t)(name >> 8 * (i % 8));
    if ((id >> 16 & 0xFF) == 0xEA && length == 3 && below(8))
        memcpy(bytes, request, 3);
}

static uint32_t some_port(void)
{
    switch (below(100)) {
    case 0: return (uint32_t)next() >> below(32);
    case 1: return ports + 1;
    default: return 1 + below(ports);
    }
}

/* A frame's length: that of a claim, of a request, or any. */
static size_t some_length(uint32_t id)
{
    if (below(4) == 0)
        return below(10);
    return (id >> 16 & 0xFF) == 0xEA ? 3 : 8;
}

static size_t some_payload_length(void)
{
    switch (below(8)) {
    case 0: return 8 + 3 * below(40);
    case 1: return 9 + 3 * below(40);
    case 2: return below(64) == 0 ? below(2000) : 8 + below(200);
    case 3: return NAME_BYTES;
    default: return 8;
    }
}

static uint8_t some_function(void)
{
    static const uint8_t functions[13] = {0, 2, 2, 3, 4, 6, 6, 7, 64, 128, 131, 130, 133};
    uint8_t function = below(20) == 0 ? (uint8_t)(below(4) == 0 ? 128 + below(6) : next()) : functions[below(13)];
    if (storm && (function == 130 || function == 133) && below(RESETS_IN_A_STORM) != 0)
        return function == 130 ? 128 : 131;
    return function;
}

/* A parameter that is held, mostly the losses, or any. */
static uint8_t some_parameter(void)
{
    static const uint8_t parameters[8] = {1, 2, 3, 3, 9, 9, 9, 9};
    return below(8) == 0 ? (uint8_t)next() : parameters[below(8)];
}

/* A NAME entry as function 7 has it, and any rate. */
static void put_name_entry(uint8_t *payload, const uint64_t *entry)
{
    const uint64_t words[4] = {entry[0], entry[1], entry[2], next()};
    static const int bytes[4] = {3, 8, 8, 2};
    for (int i = 0, n = 2; i < 4; i++)
        for (int k = 0; k < bytes[i]; k++)
            payload[n++] = (uint8_t)(words[i] >> 8 * k);
}

/* One of few PGNs and NAMEs. */
static void some_name_entry(uint8_t *payload)
{
    const uint64_t entry[NAME_WORDS] = {below(4) ? 0xF000 + below(4) : some_pgn(), 0xA000000000000000u + below(4), some_mask()};
    put_name_entry(payload, entry);
}

/* In place of a function 7's entry now and then one that its pair has. */
static void name_there(uint8_t *payload, size_t length, const uint64_t *record)
{
    if (length != NAME_BYTES || payload[0] != 7 || below(3) != 0)
        return;
    uint32_t from = payload[1] >> 4, to = payload[1] & 15;
    if (from < 1 || from > ports || to < 1 || to > ports || from == to)
        return;
    const uint64_t *pair = pair_of(record, from, to);
    if (names_of(pair) != 0)
        put_name_entry(payload, name_at(pair, below((uint32_t)names_of(pair))));
}

/* A payload that is mostly in good form. */
static void some_payload(uint8_t *payload, size_t length)
{
    for (size_t i = 0; i < length; i++)
        payload[i] = 0xFF;
    if (length < 3)
        return;
    payload[0] = length == NAME_BYTES && below(4) ? 7 : some_function();
    payload[1] = (uint8_t)(below(20) == 0 ? next() : (1 + below(ports)) << 4 | (below(4) == 0 ? 15 : 1 + below(ports)));
    size_t first = payload[0] == 6 ? 3 : 2;
    if (payload[0] == 7 && length == NAME_BYTES) {
        some_name_entry(payload);
        return;
    }
    if (payload[0] >= 128) {
        payload[2] = some_parameter();
        return;
    }
    payload[2] = payload[0] == 6 ? (uint8_t)below(below(20) == 0 ? 256 : 2) : 0xFF;
    size_t entries = length == 8 ? 1 + below(2) : (length - first) / 3;
    for (size_t i = 0; i < entries && first + 3 * i + 3 <= length; i++) {
        uint32_t pgn = some_pgn();
        for (int k = 0; k < 3; k++)
            payload[first + 3 * i + k] = (uint8_t)(pgn >> 8 * k);
    }
}

#endif
