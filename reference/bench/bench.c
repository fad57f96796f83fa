/* The proved library against its twins in C and in Rust, all through one C interface. They must agree on random calls; then each kind of call is timed on the three
   sides in turn, and the least of the rounds counts, so a ratio is of one run; then the stack that a call takes.
   usage: bench [CALLS [ROUNDS]], and at its end the hundredths of a second that it took of a processor, on standard error; bench count: each row once on each side, in a function of its own, for a tool that counts instructions */
#include "calls.h"
#include <stdio.h>
#include <stdlib.h>
#include <string.h>
#include <time.h>
#include <ucontext.h>

/* Words of the record; those of a pair in that of a unit with four ports. */
#define MODE(pair) (PAIRS_AT(USUAL_PORTS) + PAIR_WORDS * (pair))
#define COUNT(pair) (MODE(pair) + 1)
#define NAMED(pair) (MODE(pair) + NAMES_AT)
#define WAITING(port) DEORASAENG_QUEUE_AT(port)
#define HOLDER(address) (TABLE_AT + PLACE_WORDS * (address))

/* A frame's identifier; its PGN is in no list unless a row says so. */
enum { DATA = 0x0CF00400, PGN = 61444, CLAIM = 0x18EEFF26, ASK_ALL = 0x18EAFF26, TO_UNIT = 0x18EF5026 };

struct row {
    const char *label;
    /* The calls, and the number that the last one gives. */
    uint32_t (*run)(const struct side *, const struct row *, long calls);
    uint32_t number;
    /* How many ports the unit has, four unless said. */
    uint32_t ports;
    /* Every pair: its mode, how many PGNs it lists, where the frame's PGN stands among them, from 1, and how many of them are below it; whether they are far apart; how many
       NAME entries it has, all of the frame's PGN, and which of them has the sender's NAME, from 1. Every queue: how many wait, and whether they are of lower rank than the
       frame. Addresses held. */
    int mode, entries, at, below, apart, names, name_at, waiting, lower, held;
    /* A frame: identifier, length (8 for a frame with its takes, unless said) and bytes. */
    uint32_t id;
    size_t len;
    uint64_t bytes;
    /* A message: function, pair byte, parameter; how many entries, how many of them different, the first one's place among the PGNs, or that of the NAME among the NAMEs, the
       last one's; backwards or in any order. */
    uint8_t function, pair, parameter;
    int named, different, first, last, backwards, mixed;
    /* A plan: how many units it has, and whether they close a ring; its lists are as every pair's above, and the last word of the last is wrong where the number is 28. */
    uint32_t units;
    int ring;
    /* How many pairs from port 1, and which words, every call finds as they were: at, value. */
    int whole;
    uint64_t resets[6][2];
};

static uint64_t w[MOST_WORDS], made[MOST_WORDS];
static uint32_t ports;
static size_t record_len;
static struct lent lent;
static uint8_t payload[LONGEST];
static size_t payload_len;
static struct plan plan;

/* ---- what the calls find */
static uint32_t listed(int i)
{
    return 0xFE00 + i;
}

/* One that is below the frame's. */
static uint32_t listed_below(int i)
{
    return 0x100 * (i + 1);
}

/* One that has room for others on either side. */
static uint32_t listed_apart(int i)
{
    return 0xF020 + 0x40 * i;
}

/* Places up to 32 in any order. */
static int mixed(int i)
{
    return (19 * i + 7) % LIST;
}

/* The NAME of an entry that is not the sender's; the sender has NAME 1. */
static uint64_t named(int i)
{
    return 0xA000000000000100 + i;
}

static void restore(const struct row *r)
{
    if (r->whole)
        memcpy(w + MODE(0), made + MODE(0), 8 * PAIR_WORDS * r->whole);
    for (int i = 0; r->resets[i][0]; i++)
        w[r->resets[i][0]] = r->resets[i][1];
}

static void make_payload(const struct row *r)
{
    size_t n = 2;
    payload[0] = r->function;
    payload[1] = r->pair;
    if (r->function == 6)
        payload[n++] = 1;
    if (r->function >= 128)
        payload[n++] = r->parameter;
    if (r->function == 7) {
        const uint64_t words[4] = {PGN, named(r->first), UINT64_MAX, 0};
        const int bytes[4] = {3, 8, 8, 2};
        for (int i = 0; i < 4; i++)
            for (int b = 0; b < bytes[i]; b++)
                payload[n++] = words[i] >> 8 * b;
    }
    for (int i = 0; i < r->named; i++) {
        int k = r->mixed ? mixed(i % r->different) : i % r->different;
        uint32_t pgn = listed(r->last && i == r->named - 1 ? r->last : r->first + (r->backwards ? r->different - 1 - k : k));
        for (int b = 0; b < 3; b++)
            payload[n++] = pgn >> 8 * b;
    }
    while (n < 8)
        payload[n++] = 0xFF;
    payload_len = n;
}

/* The units in a chain, with all their lists; ports further on for each unit. In a ring they join as many segments as there are units; else the last
   of sixteen is at its end, since there is no segment more. */
static void make_plan(const struct row *r)
{
    memset(&plan, 0, sizeof plan);
    plan.units = r->units;
    plan.segments = r->ring || r->units == MOST_UNITS ? r->units : r->units + 1;
    plan.first = 1;
    plan.pgn = PGN;
    for (uint32_t i = 0; i < plan.units; i++) {
        uint64_t *unit = plan.ports + MOST_PORTS * i;
        unit[i % MOST_PORTS] = i + 1;
        if (r->ring || i + 2 <= plan.segments)
            unit[(i + 5) % MOST_PORTS] = (i + 1) % plan.segments + 1;
    }
    for (uint32_t i = 0; i < PLAN_PAIRS * plan.units; i++) {
        uint64_t *pair = plan.lists + PLAN_PAIR_WORDS * i;
        pair[0] = r->mode;
        pair[1] = r->entries;
        for (int j = 0; j < r->entries; j++)
            pair[2 + j] = j + 1 == r->at ? PGN : listed(j);
    }
    if (r->number == 28)
        plan.lists[PLAN_PAIR_WORDS * PLAN_PAIRS * plan.units - 1] = 1;
    make_links(&plan);
}

/* The list, and behind the NAME entries once more in rising order; an earlier record, on which `beside` runs the same rows, ends there. */
static void make_list(const struct row *r, uint64_t *pair)
{
    enum { RISING = NAMES_AT + 1 + NAME_WORDS * NAMES };
    uint64_t *rising = pair + RISING;
    pair[1] = r->entries;
    for (int j = 0; j < r->entries; j++)
        pair[2 + j] = j + 1 == r->at ? PGN : r->apart ? listed_apart(j) : j < r->below ? listed_below(j) : listed(j);
    for (int j = 0; j < r->entries && PAIR_WORDS > RISING; j++) {
        uint64_t x = pair[2 + j];
        int k = j;
        for (; k > 0 && rising[k - 1] > x; k--)
            rising[k] = rising[k - 1];
        rising[k] = x;
    }
}

static void make(const struct row *r)
{
    if (r->units)
        make_plan(r);
    ports = r->ports ? r->ports : USUAL_PORTS;
    record_len = DEORASAENG_RECORD_WORDS_FOR(ports);
    memset(w, 0, sizeof w);
    w[0] = 2;
    w[1] = w[2] = 0x50;
    w[3] = 0xA000000000000050;
    w[PORTS_AT] = ports;
    for (uint32_t i = 0; i < ports * (ports - 1); i++) {
        uint64_t *pair = w + PAIRS_AT(ports) + PAIR_WORDS * i, *name = pair + NAMES_AT + 1;
        pair[0] = r->mode;
        make_list(r, pair);
        pair[NAMES_AT] = r->names;
        for (int j = 0; j < r->names; j++, name += NAME_WORDS) {
            name[0] = PGN;
            name[1] = j + 1 == r->name_at ? 1 : named(j);
            name[2] = UINT64_MAX;
        }
    }
    for (uint32_t port = 1; port <= ports; port++) {
        uint64_t *queue = w + WAITING(port), id = DATA | (r->lower ? 0x18000000 : 0);
        queue[0] = queue[COUNTS_AT + (id >> 26 & 7)] = queue[COUNTS_AT + DEORASAENG_COUNTS_ACCEPTED] = r->waiting;
        for (int j = 0; j < r->waiting; j++)
            queue[FRAMES_AT + 2 * j] = id | 8ull << 32;
    }
    for (int i = 0, n = 0; n < r->held; i++)
        if (i != 0x50) {
            w[HOLDER(i)] = 2;
            w[HOLDER(i) + 1] = ++n;
        }
    memcpy(made, w, sizeof w);
    restore(r);
    make_payload(r);
}

/* ---- the calls */
static uint32_t frame_and_takes(const struct side *side, const struct row *r, long calls)
{
    uint32_t number = 0;
    size_t len = r->len ? r->len : 8;
    for (long k = 0; k < calls; k++) {
        number = side->frame(w, record_len, 1, DATA, (const uint8_t *)&k, len, lent.answer, DEORASAENG_FRAME_ANSWER);
        for (uint32_t port = 2; port <= ports; port++)
            side->take(w, record_len, port, lent.answer, DEORASAENG_TAKE_ANSWER, lent.bytes, DEORASAENG_FRAME_BYTES);
    }
    return number;
}

static uint32_t frames(const struct side *side, const struct row *r, long calls)
{
    uint32_t number = 0;
    for (long k = 0; k < calls; k++) {
        restore(r);
        number = side->frame(w, record_len, 1, r->id, (const uint8_t *)&r->bytes, r->len, lent.answer, DEORASAENG_FRAME_ANSWER);
    }
    return number;
}

/* Identifiers at random, of PGNs that a list far apart has, and of PGNs below, between and above them. Those of a round go on where the last one's ended. */
static uint32_t drawn[2][1 << 16];
static size_t draws;

static void draw(void)
{
    for (size_t i = 0; i < sizeof drawn[0] / sizeof *drawn[0]; i++) {
        drawn[0][i] = (DATA & ~0x3FFFF00u) | listed_apart(next() % LIST) << 8;
        drawn[1][i] = (DATA & ~0x3FFFF00u) | (listed_apart(next() % (LIST + 1)) - 0x20 + next() % 0x20) << 8;
    }
}

/* Frames that every list stops: of listed PGNs in block mode, of absent ones in pass mode. */
static uint32_t frames_at_random(const struct side *side, const struct row *r, long calls)
{
    const uint32_t *ids = drawn[r->mode == PASS];
    uint32_t number = 0;
    for (long k = 0; k < calls; k++)
        number = side->frame(w, record_len, 1, ids[draws++ % (sizeof drawn[0] / sizeof *drawn[0])], (const uint8_t *)&r->bytes, 8, lent.answer, DEORASAENG_FRAME_ANSWER);
    return number;
}

static uint32_t takes(const struct side *side, const struct row *r, long calls)
{
    uint32_t number = 0;
    (void)r;
    for (long k = 0; k < calls; k++)
        number = side->take(w, record_len, 2, lent.answer, DEORASAENG_TAKE_ANSWER, lent.bytes, DEORASAENG_FRAME_BYTES);
    return number;
}

static uint32_t messages(const struct side *side, const struct row *r, long calls)
{
    uint32_t number = 0;
    for (long k = 0; k < calls; k++) {
        restore(r);
        number = side->message(w, record_len, 1, 0x21, payload, payload_len, lent.reply, LONGEST, lent.answer, DEORASAENG_MESSAGE_ANSWER);
    }
    return number;
}

/* The entries of a message, each in one of its own. */
static uint32_t one_by_one(const struct side *side, const struct row *r, long calls)
{
    uint8_t one[8] = {r->function, r->pair, 0, 0, 0, 0xFF, 0xFF, 0xFF};
    uint32_t number = 0;
    for (long k = 0; k < calls; k++) {
        restore(r);
        for (int i = 0; i < r->named; i++) {
            memcpy(one + 2, payload + 2 + 3 * i, 3);
            number = side->message(w, record_len, 1, 0x21, one, sizeof one, lent.reply, LONGEST, lent.answer, DEORASAENG_MESSAGE_ANSWER);
        }
    }
    return number;
}

static uint32_t starts(const struct side *side, const struct row *r, long calls)
{
    uint32_t number = 0;
    for (long k = 0; k < calls; k++) {
        restore(r);
        w[0] = 0;
        number = side->start(w, record_len, lent.answer, DEORASAENG_START_ANSWER);
    }
    return number;
}

static uint32_t quiets(const struct side *side, const struct row *r, long calls)
{
    uint32_t number = 0;
    (void)r;
    for (long k = 0; k < calls; k++) {
        w[0] = 1;
        number = side->quiet(w, record_len);
    }
    return number;
}

static uint32_t units(const struct side *side, const struct row *r, long calls)
{
    uint32_t number = 0;
    (void)r;
    for (long k = 0; k < calls; k++)
        number = side->unit(w, record_len, lent.answer, DEORASAENG_UNIT_ANSWER);
    return number;
}

static uint32_t counts(const struct side *side, const struct row *r, long calls)
{
    uint32_t number = 0;
    (void)r;
    for (long k = 0; k < calls; k++)
        number = side->counts(w, record_len, 2, lent.answer, DEORASAENG_COUNTS_ANSWER);
    return number;
}

static uint32_t power_ons(const struct side *side, const struct row *r, long calls)
{
    uint32_t number = 0;
    (void)r;
    for (long k = 0; k < calls; k++)
        number = side->power_on_ports(w, record_len, k, 0x50, ports);
    return number;
}

static uint32_t plans(const struct side *side, const struct row *r, long calls)
{
    uint32_t number = 0;
    (void)r;
    for (long k = 0; k < calls; k++)
        number = side->plan(plan.ports, PLAN_PORTS, plan.lists, PLAN_LISTS, plan.segments, plan.units, plan.first, plan.pgn, lent.answer, DEORASAENG_PLAN_ANSWER);
    return number;
}

static uint32_t plans_by_links(const struct side *side, const struct row *r, long calls)
{
    uint32_t number = 0;
    (void)r;
    for (long k = 0; k < calls; k++)
        number = side->plan_links(plan.links, plan.links_len, plan.lists, PLAN_LISTS, plan.segments, plan.units, plan.first, plan.pgn, lent.answer, DEORASAENG_PLAN_ANSWER);
    return number;
}

/* ---- the tables */
#define NOTHING_WAITS {{WAITING(1), 0}, {WAITING(2), 0}, {WAITING(3), 0}, {WAITING(4), 0}}
#define MODES(mode) {{MODE(0), mode}, {MODE(1), mode}, {MODE(2), mode}}

/* A NAME; the place of a PGN that is below all that are listed. */
enum { OTHER = 9, IN_FRONT = -0xE00 };

static const struct row frame_rows[] = {
    {"frame and 3 takes, cleared, depth 1", frame_and_takes, .mode = 0},
    {"frame and 3 takes, 32 PGNs, found first, depth 1", frame_and_takes, .mode = 2, .entries = 32, .at = 1},
    {"frame and 3 takes, 32 PGNs, found last, depth 1", frame_and_takes, .mode = 2, .entries = 32, .at = 32},
    {"frame and 3 takes, 32 PGNs, absent, depth 1", frame_and_takes, .mode = 1, .entries = 32},
    {"frame and 3 takes, 32 PGNs, found by the first probe, depth 1", frame_and_takes, .mode = 2, .entries = 32, .at = 16, .below = 15},
    {"frame and 3 takes, 32 PGNs, found by the sixth, depth 1", frame_and_takes, .mode = 2, .entries = 32, .at = 32, .below = 31},
    {"frame and 3 takes, 32 PGNs, absent, above all, depth 1", frame_and_takes, .mode = 1, .entries = 32, .below = 32},
    {"frame of 3 bytes and 3 takes, cleared, depth 1", frame_and_takes, .len = 3},
    {"frame and 3 takes, cleared, depth 32", frame_and_takes, .waiting = 31},
    {"frame and 3 takes, cleared, depth 32, others of lower rank", frame_and_takes, .waiting = 31, .lower = 1},
    {"frame and 3 takes, 32 PGNs, found first, depth 32", frame_and_takes, .mode = 2, .entries = 32, .at = 1, .waiting = 31},
    {"frame and 3 takes, 32 PGNs, found last, depth 32", frame_and_takes, .mode = 2, .entries = 32, .at = 32, .waiting = 31},
    {"frame and 3 takes, 32 PGNs, absent, depth 32", frame_and_takes, .mode = 1, .entries = 32, .waiting = 31},
    {"frame lost at 3 full queues", frames, .waiting = 32, .id = DATA, .len = 8},
    {"frame stopped by 3 empty pass lists", frames, .mode = 2, .id = DATA, .len = 8},
    {"frame stopped by 3 pass lists of 32", frames, .mode = 2, .entries = 32, .id = DATA, .len = 8},
    {"frame of a PGN at random of 32, stopped by the block list, 2 ports", frames_at_random, .ports = 2, .mode = BLOCK, .entries = 32, .apart = 1},
    {"frame of a PGN at random that is absent, stopped by the pass list of 32, 2 ports", frames_at_random, .ports = 2, .mode = PASS, .entries = 32, .apart = 1},
    {"frame of a PGN at random of 32, stopped by 3 block lists", frames_at_random, .mode = BLOCK, .entries = 32, .apart = 1},
    {"frame of a PGN at random that is absent, stopped by 3 pass lists of 32", frames_at_random, .mode = PASS, .entries = 32, .apart = 1},
    {"frame and 3 takes, 3 pass pairs, by the 1st of 8 NAME entries", frame_and_takes, .mode = PASS_NAMED, .names = 8, .name_at = 1, .held = 1},
    {"frame and 3 takes, 3 pass pairs, by the 8th of 8 NAME entries", frame_and_takes, .mode = PASS_NAMED, .names = 8, .name_at = 8, .held = 1},
    {"frame stopped by 3 pass pairs, by none of 8 NAME entries", frames, .mode = PASS_NAMED, .names = 8, .held = 1, .id = DATA, .len = 8},
    {"frame of 5 bytes lost at 3 full queues", frames, .waiting = 32, .id = DATA, .len = 5},
    {"frame refused (5)", frames, .number = 5, .id = DATA | 0xFF, .len = 8},
    {"frame consumed", frames, .id = TO_UNIT, .len = 8},
    {"request for address claimed, to all", frames, .id = ASK_ALL, .len = 3, .bytes = 0xEE00, .resets = NOTHING_WAITS},
    {"claim made again", frames, .waiting = 32, .id = CLAIM, .len = 8, .bytes = OTHER, .resets = {{HOLDER(0x26), 1}, {HOLDER(0x26) + 1, OTHER}}},
    {"claim of a new NAME", frames, .waiting = 32, .id = CLAIM, .len = 8, .bytes = OTHER, .resets = {{HOLDER(0x26), 0}, {HOLDER(0x26) + 1, 0}}},
    {"claim that takes over", frames, .waiting = 32, .id = CLAIM, .len = 8, .bytes = OTHER, .resets = {{HOLDER(0x26), 1}, {HOLDER(0x26) + 1, OTHER + 1}}},
    {"claim made again, 3 pass lists of 32 without its PGN", frames, .mode = 2, .entries = 32, .waiting = 32, .id = CLAIM, .len = 8, .bytes = OTHER,
     .resets = {{HOLDER(0x26), 1}, {HOLDER(0x26) + 1, OTHER}}},
    {"claim made again, 253 addresses held", frames, .waiting = 32, .id = CLAIM, .len = 8, .bytes = 0x27, .held = 253},
    {"take of nothing", takes, .waiting = 0},
    {"Start", starts, .resets = NOTHING_WAITS},
    {"Quiet", quiets, .mode = 0},
    {"unit told", units, .mode = 0},
    {"counts of a port", counts, .waiting = 32},
    {"power-on", power_ons, .mode = 0},
    {"power-on with 2 ports", power_ons, .ports = 2},
    {"power-on with 8 ports", power_ons, .ports = 8},
};

static const struct row message_rows[] = {
    {"Request of a cleared pair", messages, .pair = 0x12},
    {"Request of 1 PGN", messages, .mode = 1, .entries = 1, .pair = 0x12},
    {"Request of 32 PGNs", messages, .mode = 1, .entries = 32, .pair = 0x12},
    {"Add of 1 to 31", messages, .mode = 1, .entries = 31, .function = 2, .pair = 0x12, .named = 1, .different = 1, .first = 31, .resets = {{COUNT(0), 31}}},
    {"Add of 1 to 31, in front of them", messages, .mode = 1, .entries = 31, .function = 2, .pair = 0x12, .named = 1, .different = 1, .first = IN_FRONT, .whole = 1},
    {"32 Adds of 1, from none to 32, rising", one_by_one, .mode = 1, .function = 2, .pair = 0x12, .named = 32, .different = 32, .resets = {{COUNT(0), 0}}},
    {"32 Adds of 1, from none to 32, falling", one_by_one, .mode = 1, .function = 2, .pair = 0x12, .named = 32, .different = 32, .backwards = 1, .resets = {{COUNT(0), 0}}},
    {"32 Adds of 1, from none to 32, in any order", one_by_one, .mode = 1, .function = 2, .pair = 0x12, .named = 32, .different = 32, .mixed = 1, .resets = {{COUNT(0), 0}}},
    {"32 Deletes of 1, from 32 to none, rising", one_by_one, .mode = 1, .entries = 32, .function = 3, .pair = 0x12, .named = 32, .different = 32, .whole = 1},
    {"32 Deletes of 1, from 32 to none, falling", one_by_one, .mode = 1, .entries = 32, .function = 3, .pair = 0x12, .named = 32, .different = 32, .backwards = 1, .whole = 1},
    {"Add of 32 to none, 3 pairs", messages, .mode = 1, .function = 2, .pair = 0x1F, .named = 32, .different = 32,
     .resets = {{COUNT(0), 0}, {COUNT(1), 0}, {COUNT(2), 0}}},
    {"Add of 594, 32 different, to none", messages, .mode = 1, .function = 2, .pair = 0x12, .named = 594, .different = 32, .resets = {{COUNT(0), 0}}},
    {"Add of 594, 32 different, all listed", messages, .mode = 1, .entries = 32, .function = 2, .pair = 0x12, .named = 594, .different = 32},
    {"Add of 594, 32 different, all listed, backwards", messages, .mode = 1, .entries = 32, .function = 2, .pair = 0x12, .named = 594, .different = 32,
     .backwards = 1},
    {"Add of 594, refused (16) by the last", messages, .number = 16, .mode = 1, .entries = 32, .function = 2, .pair = 0x12, .named = 594, .different = 32, .last = 33},
    {"Add of 594 different, refused (16)", messages, .number = 16, .mode = 1, .function = 2, .pair = 0x12, .named = 594, .different = 200},
    {"Add of 594, refused (22) by the last", messages, .number = 22, .mode = 1, .entries = 32, .function = 2, .pair = 0x12, .named = 594, .different = 32, .last = 0x40000},
    {"Delete of the first of 32", messages, .mode = 1, .entries = 32, .function = 3, .pair = 0x12, .named = 1, .different = 1, .first = 0, .whole = 1},
    {"Delete of the last of 32", messages, .mode = 1, .entries = 32, .function = 3, .pair = 0x12, .named = 1, .different = 1, .first = 31, .whole = 1},
    {"Delete of 32 of 32", messages, .mode = 1, .entries = 32, .function = 3, .pair = 0x12, .named = 32, .different = 32, .whole = 1},
    {"Delete of 32 of 32, backwards", messages, .mode = 1, .entries = 32, .function = 3, .pair = 0x12, .named = 32, .different = 32, .backwards = 1, .whole = 1},
    {"Delete of 32 of 32, 3 pairs", messages, .mode = 1, .entries = 32, .function = 3, .pair = 0x1F, .named = 32, .different = 32, .whole = 3},
    {"Delete of 32 of 32, refused (17) by the last of 3 pairs", messages, .number = 17, .mode = 1, .entries = 32, .function = 3, .pair = 0x1F, .named = 32, .different = 32,
     .resets = {{COUNT(2), 31}}},
    {"Clear of 3 pairs", messages, .mode = 1, .entries = 32, .function = 4, .pair = 0x1F, .resets = MODES(1)},
    {"Create of 1", messages, .function = 6, .pair = 0x12, .named = 1, .different = 1, .resets = MODES(0)},
    {"Create of 32", messages, .function = 6, .pair = 0x12, .named = 32, .different = 32, .resets = MODES(0)},
    {"Create of 32, falling", messages, .function = 6, .pair = 0x12, .named = 32, .different = 32, .backwards = 1, .resets = MODES(0)},
    {"Create of 32, in any order", messages, .function = 6, .pair = 0x12, .named = 32, .different = 32, .mixed = 1, .resets = MODES(0)},
    {"Create of 32, 3 pairs", messages, .function = 6, .pair = 0x1F, .named = 32, .different = 32, .resets = MODES(0)},
    {"Create of 32, falling, 3 pairs", messages, .function = 6, .pair = 0x1F, .named = 32, .different = 32, .backwards = 1, .resets = MODES(0)},
    {"Create of 32, in any order, 3 pairs", messages, .function = 6, .pair = 0x1F, .named = 32, .different = 32, .mixed = 1, .resets = MODES(0)},
    {"Add by NAME, to 7", messages, .mode = PASS_NAMED, .names = 7, .function = 7, .pair = 0x12, .first = 7, .resets = {{NAMED(0), 7}}},
    {"Add by NAME, already there, the 8th", messages, .mode = PASS_NAMED, .names = 8, .function = 7, .pair = 0x12, .first = 7},
    {"Add by NAME, refused (16)", messages, .number = 16, .mode = PASS_NAMED, .names = 8, .function = 7, .pair = 0x12, .first = 8},
    {"address list of none", messages, .function = 64, .pair = 0x02},
    {"address list of 253", messages, .function = 64, .pair = 0x02, .held = 253},
    {"losses of a pair told", messages, .function = 131, .pair = 0x12, .parameter = 9},
    {"losses of a pair reset", messages, .function = 133, .pair = 0x12, .parameter = 9, .resets = {{LOSSES_AT(USUAL_PORTS), 5}}},
    {"entries in general told", messages, .mode = 1, .entries = 32, .function = 128, .parameter = 3},
    {"refused (10)", messages, .number = 10, .function = 2, .pair = 0x11},
};

static const struct row list_rows[] = {
    {"0", frame_and_takes, .mode = 1},
    {"1", frame_and_takes, .mode = 1, .entries = 1},
    {"2", frame_and_takes, .mode = 1, .entries = 2},
    {"4", frame_and_takes, .mode = 1, .entries = 4},
    {"8", frame_and_takes, .mode = 1, .entries = 8},
    {"16", frame_and_takes, .mode = 1, .entries = 16},
    {"32", frame_and_takes, .mode = 1, .entries = 32},
};

static const struct row found_rows[] = {
    {"1", frame_and_takes, .mode = 2, .entries = 1, .at = 1, .below = 0},
    {"2", frame_and_takes, .mode = 2, .entries = 2, .at = 2, .below = 1},
    {"4", frame_and_takes, .mode = 2, .entries = 4, .at = 4, .below = 3},
    {"8", frame_and_takes, .mode = 2, .entries = 8, .at = 8, .below = 7},
    {"16", frame_and_takes, .mode = 2, .entries = 16, .at = 16, .below = 15},
    {"32", frame_and_takes, .mode = 2, .entries = 32, .at = 32, .below = 31},
};

static const struct row depth_rows[] = {
    {"1", frame_and_takes, .waiting = 0},
    {"2", frame_and_takes, .waiting = 1},
    {"4", frame_and_takes, .waiting = 3},
    {"8", frame_and_takes, .waiting = 7},
    {"16", frame_and_takes, .waiting = 15},
    {"32", frame_and_takes, .waiting = 31},
};

static const struct row port_rows[] = {
    {"2", frame_and_takes, .ports = 2},
    {"3", frame_and_takes, .ports = 3},
    {"4", frame_and_takes, .mode = 0},
    {"5", frame_and_takes, .ports = 5},
    {"6", frame_and_takes, .ports = 6},
    {"7", frame_and_takes, .ports = 7},
    {"8", frame_and_takes, .ports = 8},
};

static const struct row full_port_rows[] = {
    {"2", frame_and_takes, .ports = 2, .mode = 1, .entries = 32, .waiting = 31},
    {"4", frame_and_takes, .mode = 1, .entries = 32, .waiting = 31},
    {"8", frame_and_takes, .ports = 8, .mode = 1, .entries = 32, .waiting = 31},
};

/* Without a ring 16 units of eight ports on 16 segments have 31 ports in use at most; all 896 lists are judged. */
static const struct row plan_rows[] = {
    {"1 unit, cleared", plans, .units = 1},
    {"16 units, cleared", plans, .units = 16},
    {"16 units, 896 lists of 32, found first", plans, .units = 16, .mode = 2, .entries = 32, .at = 1},
    {"16 units, 896 lists of 32, absent (the largest plan)", plans, .units = 16, .mode = 1, .entries = 32},
    {"the largest plan, as links", plans_by_links, .units = 16, .mode = 1, .entries = 32},
    {"the largest plan, stopped at its first unit", plans, .units = 16, .mode = 2, .entries = 32},
    {"the largest plan, refused (28) by the last word", plans, .number = 28, .units = 16, .mode = 1, .entries = 32},
    {"the largest plan, refused (29)", plans, .number = 29, .units = 16, .ring = 1, .mode = 1, .entries = 32},
};

static const struct table {
    const char *title, *column;
    const struct row *rows;
    size_t count;
} tables[] = {
    {"Frames, takes, Start, Quiet, the unit, counts, power-on", "call", frame_rows, sizeof frame_rows / sizeof *frame_rows},
    {"Network messages, from port 1", "message", message_rows, sizeof message_rows / sizeof *message_rows},
    {"Growth with the lists: frame and 3 takes, depth 1, a PGN that is absent", "PGNs in each list", list_rows, sizeof list_rows / sizeof *list_rows},
    {"Growth with the lists: frame and 3 takes, depth 1, the highest PGN of each list, its last probe", "PGNs in each list, listed", found_rows, sizeof found_rows / sizeof *found_rows},
    {"Growth with the queues: frame and 3 takes, cleared pairs, equal ranks", "depth", depth_rows, sizeof depth_rows / sizeof *depth_rows},
    {"Growth with the ports: frame that joins every other queue, and a take at each, cleared pairs, depth 1", "ports", port_rows,
     sizeof port_rows / sizeof *port_rows},
    {"The same, lists of 32 PGNs that are not the frame's, depth 32", "ports, lists and queues full", full_port_rows, sizeof full_port_rows / sizeof *full_port_rows},
    {"Plans: units of eight ports in a chain, a PGN that every list lets through unless said", "plan", plan_rows, sizeof plan_rows / sizeof *plan_rows},
};

enum { TABLES = sizeof tables / sizeof *tables };

static double now(void)
{
    struct timespec t;
    clock_gettime(CLOCK_MONOTONIC, &t);
    return t.tv_sec * 1e9 + t.tv_nsec;
}

static double time_of(const struct side *side, const struct row *r, long calls)
{
    make(r);
    double start = now();
    r->run(side, r, calls);
    return (now() - start) / calls;
}

/* The sides do the same on a row, and give its number. */
static void check_row(const struct row *r)
{
    static uint64_t first[MOST_WORDS], answer[ANSWER_WORDS];
    for (int s = 0; s < SIDES; s++) {
        make(r);
        memset(&lent, 0, sizeof lent);
        draws = 0;
        uint32_t number = r->run(&sides[s], r, 3);
        if (number != r->number || (s > 0 && (!same_record(first, w) || memcmp(answer, lent.answer, sizeof answer)))) {
            printf("%s: %s gives %u, or not what the others give\n", r->label, sides[s].name, (unsigned)number);
            exit(1);
        }
        memcpy(first, w, sizeof w);
        memcpy(answer, lent.answer, sizeof answer);
    }
}

/* The figures of a row. A case that stands in two tables is timed once, so that they agree. */
struct figures {
    const struct row *row;
    double least[SIDES];
};

static struct figures timed[160];
static size_t timed_count;

static int same_case(const struct row *a, const struct row *b)
{
    return a->run == b->run && a->number == b->number && a->ports == b->ports && a->mode == b->mode && a->entries == b->entries && a->at == b->at && a->below == b->below && a->apart == b->apart && a->names == b->names && a->name_at == b->name_at && a->waiting == b->waiting &&
           a->lower == b->lower && a->held == b->held && a->id == b->id && a->len == b->len && a->bytes == b->bytes && a->function == b->function &&
           a->pair == b->pair && a->parameter == b->parameter && a->units == b->units && a->ring == b->ring && a->named == b->named && a->different == b->different && a->first == b->first && a->last == b->last &&
           a->backwards == b->backwards && a->mixed == b->mixed && a->whole == b->whole && memcmp(a->resets, b->resets, sizeof a->resets) == 0;
}

static const double *figures_of(const struct row *r, int rounds)
{
    struct figures *f = timed + timed_count;
    for (size_t i = 0; i < timed_count; i++)
        if (same_case(timed[i].row, r))
            return timed[i].least;
    if (timed_count++ == sizeof timed / sizeof *timed)
        abort();
    f->row = r;
    check_row(r);
    for (int s = 0; s < SIDES; s++)
        f->least[s] = 1e30;
    long calls = 30000 / time_of(&sides[1], r, 20) + 20;
    for (int k = 0; k < rounds; k++)
        for (int s = 0; s < SIDES; s++) {
            draws = k * calls;
            double x = time_of(&sides[s], r, calls);
            f->least[s] = x < f->least[s] ? x : f->least[s];
        }
    return f->least;
}

static void time_row(const struct row *r, int rounds)
{
    const double *least = figures_of(r, rounds);
    printf("| %s | %.1f | %.1f | %.1f |\n", r->label, least[0], least[1], least[2]);
    fflush(stdout);
}

static void time_tables(int rounds)
{
    for (const struct table *t = tables; t < tables + TABLES; t++) {
        printf("\n## %s\n\n| %s | Rattle, ns | C, ns | Rust, ns |\n|---|---|---|---|\n", t->title, t->column);
        for (const struct row *r = t->rows; r < t->rows + t->count; r++)
            time_row(r, rounds);
    }
}

/* ---- the stack: painted before each call, and looked through after it */
static uint32_t nothing();

static const struct side empty = {"nothing", nothing, nothing, nothing, nothing, nothing, nothing, nothing, nothing, nothing, nothing, nothing};

static uint32_t nothing()
{
    return 0;
}

static char stack[32768];
static const struct side *stack_side;
static struct call stack_call;

static void on_stack(void)
{
    do_call(stack_side, &stack_call, &lent);
}

static size_t touched(const struct side *side)
{
    ucontext_t here, there;
    size_t i = 0;
    memset(stack, 0x5A, sizeof stack);
    stack_side = side;
    getcontext(&there);
    there.uc_stack.ss_sp = stack;
    there.uc_stack.ss_size = sizeof stack;
    there.uc_link = &here;
    makecontext(&there, on_stack, 0);
    swapcontext(&here, &there);
    while (stack[i] == 0x5A)
        i++;
    return sizeof stack - i;
}

/* The most that a call takes, with its return address. */
static void print_stack(long calls)
{
    static const char *labels[KINDS] = {"frame", "take", "message", "Start", "Quiet", "unit", "counts", "power-on", "power-on with ports", "plan", "plan as links"};
    size_t most[KINDS][SIDES] = {{0}};
    for (int s = 0; s < SIDES; s++) {
        memset(&lent, 0, sizeof lent);
        for (long k = 0; k < calls; k++) {
            make_call(&stack_call, lent.record);
            size_t none = touched(&empty), n = touched(&sides[s]) - none + 8, *m = &most[stack_call.kind][s];
            *m = n > *m ? n : *m;
        }
    }
    printf("\n## Stack, the most of %ld random calls\n\n| call | Rattle, bytes | C, bytes | Rust, bytes |\n|---|---|---|---|\n", calls);
    for (int i = 0; i < KINDS; i++)
        printf("| %s | %zu | %zu | %zu |\n", labels[i], most[i][0], most[i][1], most[i][2]);
}

/* ---- counting */
__attribute__((noinline)) void measured(const struct side *side, const struct row *r, long calls)
{
    r->run(side, r, calls);
    __asm__ volatile("");
}

/* The rows in order, and on each first nothing, then the sides; a line for each says what is run. */
static void run_rows_once(void)
{
    for (const struct table *t = tables; t < tables + TABLES; t++)
        for (const struct row *r = t->rows; r < t->rows + t->count; r++)
            for (int s = -1; s < SIDES; s++) {
                const struct side *side = s < 0 ? &empty : &sides[s];
                make(r);
                r->run(side, r, 1);
                make(r);
                draws = 0;
                measured(side, r, 16);
                printf("%s: %s|%s\n", t->column, r->label, side->name);
            }
}

int main(int argc, char **argv)
{
    draw();
    if (argc > 1 && !strcmp(argv[1], "count")) {
        run_rows_once();
        return 0;
    }
    if (!agree(argc > 1 ? atol(argv[1]) : 4000000))
        return 1;
    time_tables(argc > 2 ? atoi(argv[2]) : 1000);
    print_stack(200000);
    fprintf(stderr, "%.0f\n", 100.0 * clock() / CLOCKS_PER_SEC);
    return 0;
}
