/* Random calls, and the agreement of the sides on them. */
#include "calls.h"
#include <stdio.h>
#include <string.h>

#define SIDE(name, side) {name, side##_power_on, side##_power_on_ports, side##_frame, side##_take, side##_message, side##_start, side##_quiet, side##_unit, side##_counts, \
                          side##_plan, side##_plan_links}

const struct side sides[SIDES] = {SIDE("Rattle", deorasaeng), SIDE("C", c), SIDE("Rust", rust)};

/* The unit's NAME and preferred address. */
static const uint64_t own_name = 0xA000000000000050;
static const uint32_t own_address = 0x50;

uint64_t next(void)
{
    static uint64_t seed = 88172645463325252u;
    seed ^= seed << 13;
    seed ^= seed >> 7;
    seed ^= seed << 17;
    return seed * 0x2545F4914F6CDD1D >> 16;
}

static uint32_t below(uint32_t n)
{
    return next() % n;
}

static bool one_in(uint32_t n)
{
    return below(n) == 0;
}

/* A claim's PGN or a request's, which are permanent; with a page bit it is another. */
static uint32_t some_permanent(void)
{
    return (one_in(2) ? 0xEE00 : 0xEA00) + (one_in(4) ? below(4) << 16 : 0);
}

/* One of 40 PGNs, so that lists fill and pass 32; now and then a permanent one. */
static uint32_t some_pgn(void)
{
    uint32_t i = below(40);
    if (one_in(16))
        return some_permanent();
    return i & 1 ? 0xFE00 + i : 0x1C000 + 256 * i;
}

/* One of the PGNs that most NAME entries have. */
static uint32_t named_pgn(void)
{
    return 0xFE01 + 2 * below(4);
}

static uint32_t some_id(void)
{
    uint32_t source = one_in(8) ? 254 + below(2) : below(254), destination = one_in(3) ? own_address : below(256), rank = below(8) << 26;
    switch (below(10)) {
    case 0: case 1: return 0x18EEFF00 | (one_in(8) ? own_address : one_in(4) ? source : below(6));
    case 2: return 0x18EA0000 | (one_in(2) ? 255 : destination) << 8 | source;
    case 3: return rank | below(240) << 16 | destination << 8 | source;
    case 4: return next();
    case 5: return rank | some_permanent() << 8 | destination << 8 | source;
    case 6: return rank | named_pgn() << 8 | below(6);
    default: return rank | some_pgn() << 8 | source;
    }
}

/* A NAME near the unit's, or one of a few, or any. */
static uint64_t some_name(void)
{
    switch (below(3)) {
    case 0: return own_name - 2 + below(5);
    case 1: return 0xF000000000000000 * below(2) + below(6);
    default: return next();
    }
}

static void make_frame(struct call *c)
{
    uint64_t bytes = some_name();
    c->id = some_id();
    c->len = one_in(3) ? below(10) : 8;
    memcpy(c->payload, &bytes, 8);
    if ((c->id >> 16 & 255) == 0xEA && !one_in(4)) {
        memcpy(c->payload, "\0\xEE\0", 3);
        c->len = 3;
    }
}

static void put_entry(uint8_t *bytes, uint32_t pgn)
{
    bytes[0] = pgn;
    bytes[1] = pgn >> 8;
    bytes[2] = pgn >> 16;
}

static int some_count(void)
{
    switch (below(8)) {
    case 0: return 1 + below(594);
    case 1: return 594;
    case 2: return 1 + below(40);
    default: return 1 + below(3);
    }
}

/* The entries of an Add, Delete or Create: of the first pair's list, or of the 40, and now and then a wrong one or a byte too many. */
static void make_entries(struct call *c, const uint64_t *pair, size_t start)
{
    int n = some_count(), listed = pair[1] && !one_in(4);
    for (int i = 0; i < n; i++)
        put_entry(c->payload + start + 3 * i, listed && c->payload[0] == 3 ? pair[2 + below(pair[1])] : some_pgn());
    if (one_in(32))
        put_entry(c->payload + start + 3 * below(n), next());
    c->len = start + 3 * n;
    while (c->len < 8)
        c->payload[c->len++] = one_in(32) ? 0 : 0xFF;
    if (one_in(32))
        c->len += 1 + below(3);
}

static void put_word(uint8_t *bytes, uint64_t word)
{
    for (int i = 0; i < 8; i++)
        bytes[i] = word >> 8 * i;
}

/* The entry of an Add by NAME: one that the pair has, or a PGN of few, a NAME of those that claim and a mask of no bit, one, all or any; now and then no PGN, or another length. */
static void make_name_entry(struct call *c, const uint64_t *pair)
{
    uint64_t masks[4] = {0, 1ull << below(64), UINT64_MAX, next()}, n = pair[0] < BLOCK_NAMED ? 0 : pair[NAMES_AT];
    const uint64_t *there = pair + NAMES_AT + 1 + NAME_WORDS * (n ? below(n) : 0);
    int again = n && one_in(3);
    put_entry(c->payload + 2, one_in(32) ? next() : again ? there[0] : one_in(2) ? named_pgn() : some_pgn());
    put_word(c->payload + 5, again ? there[1] : some_name());
    put_word(c->payload + 13, again && !one_in(8) ? there[2] : masks[below(4)]);
    c->len = one_in(16) ? 8 + below(30) : 23;
}

static void make_message(struct call *c, const uint64_t *record)
{
    static const uint8_t functions[] = {0, 2, 2, 2, 3, 3, 3, 4, 6, 6, 6, 7, 7, 7, 64, 128, 130, 131, 133}, parameters[] = {1, 2, 3, 9, 9, 9};
    uint32_t ports = ports_of(record, MOST_WORDS), from = 1 + below(ports), to = 1 + (from + below(ports - 1)) % ports;
    const uint64_t *pair = record + PAIRS_AT(ports) + PAIR_WORDS * pair_number(ports, from, to);
    for (int i = 0; i < 40; i++)
        c->payload[i] = next();
    c->payload[0] = one_in(64) ? below(256) : functions[below(sizeof functions)];
    c->payload[1] = one_in(64) ? below(256) : from << 4 | (c->payload[0] && one_in(c->payload[0] < 7 ? 3 : 32) ? 15 : to);
    c->len = one_in(32) ? below(1800) : 8;
    c->requester = one_in(64) ? below(300) : 0x21;
    if (one_in(3))
        c->port = one_in(2) ? from : to;
    if (c->payload[0] == 6)
        c->payload[2] = one_in(32) ? below(256) : below(2);
    if (c->payload[0] >= 128)
        c->payload[2] = one_in(16) ? below(256) : parameters[below(sizeof parameters)];
    if (c->payload[0] == 2 || c->payload[0] == 3)
        make_entries(c, pair, 2);
    if (c->payload[0] == 6)
        make_entries(c, pair, 3);
    if (c->payload[0] == 7)
        make_name_entry(c, pair);
}

/* ---- plans */
void make_links(struct plan *p)
{
    p->links_len = 0;
    for (uint32_t unit = 0; unit < p->units; unit++)
        for (uint32_t port = 0; port < MOST_PORTS; port++)
            if (p->ports[MOST_PORTS * unit + port])
                p->links[p->links_len++] = (struct deorasaeng_link){unit + 1, port + 1, p->ports[MOST_PORTS * unit + port]};
}

/* A segment on every other port, mostly where no path leads to it yet. */
static void make_ports(struct plan *p)
{
    uint32_t joined[MOST_SEGMENTS + 1];
    for (uint32_t s = 0; s <= p->segments; s++)
        joined[s] = 1u << s;
    for (uint32_t unit = 0; unit < p->units; unit++) {
        uint32_t all = 0;
        for (uint32_t port = 0; port < MOST_PORTS; port++) {
            uint32_t s = 1 + below(p->segments);
            if (one_in(2) || (all >> s & 1 && !one_in(256)))
                continue;
            p->ports[MOST_PORTS * unit + port] = s;
            all |= joined[s];
        }
        for (uint32_t s = 1; s <= p->segments; s++)
            if (all >> s & 1)
                joined[s] = all;
    }
}

/* Some are cleared, some long; all words of the others are PGNs. */
static void make_lists(struct plan *p)
{
    for (uint32_t i = 0; i < PLAN_PAIRS * p->units; i++) {
        uint64_t *pair = p->lists + PLAN_PAIR_WORDS * i;
        pair[0] = one_in(2) ? 0 : below(3);
        pair[1] = one_in(4) ? below(LIST + 1) : below(3);
        for (uint64_t j = 0; pair[0] && j < pair[1]; j++)
            pair[2 + j] = some_pgn();
    }
}

/* A number out of its range. */
static void spoil_plan(struct plan *p)
{
    uint64_t *pair = p->lists + PLAN_PAIR_WORDS * below(PLAN_PAIRS * MOST_UNITS);
    switch (below(9)) {
    case 0: p->segments = one_in(2) ? 0 : MOST_SEGMENTS + 1; break;
    case 1: p->units = MOST_UNITS + 1; break;
    case 2: p->first = one_in(2) ? 0 : p->segments + 1; break;
    case 3: p->pgn = one_in(2) ? 1 : 1 << 18; break;
    case 4: p->ports[below(PLAN_PORTS)] = p->segments + 1; break;
    case 5: pair[0] = BLOCK_NAMED + below(2); break;
    case 6: pair[1] = LIST + 1; break;
    case 7: pair[2] = 0xEF01; break;
    default: p->links[p->links_len++] = (struct deorasaeng_link){below(p->units + 2), below(MOST_PORTS + 2), below(p->segments + 2)};
    }
}

static void make_plan(struct plan *p)
{
    memset(p->ports, 0, sizeof p->ports);
    p->segments = one_in(4) ? MOST_SEGMENTS : 1 + below(MOST_SEGMENTS);
    p->units = one_in(4) ? MOST_UNITS : below(MOST_UNITS + 1);
    p->first = 1 + below(p->segments);
    p->pgn = some_pgn();
    make_ports(p);
    make_lists(p);
    make_links(p);
    if (one_in(4))
        spoil_plan(p);
}

/* Now and then a length that is not the published one. */
static size_t some_length(size_t published)
{
    return one_in(256) ? published - 1 + 2 * below(2) : published;
}

/* Mostly the length of a unit with so many ports; now and then that of another, or one too short to have a count. */
static size_t some_record_length(uint32_t ports)
{
    switch (below(512)) {
    case 0: return DEORASAENG_RECORD_WORDS_FOR(2 + below(7));
    case 1: return below(7);
    default: return some_length(DEORASAENG_RECORD_WORDS_FOR(ports));
    }
}

void make_call(struct call *c, const uint64_t *record)
{
    static const enum kind busy[] = {FRAME, FRAME, FRAME, MESSAGE, TAKE}, slow[] = {FRAME, TAKE, TAKE, TAKE, MESSAGE, MESSAGE};
    static uint32_t phase;
    phase++;
    c->kind = phase & 1024 ? busy[below(5)] : slow[below(6)];
    if (record[0] != 2 && one_in(16))
        c->kind = record[0] == 0 ? START : record[0] == 1 ? QUIET : one_in(3) ? POWER_ON : POWER_ON_PORTS;
    if (one_in(512))
        c->kind = START + below(3);
    if (one_in(32))
        c->kind = COUNTS;
    if (one_in(4096))
        c->kind = POWER_ON + below(2);
    if (one_in(128))
        c->kind = PLAN + below(2);
    uint32_t ports = ports_of(record, MOST_WORDS);
    c->ports = one_in(8) ? below(12) : 2 + below(7);
    c->port = one_in(64) ? below(ports + 2) : 1 + below(ports);
    c->record_len = some_record_length(c->kind == POWER_ON ? USUAL_PORTS : c->kind == POWER_ON_PORTS ? c->ports : ports);
    c->bytes_len = some_length(DEORASAENG_FRAME_BYTES);
    c->reply_len = one_in(4) ? LONGEST + 15 : some_length(LONGEST);
    c->name = one_in(4) ? some_name() : own_name;
    c->preferred = one_in(8) ? below(300) : own_address;
    static const size_t answers[KINDS] = {DEORASAENG_FRAME_ANSWER, DEORASAENG_TAKE_ANSWER, DEORASAENG_MESSAGE_ANSWER, DEORASAENG_START_ANSWER, 0,
                                          DEORASAENG_UNIT_ANSWER, DEORASAENG_COUNTS_ANSWER, 0, 0, DEORASAENG_PLAN_ANSWER, DEORASAENG_PLAN_ANSWER};
    c->answer_len = one_in(256) ? below(ANSWER_WORDS + 1) : answers[c->kind];
    if (c->kind == FRAME)
        make_frame(c);
    if (c->kind == MESSAGE)
        make_message(c, record);
    c->plan_ports_len = some_length(PLAN_PORTS);
    c->plan_lists_len = some_length(PLAN_LISTS);
    if (c->kind == PLAN || c->kind == PLAN_LINKS)
        make_plan(&c->plan);
}

uint32_t do_call(const struct side *side, const struct call *c, struct lent *l)
{
    const struct plan *p = &c->plan;
    switch (c->kind) {
    case FRAME: return side->frame(l->record, c->record_len, c->port, c->id, c->payload, c->len, l->answer, c->answer_len);
    case TAKE: return side->take(l->record, c->record_len, c->port, l->answer, c->answer_len, l->bytes, c->bytes_len);
    case MESSAGE:
        return side->message(l->record, c->record_len, c->port, c->requester, c->payload, c->len, l->reply, c->reply_len, l->answer, c->answer_len);
    case START: return side->start(l->record, c->record_len, l->answer, c->answer_len);
    case QUIET: return side->quiet(l->record, c->record_len);
    case UNIT: return side->unit(l->record, c->record_len, l->answer, c->answer_len);
    case COUNTS: return side->counts(l->record, c->record_len, c->port, l->answer, c->answer_len);
    case PLAN:
        return side->plan(p->ports, c->plan_ports_len, p->lists, c->plan_lists_len, p->segments, p->units, p->first, p->pgn, l->answer, c->answer_len);
    case PLAN_LINKS:
        return side->plan_links(p->links, p->links_len, p->lists, c->plan_lists_len, p->segments, p->units, p->first, p->pgn, l->answer, c->answer_len);
    case POWER_ON: return side->power_on(l->record, c->record_len, c->name, c->preferred);
    default: return side->power_on_ports(l->record, c->record_len, c->name, c->preferred, c->ports);
    }
}

/* The record with 0 in each word that means nothing: places past a count, the list of a cleared pair, NAME entries where the mode says that there are none, what lies behind the last pair. */
static void meaning(const uint64_t *record, uint64_t *out)
{
    uint32_t ports = ports_of(record, MOST_WORDS);
    memcpy(out, record, 8 * MOST_WORDS);
    for (uint32_t i = 0; i < ports * (ports - 1); i++) {
        uint64_t *pair = out + PAIRS_AT(ports) + PAIR_WORDS * i, n = pair[0] ? pair[1] : 0;
        uint64_t *names = pair + NAMES_AT, named = pair[0] < BLOCK_NAMED ? 0 : names[0];
        pair[1] = n;
        memset(pair + 2 + n, 0, 8 * (LIST - n));
        names[0] = named;
        memset(names + 1 + NAME_WORDS * named, 0, 8 * NAME_WORDS * (NAMES - named));
        memset(pair + RISING_AT + n, 0, 8 * (LIST - n));
    }
    for (uint32_t port = 1; port <= ports; port++) {
        uint64_t *queue = out + DEORASAENG_QUEUE_AT(port);
        memset(queue + FRAMES_AT + 2 * queue[0], 0, 16 * (QUEUE - queue[0]));
    }
    memset(out + DEORASAENG_RECORD_WORDS_FOR(ports), 0, 8 * (MOST_WORDS - DEORASAENG_RECORD_WORDS_FOR(ports)));
}

bool same_record(const uint64_t *a, const uint64_t *b)
{
    static uint64_t x[MOST_WORDS], y[MOST_WORDS];
    if (!memcmp(a, b, 8 * MOST_WORDS))
        return true;
    meaning(a, x);
    meaning(b, y);
    return !memcmp(x, y, sizeof x);
}

/* One more than the highest number, and the highest reason. */
enum { NUMBERS = DEORASAENG_TWO_PATHS + 1, REASONS = DEORASAENG_REASON_STOPPED_AS_NOT_LISTED + 1 };

static bool is_number(int i)
{
    return i <= DEORASAENG_WRONG_STATE || i == DEORASAENG_WRONG_ENTRY || i == DEORASAENG_WRONG_PARAMETER || i >= DEORASAENG_WRONG_PORT_COUNT;
}

/* What came of the calls, so that one sees that nothing was left untried. */
struct tally {
    long numbers[NUMBERS], events[8], reasons[REASONS], done[256], ports[MOST_PORTS + 1], full, longest, permanent, later_entry, later_absent, later_pair, counts_of_full,
        counts_of_none, losses_told, most_told, heard[MOST_SEGMENTS + 1], by_name[2], names_full, names_sixteen;
};

/* How many lists on a frame's way would stop it if its PGN, which is permanent, were not. */
static long crossed(const struct call *c, const uint64_t *record)
{
    uint32_t ports = ports_of(record, MOST_WORDS), pgn = c->id >> 8 & 0x3FF00;
    const uint64_t *pair = record + PAIRS_AT(ports) + PAIR_WORDS * (ports - 1) * (c->port - 1);
    long n = 0;
    if (pgn != 0xEE00 && pgn != 0xEA00)
        return 0;
    for (uint32_t k = 1; k < ports; k++, pair += PAIR_WORDS) {
        uint64_t i = 0;
        while (i < pair[1] && pair[2 + i] != pgn)
            i++;
        n += pair[0] != 0 && (i < pair[1]) == (pair[0] == BLOCK || pair[0] == BLOCK_NAMED);
    }
    return n;
}

/* Whether a frame counts as listed at a port where the list has not its PGN. */
static bool is_by_name(const struct call *c, const uint64_t *record, uint32_t to, uint32_t reason)
{
    uint32_t ports = ports_of(record, MOST_WORDS), pgn = c->id >> 8 & ((c->id >> 16 & 255) < 240 ? 0x3FF00 : 0x3FFFF);
    if (reason != DEORASAENG_REASON_LISTED_IN_PASS && reason != DEORASAENG_REASON_STOPPED_AS_LISTED)
        return false;
    const uint64_t *pair = record + PAIRS_AT(ports) + PAIR_WORDS * pair_number(ports, c->port, to);
    for (uint64_t i = 0; i < pair[1]; i++)
        if (pair[2 + i] == pgn)
            return false;
    return true;
}

/* Whether the pair of a message has all the NAME entries that it can have. */
static bool has_eight(const struct call *c, const uint64_t *record)
{
    uint32_t ports = ports_of(record, MOST_WORDS);
    return record[PAIRS_AT(ports) + PAIR_WORDS * pair_number(ports, c->payload[1] >> 4, c->payload[1] & 15) + NAMES_AT] == NAMES;
}

static void count(struct tally *t, const struct call *c, const struct lent *l, uint32_t number)
{
    t->numbers[number]++;
    t->ports[ports_of(l->record, MOST_WORDS)]++;
    if (number == 0 && c->kind == FRAME) {
        t->events[l->answer[DEORASAENG_EVENT]]++;
        t->permanent += l->answer[DEORASAENG_CONSUMED] ? 0 : crossed(c, l->record);
        for (uint32_t port = 1; port <= ports_of(l->record, MOST_WORDS); port++) {
            uint32_t reason = DEORASAENG_REASON(l->answer[DEORASAENG_REASONS], port);
            t->reasons[reason]++;
            if (is_by_name(c, l->record, port, reason))
                t->by_name[reason == DEORASAENG_REASON_LISTED_IN_PASS]++;
        }
    }
    if (number == 0 && c->kind == COUNTS) {
        uint64_t waiting = l->answer[DEORASAENG_COUNTS_ACCEPTED] - l->answer[DEORASAENG_COUNTS_TAKEN];
        t->counts_of_full += waiting == QUEUE;
        t->counts_of_none += waiting == 0;
    }
    t->names_sixteen += number == DEORASAENG_LIST_FULL && c->payload[0] == 7;
    if (number == DEORASAENG_WRONG_ENTRY)
        t->later_entry += l->answer[DEORASAENG_ENTRY] > 1;
    if (number == DEORASAENG_PGN_ABSENT) {
        t->later_absent += l->answer[DEORASAENG_ENTRY] > 1;
        t->later_pair += (c->payload[1] & 15) == 15 && l->answer[DEORASAENG_TO] > 1u + (c->payload[1] >> 4 == 1);
    }
    if (number == 0 && c->kind == MESSAGE) {
        t->done[c->payload[0]]++;
        t->full += c->payload[0] == 0 && l->answer[DEORASAENG_WRITTEN] == 99;
        t->names_full += c->payload[0] == 7 && has_eight(c, l->record);
        t->longest += c->payload[0] && c->len >= 1784;
        if ((c->payload[0] == 128 || c->payload[0] == 131) && c->payload[2] == 9) {
            uint32_t losses = l->reply[3] | (uint32_t)l->reply[4] << 8;
            t->losses_told += losses != 0;
            t->most_told += losses == MOST_LOSSES;
        }
    }
    if (number == 0 && (c->kind == PLAN || c->kind == PLAN_LINKS))
        t->heard[__builtin_popcountll(l->answer[0])]++;
}

static bool is_whole(const struct tally *t, long calls)
{
    bool whole = t->full && t->longest && t->permanent && t->later_entry && t->later_absent && t->later_pair && t->counts_of_full && t->counts_of_none &&
                 t->losses_told && t->most_told && t->done[128] && t->done[130] && t->done[131] && t->done[133] &&
                 t->heard[1] && t->heard[MOST_SEGMENTS] && t->by_name[0] && t->by_name[1] && t->names_full && t->names_sixteen;
    for (int i = 0; i < NUMBERS; i++)
        whole &= !is_number(i) || t->numbers[i] > 0;
    for (int i = FEWEST_PORTS; i <= MOST_PORTS; i++)
        whole &= t->ports[i] > 0;
    for (int i = 0; i < 8; i++)
        whole &= t->events[i] > 0;
    for (int i = 0; i < REASONS; i++)
        whole &= t->reasons[i] > 0;
    printf("%ld random calls: the three sides agree. Messages done: Request %ld (%ld of 32 PGNs), Add %ld, Delete %ld, Clear %ld, Create %ld, Add by NAME %ld (%ld where there are 8 now), addresses %ld; %ld of 594 entries; parameters told %ld in general, %ld of a pair, "
           "losses that are not 0 %ld, at the most %ld; reset %ld and %ld.\n",
           calls, t->done[0], t->full, t->done[2], t->done[3], t->done[4], t->done[6], t->done[7], t->names_full, t->done[64], t->longest, t->done[128], t->done[131], t->losses_told, t->most_told, t->done[130], t->done[133]);
    printf("Refused, by number:");
    for (int i = 1; i < NUMBERS; i++)
        if (is_number(i))
            printf(" %d:%ld", i, t->numbers[i]);
    printf("; claim events:");
    for (int i = 1; i < 8; i++)
        printf(" %d:%ld", i, t->events[i]);
    printf("; reasons:");
    for (int i = 0; i < REASONS; i++)
        printf(" %d:%ld", i, t->reasons[i]);
    printf("; permanent PGNs across lists that stop others: %ld; wrong entries behind the first: %ld; absent ones: %ld, in a pair behind the first of all: %ld", t->permanent,
           t->later_entry, t->later_absent, t->later_pair);
    printf("; listed by NAME in pass: %ld, in block: %ld; the ninth NAME entry refused: %ld", t->by_name[1], t->by_name[0], t->names_sixteen);
    printf("; counts of full queues: %ld, of empty ones: %ld", t->counts_of_full, t->counts_of_none);
    printf("; on units with so many ports:");
    for (int i = FEWEST_PORTS; i <= MOST_PORTS; i++)
        printf(" %d:%ld", i, t->ports[i]);
    printf("; plans where so many segments hear:");
    for (int i = 1; i <= MOST_SEGMENTS; i++)
        printf(" %d:%ld", i, t->heard[i]);
    printf("\n");
    if (!whole)
        printf("something was left untried\n");
    return whole;
}

/* Counters near where they stay, which calls would take long to come to; the same on every side. */
static void near_the_most(struct lent *lent)
{
    uint32_t ports = ports_of(lent[0].record, MOST_WORDS);
    for (size_t i = LOSSES_AT(ports); i <= GENERAL_AT(ports); i++) {
        uint64_t counter = MOST_LOSSES - below(6);
        for (int s = 0; s < SIDES; s++)
            lent[s].record[i] = counter;
    }
}

bool agree(long calls)
{
    static struct lent lent[SIDES];
    static struct call c = {.kind = POWER_ON, .record_len = DEORASAENG_RECORD_WORDS};
    static struct tally t;
    for (long k = 0; k < calls; k++) {
        uint32_t number = do_call(&sides[0], &c, &lent[0]);
        for (int s = 1; s < SIDES; s++)
            if (do_call(&sides[s], &c, &lent[s]) != number || memcmp(lent[0].answer, lent[s].answer, sizeof lent[0].answer) ||
                memcmp(lent[0].bytes, lent[s].bytes, sizeof lent[0].bytes) || memcmp(lent[0].reply, lent[s].reply, sizeof lent[0].reply) ||
                !same_record(lent[0].record, lent[s].record)) {
                printf("Rattle and %s differ at call %ld, of kind %d\n", sides[s].name, k, c.kind);
                return false;
            }
        count(&t, &c, &lent[0], number);
        if (one_in(8192))
            near_the_most(lent);
        make_call(&c, lent[0].record);
    }
    return is_whole(&t, calls);
}
