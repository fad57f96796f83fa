/* The unit by hand in C, over the same words: what its own calls have put there is trusted, nothing is checked twice. */
#include "twin.h"
#include <stdbool.h>
#include <string.h>

enum { FEWEST = 2, USUAL = 4, MOST = 8, LIST = 32, NAMES = 8, QUEUE = 32, PLACES = 254, NO_ADDRESS = 254, LONGEST = 1785, ALL = 15, FILLING = 0xFF, MOST_LOSSES = 64255 };
enum { UNSTARTED, CLAIMING, CLAIMED, LOST };
enum { CLEARED, BLOCK, PASS, BLOCK_NAMED, PASS_NAMED };
enum { REQUEST = 0, ADD = 2, DELETE = 3, CLEAR = 4, CREATE = 6, ADD_BY_NAME = 7, ADDRESSES = 64 };
enum { TELL_GENERAL = 128, RESET_GENERAL = 130, TELL_PAIR = 131, RESET_PAIR = 133 };
enum { BUFFER_SIZE = 1, LIST_SIZE = 2, ENTRIES = 3, LOSSES = 9 };
enum { REQUEST_PGN = 59904, CLAIM_PGN = 60928, REPLY_PGN = 60672, ACKNOWLEDGMENT_PGN = 59392 };

struct name_entry {
    uint64_t pgn, name, mask;
};

/* From BLOCK_NAMED on there are NAME entries, below it their words mean nothing. `rising` has the PGNs once more, in rising order. */
struct pair {
    uint64_t mode, count, pgns[LIST], names;
    struct name_entry named[NAMES];
    uint64_t rising[LIST];
};

/* A pair in a plan. */
struct list {
    uint64_t mode, count, pgns[LIST];
};

/* `head`: the length above the 32 bits of the identifier. */
struct frame {
    uint64_t head, bytes;
};

/* `counts`: the answer's words, kept. */
struct queue {
    uint64_t count, counts[DEORASAENG_COUNTS_ANSWER];
    struct frame frames[QUEUE];
};

struct place {
    uint64_t port, name;
};

/* Behind the queues, one for each port, stand the pairs: for each port those to the others; then the losses, a counter for each pair and the general one. */
struct unit {
    uint64_t claim, address, preferred, name, ports;
    struct place table[PLACES];
    struct queue queues[];
};

_Static_assert(sizeof(struct unit) == 8 * DEORASAENG_QUEUES_AT, "the published place");
_Static_assert(sizeof(struct queue) == 8 * DEORASAENG_QUEUE_WORDS, "the published queue");

#define WORDS_FOR(ports) ((sizeof(struct unit) + (ports) * sizeof(struct queue) + (ports) * ((ports) - 1) * (sizeof(struct pair) + 8) + 8) / 8)

#define PUBLISHED(ports) (WORDS_FOR(ports) == DEORASAENG_RECORD_WORDS_FOR(ports))

_Static_assert(PUBLISHED(2) && PUBLISHED(3) && PUBLISHED(4) && PUBLISHED(5) && PUBLISHED(6) && PUBLISHED(7) && PUBLISHED(8), "the published lengths");
_Static_assert(DEORASAENG_RECORD_WORDS_FOR(9) == DEORASAENG_RECORD_WORDS && sizeof(struct list) == 8 * DEORASAENG_PAIR_WORDS, "and those of four ports, of a pair in a plan");

static const uint16_t words_for[MOST + 1] = {0, 0, WORDS_FOR(2), WORDS_FOR(3), WORDS_FOR(4), WORDS_FOR(5), WORDS_FOR(6), WORDS_FOR(7), WORDS_FOR(8)};

/* How many ports the record has. */
static uint32_t ports_of(const uint64_t *record, size_t record_len)
{
    const struct unit *u = (const struct unit *)record;
    return record_len > 4 && u->ports - FEWEST <= MOST - FEWEST ? u->ports : USUAL;
}

/* The pairs from a port, counted from 0. */
static struct pair *pairs_from(struct unit *u, uint32_t ports, uint32_t from)
{
    return (struct pair *)(u->queues + ports) + (ports - 1) * from;
}

static uint64_t *losses_of(struct unit *u, uint32_t ports)
{
    return (uint64_t *)pairs_from(u, ports, ports);
}

static void lose(uint64_t *counter)
{
    if (*counter < MOST_LOSSES)
        ++*counter;
}

/* ---- queues */
static bool join(struct queue *q, uint64_t head, uint64_t bytes)
{
    uint64_t n = q->count;
    if (n == QUEUE)
        return false;
    q->frames[n].head = head;
    q->frames[n].bytes = bytes;
    q->count = n + 1;
    q->counts[DEORASAENG_COUNTS_WAITING + (head >> 26 & 7)]++;
    q->counts[DEORASAENG_COUNTS_ACCEPTED]++;
    return true;
}

/* The unit's own frame at every port; the ports where it is lost. */
static uint64_t announce(struct unit *u, uint32_t ports, uint32_t id)
{
    uint64_t lost = 0;
    for (uint32_t q = 0; q < ports; q++)
        if (!join(&u->queues[q], id | 8ull << 32, u->name)) {
            lost |= 1u << q;
            lose(losses_of(u, ports) + ports * (ports - 1));
        }
    return lost;
}

static uint32_t own_id(uint32_t address)
{
    return 0x18EEFF00 + address;
}

/* ---- lists */
static uint64_t find(const uint64_t *list, uint64_t n, uint64_t x)
{
    uint64_t i = 0;
    while (i < n && list[i] != x)
        i++;
    return i;
}

/* Whether a list in rising order has x; and how many probes of the middle place, the lower of two, that took, which are added. Which half is left is no jump: of a PGN at
   random it would be guessed wrong every other time. */
static bool is_listed(const uint64_t *rising, uint64_t n, uint64_t x, uint64_t *probes)
{
    uint64_t made = 0;
    bool listed = false;
    while (n > 0) {
        uint64_t below = (n - 1) / 2, y = rising[below], is_above = -(uint64_t)(y < x);
        made++;
        if (y == x) {
            listed = true;
            break;
        }
        rising += is_above & (below + 1);
        n = below + (is_above & (n / 2 - below));
    }
    *probes += made;
    return listed;
}

/* Puts x into a list of n in rising order. */
static void insert(uint64_t *rising, uint64_t n, uint64_t x)
{
    for (; n > 0 && rising[n - 1] > x; n--)
        rising[n] = rising[n - 1];
    rising[n] = x;
}

/* What is left of a list without the places that a mask has. */
static uint64_t squeeze(uint64_t *list, uint64_t n, uint32_t gone)
{
    uint64_t kept = 0;
    for (uint64_t i = 0; i < n; i++) {
        list[kept] = list[i];
        kept += !(gone >> i & 1);
    }
    return kept;
}

static bool passes(uint64_t mode)
{
    return mode == PASS || mode == PASS_NAMED;
}

/* Whether a NAME entry lists a PGN of the sender; and how many were compared, which are added. */
static bool is_named(const struct pair *p, uint64_t pgn, const struct place *sender, uint64_t *compared)
{
    for (uint64_t i = 0; i < p->names; i++) {
        const struct name_entry *e = &p->named[i];
        if (e->pgn == pgn && sender->port && !((e->name ^ sender->name) & e->mask)) {
            *compared += i + 1;
            return true;
        }
    }
    *compared += p->names;
    return false;
}

/* Rules 2, 3 and 5. The table has a place for the sender of every PGN that is not permanent. */
static void forward(struct unit *u, uint32_t ports, uint32_t from, uint32_t pgn, uint64_t head, uint64_t bytes, uint64_t *answer)
{
    uint64_t accepted = 0, lost = 0, compared = 0, reasons = 0;
    bool permanent = pgn == CLAIM_PGN || pgn == REQUEST_PGN;
    const struct pair *p = pairs_from(u, ports, from);
    for (uint32_t to = 0; to < ports; to++) {
        if (to == from)
            continue;
        uint64_t reason = permanent ? DEORASAENG_REASON_PERMANENT : DEORASAENG_REASON_CLEARED;
        if (!permanent && p->mode != CLEARED) {
            bool listed = is_listed(p->rising, p->count, pgn, &compared);
            if (p->mode >= BLOCK_NAMED && !listed)
                listed = is_named(p, pgn, &u->table[head & 255], &compared);
            if (passes(p->mode))
                reason = listed ? DEORASAENG_REASON_LISTED_IN_PASS : DEORASAENG_REASON_STOPPED_AS_NOT_LISTED;
            else
                reason = listed ? DEORASAENG_REASON_STOPPED_AS_LISTED : DEORASAENG_REASON_NOT_LISTED_IN_BLOCK;
        }
        p++;
        reasons |= reason << 4 * to;
        if (reason >= DEORASAENG_REASON_STOPPED_AS_LISTED)
            continue;
        if (join(&u->queues[to], head, bytes)) {
            accepted |= 1u << to;
        } else {
            uint64_t *losses = losses_of(u, ports);
            lost |= 1u << to;
            lose(losses + (ports - 1) * from + (to < from ? to : to - 1));
            lose(losses + ports * (ports - 1));
        }
    }
    answer[DEORASAENG_ACCEPTED] = accepted;
    answer[DEORASAENG_LOST] = lost;
    answer[DEORASAENG_COMPARED] = compared;
    answer[DEORASAENG_REASONS] = reasons;
}

/* ---- addresses */
static bool holds_address(const struct unit *u)
{
    return u->claim == CLAIMING || u->claim == CLAIMED;
}

/* Every address of a NAME but one is dropped. */
static bool drop(struct place *table, uint64_t name, uint32_t keep)
{
    bool dropped = false;
    for (uint32_t i = 0; i < PLACES; i++)
        if (table[i].name == name && table[i].port && i != keep) {
            table[i] = (struct place){0, 0};
            dropped = true;
        }
    return dropped;
}

/* A claim; the identifier of the frame that the unit sends, or 0. */
static uint32_t claim(struct unit *u, uint32_t port, uint32_t sa, uint64_t name, uint64_t *answer)
{
    if (name == u->name)
        return 0;
    bool dropped = drop(u->table, name, sa);
    if (sa == NO_ADDRESS) {
        answer[DEORASAENG_EVENT] = dropped ? DEORASAENG_WITHDREW : DEORASAENG_NO_EVENT;
        return 0;
    }
    struct place *place = &u->table[sa];
    if (holds_address(u) && sa == u->address) {
        if (u->name < name) {
            answer[DEORASAENG_EVENT] = DEORASAENG_DEFENDED;
            return own_id(sa);
        }
        *place = (struct place){port, name};
        u->claim = LOST;
        u->address = NO_ADDRESS;
        answer[DEORASAENG_EVENT] = DEORASAENG_DISPLACED;
        return own_id(NO_ADDRESS);
    }
    if (!place->port) {
        answer[DEORASAENG_EVENT] = DEORASAENG_RECORDED;
    } else if (place->name == name) {
        answer[DEORASAENG_EVENT] = DEORASAENG_REFRESHED;
    } else if (name < place->name) {
        answer[DEORASAENG_EVENT] = DEORASAENG_TOOK_OVER;
        answer[DEORASAENG_OLD_NAME] = place->name;
    } else {
        answer[DEORASAENG_EVENT] = DEORASAENG_BEATEN;
        return 0;
    }
    *place = (struct place){port, name};
    return 0;
}

/* ---- frame and take */
static uint64_t pack(const uint8_t *bytes, size_t len)
{
    uint64_t word = 0;
    if (len == 8)
        memcpy(&word, bytes, 8);
    else
        while (len > 0)
            word = word << 8 | bytes[--len];
    return word;
}

uint32_t c_frame(uint64_t *record, size_t record_len, uint32_t port, uint32_t id, const uint8_t *bytes, size_t len, uint64_t *answer,
                 size_t answer_len)
{
    struct unit *u = (struct unit *)record;
    uint32_t pf = id >> 16 & 255, ps = id >> 8 & 255, sa = id & 255, pgn = id >> 8 & (pf < 240 ? 0x3FF00 : 0x3FFFF);
    uint32_t ports = ports_of(record, record_len);
    if (port - 1 >= ports)
        return 1;
    if (record_len != words_for[ports] || answer_len != DEORASAENG_FRAME_ANSWER)
        return 2;
    if (id >> 29)
        return 3;
    if (len > 8)
        return 4;
    if (sa >= 254 && (sa == 255 || (pgn != REQUEST_PGN && !(pgn == CLAIM_PGN && ps == 255))))
        return 5;
    uint64_t word = pack(bytes, len);
    bool consumed = pf < 240 && holds_address(u) && ps == u->address;
    answer[DEORASAENG_CONSUMED] = consumed;
    if (consumed)
        answer[DEORASAENG_ACCEPTED] = answer[DEORASAENG_LOST] = answer[DEORASAENG_COMPARED] = answer[DEORASAENG_REASONS] = 0;
    else
        forward(u, ports, port - 1, pgn, id | (uint64_t)len << 32, word, answer);
    answer[DEORASAENG_EVENT] = answer[DEORASAENG_OLD_NAME] = answer[DEORASAENG_OWN_LOST] = 0;
    uint32_t own = 0;
    if (pgn == CLAIM_PGN) {
        if (ps == 255 && len == 8)
            own = claim(u, port, sa, word, answer);
    } else if (pgn == REQUEST_PGN) {
        if (len == 3 && word == 0xEE00 && (consumed || ps == 255) && u->claim != UNSTARTED)
            own = own_id(u->address);
    }
    if (own)
        answer[DEORASAENG_OWN_LOST] = announce(u, ports, own);
    return 0;
}

uint32_t c_take(uint64_t *record, size_t record_len, uint32_t port, uint64_t *answer, size_t answer_len, uint8_t *bytes, size_t bytes_len)
{
    uint32_t ports = ports_of(record, record_len);
    if (port - 1 >= ports)
        return 1;
    if (record_len != words_for[ports] || answer_len != DEORASAENG_TAKE_ANSWER || bytes_len != DEORASAENG_FRAME_BYTES)
        return 2;
    struct queue *q = &((struct unit *)record)->queues[port - 1];
    uint64_t n = q->count;
    if (n == 0) {
        answer[DEORASAENG_GIVEN] = answer[DEORASAENG_ID] = answer[DEORASAENG_LENGTH] = 0;
        return 0;
    }
    uint64_t first = 0, low = q->frames[0].head >> 26 & 7;
    for (uint64_t i = 1; i < n; i++) {
        uint64_t priority = q->frames[i].head >> 26 & 7;
        if (priority < low) {
            low = priority;
            first = i;
        }
    }
    uint64_t head = q->frames[first].head, word = q->frames[first].bytes;
    for (uint64_t i = first + 1; i < n; i++)
        q->frames[i - 1] = q->frames[i];
    q->count = n - 1;
    q->counts[DEORASAENG_COUNTS_WAITING + low]--;
    q->counts[DEORASAENG_COUNTS_TAKEN]++;
    answer[DEORASAENG_GIVEN] = 1;
    answer[DEORASAENG_ID] = (uint32_t)head;
    answer[DEORASAENG_LENGTH] = head >> 32;
    memcpy(bytes, &word, 8);
    return 0;
}

/* ---- network messages */
static uint32_t entry(const uint8_t *bytes)
{
    return bytes[0] | bytes[1] << 8 | bytes[2] << 16;
}

/* What a number has that no PGN has: bits from 18 on, or a low byte where its PF is below 240. */
static uint64_t no_pgn(uint64_t n)
{
    return n >> 18 | ((n & 0xF000) == 0xF000 ? 0 : n & 0xFF);
}

/* Which entry was wrong: its number from 1, the To port and the PGN, as they stand in the answer. */
struct wrong {
    uint64_t entry, to, pgn;
};

/* 12 or 22, or in *count how many entries stand in n bytes from `bytes` on, which are the payload's last. */
static uint32_t entries(const uint8_t *bytes, size_t n, bool eight, size_t *count, struct wrong *wrong)
{
    if (eight) {
        bool filled = true;
        for (size_t i = 3; i < n; i++)
            filled &= bytes[i] == FILLING;
        if (filled)
            n = 3;
    }
    if (n % 3)
        return 12;
    *count = n / 3;
    for (size_t i = 0; i < *count; i++) {
        if (no_pgn(entry(bytes + 3 * i))) {
            wrong->entry = i + 1;
            return 22;
        }
    }
    return 0;
}

/* The different PGNs among n entries, in order; LIST + 1 where they are more than a list holds. */
static uint64_t different(const uint8_t *bytes, size_t n, uint64_t *pgns)
{
    uint64_t held = 0;
    for (size_t i = 0; i < n; i++) {
        uint64_t x = entry(bytes + 3 * i);
        if (find(pgns, held, x) < held)
            continue;
        if (held == LIST)
            return LIST + 1;
        pgns[held++] = x;
    }
    return held;
}

static uint32_t add(struct pair *pairs, int named, const uint8_t *bytes, size_t n)
{
    uint64_t pgns[LIST];
    uint32_t fresh[MOST - 1];
    for (int k = 0; k < named; k++)
        if (pairs[k].mode == CLEARED)
            return 15;
    uint64_t m = different(bytes, n, pgns);
    if (m > LIST)
        return 16;
    for (int k = 0; k < named; k++) {
        const struct pair *p = &pairs[k];
        fresh[k] = 0;
        for (uint64_t i = 0; i < m; i++)
            if (find(p->pgns, p->count, pgns[i]) == p->count)
                fresh[k] |= 1u << i;
        if (p->count + __builtin_popcount(fresh[k]) > LIST)
            return 16;
    }
    for (int k = 0; k < named; k++) {
        struct pair *p = &pairs[k];
        for (uint32_t left = fresh[k]; left; left &= left - 1) {
            uint64_t x = pgns[__builtin_ctz(left)];
            insert(p->rising, p->count, x);
            p->pgns[p->count++] = x;
        }
    }
    return 0;
}

/* The pairs are all from a port, counted from 1, or the one to `to`. */
static uint32_t delete(struct pair *pairs, int named, uint32_t from, uint32_t to, const uint8_t *bytes, size_t n, struct wrong *wrong)
{
    uint32_t gone[MOST - 1] = {0};
    for (int k = 0; k < named; k++)
        if (pairs[k].mode == CLEARED)
            return 15;
    for (int k = 0; k < named; k++) {
        const struct pair *p = &pairs[k];
        for (size_t i = 0; i < n; i++) {
            uint64_t x = entry(bytes + 3 * i), at = find(p->pgns, p->count, x);
            if (at == p->count) {
                uint32_t other = (uint32_t)k + 1;
                *wrong = (struct wrong){i + 1, to != ALL ? to : other + (other >= from), x};
                return 17;
            }
            gone[k] |= 1u << at;
        }
    }
    for (int k = 0; k < named; k++) {
        struct pair *p = &pairs[k];
        uint32_t sorted = 0;
        for (uint32_t left = gone[k]; left; left &= left - 1)
            sorted |= 1u << find(p->rising, p->count, p->pgns[__builtin_ctz(left)]);
        squeeze(p->rising, p->count, sorted);
        p->count = squeeze(p->pgns, p->count, gone[k]);
    }
    return 0;
}

static uint32_t create(struct pair *pairs, int named, uint64_t mode, const uint8_t *bytes, size_t n)
{
    uint64_t pgns[LIST], rising[LIST];
    for (int k = 0; k < named; k++)
        if (pairs[k].mode != CLEARED)
            return 14;
    uint64_t m = different(bytes, n, pgns);
    if (m > LIST)
        return 16;
    for (uint64_t i = 0; i < m; i++)
        insert(rising, i, pgns[i]);
    for (int k = 0; k < named; k++) {
        pairs[k].mode = mode;
        pairs[k].count = m;
        memcpy(pairs[k].pgns, pgns, 8 * m);
        memcpy(pairs[k].rising, rising, 8 * m);
    }
    return 0;
}

/* One entry, in 23 bytes, to one pair. */
static uint32_t add_by_name(struct pair *p, const uint8_t *payload, size_t n, struct wrong *wrong)
{
    if (n != 23)
        return 12;
    struct name_entry e = {entry(payload + 2), pack(payload + 5, 8), pack(payload + 13, 8)};
    if (no_pgn(e.pgn)) {
        wrong->entry = 1;
        return 22;
    }
    if (p->mode == CLEARED)
        return 15;
    uint64_t names = p->mode >= BLOCK_NAMED ? p->names : 0;
    for (uint64_t i = 0; i < names; i++)
        if (p->named[i].pgn == e.pgn && p->named[i].name == e.name && p->named[i].mask == e.mask)
            return 0;
    if (names == NAMES)
        return 16;
    p->named[names] = e;
    p->names = names + 1;
    if (p->mode < BLOCK_NAMED)
        p->mode += BLOCK_NAMED - BLOCK;
    return 0;
}

/* Writes a list's reply; its length without filling. */
static size_t reply_list(const struct pair *p, uint8_t named, uint8_t *reply)
{
    uint64_t n = p->mode == CLEARED ? 0 : p->count;
    reply[0] = 1;
    reply[1] = named;
    reply[2] = passes(p->mode);
    for (uint64_t i = 0; i < n; i++) {
        uint32_t pgn = p->pgns[i];
        reply[3 + 3 * i] = pgn;
        reply[4 + 3 * i] = pgn >> 8;
        reply[5 + 3 * i] = pgn >> 16;
    }
    return 3 + 3 * n;
}

/* Writes an address list's reply; its length without filling. */
static size_t reply_addresses(const struct unit *u, uint32_t port, uint8_t *reply)
{
    size_t n = 2;
    reply[0] = 65;
    reply[1] = port;
    for (uint32_t i = 0; i < PLACES; i++)
        if (u->table[i].port == port && i != u->address)
            reply[n++] = i;
    return n;
}

/* How many PGNs so many pairs list. */
static uint64_t listed(const struct pair *pairs, uint32_t n)
{
    uint64_t sum = 0;
    for (uint32_t k = 0; k < n; k++)
        sum += pairs[k].mode == CLEARED ? 0 : pairs[k].count;
    return sum;
}

/* 23 and 12, and a parameter told or reset where none applies; `length` is that of a reply without filling. */
static uint32_t parameter(struct unit *u, uint32_t ports, uint32_t from, uint32_t to, const uint8_t *payload, size_t n, uint8_t *reply, size_t *length)
{
    bool general = payload[0] < TELL_PAIR, resets = payload[0] == RESET_GENERAL || payload[0] == RESET_PAIR;
    uint8_t asked = payload[2];
    if (asked != LOSSES && (resets || asked < BUFFER_SIZE || asked > ENTRIES))
        return 23;
    if (n != 8)
        return 12;
    uint32_t all = ports * (ports - 1), first = general ? 0 : (ports - 1) * (from - 1) + (to < from ? to - 1 : to - 2), pairs = general ? all : 1;
    uint64_t *counter = losses_of(u, ports) + (general ? all : first), value = *counter;
    if (resets) {
        *counter = 0;
        return 0;
    }
    if (asked == BUFFER_SIZE)
        value = 13 * QUEUE * (general ? ports : 1);
    else if (asked == LIST_SIZE)
        value = 3 * LIST * pairs;
    else if (asked == ENTRIES)
        value = listed(pairs_from(u, ports, 0) + first, pairs);
    reply[0] = payload[0] + 1;
    reply[1] = general ? FILLING : payload[1];
    reply[2] = asked;
    reply[3] = value;
    reply[4] = value >> 8;
    *length = 5;
    return 0;
}

/* 9 to 11: function, ports, right. All pairs from a port are a neighbour's too only where there is one. */
static uint32_t judge(uint32_t ports, uint32_t port, uint8_t function, uint32_t from, uint32_t to)
{
    switch (function) {
    case ADDRESSES:
        return to - 1 >= ports ? 10 : port != 1 && port != to ? 11 : 0;
    case TELL_GENERAL: case RESET_GENERAL:
        return port != 1 ? 11 : 0;
    case REQUEST: case ADD: case DELETE: case CLEAR: case CREATE: case ADD_BY_NAME: case TELL_PAIR: case RESET_PAIR:
        if (from - 1 >= ports || from == to || (to - 1 >= ports && (to != ALL || function == REQUEST || function > CREATE)))
            return 10;
        return port != 1 && port != from && port != to && !(to == ALL && ports == 2) ? 11 : 0;
    default:
        return 9;
    }
}

/* 12 to 17 and 22, and a command on pairs where none applies. */
static uint32_t command(struct pair *pairs, int named, uint32_t from, uint32_t to, const uint8_t *payload, size_t n, struct wrong *wrong)
{
    size_t start = payload[0] == CREATE ? 3 : 2, m;
    if (payload[0] == CLEAR) {
        if (n != 8)
            return 12;
        for (int k = 0; k < named; k++)
            pairs[k].mode = CLEARED;
        return 0;
    }
    uint32_t number = entries(payload + start, n - start, n == 8, &m, wrong);
    if (number)
        return number;
    if (payload[0] == ADD)
        return add(pairs, named, payload + start, m);
    if (payload[0] == DELETE)
        return delete(pairs, named, from, to, payload + start, m, wrong);
    return payload[2] > 1 ? 13 : create(pairs, named, BLOCK + payload[2], payload + start, m);
}

/* 23, 12 to 17 and 22, and what a message asks for where none applies; `length` is that of a reply. */
static uint32_t perform(struct unit *u, uint32_t ports, uint32_t from, uint32_t to, const uint8_t *payload, size_t n, uint8_t *reply,
                        size_t *length, struct wrong *wrong)
{
    if (payload[0] == ADDRESSES) {
        if (n != 8)
            return 12;
        *length = reply_addresses(u, to, reply);
        return 0;
    }
    if (payload[0] > ADDRESSES)
        return parameter(u, ports, from, to, payload, n, reply, length);
    struct pair *pairs = pairs_from(u, ports, from - 1);
    if (to == ALL)
        return command(pairs, ports - 1, from, to, payload, n, wrong);
    pairs += to < from ? to - 1 : to - 2;
    if (payload[0] == ADD_BY_NAME)
        return add_by_name(pairs, payload, n, wrong);
    if (payload[0] != REQUEST)
        return command(pairs, 1, from, to, payload, n, wrong);
    if (n != 8)
        return 12;
    *length = reply_list(pairs, payload[1], reply);
    return 0;
}

uint32_t c_message(uint64_t *record, size_t record_len, uint32_t port, uint32_t requester, const uint8_t *payload, size_t payload_len,
                   uint8_t *reply, size_t reply_len, uint64_t *answer, size_t answer_len)
{
    struct unit *u = (struct unit *)record;
    uint32_t ports = ports_of(record, record_len);
    struct wrong wrong = {0, 0, 0};
    if (answer_len == DEORASAENG_MESSAGE_ANSWER)
        memset(answer, 0, 8 * DEORASAENG_MESSAGE_ANSWER);
    if (port - 1 >= ports)
        return 1;
    if (record_len != words_for[ports] || reply_len < LONGEST || answer_len != DEORASAENG_MESSAGE_ANSWER)
        return 2;
    if (u->claim != CLAIMED)
        return 6;
    if (payload_len < 8 || payload_len > LONGEST)
        return 7;
    if (requester >= NO_ADDRESS)
        return 8;
    uint8_t function = payload[0];
    uint32_t from = payload[1] >> 4, to = payload[1] & 15, number = judge(ports, port, function, from, to);
    size_t length = 0;
    if (!number)
        number = perform(u, ports, from, to, payload, payload_len, reply, &length, &wrong);
    if (length) {
        while (length < 8)
            reply[length++] = FILLING;
        answer[DEORASAENG_PGN] = REPLY_PGN;
        answer[DEORASAENG_WRITTEN] = length;
        return 0;
    }
    const uint8_t bytes[8] = {number == 11 ? 2 : number != 0, function, FILLING, FILLING, requester, 0x00, 0xED, 0x00};
    memcpy(reply, bytes, 8);
    answer[DEORASAENG_PGN] = ACKNOWLEDGMENT_PGN;
    answer[DEORASAENG_WRITTEN] = 8;
    answer[DEORASAENG_ENTRY] = wrong.entry;
    answer[DEORASAENG_TO] = wrong.to;
    answer[DEORASAENG_ABSENT] = wrong.pgn;
    return number;
}

/* ---- power-on, Start, Quiet, the unit, counts */
static uint32_t make(uint64_t *record, size_t record_len, uint64_t name, uint32_t preferred, uint32_t ports)
{
    if (record_len != words_for[ports])
        return 2;
    struct unit *u = (struct unit *)record;
    memset(record, 0, 8 * record_len);
    u->address = NO_ADDRESS;
    u->preferred = preferred;
    u->name = name;
    u->ports = ports;
    return 0;
}

uint32_t c_power_on(uint64_t *record, size_t record_len, uint64_t name, uint32_t preferred)
{
    return make(record, record_len, name, preferred, USUAL);
}

uint32_t c_power_on_ports(uint64_t *record, size_t record_len, uint64_t name, uint32_t preferred, uint32_t ports)
{
    if (ports - FEWEST <= MOST - FEWEST)
        return make(record, record_len, name, preferred, ports);
    uint32_t number = make(record, record_len, name, preferred, USUAL);
    return number ? number : 27;
}

uint32_t c_start(uint64_t *record, size_t record_len, uint64_t *answer, size_t answer_len)
{
    struct unit *u = (struct unit *)record;
    uint32_t ports = ports_of(record, record_len);
    if (record_len != words_for[ports] || answer_len != DEORASAENG_START_ANSWER)
        return 2;
    if (u->claim != UNSTARTED)
        return 18;
    if (u->preferred >= NO_ADDRESS)
        return 8;
    struct place *holder = &u->table[u->preferred];
    if (holder->port && holder->name < u->name) {
        u->claim = LOST;
        u->address = NO_ADDRESS;
    } else {
        *holder = (struct place){0, 0};
        u->claim = CLAIMING;
        u->address = u->preferred;
    }
    answer[DEORASAENG_START_OWN_LOST] = announce(u, ports, own_id(u->address));
    answer[DEORASAENG_START_STATE] = u->claim;
    return 0;
}

uint32_t c_quiet(uint64_t *record, size_t record_len)
{
    struct unit *u = (struct unit *)record;
    if (record_len != words_for[ports_of(record, record_len)])
        return 2;
    if (u->claim != CLAIMING)
        return 18;
    u->claim = CLAIMED;
    return 0;
}

uint32_t c_unit(const uint64_t *record, size_t record_len, uint64_t *answer, size_t answer_len)
{
    const struct unit *u = (const struct unit *)record;
    uint32_t ports = ports_of(record, record_len);
    if (record_len != words_for[ports] || answer_len != DEORASAENG_UNIT_ANSWER)
        return 2;
    answer[DEORASAENG_UNIT_STATE] = u->claim;
    answer[DEORASAENG_UNIT_ADDRESS] = u->address;
    answer[DEORASAENG_UNIT_PREFERRED] = u->preferred;
    answer[DEORASAENG_UNIT_NAME] = u->name;
    answer[DEORASAENG_UNIT_PORTS] = ports;
    return 0;
}

uint32_t c_counts(const uint64_t *record, size_t record_len, uint32_t port, uint64_t *answer, size_t answer_len)
{
    uint32_t ports = ports_of(record, record_len);
    if (port - 1 >= ports)
        return 1;
    if (record_len != words_for[ports] || answer_len != DEORASAENG_COUNTS_ANSWER)
        return 2;
    memcpy(answer, ((const struct unit *)record)->queues[port - 1].counts, 8 * DEORASAENG_COUNTS_ANSWER);
    return 0;
}

/* ---- plans */
enum { SEGMENTS = 16, UNITS = 16, PAIRS = MOST * (MOST - 1), PLAN_PORTS = UNITS * MOST, PLAN_LISTS = UNITS * PAIRS * (2 + LIST), PLAN_ANSWER = 1 };

/* A list is judged where there is one: that of a cleared pair is not read. */
static bool is_good_pair(const struct list *p)
{
    if (p->mode == CLEARED)
        return true;
    if (p->mode > PASS || p->count > LIST)
        return false;
    uint64_t wrong = 0;
    for (uint64_t i = 0; i < p->count; i++)
        wrong |= no_pgn(p->pgns[i]);
    return !wrong;
}

static bool is_good_plan(const uint64_t *ports, const struct list *pairs, uint32_t segments, uint32_t units, uint32_t first, uint32_t pgn)
{
    if (segments > SEGMENTS || units > UNITS || first - 1 >= segments || no_pgn(pgn))
        return false;
    for (uint32_t i = 0; i < MOST * units; i++)
        if (ports[i] > segments)
            return false;
    for (uint32_t i = 0; i < PAIRS * units; i++)
        if (!is_good_pair(pairs + i))
            return false;
    return true;
}

/* Whether two paths lead between some segments: a unit has a port on a segment that its earlier ports are joined to. */
static bool has_ring(const uint64_t *ports, uint32_t segments, uint32_t units)
{
    uint32_t joined[SEGMENTS + 1];
    for (uint32_t s = 0; s <= segments; s++)
        joined[s] = 1u << s;
    for (uint32_t unit = 0; unit < units; unit++, ports += MOST) {
        uint32_t all = 0;
        for (uint32_t port = 0; port < MOST; port++) {
            uint64_t s = ports[port];
            if (s && all >> s & 1)
                return true;
            all |= s ? joined[s] : 0;
        }
        for (uint32_t left = all; left; left &= left - 1)
            joined[__builtin_ctz(left)] = all;
    }
    return false;
}

static bool permits(const struct list *p, uint64_t pgn)
{
    if (p->mode == CLEARED)
        return true;
    return (find(p->pgns, p->count, pgn) < p->count) == (p->mode == PASS);
}

/* The segments that hear, bit s for segment s. Without a ring each is reached once. */
static uint32_t walk(const uint64_t *ports, const struct list *pairs, uint32_t units, uint32_t first, uint32_t pgn)
{
    bool permanent = pgn == CLAIM_PGN || pgn == REQUEST_PGN;
    struct { uint32_t segment, by; } waiting[SEGMENTS] = {{first, UNITS}};
    uint32_t heard = 1u << first, n = 1;
    while (n > 0) {
        uint32_t segment = waiting[--n].segment, by = waiting[n].by;
        for (uint32_t unit = 0; unit < units; unit++) {
            const uint64_t *on = ports + MOST * unit;
            uint32_t from = unit == by ? MOST : find(on, MOST, segment);
            if (from == MOST)
                continue;
            const struct list *p = pairs + PAIRS * unit + (MOST - 1) * from;
            for (uint32_t to = 0; to < MOST; to++) {
                if (to == from)
                    continue;
                if (on[to] && (permanent || permits(p, pgn))) {
                    heard |= 1u << on[to];
                    waiting[n].segment = on[to];
                    waiting[n++].by = unit;
                }
                p++;
            }
        }
    }
    return heard;
}

static uint32_t plan(const uint64_t *ports, const uint64_t *lists, uint32_t segments, uint32_t units, uint32_t first, uint32_t pgn, uint64_t *answer)
{
    const struct list *pairs = (const struct list *)lists;
    if (!is_good_plan(ports, pairs, segments, units, first, pgn))
        return 28;
    if (has_ring(ports, segments, units))
        return 29;
    *answer = walk(ports, pairs, units, first, pgn) >> 1;
    return 0;
}

uint32_t c_plan(const uint64_t *ports, size_t ports_len, const uint64_t *lists, size_t lists_len, uint32_t segments, uint32_t units, uint32_t first,
                uint32_t pgn, uint64_t *answer, size_t answer_len)
{
    if (ports_len != PLAN_PORTS || lists_len != PLAN_LISTS || answer_len != PLAN_ANSWER)
        return 2;
    return plan(ports, lists, segments, units, first, pgn, answer);
}

uint32_t c_plan_links(const struct deorasaeng_link *links, size_t links_len, const uint64_t *lists, size_t lists_len, uint32_t segments, uint32_t units,
                      uint32_t first, uint32_t pgn, uint64_t *answer, size_t answer_len)
{
    uint64_t ports[PLAN_PORTS] = {0};
    if (lists_len != PLAN_LISTS || answer_len != PLAN_ANSWER)
        return 2;
    for (size_t i = 0; i < links_len; i++) {
        uint32_t unit = links[i].unit - 1, port = links[i].port - 1, segment = links[i].segment;
        if (unit >= units || unit >= UNITS || port >= MOST || segment - 1 >= segments || ports[MOST * unit + port])
            return 28;
        ports[MOST * unit + port] = segment;
    }
    return plan(ports, lists, segments, units, first, pgn, answer);
}
