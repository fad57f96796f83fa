/* Calls on one of the sides: made at random, done, and the agreement of the sides on them. */
#ifndef CALLS_H
#define CALLS_H

#include "../layout.h"
#include "twin.h"
#include <stdbool.h>

/* The longest answer, that of counts, and a word more. */
enum { SIDES = 3, LONGEST = DEORASAENG_REPLY_BYTES, ANSWER_WORDS = DEORASAENG_COUNTS_ANSWER + 1 };

struct side {
    const char *name;
    __typeof__(deorasaeng_power_on) *power_on;
    __typeof__(deorasaeng_power_on_ports) *power_on_ports;
    __typeof__(deorasaeng_frame) *frame;
    __typeof__(deorasaeng_take) *take;
    __typeof__(deorasaeng_message) *message;
    __typeof__(deorasaeng_start) *start;
    __typeof__(deorasaeng_quiet) *quiet;
    __typeof__(deorasaeng_unit) *unit;
    __typeof__(deorasaeng_counts) *counts;
    __typeof__(deorasaeng_plan) *plan;
    __typeof__(deorasaeng_plan_links) *plan_links;
};

extern const struct side sides[SIDES];

enum kind { FRAME, TAKE, MESSAGE, START, QUIET, UNIT, COUNTS, POWER_ON, POWER_ON_PORTS, PLAN, PLAN_LINKS, KINDS };

/* A plan, its links beside the words of its ports, one of them wrong now and then. */
struct plan {
    uint64_t ports[PLAN_PORTS], lists[PLAN_LISTS];
    struct deorasaeng_link links[PLAN_PORTS + 1];
    size_t links_len;
    uint32_t segments, units, first, pgn;
};

/* The arguments of a call, with the lengths that are lent. */
struct call {
    enum kind kind;
    size_t record_len, answer_len, bytes_len, reply_len, len;
    uint32_t port, id, requester, preferred, ports;
    uint64_t name;
    uint8_t payload[LONGEST + 15];
    size_t plan_ports_len, plan_lists_len;
    struct plan plan;
};

/* What a call is lent. */
struct lent {
    uint64_t record[MOST_WORDS + 1], answer[ANSWER_WORDS];
    uint8_t bytes[16], reply[LONGEST + 15];
};

/* A random number. */
uint64_t next(void);

/* The links that a plan's ports are. */
void make_links(struct plan *p);

/* A random call on a unit of which the record is known. */
void make_call(struct call *c, const uint64_t *record);

uint32_t do_call(const struct side *side, const struct call *c, struct lent *l);

/* Whether two records mean the same: equal words, but for those past a count and in the list of a cleared pair. */
bool same_record(const uint64_t *a, const uint64_t *b);

/* Whether the sides give the same on so many random calls: answers, bytes, and what the record means. */
bool agree(long calls);

#endif
