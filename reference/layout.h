/* Where the record's regions begin, in words, for C that reads or fills a record itself: the unit's own words, the address table, the queues; and the pairs in order of
   From, then To, and the losses in the same order, the general counter last, which lie elsewhere with another number of ports. */
#ifndef LAYOUT_H
#define LAYOUT_H

#include "../include/deorasaeng.h"

enum { USUAL_PORTS = 4, FEWEST_PORTS = DEORASAENG_FEWEST_PORTS, MOST_PORTS = DEORASAENG_MOST_PORTS, LIST = 32, NAMES = 8, QUEUE = 32, RANKS = 8, PLACES = 254 };

/* Where a counter of losses stays. */
enum { MOST_LOSSES = 64255 };

/* The unit's own words are its claim state, address, preferred address, NAME and number of ports. A place of the table is its port and its NAME; a queue how
   many wait, what the port counts and two words for each frame; a pair its mode, its count and its list, and behind that how many NAME entries it has, for each its PGN,
   NAME and mask, and the list in rising order. */
enum {
    PORTS_AT = 4,
    TABLE_AT = 5,
    PLACE_WORDS = 2,
    QUEUES_AT = TABLE_AT + PLACE_WORDS * PLACES,
    QUEUE_WORDS = DEORASAENG_QUEUE_WORDS,
    COUNTS_AT = 1, /* in a queue, as are the frames */
    FRAMES_AT = COUNTS_AT + DEORASAENG_COUNTS_ANSWER,
    NAMES_AT = 2 + LIST, /* in a pair */
    NAME_WORDS = 3,
    RISING_AT = NAMES_AT + 1 + NAME_WORDS * NAMES,
    PAIR_WORDS = RISING_AT + LIST,
    MOST_WORDS = DEORASAENG_RECORD_WORDS_FOR(MOST_PORTS)
};

/* The mode word of a pair: from 3 on it has NAME entries, 3 block and all above it pass. Below 3 the words of NAME entries mean nothing. */
enum { CLEARED, BLOCK, PASS, BLOCK_NAMED, PASS_NAMED };

/* A plan: for each of its units eight ports, a word each, and 56 pairs, which have a list alone and modes 0 to 2. */
enum {
    MOST_SEGMENTS = DEORASAENG_MOST_SEGMENTS,
    MOST_UNITS = DEORASAENG_MOST_UNITS,
    PLAN_PAIRS = MOST_PORTS * (MOST_PORTS - 1),
    PLAN_PORTS = DEORASAENG_PLAN_PORT_WORDS,
    PLAN_PAIR_WORDS = DEORASAENG_PAIR_WORDS,
    PLAN_LISTS = DEORASAENG_PLAN_LIST_WORDS
};

#define PAIRS_AT(ports) (QUEUES_AT + QUEUE_WORDS * (ports))
#define LOSSES_AT(ports) (PAIRS_AT(ports) + PAIR_WORDS * (ports) * ((ports) - 1))
#define GENERAL_AT(ports) (LOSSES_AT(ports) + (ports) * ((ports) - 1))

/* The pair of two different ports, as its number in that order. */
static inline uint32_t pair_number(uint32_t ports, uint32_t from, uint32_t to)
{
    return (ports - 1) * (from - 1) + (to < from ? to - 1 : to - 2);
}

/* How many ports a record says, whatever its length: four where it says no count. */
static inline uint32_t ports_of(const uint64_t *record, size_t record_len)
{
    int is_count = record_len > PORTS_AT && record[PORTS_AT] >= FEWEST_PORTS && record[PORTS_AT] <= MOST_PORTS;
    return is_count ? (uint32_t)record[PORTS_AT] : USUAL_PORTS;
}

#endif
