/* The layout of a unit's record, in words, for a dump, a debugger or a test that reads one; no call needs it. It is the layout of this DEORASAENG_VERSION. n is the number
   of ports. Between the unit's own words and the losses stand the address table, a queue for each port and a block for each directed pair, in order of From, then To. */
#ifndef DEORASAENG_LAYOUT_H
#define DEORASAENG_LAYOUT_H

#include "deorasaeng.h"

/* The unit's own words. The address is the preferred one while the state is Claiming or Claimed, else none. Another number of ports than 2 to 8 counts as four. */
#define DEORASAENG_STATE_AT 0
#define DEORASAENG_ADDRESS_AT 1
#define DEORASAENG_PREFERRED_AT 2
#define DEORASAENG_NAME_AT 3
#define DEORASAENG_PORTS_AT 4

/* The address table: for each address from 0 on the port where it was claimed, 0 for none, and the NAME. */
#define DEORASAENG_TABLE_AT 5
#define DEORASAENG_TABLE_PLACES 254
#define DEORASAENG_PLACE_WORDS 2
#define DEORASAENG_PLACE_AT(address) (DEORASAENG_TABLE_AT + DEORASAENG_PLACE_WORDS * (address))

/* A queue, from DEORASAENG_QUEUE_AT(port) on: how many wait, the port's counts as deorasaeng_counts tells them, then the frames in order of joining, identifier +
   2^32 * length and the bytes, the first in the lowest eight bits. */
#define DEORASAENG_QUEUE_WAITING 0
#define DEORASAENG_QUEUE_COUNTS 1
#define DEORASAENG_QUEUE_FRAMES (DEORASAENG_QUEUE_COUNTS + DEORASAENG_COUNTS_ANSWER)
#define DEORASAENG_QUEUE_DEPTH 32

/* A pair: mode (0 cleared, 1 block, 2 pass; 3 block and 4 and up pass, with NAME entries), how many PGNs, the PGNs in order of addition; behind them how many NAME
   entries, and for each its PGN, NAME and mask, which mean something with a mode from 3 on alone; behind those the same PGNs in rising order, as many, which a frame's
   PGN is looked up in. */
#define DEORASAENG_PAIR_MODE 0
#define DEORASAENG_PAIR_COUNT 1
#define DEORASAENG_PAIR_PGNS 2
#define DEORASAENG_LIST_PGNS 32
#define DEORASAENG_BLOCK_WITH_NAMES 3
#define DEORASAENG_PAIR_NAMES (DEORASAENG_PAIR_PGNS + DEORASAENG_LIST_PGNS)
#define DEORASAENG_NAME_ENTRIES 8
#define DEORASAENG_NAME_ENTRY_WORDS 3
#define DEORASAENG_NAME_ENTRY_AT(i) (DEORASAENG_PAIR_NAMES + 1 + DEORASAENG_NAME_ENTRY_WORDS * (i))
#define DEORASAENG_PAIR_RISING DEORASAENG_NAME_ENTRY_AT(DEORASAENG_NAME_ENTRIES)
#define DEORASAENG_PAIRS_OF(n) ((n) * ((n) - 1))
#define DEORASAENG_PAIR_NUMBER(n, from, to) (((n) - 1) * ((from) - 1) + ((to) < (from) ? (to) - 1 : (to) - 2))
#define DEORASAENG_PAIRS_AT(n) (DEORASAENG_QUEUES_AT + DEORASAENG_QUEUE_WORDS * (n))
#define DEORASAENG_PAIR_AT(n, from, to) (DEORASAENG_PAIRS_AT(n) + DEORASAENG_RECORD_PAIR_WORDS * DEORASAENG_PAIR_NUMBER(n, from, to))

/* The losses: a counter for each pair in the same order, the general one last. */
#define DEORASAENG_LOSSES_AT(n) (DEORASAENG_PAIRS_AT(n) + DEORASAENG_RECORD_PAIR_WORDS * DEORASAENG_PAIRS_OF(n))
#define DEORASAENG_LOSS_AT(n, from, to) (DEORASAENG_LOSSES_AT(n) + DEORASAENG_PAIR_NUMBER(n, from, to))
#define DEORASAENG_GENERAL_LOSS_AT(n) (DEORASAENG_LOSSES_AT(n) + DEORASAENG_PAIRS_OF(n))

/* The regions fill the published lengths: a layout of another version does not compile. */
#define DEORASAENG_FITS(n) (DEORASAENG_GENERAL_LOSS_AT(n) + 1 == DEORASAENG_RECORD_WORDS_FOR(n))
typedef char deorasaeng_layout_fits[DEORASAENG_FITS(2) && DEORASAENG_FITS(3) && DEORASAENG_FITS(4) && DEORASAENG_FITS(5) && DEORASAENG_FITS(6) &&
                                    DEORASAENG_FITS(7) && DEORASAENG_FITS(8) &&
                                    DEORASAENG_PLACE_AT(DEORASAENG_TABLE_PLACES) == DEORASAENG_QUEUES_AT &&
                                    DEORASAENG_PAIR_RISING + DEORASAENG_LIST_PGNS == DEORASAENG_RECORD_PAIR_WORDS &&
                                    DEORASAENG_QUEUE_FRAMES + 2 * DEORASAENG_QUEUE_DEPTH == DEORASAENG_QUEUE_WORDS ? 1 : -1];

#endif
