/* The proved unit on its record, and what the program knows of it by its answers alone. Nothing here reads or writes a word of the record itself. */
#ifndef GATEWAY_UNIT_H
#define GATEWAY_UNIT_H

#include "../../include/deorasaeng_layout.h"
#include "lists.h"
#include "payload.h"

#include <linux/can.h>

/* The interface that this program is written for. Another version may have functions, numbers, events or reasons that it does not know: look them through in this
   folder, then change it here. */
_Static_assert(DEORASAENG_VERSION == 11, "gateway/ was read against version 11 of include/deorasaeng.h");

/* What arrays are sized by: the highest number that refuses a call, the addresses that can be claimed, the ranks of a frame. */
#define UNIT_NUMBERS 29
#define UNIT_ADDRESSES 254
#define UNIT_RANKS 8
#define UNIT_REASONS 7
_Static_assert(UNIT_NUMBERS == DEORASAENG_TWO_PATHS, "the highest of enum deorasaeng_number");
_Static_assert(UNIT_ADDRESSES == DEORASAENG_NO_ADDRESS, "0 to 253");
_Static_assert(UNIT_RANKS == DEORASAENG_COUNTS_ACCEPTED - DEORASAENG_COUNTS_WAITING, "a word for each rank");
_Static_assert(UNIT_REASONS == DEORASAENG_REASON_STOPPED_AS_NOT_LISTED + 1, "the reasons, not asked among them");
_Static_assert(LISTS_PORTS == DEORASAENG_MOST_PORTS, "a list for each pair");
_Static_assert(LISTS_ENTRIES == DEORASAENG_LIST_PGNS, "a list's PGNs");
_Static_assert(LISTS_NAMES == DEORASAENG_NAME_ENTRIES, "a pair's NAME entries");
_Static_assert(CAN_MAX_DLEN == DEORASAENG_FRAME_BYTES, "a frame's bytes");

struct unit {
    uint64_t record[DEORASAENG_RECORD_WORDS_FOR(DEORASAENG_MOST_PORTS)];
    size_t words; /* of the record, for its number of ports */
    uint32_t ports;
    struct lists lists; /* as last read, NAME entries as followed; they change by messages alone, and every message passes here */
};

/* What the unit tells of itself. */
struct unit_answer {
    enum deorasaeng_state state;
    uint32_t address; /* DEORASAENG_NO_ADDRESS for none */
    uint32_t preferred;
    uint64_t name;
    uint32_t ports;
};

/* A frame's answer. Ports are masks, bit p - 1 for port p. */
struct frame_answer {
    uint32_t number; /* 0, or the number that refuses it: the rest is then 0 */
    bool consumed;
    uint64_t accepted, lost;
    uint64_t event, old_name;
    bool own_sent;     /* the unit sent its claim or cannot-claim, to every port .. */
    uint64_t own_lost; /* .. but these */
    uint64_t reasons;  /* what each port's pair said; DEORASAENG_REASON reads one */
};

struct message_answer {
    uint32_t number;
    uint64_t pgn;  /* of what is to be sent back, 0 for nothing */
    size_t length; /* its length */
    uint64_t entry;      /* with 22 and 17 the entry that was wrong, from 1, else 0 */
    uint64_t to, absent; /* with 17 the To port of the pair that lacks a PGN, and that PGN */
    uint8_t bytes[DEORASAENG_REPLY_BYTES];
};

/* What a port's queue counts. */
struct queue_counts {
    uint64_t waiting[UNIT_RANKS]; /* by priority, 0 the highest rank */
    uint64_t accepted, taken;     /* since power-on, the unit's own frames among them */
};

/* The unit's counters of frames lost to full queues, since power-on or their last reset; each stays at 64,255. */
struct unit_losses {
    bool told; /* not while the unit is not Claimed */
    uint32_t general, pair[LISTS_PORTS][LISTS_PORTS];
};

/* Counts one by its number. One that is no number of the interface is counted as 0, which refuses nothing: so it is seen. */
static inline void count_number(uint64_t counts[UNIT_NUMBERS + 1], uint32_t number)
{
    counts[number <= UNIT_NUMBERS ? number : 0]++;
}

/* "Unstarted", "Claiming", "Claimed" or "Lost". */
const char *claim_state_word(enum deorasaeng_state state);

/* The word for a claim event, or NULL for none. */
const char *claim_event_word(uint64_t event);

/* "cleared", "stopped as listed" and so on. */
const char *reason_word(enum deorasaeng_reason reason);

uint32_t unit_power_on(struct unit *unit, uint64_t name, uint32_t preferred, uint32_t ports);

/* What the unit is now, and its claim state alone. */
struct unit_answer unit_tell(const struct unit *unit);
enum deorasaeng_state unit_state(const struct unit *unit);

struct queue_counts unit_counts(const struct unit *unit, uint32_t port);

/* A frame of SocketCAN, 29-bit and no other, from a port. */
void unit_frame(struct unit *unit, uint32_t port, const struct can_frame *frame, struct frame_answer *answer);

/* The next frame for a port, or false. */
bool unit_take(struct unit *unit, uint32_t port, struct can_frame *frame);

/* 0, or the number; the ports where the unit's frame was lost. The unit is Claiming then, or Lost. */
uint32_t unit_start(struct unit *unit, uint64_t *own_lost);

/* 0, or 18: the unit is not Claiming. */
uint32_t unit_quiet(struct unit *unit);

/* A network message. The lists are read again where a command was done. */
void unit_message(struct unit *unit, uint32_t port, uint32_t requester, const uint8_t *payload, size_t length, struct message_answer *answer);

/* Sets lists on cleared pairs by Create, and by Delete what an emptied list needs. 0, or the first number. */
uint32_t unit_set_lists(struct unit *unit, const struct lists *lists);

/* A copy of the record to ask: whatever an answer does there, nothing is changed or sent. The next call makes another in its place. */
struct unit *unit_copy(const struct unit *unit);

/* A pair's list as a tool on that port is told it, asked of a copy of the record: 0, or the number that refuses the tool. */
uint32_t unit_read_list(const struct unit *unit, uint32_t port, uint32_t from, uint32_t to, struct list *list);

/* A message of the program's own, as from a tool on that port; the unit's address stands for the tool's. The lists are not read again. */
void unit_tool(struct unit *unit, uint32_t port, const struct payload *payload, struct message_answer *answer);

/* Asked of a copy of the record. */
void unit_losses(const struct unit *unit, struct unit_losses *losses);

/* The addresses recorded at a port in rising order, by function 64, asked of a copy of the record. Their number, or -1 while the unit is not Claimed. */
int unit_addresses(const struct unit *unit, uint32_t port, uint8_t addresses[UNIT_ADDRESSES]);

#endif
