/* The C interface of the bridge: one unit of two to eight ports, on a record of words that the caller lends; and a plan of several, asked who hears what.

   Link libdeorasaeng.a. Each function gives back 0 for done, or the number that refuses the call; a refusal changes no word of the record (27 at power-on aside).
   Nothing is required of arguments and lengths: what is wrong is refused by its number. Of pointers, what C itself asks: each is aligned and good for as many
   elements as the length behind it says; no two overlap; and nobody else uses them during the call. A pointer whose length is 0 may be null, so a frame of no
   bytes may be handed in as NULL, 0; any other may not.

   Platform: x86-64 Linux, the System V calling convention, any linker for ELF. Needed are memcpy and memset and nothing else: no heap, no call of the operating
   system, no data outside the record. SSE registers and the red zone are used. Some 25 KB of code and constants, 15,344 bytes of record for four ports, at most 1.3 KB
   of stack, 6 KB in a call on a plan.
   From the same proved module also 64-bit ARM, RISC-V and 32-bit ARM under Linux, Cortex-M4 and M7 without an operating system, and WebAssembly
   (scripts/library --target). On top of what is believed for x86-64 stands, for a 64-bit one, another back end of the same compiler; for a 32-bit one also that offsets
   cut to 32 bits are right, since a length has 64 in the proofs: tested, outside the proof's machine. docs/CLAIMS.md has what was tried on each.
   docs/INTEGRATION.md has the loop of a box, interrupts, locking and stack, and a page for a microcontroller.

   An answer is lent storage of the length given below, in words; another length is number 2. On a refusal it is left as it was (deorasaeng_message says
   where not). Where several numbers apply the lowest is given, so 1 stands before 2 and 2 before every other; but 23 stands directly after 11, 22 directly after 12, and at
   deorasaeng_start 18 before 8.
   A record of zeros is that of a unit with four ports, Unstarted, NAME 0, preferred address 0: every call is defined on it, but power-on is what makes a unit. On a damaged
   record too every call is defined, ends and stays inside what it was lent; what it then answers is that of the words that stand there, until the next power-on.
   A unit has the number of ports that its power-on was given, four where none was: every call reads it in the record. Ports are 1 to that number. Ports in an answer
   are a mask of eight bits: bit p - 1 for port p. */
#ifndef DEORASAENG_H
#define DEORASAENG_H

#include <stddef.h>
#include <stdint.h>

#ifdef __cplusplus
extern "C" {
#endif

/* A length. In the library it has 64 bits on every processor: size_t where that has as many, else uint64_t; with a size_t of 32 bits a call would link and go
   wrong. */
#if SIZE_MAX > 0xFFFFFFFF
typedef size_t deorasaeng_size;
#else
typedef uint64_t deorasaeng_size;
#endif

/* What else the library takes for granted, and a compiler for a processor that has it otherwise stops at: the least significant byte of a word comes first, and a
   word is aligned to 8. */
#if defined(__BYTE_ORDER__) && __BYTE_ORDER__ != __ORDER_LITTLE_ENDIAN__
#error "libdeorasaeng.a is for little-endian processors"
#endif
struct deorasaeng_byte_and_word {
    uint8_t byte;
    uint64_t word;
};
typedef char deorasaeng_words_are_aligned_to_8[offsetof(struct deorasaeng_byte_and_word, word) == 8 ? 1 : -1];

/* The version of this interface. A version may add functions, numbers, and words at the end of an answer or in the record, whose published length then grows: a
   call that lends the old length is refused with 2. So callers are compiled again with the header of the library that they link: deorasaeng_version() tells the
   library's own, and where it is not this one the two do not fit. */
#define DEORASAENG_VERSION 11
uint64_t deorasaeng_version(void);

/* What a function gives back: 0 for done, else why the call is refused. */
enum deorasaeng_number {
    DEORASAENG_DONE = 0,
    DEORASAENG_WRONG_PORT = 1,           /* port not 1 to the number of ports */
    DEORASAENG_WRONG_STORAGE = 2,        /* lent storage not of its published length */
    DEORASAENG_WRONG_IDENTIFIER = 3,     /* identifier 2^29 or more */
    DEORASAENG_WRONG_LENGTH = 4,         /* frame length over 8 */
    DEORASAENG_WRONG_SOURCE = 5,         /* source address 255, or 254 in a frame that may not have it */
    DEORASAENG_NOT_CLAIMED = 6,          /* unit not Claimed */
    DEORASAENG_WRONG_PAYLOAD = 7,        /* payload not 8 to 1,785 bytes */
    DEORASAENG_WRONG_ADDRESS = 8,        /* requester, or at Start the preferred address, not 0 to 253 */
    DEORASAENG_WRONG_FUNCTION = 9,       /* function not listed */
    DEORASAENG_WRONG_PAIR = 10,          /* port outside 1 to the number of ports, or From equals To */
    DEORASAENG_ACCESS_DENIED = 11,       /* pair or port not this tool's */
    DEORASAENG_WRONG_BODY = 12,          /* body wrong: length or filling */
    DEORASAENG_WRONG_MODE = 13,          /* Create mode not 0 or 1 */
    DEORASAENG_NOT_CLEARED = 14,         /* Create: a named pair not cleared */
    DEORASAENG_IS_CLEARED = 15,          /* Add, Delete: a named pair cleared */
    DEORASAENG_LIST_FULL = 16,           /* a named pair would pass 32 PGNs or 8 NAME entries */
    DEORASAENG_PGN_ABSENT = 17,          /* Delete: a PGN absent from a named pair */
    DEORASAENG_WRONG_STATE = 18,         /* Start not in Unstarted, Quiet not in Claiming */
    DEORASAENG_WRONG_ENTRY = 22,         /* an entry is no PGN */
    DEORASAENG_WRONG_PARAMETER = 23,     /* parameter not held, or not one to reset */
    DEORASAENG_WRONG_PORT_COUNT = 27,    /* port count not 2 to 8 */
    DEORASAENG_WRONG_PLAN = 28,          /* a number outside the plan or its range, or one asked or listed that is no PGN */
    DEORASAENG_TWO_PATHS = 29            /* two paths between some segments, or two ports of a unit on one */
};

/* What a message's answer names as written, and the PGN that a network message comes with. */
#define DEORASAENG_NETWORK_MESSAGE_PGN 60672
#define DEORASAENG_ACKNOWLEDGMENT_PGN 59392

/* How many ports a unit may have. */
#define DEORASAENG_FEWEST_PORTS 2
#define DEORASAENG_MOST_PORTS 8

/* Published lengths: of the record of a unit with four ports, of one port's queue in it and of one pair in it, which has behind its list its NAME entries and the list
   in rising order, in words; of a reply buffer at least, and of a frame's bytes, in bytes. */
#define DEORASAENG_RECORD_WORDS 1918
#define DEORASAENG_QUEUE_WORDS 75
#define DEORASAENG_RECORD_PAIR_WORDS 91
#define DEORASAENG_REPLY_BYTES 1785
#define DEORASAENG_FRAME_BYTES 8

/* The word of the record where the queues begin, and where that of a port does, whatever the number of ports. */
#define DEORASAENG_QUEUES_AT 513
#define DEORASAENG_QUEUE_AT(port) (DEORASAENG_QUEUES_AT + DEORASAENG_QUEUE_WORDS * ((port) - 1))

/* The length of the record of a unit with another number of ports, in words, and of one with any number: a constant where `ports` is one. For a number that is not 2 to
   8 it is four's, which is what power-on is to be lent then. */
#define DEORASAENG_RECORD_WORDS_2 848
#define DEORASAENG_RECORD_WORDS_3 1291
#define DEORASAENG_RECORD_WORDS_5 2729
#define DEORASAENG_RECORD_WORDS_6 3724
#define DEORASAENG_RECORD_WORDS_7 4903
#define DEORASAENG_RECORD_WORDS_8 6266
#define DEORASAENG_RECORD_WORDS_FOR(ports)                                                  \
    ((ports) == 2 ? DEORASAENG_RECORD_WORDS_2 : (ports) == 3 ? DEORASAENG_RECORD_WORDS_3 :  \
     (ports) == 5 ? DEORASAENG_RECORD_WORDS_5 : (ports) == 6 ? DEORASAENG_RECORD_WORDS_6 :  \
     (ports) == 7 ? DEORASAENG_RECORD_WORDS_7 : (ports) == 8 ? DEORASAENG_RECORD_WORDS_8 : DEORASAENG_RECORD_WORDS)

/* Lengths of the answers, in words. */
#define DEORASAENG_FRAME_ANSWER 8
#define DEORASAENG_TAKE_ANSWER 3
#define DEORASAENG_MESSAGE_ANSWER 5
#define DEORASAENG_START_ANSWER 2
#define DEORASAENG_UNIT_ANSWER 5
#define DEORASAENG_COUNTS_ANSWER 10
#define DEORASAENG_PLAN_ANSWER 1

/* A plan of a machine: how many segments and units it may have; for each unit the segment on each of eight ports, and the list of each of 56 pairs, as words; and the
   words of one of these pairs, which has no NAME entries. */
#define DEORASAENG_MOST_SEGMENTS 16
#define DEORASAENG_MOST_UNITS 16
#define DEORASAENG_PLAN_PORT_WORDS 128
#define DEORASAENG_PLAN_LIST_WORDS 30464
#define DEORASAENG_PAIR_WORDS 34

/* The words of a frame's answer. */
enum deorasaeng_frame_word {
    DEORASAENG_CONSUMED = 0,  /* 1 for a frame to the unit, which is not forwarded, else 0 */
    DEORASAENG_ACCEPTED = 1,  /* ports whose queue the frame joined */
    DEORASAENG_LOST = 2,      /* ports where it was permitted and 32 waited */
    DEORASAENG_EVENT = 3,     /* the claim event */
    DEORASAENG_OLD_NAME = 4,  /* the NAME that was taken over from, 0 unless TookOver */
    DEORASAENG_OWN_LOST = 5,  /* ports where the unit's own frame was lost */
    DEORASAENG_COMPARED = 6,  /* entries compared: probes of lists, at most 6 for each pair asked, and NAME entries */
    DEORASAENG_REASONS = 7    /* what each port's pair said; DEORASAENG_REASON reads one */
};

/* Why a frame was let through to a port or stopped on the way there. At a port that let it through it may still be lost, if 32 waited there. */
enum deorasaeng_reason {
    DEORASAENG_REASON_NOT_ASKED = 0,            /* not asked */
    DEORASAENG_REASON_PERMANENT = 1,            /* permanent */
    DEORASAENG_REASON_CLEARED = 2,              /* cleared */
    DEORASAENG_REASON_LISTED_IN_PASS = 3,       /* listed in pass */
    DEORASAENG_REASON_NOT_LISTED_IN_BLOCK = 4,  /* not listed in block */
    DEORASAENG_REASON_STOPPED_AS_LISTED = 5,    /* stopped as listed */
    DEORASAENG_REASON_STOPPED_AS_NOT_LISTED = 6 /* stopped as not listed */
};

/* The reason at port 1 to 8 in answer[DEORASAENG_REASONS], which has four bits a port. No pair is asked at the arrival port, at a port that the unit has not, and of a
   consumed frame. */
#ifdef __cplusplus
#define DEORASAENG_REASON(word, port) (static_cast<deorasaeng_reason>((word) >> 4 * ((port) - 1) & 15))
#else
#define DEORASAENG_REASON(word, port) ((enum deorasaeng_reason)((word) >> 4 * ((port) - 1) & 15))
#endif

/* The words of a take's answer. */
enum deorasaeng_take_word {
    DEORASAENG_GIVEN = 0,     /* 1 for a frame, 0 for nothing waiting */
    DEORASAENG_ID = 1,        /* its identifier, else 0 */
    DEORASAENG_LENGTH = 2     /* its length, else 0 */
};

/* The words of a message's answer. */
enum deorasaeng_message_word {
    DEORASAENG_PGN = 0,       /* DEORASAENG_NETWORK_MESSAGE_PGN for a reply, DEORASAENG_ACKNOWLEDGMENT_PGN, or 0 for nothing written */
    DEORASAENG_WRITTEN = 1,   /* how many bytes were written */
    DEORASAENG_ENTRY = 2,     /* with 22 the first entry that is no PGN, with 17 the one whose PGN is absent, counted from 1 as they stand in the command; else 0 */
    DEORASAENG_TO = 3,        /* with 17 the To port of the first pair, in rising order, that lacks a PGN of the command; else 0 */
    DEORASAENG_ABSENT = 4     /* with 17 the first PGN of the command that it lacks; else 0 */
};

/* The words of Start's answer. */
enum deorasaeng_start_word {
    DEORASAENG_START_OWN_LOST = 0, /* ports where the unit's own frame was lost */
    DEORASAENG_START_STATE = 1     /* what became of the unit: DEORASAENG_STATE_CLAIMING or DEORASAENG_STATE_LOST */
};

/* The words of the unit's answer. */
enum deorasaeng_unit_word {
    DEORASAENG_UNIT_STATE = 0,     /* the claim state */
    DEORASAENG_UNIT_ADDRESS = 1,   /* its address, DEORASAENG_NO_ADDRESS for none */
    DEORASAENG_UNIT_PREFERRED = 2, /* the preferred address, as power-on was given it */
    DEORASAENG_UNIT_NAME = 3,      /* its NAME */
    DEORASAENG_UNIT_PORTS = 4      /* its number of ports */
};

/* The words of a port's counts; the frames that wait at priority p stand at DEORASAENG_COUNTS_WAITING + p. Accepted less taken is how many wait. */
enum deorasaeng_counts_word {
    DEORASAENG_COUNTS_WAITING = 0,  /* frames waiting at priority 0, the highest rank; the next seven words are priority 1 to 7 */
    DEORASAENG_COUNTS_ACCEPTED = 8, /* frames accepted since power-on, the unit's own among them: the remainder by 2^64 */
    DEORASAENG_COUNTS_TAKEN = 9     /* frames taken since power-on: the remainder by 2^64 */
};

/* Claim states. In Claiming and Claimed the unit has an address, the preferred one. */
enum deorasaeng_state {
    DEORASAENG_STATE_UNSTARTED = 0,
    DEORASAENG_STATE_CLAIMING = 1,
    DEORASAENG_STATE_CLAIMED = 2,
    DEORASAENG_STATE_LOST = 3
};

#define DEORASAENG_NO_ADDRESS 254

/* Claim events. */
enum deorasaeng_event {
    DEORASAENG_NO_EVENT = 0,
    DEORASAENG_WITHDREW = 1,
    DEORASAENG_DEFENDED = 2,
    DEORASAENG_DISPLACED = 3,
    DEORASAENG_RECORDED = 4,
    DEORASAENG_REFRESHED = 5,
    DEORASAENG_TOOK_OVER = 6,
    DEORASAENG_BEATEN = 7
};

/* Power-on of a unit with four ports: every pair cleared, every queue and the address table empty, every count 0, losses too, the unit Unstarted. Whatever the record held.
   Number 2. */
uint32_t deorasaeng_power_on(uint64_t *record, deorasaeng_size record_len, uint64_t name, uint32_t preferred);

/* The same with 2 to 8 ports, on a record of DEORASAENG_RECORD_WORDS_FOR(ports) words. Another number of ports is refused with 27, and the record is then that of a
   fresh unit with four ports all the same. Numbers 2, which changes no word, and 27. */
uint32_t deorasaeng_power_on_ports(uint64_t *record, deorasaeng_size record_len, uint64_t name, uint32_t preferred, uint32_t ports);

/* A frame arrived at a port. Numbers 1 to 5. */
uint32_t deorasaeng_frame(uint64_t *record, deorasaeng_size record_len, uint32_t port, uint32_t id, const uint8_t *bytes, deorasaeng_size bytes_len,
                          uint64_t *answer, deorasaeng_size answer_len);

/* A port is ready to send: its frame of highest rank, the earliest of those. `bytes` is 8 long and gets the frame's bytes, 0 past its length; it is untouched
   where nothing waits. Numbers 1 and 2. */
uint32_t deorasaeng_take(uint64_t *record, deorasaeng_size record_len, uint32_t port, uint64_t *answer, deorasaeng_size answer_len, uint8_t *bytes,
                         deorasaeng_size bytes_len);

/* A network message to the unit, handed in whole. What is to be sent back is written to `reply`, and no byte past it is touched. Numbers 1, 2, 6 to 17, 22 and 23: 9
   to 17, 22 and 23 write the acknowledgment, and the answer begins with 59392 and 8; with 17 and 22 it tells which entry was wrong. The others write nothing, and the answer
   is 0 in every word (untouched if it is not 5 long itself). */
uint32_t deorasaeng_message(uint64_t *record, deorasaeng_size record_len, uint32_t port, uint32_t requester, const uint8_t *payload,
                            deorasaeng_size payload_len, uint8_t *reply, deorasaeng_size reply_len, uint64_t *answer, deorasaeng_size answer_len);

/* The unit claims its preferred address: it is Claiming, or Lost where a lower NAME has that address. Numbers 2, 18, 8. */
uint32_t deorasaeng_start(uint64_t *record, deorasaeng_size record_len, uint64_t *answer, deorasaeng_size answer_len);

/* The 250 ms after the unit's claim are over: Claiming becomes Claimed. Numbers 2, 18. */
uint32_t deorasaeng_quiet(uint64_t *record, deorasaeng_size record_len);

/* What the unit is: its claim state, address, preferred address, NAME and number of ports. Changes nothing. Number 2. */
uint32_t deorasaeng_unit(const uint64_t *record, deorasaeng_size record_len, uint64_t *answer, deorasaeng_size answer_len);

/* How full a port's queue is: how many frames wait at each priority, how many were accepted and taken. Changes nothing. Numbers 1 and 2. */
uint32_t deorasaeng_counts(const uint64_t *record, deorasaeng_size record_len, uint32_t port, uint64_t *answer, deorasaeng_size answer_len);

/* The take on one port's queue by itself, for a transmit routine that is to touch nothing else: `queue` is record + DEORASAENG_QUEUE_AT(port), or a copy of those
   words, the port's counts among them. Answer and bytes as deorasaeng_take's. Number 2. It copies the queue (1.3 KB of stack); deorasaeng_take works in place. */
uint32_t deorasaeng_take_queue(uint64_t queue[DEORASAENG_QUEUE_WORDS], uint64_t *answer, deorasaeng_size answer_len, uint8_t *bytes,
                               deorasaeng_size bytes_len);

/* A plan of a machine, asked before it is built: which segments hear a PGN that is sent on the first one? It needs no record. `ports` has eight words for each of 16
   units, the segment on each port, 1 to `segments`, or 0 if it is unused. `lists` has 56 blocks of DEORASAENG_PAIR_WORDS words for each of 16 units, in order of From, then
   To: mode (0 cleared, 1 block, 2 pass), count, 32 PGNs. A record's pair is none of these, and its words are not to be copied here: it has NAME entries behind its
   list, and modes above 2 for them, which are 28 in a plan. What lies past the units in use is not read. The answer has bit s - 1 for segment s that hears. Numbers 2,
   28 and 29. docs/PLANS.md says what each is for. */
uint32_t deorasaeng_plan(const uint64_t *ports, deorasaeng_size ports_len, const uint64_t *lists, deorasaeng_size lists_len, uint32_t segments, uint32_t units,
                         uint32_t first, uint32_t pgn, uint64_t *answer, deorasaeng_size answer_len);

/* A port of a unit with the segment that it is on, each counted from 1. */
struct deorasaeng_link {
    uint32_t unit, port, segment;
};
typedef char deorasaeng_link_has_its_fields_at_0_4_8[offsetof(struct deorasaeng_link, unit) == 0 && offsetof(struct deorasaeng_link, port) == 4
                                                             && offsetof(struct deorasaeng_link, segment) == 8 && sizeof(struct deorasaeng_link) == 12
                                                         ? 1
                                                         : -1];

/* The same with a link for each port in use, in any order, in place of `ports`. A port that is named twice is 28, as is a number out of its range. */
uint32_t deorasaeng_plan_links(const struct deorasaeng_link *links, deorasaeng_size links_len, const uint64_t *lists, deorasaeng_size lists_len, uint32_t segments,
                               uint32_t units, uint32_t first, uint32_t pgn, uint64_t *answer, deorasaeng_size answer_len);

#ifdef __cplusplus
}
#endif

#endif
