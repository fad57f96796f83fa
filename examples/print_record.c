/* Prints a record: the unit, its addresses, queues, lists and losses. usage: print_record [FILE]; FILE has the record's words as memory has them, for example from a debugger
   (dump binary memory FILE record record+DEORASAENG_RECORD_WORDS). Without FILE it makes a unit, a few calls on it, and prints that. */
#include "../include/deorasaeng_layout.h"
#include "../include/deorasaeng_words.h"

#include <inttypes.h>
#include <stdio.h>
#include <string.h>

static uint64_t record[DEORASAENG_RECORD_WORDS_8];

static uint32_t ports_of(const uint64_t *words)
{
    uint64_t n = words[DEORASAENG_PORTS_AT];
    return n < DEORASAENG_FEWEST_PORTS || n > DEORASAENG_MOST_PORTS ? 4 : (uint32_t)n;
}

static void print_unit(const uint64_t *words)
{
    printf("unit: %s, preferred address %" PRIu64 ", NAME %016" PRIX64 ", %u ports\n", deorasaeng_state_words(words[DEORASAENG_STATE_AT]),
           words[DEORASAENG_PREFERRED_AT], words[DEORASAENG_NAME_AT], (unsigned)ports_of(words));
    for (unsigned address = 0; address < DEORASAENG_TABLE_PLACES; address++) {
        const uint64_t *place = words + DEORASAENG_PLACE_AT(address);
        if (place[0] != 0)
            printf("address %u: port %" PRIu64 ", NAME %016" PRIX64 "\n", address, place[0], place[1]);
    }
}

static void print_queue(const uint64_t *queue, unsigned port)
{
    uint64_t waiting = queue[DEORASAENG_QUEUE_WAITING];
    const uint64_t *counts = queue + DEORASAENG_QUEUE_COUNTS;
    printf("port %u: waiting %" PRIu64 ", accepted %" PRIu64 ", taken %" PRIu64 "\n", port, waiting, counts[DEORASAENG_COUNTS_ACCEPTED],
           counts[DEORASAENG_COUNTS_TAKEN]);
    for (uint64_t i = 0; i < waiting && i < DEORASAENG_QUEUE_DEPTH; i++) {
        const uint64_t *frame = queue + DEORASAENG_QUEUE_FRAMES + 2 * i;
        uint64_t length = frame[0] >> 32;
        printf("  %08" PRIX64 " %" PRIu64 " ", frame[0] & 0xFFFFFFFF, length);
        for (uint64_t byte = 0; byte < length && byte < DEORASAENG_FRAME_BYTES; byte++)
            printf("%02X", (unsigned)(frame[1] >> 8 * byte & 255));
        printf("\n");
    }
}

static void print_names(const uint64_t *pair)
{
    uint64_t count = pair[DEORASAENG_PAIR_MODE] < DEORASAENG_BLOCK_WITH_NAMES ? 0 : pair[DEORASAENG_PAIR_NAMES];
    for (uint64_t i = 0; i < count && i < DEORASAENG_NAME_ENTRIES; i++) {
        const uint64_t *entry = pair + DEORASAENG_NAME_ENTRY_AT(i);
        printf(", %" PRIu64 " by NAME %016" PRIX64 " mask %016" PRIX64, entry[0], entry[1], entry[2]);
    }
}

/* The list as it is looked up, where that is another order than the one of addition. */
static void print_rising(const uint64_t *pair, uint64_t count)
{
    const uint64_t *rising = pair + DEORASAENG_PAIR_RISING;
    if (memcmp(rising, pair + DEORASAENG_PAIR_PGNS, count * sizeof *rising) == 0)
        return;
    printf(", looked up as");
    for (uint64_t i = 0; i < count; i++)
        printf(" %" PRIu64, rising[i]);
}

static void print_pair(const uint64_t *words, unsigned from, unsigned to)
{
    uint32_t n = ports_of(words);
    const uint64_t *pair = words + DEORASAENG_PAIR_AT(n, from, to);
    uint64_t lost = words[DEORASAENG_LOSS_AT(n, from, to)], count = pair[DEORASAENG_PAIR_COUNT];
    if (count > DEORASAENG_LIST_PGNS)
        count = DEORASAENG_LIST_PGNS;
    if (pair[DEORASAENG_PAIR_MODE] == 0 && lost == 0)
        return;
    printf("from %u to %u: ", from, to);
    if (pair[DEORASAENG_PAIR_MODE] == 0) {
        printf("cleared");
    } else {
        printf("%s", pair[DEORASAENG_PAIR_MODE] == 1 || pair[DEORASAENG_PAIR_MODE] == DEORASAENG_BLOCK_WITH_NAMES ? "block" : "pass");
        for (uint64_t i = 0; i < count; i++)
            printf(" %" PRIu64, pair[DEORASAENG_PAIR_PGNS + i]);
        print_rising(pair, count);
        print_names(pair);
    }
    printf(", lost %" PRIu64 "\n", lost);
}

static void print_record(const uint64_t *words)
{
    uint32_t n = ports_of(words);
    print_unit(words);
    for (unsigned port = 1; port <= n; port++)
        print_queue(words + DEORASAENG_QUEUE_AT(port), port);
    for (unsigned from = 1; from <= n; from++)
        for (unsigned to = 1; to <= n; to++)
            if (from != to)
                print_pair(words, from, to);
    printf("lost in general %" PRIu64 "\n", words[DEORASAENG_GENERAL_LOSS_AT(n)]);
}

/* A unit that has claimed its address, heard a claim, got a list, a NAME entry and some frames. */
static void make_record(void)
{
    uint64_t answer[DEORASAENG_FRAME_ANSWER];
    uint8_t bytes[DEORASAENG_FRAME_BYTES] = {0x23, 0, 0, 0, 0, 0, 0, 0xA0}, reply[DEORASAENG_REPLY_BYTES];
    const uint8_t create[9] = {6, 0x12, 1, 0xF1, 0xFE, 0, 0x05, 0xF0, 0};
    const uint8_t by_name[23] = {7, 0x12, 0x00, 0xEF, 0, 0x23, 0, 0, 0, 0, 0, 0, 0xA0, 0xFF, 0, 0, 0, 0, 0, 0, 0x80};
    deorasaeng_power_on(record, DEORASAENG_RECORD_WORDS, 0x20001C000AC00123, 128);
    deorasaeng_start(record, DEORASAENG_RECORD_WORDS, answer, DEORASAENG_START_ANSWER);
    for (uint32_t port = 1; port <= 4; port++)
        deorasaeng_take(record, DEORASAENG_RECORD_WORDS, port, answer, DEORASAENG_TAKE_ANSWER, reply, DEORASAENG_FRAME_BYTES);
    deorasaeng_quiet(record, DEORASAENG_RECORD_WORDS);
    deorasaeng_message(record, DEORASAENG_RECORD_WORDS, 1, 33, create, sizeof create, reply, sizeof reply, answer, DEORASAENG_MESSAGE_ANSWER);
    deorasaeng_message(record, DEORASAENG_RECORD_WORDS, 1, 33, by_name, sizeof by_name, reply, sizeof reply, answer, DEORASAENG_MESSAGE_ANSWER);
    deorasaeng_frame(record, DEORASAENG_RECORD_WORDS, 3, 0x18EEFF21, bytes, 8, answer, DEORASAENG_FRAME_ANSWER);
    for (uint8_t i = 0; i < 32; i++)
        deorasaeng_frame(record, DEORASAENG_RECORD_WORDS, 1, 0x0CF00400, &i, 1, answer, DEORASAENG_FRAME_ANSWER);
}

int main(int argc, char **argv)
{
    if (deorasaeng_version() != DEORASAENG_VERSION) {
        fprintf(stderr, "print_record: a library of another version than its header\n");
        return 2;
    }
    if (argc < 2) {
        make_record();
    } else {
        FILE *file = fopen(argv[1], "rb");
        size_t words = file == NULL ? 0 : fread(record, sizeof record[0], DEORASAENG_RECORD_WORDS_8, file);
        if (words < DEORASAENG_RECORD_WORDS_2 || words < DEORASAENG_RECORD_WORDS_FOR(ports_of(record))) {
            fprintf(stderr, "print_record: cannot read %s, or it is no whole record\n", argv[1]);
            return 2;
        }
        fclose(file);
    }
    print_record(record);
    return 0;
}
