/* The proved unit behind the program: lists set and read through network messages, answers as frames, counts, NAMEs. */
#include "../src/answers.h"
#include "../src/identifier.h"
#include "../src/name_entries.h"
#include "../src/names.h"
#include "../src/refusal.h"
#include "check.h"

#include <stdlib.h>

#define OWN_NAME UINT64_C(0x20001C000AC00123)
#define OWN_ADDRESS 0x80

static struct message_answer answer;

static struct can_frame frame(uint32_t id, const uint8_t *bytes, uint8_t length)
{
    struct can_frame made;
    memset(&made, 0, sizeof made);
    made.can_id = id | CAN_EFF_FLAG;
    made.len = length;
    if (length > 0)
        memcpy(made.data, bytes, length);
    return made;
}

static void claimed_unit(struct unit *unit, uint32_t ports)
{
    uint64_t own_lost;
    struct can_frame claim;
    CHECK(unit_power_on(unit, OWN_NAME, OWN_ADDRESS, ports) == 0 && unit_state(unit) == DEORASAENG_STATE_UNSTARTED);
    CHECK(unit_tell(unit).ports == ports);
    CHECK(unit_start(unit, &own_lost) == 0 && own_lost == 0 && unit_state(unit) == DEORASAENG_STATE_CLAIMING);
    CHECK(unit_quiet(unit) == 0 && unit_state(unit) == DEORASAENG_STATE_CLAIMED);
    for (uint32_t port = 1; port <= ports; port++)
        CHECK(unit_take(unit, port, &claim) && claim.can_id == (0x18EEFF80 | CAN_EFF_FLAG) && claim.len == 8 && claim.data[0] == 0x23);
    CHECK(!unit_take(unit, 1, &claim) && !unit_take(unit, ports + 1, &claim));
}

/* Lists of every length and mode, emptied ones too, are read back as they were set. */
static void lists_there_and_back(void)
{
    static struct unit unit;
    srand(2);
    for (int round = 0; round < 200; round++) {
        struct lists lists;
        int ports = 2 + round % 7;
        memset(&lists, 0, sizeof lists);
        claimed_unit(&unit, (uint32_t)ports);
        for (int from = 0; from < ports; from++)
            for (int to = 0; to < ports; to++) {
                struct list *list = &lists.pair[from][to];
                list->mode = from == to ? LIST_CLEARED : (enum list_mode)(rand() % 3);
                list->count = list->mode == LIST_CLEARED ? 0 : (uint32_t)(rand() % 4 == 0 ? rand() % 3 : rand() % (LISTS_ENTRIES + 1));
                for (uint32_t i = 0; i < list->count; i++)
                    list->pgns[i] = i % 2 == 0 ? 0x3FF00 + i : i << 8;
            }
        CHECK(unit_set_lists(&unit, &lists) == 0 && lists_equal(&unit.lists, &lists));
    }
}

static void unit_refuses_lists_unclaimed(void)
{
    static struct unit unit;
    struct lists lists;
    memset(&lists, 0, sizeof lists);
    lists.pair[0][1].mode = LIST_PASS;
    CHECK(unit_power_on(&unit, OWN_NAME, OWN_ADDRESS, 4) == 0);
    CHECK(unit_set_lists(&unit, &lists) == 6 && unit.lists.pair[0][1].mode == LIST_CLEARED);
    CHECK(unit_quiet(&unit) == 18 && unit_state(&unit) == DEORASAENG_STATE_UNSTARTED);
}

/* The unit tells itself that a lower NAME had the address before Start; from then on it has none. */
static void lost_at_start(void)
{
    static struct unit unit;
    static const uint8_t lower[8] = {1, 0, 0, 0, 0, 0, 0, 0};
    struct can_frame claim = frame(0x18EEFF00 | OWN_ADDRESS, lower, 8);
    struct frame_answer got;
    uint64_t own_lost;
    CHECK(unit_power_on(&unit, OWN_NAME, OWN_ADDRESS, 4) == 0);
    unit_frame(&unit, 3, &claim, &got);
    CHECK(got.number == 0 && got.event == DEORASAENG_RECORDED && !got.own_sent);
    CHECK(unit_start(&unit, &own_lost) == 0 && own_lost == 0);
    struct unit_answer told = unit_tell(&unit);
    CHECK(told.state == DEORASAENG_STATE_LOST && told.address == DEORASAENG_NO_ADDRESS && told.preferred == OWN_ADDRESS && told.name == OWN_NAME);
    CHECK_TEXT(claim_state_word(told.state), "Lost");
    CHECK(unit_quiet(&unit) == 18);
}

/* The vectors of the rules, P5 to P7, as frames at the arrival port. */
static void answers(void)
{
    static struct unit unit;
    static const uint8_t create[8] = {6, 0x12, 1, 0xF1, 0xFE, 0, 0xFF, 0xFF}, request[8] = {0, 0x12, 0xFF, 0xFF, 0xFF, 0xFF, 0xFF, 0xFF};
    static const uint8_t done[8] = {0, 6, 0xFF, 0xFF, 0x21, 0, 0xED, 0}, denied[8] = {2, 0, 0xFF, 0xFF, 0x21, 0, 0xED, 0};
    static const uint8_t list[8] = {1, 0x12, 1, 0xF1, 0xFE, 0, 0xFF, 0xFF};
    struct can_frame got, wanted;
    claimed_unit(&unit, 4);
    unit_message(&unit, 1, 0x21, create, sizeof create, &answer);
    wanted = frame(0x18E8FF80, done, 8);
    CHECK(answer.number == 0 && answer_frame(&answer, 0x21, OWN_ADDRESS, &got) && memcmp(&got, &wanted, sizeof got) == 0);
    CHECK(unit.lists.pair[0][1].mode == LIST_PASS && unit.lists.pair[0][1].count == 1 && unit.lists.pair[0][1].pgns[0] == 65265);
    unit_message(&unit, 1, 0x21, request, sizeof request, &answer);
    wanted = frame(0x18ED2180, list, 8);
    CHECK(answer.number == 0 && answer_frame(&answer, 0x21, OWN_ADDRESS, &got) && memcmp(&got, &wanted, sizeof got) == 0);
    unit_message(&unit, 3, 0x21, request, sizeof request, &answer);
    wanted = frame(0x18E8FF80, denied, 8);
    CHECK(answer.number == 11 && answer_frame(&answer, 0x21, OWN_ADDRESS, &got) && memcmp(&got, &wanted, sizeof got) == 0);
    unit_message(&unit, 1, 0x21, request, 7, &answer);
    CHECK(answer.number == 7 && !answer_frame(&answer, 0x21, OWN_ADDRESS, &got));
    answer.pgn = PGN_NETWORK_MESSAGE;
    answer.length = 9;
    CHECK(!answer_frame(&answer, 0x21, OWN_ADDRESS, &got));
}

/* The unit's own frames are known from the answers: what joins a queue is taken there. */
static void own_frames(void)
{
    static struct unit unit;
    static const uint8_t request[3] = {0, 0xEE, 0}, higher[8] = {1, 0, 0, 0, 0, 0, 0, 0xF0}, lower[8] = {1, 0, 0, 0, 0, 0, 0, 0};
    static const struct {
        uint32_t id;
        const uint8_t *bytes;
        uint8_t length;
        bool own;
        uint64_t event;
    } CASES[] = {
        {0x18EAFF21, request, 3, true, DEORASAENG_NO_EVENT},   {0x18EA8021, request, 3, true, DEORASAENG_NO_EVENT},
        {0x18EA9021, request, 3, false, DEORASAENG_NO_EVENT},  {0x18EAFF21, lower, 3, false, DEORASAENG_NO_EVENT},
        {0x18EEFF80, higher, 8, true, DEORASAENG_DEFENDED},    {0x18EEFF81, higher, 8, false, DEORASAENG_RECORDED},
        {0x18EEFF80, lower, 8, true, DEORASAENG_DISPLACED},    {0x18EAFF21, request, 3, true, DEORASAENG_NO_EVENT},
        {0x18EA8021, request, 3, false, DEORASAENG_NO_EVENT},
    };
    claimed_unit(&unit, 4);
    for (size_t i = 0; i < sizeof CASES / sizeof CASES[0]; i++) {
        struct can_frame in = frame(CASES[i].id, CASES[i].bytes, CASES[i].length), out;
        struct frame_answer got;
        unsigned taken[4] = {0};
        unit_frame(&unit, 1, &in, &got);
        for (uint32_t port = 1; port <= 4; port++)
            while (unit_take(&unit, port, &out))
                taken[port - 1]++;
        /* At the arrival port there are own frames alone. */
        CHECK(got.number == 0 && got.own_sent == CASES[i].own && taken[0] == (unsigned)CASES[i].own && got.event == CASES[i].event);
        CHECK(taken[1] == taken[0] + !got.consumed);
    }
    CHECK(unit_state(&unit) == DEORASAENG_STATE_LOST);
}

static void addresses(void)
{
    static struct unit unit;
    uint8_t list[UNIT_ADDRESSES];
    struct frame_answer got;
    claimed_unit(&unit, 4);
    for (uint32_t address = 0; address < UNIT_ADDRESSES; address++) {
        uint8_t name[8] = {(uint8_t)address, 0, 0, 0, 0, 0, 0, 0xF0};
        struct can_frame claim = frame(0x18EEFF00 | address, name, 8);
        if (address != OWN_ADDRESS)
            unit_frame(&unit, 2, &claim, &got);
    }
    CHECK(unit_addresses(&unit, 2, list) == UNIT_ADDRESSES - 1 && list[0] == 0 && list[0x80] == 0x81 && list[252] == 253);
    CHECK(unit_addresses(&unit, 1, list) == 0);
    CHECK(unit_power_on(&unit, OWN_NAME, OWN_ADDRESS, 4) == 0 && unit_addresses(&unit, 1, list) == -1);
}

/* Frames lost at a full queue are told by pair and in general; waiting by priority. */
static void losses(void)
{
    static struct unit unit;
    static const uint8_t reset[8] = {133, 0x12, 9, 0xFF, 0xFF, 0xFF, 0xFF, 0xFF};
    struct unit_losses told;
    struct frame_answer got;
    struct can_frame in = frame(0x18FEF121, NULL, 0);
    claimed_unit(&unit, 3);
    for (int i = 0; i < 40; i++)
        unit_frame(&unit, 1, &in, &got);
    unit_losses(&unit, &told);
    CHECK(told.told && told.general == 16 && told.pair[0][1] == 8 && told.pair[0][2] == 8 && told.pair[1][0] == 0);
    struct queue_counts counts = unit_counts(&unit, 2);
    CHECK(counts.waiting[6] == 32 && counts.waiting[0] == 0 && counts.accepted == 33 && counts.taken == 1);
    CHECK(DEORASAENG_REASON(got.reasons, 2) == DEORASAENG_REASON_CLEARED && DEORASAENG_REASON(got.reasons, 1) == DEORASAENG_REASON_NOT_ASKED);
    unit_message(&unit, 1, 0x21, reset, sizeof reset, &answer);
    unit_losses(&unit, &told);
    CHECK(answer.number == 0 && told.general == 16 && told.pair[0][1] == 0 && told.pair[0][2] == 8);
    CHECK(unit_power_on(&unit, OWN_NAME, OWN_ADDRESS, 3) == 0);
    unit_losses(&unit, &told);
    CHECK(!told.told);
}

/* The table of NAMEs has the addresses of the unit's own, whatever claims come. */
static void names(void)
{
    static struct unit unit;
    static struct names heard;
    srand(3);
    for (int round = 0; round < 20; round++) {
        uint64_t own_lost;
        memset(&heard, 0, sizeof heard);
        CHECK(unit_power_on(&unit, OWN_NAME, OWN_ADDRESS, 4) == 0);
        for (int i = 0; i < 300; i++) {
            struct frame_answer got;
            uint8_t bytes[8] = {(uint8_t)(rand() % 12), 0, 0, 0, 0, 0, 0, (uint8_t)(rand() % 2 == 0 ? 0x10 : 0xF0)};
            uint32_t address = rand() % 10 == 0 ? 254 : OWN_ADDRESS - 4 + (uint32_t)(rand() % 8), port = 1 + (uint32_t)(rand() % 4);
            struct can_frame claim = frame(0x18EEFF00 | address, bytes, 8), out;
            unit_frame(&unit, port, &claim, &got);
            CHECK(got.number == 0);
            names_event(&heard, &(struct names_claim){got.event, (uint64_t)bytes[7] << 56 | bytes[0], address, port, got.old_name}, i);
            if (i == 100 && unit_start(&unit, &own_lost) == 0 && unit_state(&unit) == DEORASAENG_STATE_CLAIMING) {
                names_start(&heard, OWN_ADDRESS);
                CHECK(unit_quiet(&unit) == 0);
            }
            for (port = 1; port <= 4; port++)
                for (bool more = true; more;)
                    more = unit_take(&unit, port, &out);
            for (port = 1; port <= 4 && unit_state(&unit) == DEORASAENG_STATE_CLAIMED; port++) {
                uint8_t list[UNIT_ADDRESSES];
                int count = unit_addresses(&unit, port, list), found = 0;
                for (uint32_t at = 0; at < UNIT_ADDRESSES; at++)
                    if (heard.at[at].held && heard.at[at].port == port)
                        CHECK(found < count && list[found++] == at);
                CHECK(found == count);
            }
        }
    }
}

static void fields(void)
{
    struct name_fields own = name_fields(OWN_NAME), all = name_fields(UINT64_MAX);
    CHECK(!own.self_configurable && own.industry_group == 2 && own.device_class_instance == 0 && own.device_class == 0 && own.function == 0x1C);
    CHECK(own.function_instance == 0 && own.ecu_instance == 0 && own.manufacturer == 0x56 && own.identity == 0x123);
    CHECK(all.self_configurable && all.industry_group == NAME_UNKNOWN(3) && all.device_class == NAME_UNKNOWN(7) && all.identity == NAME_UNKNOWN(21));
    CHECK_TEXT(refusal_words(22), "an entry is no PGN");
    CHECK_TEXT(refusal_words(19), "a number that this program does not know");
    CHECK_TEXT(refusal_words(UINT32_MAX), "a number that this program does not know");
}

/* Function 7's bytes, and the copy of the entries: appended unless there, emptied by Clear and Create, each on the pairs that the command names. */
static void entries(void)
{
    static const uint8_t BYTES[23] = {7, 0x12, 0xF1, 0xFE, 0, 0x23, 1, 0xC0, 0x0A, 0, 0x86, 0, 0xA0, 0, 0, 0xE0, 0xFF, 0xFF, 0xFF, 0xFF, 0xFF, 0xFF, 0xFF};
    static const struct name_entry ENTRY = {65265, UINT64_C(0xA00086000AC00123), UINT64_C(0xFFFFFFFFFFE00000)};
    static struct payload payloads[2];
    static struct lists lists;
    struct name_entry read;
    payload_name(&payloads[0], 1, 2, &ENTRY);
    CHECK(payloads[0].length == 23 && memcmp(payloads[0].bytes, BYTES, 23) == 0);
    CHECK(payload_read_name(BYTES, 23, &read) && name_entry_equal(&read, &ENTRY) && !payload_read_name(BYTES, 22, &read));
    for (uint32_t i = 0; i < 3; i++)
        name_entries_follow(&lists, 4, BYTES, 23);
    CHECK(lists.pair[0][1].names_count == 1 && name_entry_equal(&lists.pair[0][1].names[0], &ENTRY) && lists.pair[0][2].names_count == 0 && lists.pair[1][0].names_count == 0);
    for (uint32_t i = 0; i < 12; i++) {
        const struct name_entry other = {65265, ENTRY.name, i};
        payload_name(&payloads[0], 1, 3, &other);
        name_entries_follow(&lists, 4, payloads[0].bytes, payloads[0].length);
    }
    CHECK(lists.pair[0][2].names_count == LISTS_NAMES && lists.pair[0][2].names[7].mask == 7 && lists.pair[0][1].names_count == 1);
    payload_request(&payloads[0], 1, 2);
    name_entries_follow(&lists, 4, payloads[0].bytes, payloads[0].length);
    payload_delete(&payloads[0], 1, 2, &ENTRY.pgn, 1);
    name_entries_follow(&lists, 4, payloads[0].bytes, payloads[0].length);
    payload_clear(&payloads[0], 5, 1); /* no port of this unit */
    name_entries_follow(&lists, 4, payloads[0].bytes, payloads[0].length);
    CHECK(lists.pair[0][1].names_count == 1);
    payload_clear(&payloads[0], 1, 2);
    name_entries_follow(&lists, 4, payloads[0].bytes, payloads[0].length);
    CHECK(lists.pair[0][1].names_count == 0 && lists.pair[0][2].names_count == LISTS_NAMES);
    name_entries_follow(&lists, 4, BYTES, 23);
    payload_create(payloads, 1, 15, true, &ENTRY.pgn, 1);
    name_entries_follow(&lists, 4, payloads[0].bytes, payloads[0].length);
    CHECK(lists.pair[0][1].names_count == 0 && lists.pair[0][2].names_count == 0);
}

int main(void)
{
    lists_there_and_back();
    unit_refuses_lists_unclaimed();
    lost_at_start();
    answers();
    own_frames();
    addresses();
    losses();
    names();
    fields();
    entries();
    return checks_end("unit");
}
