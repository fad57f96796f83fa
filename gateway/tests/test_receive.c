/* What arrives at a port, from the socket to the counts. */
#include "bench.h"

/* Start 0.000, Defended 0.175: Claimed at 0.425 and not before. */
static void defended_counts_anew(void)
{
    static const uint8_t higher[8] = {1, 0, 0, 0, 0, 0, 0, 0xF0};
    bench_open(4);
    CHECK(gateway_claim(&gateway, 0) && unit_state(&gateway.unit) == DEORASAENG_STATE_CLAIMING);
    CHECK(gateway_claim_deadline(&gateway) == 250 * CLOCK_MS);
    bench_frame(2, 0x18EEFF00 | OWN_ADDRESS, higher, 8, 175 * CLOCK_MS);
    CHECK(gateway_claim_deadline(&gateway) == 425 * CLOCK_MS);
    CHECK(gateway_claim(&gateway, 424 * CLOCK_MS) && unit_state(&gateway.unit) == DEORASAENG_STATE_CLAIMING);
    bench_frame(3, 0x18EEFF00 | OWN_ADDRESS, higher, 8, 424 * CLOCK_MS);
    CHECK(gateway_claim(&gateway, 673 * CLOCK_MS) && unit_state(&gateway.unit) == DEORASAENG_STATE_CLAIMING);
    CHECK(gateway_claim(&gateway, 674 * CLOCK_MS) && unit_state(&gateway.unit) == DEORASAENG_STATE_CLAIMED);
    /* A claim for another address is no contention. */
    bench_close();
    bench_open(4);
    CHECK(gateway_claim(&gateway, 0));
    bench_frame(2, 0x18EEFF22, higher, 8, 175 * CLOCK_MS);
    CHECK(gateway_claim_deadline(&gateway) == 250 * CLOCK_MS);
    bench_close();
}

/* Every number that refuses a message is counted under itself. */
static void refusals_are_counted(void)
{
    static const struct {
        uint32_t number, port;
        uint8_t bytes[8];
    } CASES[] = {
        {9, 1, {5, 0x12, 255, 255, 255, 255, 255, 255}},         {10, 1, {0, 0x11, 255, 255, 255, 255, 255, 255}},
        {11, 3, {0, 0x12, 255, 255, 255, 255, 255, 255}},        {12, 1, {6, 0x12, 0, 0, 0, 0, 1, 1}},
        {13, 1, {6, 0x12, 2, 0xF1, 0xFE, 0, 255, 255}},          {15, 1, {2, 0x12, 0xF1, 0xFE, 0, 255, 255, 255}},
        {22, 1, {6, 0x12, 0, 1, 0, 0, 255, 255}},                {23, 1, {131, 0x12, 4, 255, 255, 255, 255, 255}},
        {23, 1, {133, 0x12, 1, 255, 255, 255, 255, 255}},
    };
    bench_claimed(4);
    for (size_t i = 0; i < sizeof CASES / sizeof CASES[0]; i++) {
        const uint64_t *counts = gateway.ports[CASES[i].port - 1].counts.messages_refused;
        uint64_t before = counts[CASES[i].number], total = 0;
        bench_message(CASES[i].port, CASES[i].bytes);
        for (uint32_t port = 0; port < 4; port++)
            for (uint32_t number = 0; number <= UNIT_NUMBERS; number++)
                total += gateway.ports[port].counts.messages_refused[number];
        CHECK(counts[CASES[i].number] == before + 1 && total == i + 1);
    }
    uint64_t counts[UNIT_NUMBERS + 1] = {0};
    count_number(counts, UNIT_NUMBERS);
    count_number(counts, UNIT_NUMBERS + 1);
    count_number(counts, UINT32_MAX);
    CHECK(counts[UNIT_NUMBERS] == 1 && counts[0] == 2);
    bench_close();
}

int main(void)
{
    log_open(LOG_ERROR);
    defended_counts_anew();
    refusals_are_counted();
    return checks_end("receive");
}
