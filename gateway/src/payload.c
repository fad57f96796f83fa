#include "payload.h"

#include <string.h>

#define PARAMETER_LOSSES 9
#define PAIR_AT 1
#define BODY_AT 2
/* Of an entry by who sent it: its PGN stands at BODY_AT; the last two bytes are a rate that nobody reads. */
#define NAME_AT 5
#define MASK_AT 13
#define NAME_BYTES 23

static void begin(struct payload *payload, enum network_function function, uint32_t pair)
{
    memset(payload->bytes, 0xFF, PAYLOAD_LEAST);
    payload->bytes[0] = (uint8_t)function;
    payload->bytes[PAIR_AT] = (uint8_t)pair;
    payload->length = PAYLOAD_LEAST;
}

/* From in the upper half, To in the lower. */
static uint32_t pair_byte(uint32_t from, uint32_t to)
{
    return from << 4 | to;
}

/* Entries to the end, the filling of a short payload behind them. */
static void put_entries(struct payload *payload, size_t at, const uint32_t *pgns, uint32_t count)
{
    for (uint32_t i = 0; i < count; i++)
        for (unsigned byte = 0; byte < PAYLOAD_ENTRY; byte++)
            payload->bytes[at++] = (uint8_t)(pgns[i] >> 8 * byte & 0xFF);
    if (at > PAYLOAD_LEAST)
        payload->length = at;
}

void payload_request(struct payload *payload, uint32_t from, uint32_t to)
{
    begin(payload, FUNCTION_REQUEST, pair_byte(from, to));
}

void payload_add(struct payload *payload, uint32_t from, uint32_t to, const uint32_t *pgns, uint32_t count)
{
    begin(payload, FUNCTION_ADD, pair_byte(from, to));
    put_entries(payload, BODY_AT, pgns, count);
}

void payload_delete(struct payload *payload, uint32_t from, uint32_t to, const uint32_t *pgns, uint32_t count)
{
    begin(payload, FUNCTION_DELETE, pair_byte(from, to));
    put_entries(payload, BODY_AT, pgns, count);
}

void payload_clear(struct payload *payload, uint32_t from, uint32_t to)
{
    begin(payload, FUNCTION_CLEAR, pair_byte(from, to));
}

void payload_addresses(struct payload *payload, uint32_t port)
{
    begin(payload, FUNCTION_ADDRESSES, port);
}

void payload_losses(struct payload *payload, bool pair, uint32_t from, uint32_t to)
{
    begin(payload, pair ? FUNCTION_PAIR_PARAMETER : FUNCTION_PARAMETER, pair ? pair_byte(from, to) : 0xFF);
    payload->bytes[BODY_AT] = PARAMETER_LOSSES;
}

void payload_reset(struct payload *payload, bool pair, uint32_t from, uint32_t to)
{
    begin(payload, pair ? FUNCTION_PAIR_RESET : FUNCTION_RESET, pair ? pair_byte(from, to) : 0xFF);
    payload->bytes[BODY_AT] = PARAMETER_LOSSES;
}

uint32_t payload_create(struct payload payloads[2], uint32_t from, uint32_t to, bool pass, const uint32_t *pgns, uint32_t count)
{
    static const uint32_t ANY[] = {0};
    begin(&payloads[0], FUNCTION_CREATE, pair_byte(from, to));
    payloads[0].bytes[BODY_AT] = pass;
    put_entries(&payloads[0], BODY_AT + 1, count > 0 ? pgns : ANY, count > 0 ? count : 1);
    if (count > 0)
        return 1;
    payload_delete(&payloads[1], from, to, ANY, 1);
    return 2;
}

uint32_t payload_entry(const uint8_t *at)
{
    return (uint32_t)at[0] | (uint32_t)at[1] << 8 | (uint32_t)at[2] << 16;
}

static void put_long(uint8_t *at, uint64_t value)
{
    for (unsigned byte = 0; byte < 8; byte++)
        at[byte] = (uint8_t)(value >> 8 * byte & 0xFF);
}

static uint64_t get_long(const uint8_t *at)
{
    uint64_t value = 0;
    for (int byte = 7; byte >= 0; byte--)
        value = value << 8 | at[byte];
    return value;
}

void payload_name(struct payload *payload, uint32_t from, uint32_t to, const struct name_entry *entry)
{
    memset(payload->bytes, 0xFF, NAME_BYTES);
    payload->bytes[0] = FUNCTION_NAME;
    payload->bytes[PAIR_AT] = (uint8_t)pair_byte(from, to);
    put_entries(payload, BODY_AT, &entry->pgn, 1);
    put_long(payload->bytes + NAME_AT, entry->name);
    put_long(payload->bytes + MASK_AT, entry->mask);
    payload->length = NAME_BYTES;
}

bool payload_read_name(const uint8_t *bytes, size_t length, struct name_entry *entry)
{
    if (length != NAME_BYTES || bytes[0] != FUNCTION_NAME)
        return false;
    *entry = (struct name_entry){payload_entry(bytes + BODY_AT), get_long(bytes + NAME_AT), get_long(bytes + MASK_AT)};
    return true;
}
