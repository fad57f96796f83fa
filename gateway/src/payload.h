/* The bytes of network messages to the unit (docs/MESSAGES.md). */
#ifndef GATEWAY_PAYLOAD_H
#define GATEWAY_PAYLOAD_H

#include "lists.h"

enum network_function {
    FUNCTION_REQUEST = 0, FUNCTION_REQUEST_REPLY = 1, FUNCTION_ADD = 2, FUNCTION_DELETE = 3, FUNCTION_CLEAR = 4, FUNCTION_CREATE = 6, FUNCTION_NAME = 7,
    FUNCTION_ADDRESSES = 64, FUNCTION_ADDRESSES_REPLY = 65,
    FUNCTION_PARAMETER = 128, FUNCTION_PARAMETER_REPLY = 129, FUNCTION_RESET = 130,
    FUNCTION_PAIR_PARAMETER = 131, FUNCTION_PAIR_PARAMETER_REPLY = 132, FUNCTION_PAIR_RESET = 133
};

/* The shortest message, and how long an entry is. */
#define PAYLOAD_LEAST 8
#define PAYLOAD_ENTRY 3
/* More entries than a message holds, so that it is the unit which refuses them. */
#define PAYLOAD_ENTRIES 2048

struct payload {
    size_t length;
    uint8_t bytes[3 + PAYLOAD_ENTRY * PAYLOAD_ENTRIES];
};

/* To is 15 for all ports but From, in Add, Delete, Create and Clear. */
void payload_request(struct payload *payload, uint32_t from, uint32_t to);
void payload_add(struct payload *payload, uint32_t from, uint32_t to, const uint32_t *pgns, uint32_t count);
void payload_delete(struct payload *payload, uint32_t from, uint32_t to, const uint32_t *pgns, uint32_t count);
void payload_clear(struct payload *payload, uint32_t from, uint32_t to);
void payload_addresses(struct payload *payload, uint32_t port);

/* The counter of losses, of a pair or, where `pair` is false, of the unit. */
void payload_losses(struct payload *payload, bool pair, uint32_t from, uint32_t to);
void payload_reset(struct payload *payload, bool pair, uint32_t from, uint32_t to);

/* Create has an entry at least, so a list without one is made with PGN 0, which is then deleted: how many payloads, one or two. */
uint32_t payload_create(struct payload payloads[2], uint32_t from, uint32_t to, bool pass, const uint32_t *pgns, uint32_t count);

/* An entry by who sent it, in 23 bytes; and read back. False where it is none. */
void payload_name(struct payload *payload, uint32_t from, uint32_t to, const struct name_entry *entry);
bool payload_read_name(const uint8_t *bytes, size_t length, struct name_entry *entry);

/* An entry of a payload or a reply. */
uint32_t payload_entry(const uint8_t *at);

#endif
