/* The fields of a 29-bit identifier, and the PGNs that the program itself knows. The unit reads identifiers by itself; these serve the log and the answers. */
#ifndef GATEWAY_IDENTIFIER_H
#define GATEWAY_IDENTIFIER_H

#include <stdint.h>

#define PGN_ACKNOWLEDGMENT UINT32_C(59392)
#define PGN_REQUEST UINT32_C(59904)
#define PGN_NETWORK_MESSAGE UINT32_C(60672)

#define ADDRESS_GLOBAL UINT32_C(255)

static inline uint32_t identifier_priority(uint32_t id)
{
    return id >> 26 & 7;
}

static inline uint32_t identifier_source(uint32_t id)
{
    return id & 0xFF;
}

static inline uint32_t identifier_pf(uint32_t id)
{
    return id >> 16 & 0xFF;
}

/* PS where PF is below 240, else 255: such a frame goes to all. */
static inline uint32_t identifier_destination(uint32_t id)
{
    return identifier_pf(id) < 240 ? id >> 8 & 0xFF : ADDRESS_GLOBAL;
}

static inline uint32_t identifier_pgn(uint32_t id)
{
    return id >> 8 & (identifier_pf(id) < 240 ? UINT32_C(0x3FF00) : UINT32_C(0x3FFFF));
}

#endif
