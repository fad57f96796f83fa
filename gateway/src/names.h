/* The NAME behind each address, as claims told it. The unit tells addresses and no NAMEs; what it records follows from its events by the rules (docs/RULES.md, "Addresses"),
   so that this table has the addresses of the unit's. */
#ifndef GATEWAY_NAMES_H
#define GATEWAY_NAMES_H

#include "unit.h"

struct names {
    struct name_place {
        bool held;
        uint32_t port; /* where it was heard last */
        uint64_t name;
        int64_t since;       /* when that NAME got the address */
        uint32_t conflicts;  /* how often two NAMEs claimed the address, whoever holds it now .. */
        uint64_t rival;      /* .. the last one that did not get it .. */
        int64_t conflict_at; /* .. and when */
    } at[UNIT_ADDRESSES];
};

/* A claim that was heard at a port, and what it led to. */
struct names_claim {
    uint64_t event, name;
    uint32_t address, port;
    uint64_t before; /* who held the address: with TookOver another NAME, with Displaced the unit */
};

void names_event(struct names *names, const struct names_claim *claim, int64_t now);

/* The unit itself claims the address: who had it, has it no more. */
void names_start(struct names *names, uint32_t address);

/* The fields of a NAME (ISO 11783-5, 5.1.2, Table 1), the highest bits first. */
struct name_fields {
    bool self_configurable;
    uint32_t industry_group, device_class_instance, device_class, function, function_instance, ecu_instance, manufacturer, identity;
};

struct name_fields name_fields(uint64_t name);

/* A field whose bits are all 1 is unknown or unavailable (5.1.2.3). */
#define NAME_UNKNOWN(bits) ((UINT32_C(1) << (bits)) - 1)

#endif
