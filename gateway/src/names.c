#include "names.h"

/* A NAME has one address at most. */
static void drop(struct names *names, uint64_t name)
{
    for (uint32_t address = 0; address < UNIT_ADDRESSES; address++)
        if (names->at[address].held && names->at[address].name == name)
            names->at[address].held = false;
}

static void conflict(struct name_place *place, uint64_t rival, int64_t now)
{
    place->conflicts++;
    place->rival = rival;
    place->conflict_at = now;
}

void names_event(struct names *names, const struct names_claim *claim, int64_t now)
{
    uint64_t event = claim->event;
    if (event == DEORASAENG_NO_EVENT)
        return;
    if (event != DEORASAENG_REFRESHED)
        drop(names, claim->name);
    if (event == DEORASAENG_WITHDREW || claim->address >= UNIT_ADDRESSES)
        return;
    struct name_place *place = &names->at[claim->address];
    if (event == DEORASAENG_DEFENDED || event == DEORASAENG_BEATEN) {
        conflict(place, claim->name, now);
        return;
    }
    if (event == DEORASAENG_DISPLACED || event == DEORASAENG_TOOK_OVER)
        conflict(place, claim->before, now);
    if (event != DEORASAENG_REFRESHED)
        place->since = now;
    place->held = true;
    place->name = claim->name;
    place->port = claim->port;
}

void names_start(struct names *names, uint32_t address)
{
    if (address < UNIT_ADDRESSES)
        names->at[address].held = false;
}

static uint32_t bits(uint64_t name, unsigned lowest, unsigned count)
{
    return (uint32_t)(name >> lowest) & NAME_UNKNOWN(count);
}

struct name_fields name_fields(uint64_t name)
{
    return (struct name_fields){
        .self_configurable = bits(name, 63, 1) != 0,
        .industry_group = bits(name, 60, 3),
        .device_class_instance = bits(name, 56, 4),
        .device_class = bits(name, 49, 7),
        .function = bits(name, 40, 8),
        .function_instance = bits(name, 35, 5),
        .ecu_instance = bits(name, 32, 3),
        .manufacturer = bits(name, 21, 11),
        .identity = bits(name, 0, 21),
    };
}
