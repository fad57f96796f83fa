/* The unit's own claim, by the monotonic clock; and the lists of the file, which the unit takes once it is Claimed.

   With a lists file no port is read before the lists stand, so that nothing crosses before: what arrives in those 250 ms waits in the kernel's receive buffers,
   contending claims too, and is handed in after. */
#include "clock.h"
#include "gateway.h"
#include "log.h"

#include <inttypes.h>

/* ISO 11783-5, 6.2.3.2. */
#define QUIET_AFTER (250 * CLOCK_MS)
/* How long Start waits for interfaces that are not up. */
#define START_PATIENCE (5 * CLOCK_SECOND)

static uint32_t ports_up(const struct gateway *gateway)
{
    uint32_t up = 0;
    for (uint32_t i = 0; i < gateway->options.ports; i++)
        up += gateway->ports[i].interface.state == INTERFACE_UP;
    return up;
}

static bool may_start(const struct gateway *gateway, int64_t now)
{
    uint32_t up = ports_up(gateway);
    return up == gateway->options.ports || (up > 0 && now >= gateway->began_at + START_PATIENCE);
}

static bool start(struct gateway *gateway, int64_t now)
{
    uint64_t own_lost;
    uint32_t number = unit_start(&gateway->unit, &own_lost);
    if (number != 0) {
        log_line(LOG_ERROR, "Start refused with %" PRIu32, number);
        return false;
    }
    for (uint32_t i = 0; i < gateway->options.ports; i++) {
        bool lost = (own_lost >> i & 1) != 0;
        gateway->ports[i].counts.own += !lost;
        gateway->ports[i].counts.own_lost += lost;
        port_joined(&gateway->ports[i], now);
        if (lost)
            port_lost(&gateway->ports[i], now);
    }
    struct unit_answer told = unit_tell(&gateway->unit);
    if (told.state == DEORASAENG_STATE_CLAIMING)
        names_start(&gateway->names, told.address);
    gateway->quiet_at = now + QUIET_AFTER;
    log_line(LOG_INFO, "Start: NAME %016" PRIX64 " claims address %" PRIu32 ", %" PRIu32 " of %" PRIu32 " interfaces up", told.name, told.preferred,
             ports_up(gateway), gateway->options.ports);
    if (told.state == DEORASAENG_STATE_LOST) /* the ports are read already: with a lists file no claim was heard yet */
        log_line(LOG_WARNING, "Lost: address %" PRIu32 " is held by a lower NAME", told.preferred);
    return true;
}

static bool set_lists(struct gateway *gateway)
{
    if (gateway->options.lists == NULL)
        return true;
    uint32_t number = unit_set_lists(&gateway->unit, &gateway->lists);
    if (number != 0 || !lists_equal(&gateway->unit.lists, &gateway->lists)) {
        log_line(LOG_ERROR, "%s: the unit does not take these lists (%" PRIu32 ")", gateway->options.lists, number);
        return false;
    }
    log_line(LOG_INFO, "lists set from %s", gateway->options.lists);
    return true;
}

static bool quiet(struct gateway *gateway)
{
    uint32_t number = unit_quiet(&gateway->unit);
    if (number != 0) {
        log_line(LOG_ERROR, "Quiet refused with %" PRIu32, number);
        return false;
    }
    log_line(LOG_INFO, "Claimed: address %" PRIu32, unit_tell(&gateway->unit).address);
    gateway->reading = true;
    return set_lists(gateway);
}

void gateway_contended(struct gateway *gateway, int64_t now)
{
    gateway->quiet_at = now + QUIET_AFTER;
}

bool gateway_claim(struct gateway *gateway, int64_t now)
{
    enum deorasaeng_state state = unit_state(&gateway->unit);
    if (state == DEORASAENG_STATE_UNSTARTED && may_start(gateway, now))
        return start(gateway, now);
    if (state == DEORASAENG_STATE_CLAIMING && now >= gateway->quiet_at)
        return quiet(gateway);
    return true;
}

int64_t gateway_claim_deadline(const struct gateway *gateway)
{
    enum deorasaeng_state state = unit_state(&gateway->unit);
    if (state == DEORASAENG_STATE_UNSTARTED)
        return ports_up(gateway) > 0 ? gateway->began_at + START_PATIENCE : CLOCK_NEVER;
    return state == DEORASAENG_STATE_CLAIMING ? gateway->quiet_at : CLOCK_NEVER;
}
