/* The summary at the program's end. */
#include "gateway.h"
#include "log.h"

#include <inttypes.h>

static uint64_t sum(const uint64_t counts[UNIT_NUMBERS + 1])
{
    uint64_t total = 0;
    for (int i = 0; i <= UNIT_NUMBERS; i++)
        total += counts[i];
    return total;
}

static void summarize(const struct port *port)
{
    const struct port_counts *counts = &port->counts;
    uint64_t other = counts->other[OTHER_ELEVEN_BIT] + counts->other[OTHER_REMOTE] + counts->other[OTHER_FD] + counts->other[OTHER_ERROR];
    log_always("port %" PRIu32 " (%s): in %" PRIu64 ", consumed %" PRIu64 ", refused %" PRIu64 ", other %" PRIu64 ", missed %" PRIu64, port->number,
               port->interface.name, counts->in, counts->consumed, sum(counts->refused), other, counts->missed);
    log_always("port %" PRIu32 " (%s): out %" PRIu64 ", stopped %" PRIu64 ", lost %" PRIu64 ", own lost %" PRIu64 ", waiting %" PRIu64 ", answers %" PRIu64,
               port->number, port->interface.name, counts->out, counts->stopped, counts->lost, counts->own_lost,
               port_waiting(port) + port->transmit.in_hand, counts->answers);
}

void gateway_summary(const struct gateway *gateway)
{
    struct unit_answer told = unit_tell(&gateway->unit);
    if (told.address == DEORASAENG_NO_ADDRESS)
        log_always("summary: NAME %016" PRIX64 ", no address, %s", told.name, claim_state_word(told.state));
    else
        log_always("summary: NAME %016" PRIX64 ", address %" PRIu32 " %s", told.name, told.address, claim_state_word(told.state));
    for (uint32_t i = 0; i < gateway->options.ports; i++)
        summarize(&gateway->ports[i]);
}
