/* The ports and the pairs in the status document. */
#include "controller.h"
#include "status.h"

static const char *const OTHER_NAMES[] = {"eleven_bit", "remote", "fd", "error"};
_Static_assert(sizeof OTHER_NAMES / sizeof OTHER_NAMES[0] == OTHER_KINDS, "a name for each kind");

/* Counts by number, those that are not 0: [{"number":5,"count":2}]. */
static void write_numbers(struct json *json, const char *name, const uint64_t counts[UNIT_NUMBERS + 1])
{
    json_array(json, name);
    for (unsigned number = 0; number <= UNIT_NUMBERS; number++)
        if (counts[number] > 0) {
            json_object(json, NULL);
            json_number(json, "number", number);
            json_number(json, "count", counts[number]);
            json_end_object(json);
        }
    json_end_array(json);
}

static void write_arrivals(struct json *json, const struct port_counts *counts)
{
    json_number(json, "in", counts->in);
    json_number(json, "consumed", counts->consumed);
    write_numbers(json, "refused", counts->refused);
    json_object(json, "other");
    for (int kind = 0; kind < OTHER_KINDS; kind++)
        json_number(json, OTHER_NAMES[kind], counts->other[kind]);
    json_end_object(json);
    json_number(json, "echoes", counts->echoes);
    json_number(json, "missed", counts->missed);
}

static void write_exits(struct json *json, const struct port *port)
{
    const struct port_counts *counts = &port->counts;
    json_number(json, "accepted", counts->accepted);
    json_number(json, "stopped", counts->stopped);
    json_number(json, "lost", counts->lost);
    json_number(json, "own", counts->own);
    json_number(json, "own_lost", counts->own_lost);
    json_number(json, "waiting", port_waiting(port));
    json_number(json, "in_hand", port->transmit.in_hand);
    json_number(json, "out", counts->out);
    json_number(json, "again", counts->again);
    json_number(json, "assumed", counts->assumed);
    json_number(json, "full", counts->full);
}

/* What the unit itself counts at the port's queue, and what the program saw there. */
static void write_queue(struct json *json, const struct gateway *gateway, const struct port *port, const struct status_moment *moment)
{
    struct queue_counts counts = unit_counts(&gateway->unit, port->number);
    json_object(json, "queue");
    json_array(json, "waiting_by_priority");
    for (int rank = 0; rank < UNIT_RANKS; rank++)
        json_number(json, NULL, counts.waiting[rank]);
    json_end_array(json);
    json_number(json, "accepted", counts.accepted);
    json_number(json, "taken", counts.taken);
    json_number(json, "high_water", (uint64_t)port->waiting.ever);
    json_number(json, "recent_high", (uint64_t)worst_recent(&port->waiting, moment->now));
    if (port->lost_at == 0)
        json_null(json, "last_loss");
    else {
        json_object(json, "last_loss");
        status_time(json, moment, port->lost_at);
        json_end_object(json);
    }
    json_end_object(json);
}

/* A number that the kernel tells, or null. */
static void write_told(struct json *json, const char *name, bool told, uint32_t value)
{
    if (told)
        json_number(json, name, value);
    else
        json_null(json, name);
}

static void write_controller(struct json *json, const struct gateway *gateway, const struct port *port)
{
    struct controller controller;
    controller_ask(gateway->controllers, port->interface.index, &controller);
    json_object(json, "controller");
    write_told(json, "bit_rate", controller.bit_rate != 0, controller.bit_rate);
    if (controller.state == NULL)
        json_null(json, "state");
    else
        json_string(json, "state", controller.state);
    write_told(json, "send_errors", controller.errors_told, controller.sent_errors);
    write_told(json, "receive_errors", controller.errors_told, controller.received_errors);
    write_told(json, "restart_ms", controller.restart_told, controller.restart_ms);
    json_end_object(json);
}

static void write_port(struct json *json, const struct gateway *gateway, const struct port *port, const struct status_moment *moment)
{
    const struct port_counts *counts = &port->counts;
    json_object(json, NULL);
    json_number(json, "port", port->number);
    json_string(json, "interface", port->interface.name);
    json_string(json, "state", interface_state_word(port->interface.state));
    write_arrivals(json, counts);
    write_exits(json, port);
    write_queue(json, gateway, port, moment);
    write_controller(json, gateway, port);
    json_object(json, "messages");
    json_number(json, "in", counts->messages);
    write_numbers(json, "refused", counts->messages_refused);
    json_number(json, "answers", counts->answers);
    json_number(json, "answers_unsent", counts->answers_unsent);
    json_number(json, "unheard", counts->unheard);
    json_end_object(json);
    json_end_object(json);
}

void status_ports(struct json *json, const struct gateway *gateway, const struct status_moment *moment)
{
    json_array(json, "ports");
    for (uint32_t i = 0; i < gateway->options.ports; i++)
        write_port(json, gateway, &gateway->ports[i], moment);
    json_end_array(json);
}

static void write_pair(struct json *json, uint32_t from, uint32_t to, const struct pair_counts *pair, const struct unit_losses *losses)
{
    json_object(json, NULL);
    json_number(json, "from", from);
    json_number(json, "to", to);
    json_number(json, "crossed", pair->crossed);
    json_number(json, "lost", pair->lost);
    write_told(json, "losses", losses->told, losses->pair[from - 1][to - 1]);
    json_object(json, "reasons");
    for (unsigned reason = 0; reason < UNIT_REASONS; reason++)
        json_number(json, reason_word((enum deorasaeng_reason)reason), pair->reasons[reason]);
    json_end_object(json);
    json_end_object(json);
}

void status_pairs(struct json *json, const struct gateway *gateway, const struct unit_losses *losses)
{
    json_array(json, "pairs");
    for (uint32_t from = 1; from <= gateway->options.ports; from++)
        for (uint32_t to = 1; to <= gateway->options.ports; to++)
            if (from != to)
                write_pair(json, from, to, &gateway->pairs[from - 1][to - 1], losses);
    json_end_array(json);
}
