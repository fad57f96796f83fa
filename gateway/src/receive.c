/* What arrives at a port: frames go to the unit, its answers are counted and told; network messages to the unit are handed in. */
#include "answers.h"
#include "clock.h"
#include "gateway.h"
#include "identifier.h"
#include "log.h"

#include <errno.h>
#include <inttypes.h>
#include <linux/can/error.h>
#include <string.h>

static const char *const OTHER_WORDS[] = {"11-bit", "remote", "FD", "error"};

static bool in_mask(uint64_t mask, uint32_t port)
{
    return (mask >> (port - 1) & 1) != 0;
}

/* The ports on whose way a list stopped the frame. */
static uint64_t stopped_ports(const struct frame_answer *answer)
{
    uint64_t ports = 0;
    for (uint32_t port = 1; port <= GATEWAY_PORTS_MAX; port++) {
        enum deorasaeng_reason reason = DEORASAENG_REASON(answer->reasons, port);
        if (reason == DEORASAENG_REASON_STOPPED_AS_LISTED || reason == DEORASAENG_REASON_STOPPED_AS_NOT_LISTED)
            ports |= UINT64_C(1) << (port - 1);
    }
    return ports;
}

/* The answer at the exits, and the unit's own frame at every port. */
static void count_answer(struct gateway *gateway, const struct port *arrival, const struct frame_answer *answer, int64_t now)
{
    uint64_t stopped = stopped_ports(answer);
    for (uint32_t i = 0; i < gateway->options.ports; i++) {
        struct port *exit = &gateway->ports[i];
        struct pair_counts *pair = &gateway->pairs[arrival->number - 1][i];
        bool accepted = in_mask(answer->accepted, exit->number), lost = in_mask(answer->lost, exit->number);
        bool own_lost = in_mask(answer->own_lost, exit->number);
        exit->counts.accepted += accepted;
        exit->counts.lost += lost;
        exit->counts.stopped += in_mask(stopped, exit->number);
        exit->counts.own += answer->own_sent && !own_lost;
        exit->counts.own_lost += own_lost;
        pair->crossed += accepted;
        pair->lost += lost;
        pair->reasons[DEORASAENG_REASON(answer->reasons, exit->number) % UNIT_REASONS]++;
        if (accepted || answer->own_sent)
            port_joined(exit, now);
        if (lost || own_lost)
            port_lost(exit, now);
    }
}

/* A frame that did not cross everywhere is remembered. */
static void remember_frame(struct gateway *gateway, const struct port *port, const struct can_frame *frame, const struct frame_answer *answer, int64_t now)
{
    uint64_t stopped = stopped_ports(answer);
    if (answer->number == 0 && stopped == 0 && answer->lost == 0)
        return;
    const struct history_frame entry = {now, port->number, frame->can_id & CAN_EFF_MASK, answer->number, stopped, answer->lost, answer->reasons};
    history_add_frame(&gateway->history, &entry);
}

static uint64_t name_of(const struct can_frame *frame)
{
    uint64_t name = 0;
    for (int i = 7; i >= 0; i--)
        name = name << 8 | frame->data[i];
    return name;
}

static void tell_event(const struct port *port, const struct can_frame *frame, const struct frame_answer *answer)
{
    const char *word = claim_event_word(answer->event);
    enum log_level level = answer->event == DEORASAENG_DISPLACED ? LOG_WARNING : LOG_INFO;
    uint32_t address = identifier_source(frame->can_id);
    if (answer->event == DEORASAENG_TOOK_OVER)
        log_line(level, "port %" PRIu32 ": %s: NAME %016" PRIX64 ", address %" PRIu32 ", from NAME %016" PRIX64, port->number, word,
                 name_of(frame), address, answer->old_name);
    else
        log_line(level, "port %" PRIu32 ": %s: NAME %016" PRIX64 ", address %" PRIu32, port->number, word, name_of(frame), address);
}

static void event_came(struct gateway *gateway, const struct port *port, const struct can_frame *frame, const struct frame_answer *answer, int64_t now)
{
    if (answer->event == DEORASAENG_NO_EVENT)
        return;
    const struct names_claim claim = {answer->event, name_of(frame), identifier_source(frame->can_id), port->number,
                                      answer->event == DEORASAENG_DISPLACED ? gateway->options.name : answer->old_name};
    names_event(&gateway->names, &claim, now);
    tell_event(port, frame, answer);
    if (answer->event == DEORASAENG_DEFENDED)
        gateway_contended(gateway, now);
}

/* What is to be sent back, at the arrival port. */
static void send_answer(struct gateway *gateway, struct port *port, const struct can_frame *message, const struct message_answer *answer)
{
    struct can_frame frame;
    uint32_t requester = identifier_source(message->can_id);
    if (answer_frame(answer, requester, unit_tell(&gateway->unit).address, &frame)) {
        transmit_answer(&port->transmit, &frame);
        return;
    }
    if (answer->length == 0)
        return;
    port->counts.answers_unsent++;
    log_line(LOG_WARNING, "port %" PRIu32 ": reply of %zu bytes to address %" PRIu32 " not sent: it needs the transport protocol", port->number,
             answer->length, requester);
}

/* A network message to the unit. It is not handed in where its answer would find no room: a command would be done and nobody told. */
static void message_arrived(struct gateway *gateway, struct port *port, const struct can_frame *frame, int64_t now)
{
    static struct message_answer answer;
    static const struct history_sender BUS = {false, 0, 0, 0, ""};
    uint32_t requester = identifier_source(frame->can_id);
    if (!transmit_has_room(&port->transmit)) {
        port->counts.unheard++;
        log_line(LOG_WARNING, "port %" PRIu32 ": message from address %" PRIu32 " not heard: %d answers wait", port->number, requester, TRANSMIT_ANSWERS);
        return;
    }
    port->counts.messages++;
    gateway_message(gateway, &BUS, port->number, requester, frame->data, frame->len, now, &answer);
    if (answer.number != 0)
        count_number(port->counts.messages_refused, answer.number);
    send_answer(gateway, port, frame, &answer);
}

static void refused(struct port *port, uint32_t number, const struct can_frame *frame)
{
    bool first = number > UNIT_NUMBERS || port->counts.refused[number] == 0;
    count_number(port->counts.refused, number);
    if (first)
        log_line(LOG_INFO, "port %" PRIu32 ": frame %08X refused with %" PRIu32 "; further ones are counted", port->number, frame->can_id & CAN_EFF_MASK,
                 number);
}

static void frame_arrived(struct gateway *gateway, struct port *port, const struct can_frame *frame, int64_t now)
{
    struct frame_answer answer;
    unit_frame(&gateway->unit, port->number, frame, &answer);
    port->counts.in++;
    remember_frame(gateway, port, frame, &answer, now);
    if (answer.number != 0) {
        refused(port, answer.number, frame);
        return;
    }
    port->counts.consumed += answer.consumed;
    count_answer(gateway, port, &answer, now);
    event_came(gateway, port, frame, &answer, now);
    if (answer.consumed && identifier_pgn(frame->can_id & CAN_EFF_MASK) == PGN_NETWORK_MESSAGE)
        message_arrived(gateway, port, frame, now);
}

/* A frame that is no matter of this bridge: counted, and told once for each port and kind. */
static void other_arrived(struct gateway *gateway, struct port *port, enum other_kind kind)
{
    uint32_t *told = &gateway->kinds_told[port->number - 1];
    port->counts.other[kind]++;
    if ((*told >> kind & 1) != 0)
        return;
    *told |= UINT32_C(1) << kind;
    log_line(LOG_INFO, "port %" PRIu32 " (%s): %s frames are not forwarded; they are counted", port->number, port->interface.name, OTHER_WORDS[kind]);
}

static void error_arrived(struct gateway *gateway, struct port *port, const struct can_frame *frame)
{
    other_arrived(gateway, port, OTHER_ERROR);
    if ((frame->can_id & CAN_ERR_BUSOFF) != 0)
        port_failed(port, INTERFACE_BUS_OFF);
    if ((frame->can_id & CAN_ERR_RESTARTED) != 0)
        port_on_bus(port);
}

static void arrived(struct gateway *gateway, struct port *port, const struct arrival *arrival, int64_t now)
{
    switch (arrival->kind) {
    case ARRIVAL_FRAME:
        port_on_bus(port); /* a controller that is off the bus hears nothing */
        frame_arrived(gateway, port, &arrival->frame, now);
        break;
    case ARRIVAL_ECHO:
        port_echo(port, &arrival->frame);
        break;
    case ARRIVAL_ELEVEN_BIT:
        other_arrived(gateway, port, OTHER_ELEVEN_BIT);
        break;
    case ARRIVAL_REMOTE:
        other_arrived(gateway, port, OTHER_REMOTE);
        break;
    case ARRIVAL_FD:
        other_arrived(gateway, port, OTHER_FD);
        break;
    case ARRIVAL_ERROR:
        error_arrived(gateway, port, &arrival->frame);
        break;
    }
}

void gateway_receive(struct gateway *gateway, struct port *port, int64_t now)
{
    struct arrival arrival;
    enum interface_read read = interface_receive(&port->interface, &arrival);
    int number = errno;
    switch (read) {
    case READ_FAILED:
        log_line(LOG_DEBUG, "port %" PRIu32 " (%s): receive: %s", port->number, port->interface.name, strerror(number));
        port_failed(port, number == ENETDOWN ? INTERFACE_DOWN : INTERFACE_GONE);
        port_look(port);
        break;
    case READ_DROPPED:
        port_dropped(port, arrival.dropped, now);
        break;
    case READ_ONE:
        arrived(gateway, port, &arrival, now);
        if (arrival.dropped_known)
            port_dropped(port, arrival.dropped, now);
        break;
    case READ_NOTHING:
        break;
    }
}

void gateway_transmit(struct gateway *gateway, int64_t now)
{
    for (uint32_t i = 0; i < gateway->options.ports; i++)
        port_transmit(&gateway->ports[i], &gateway->unit, now);
}
