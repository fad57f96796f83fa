#include "status.h"

#include "clock.h"
#include "version.h"

void status_time(struct json *json, const struct status_moment *moment, int64_t at)
{
    char text[CLOCK_TEXT];
    clock_text(moment->wall - (moment->now - at), text);
    json_string(json, "time", text);
    json_milliseconds(json, "seconds", at - moment->power_on);
}

static void write_head(struct json *json, const struct status_moment *moment)
{
    char text[CLOCK_TEXT];
    clock_text(moment->wall, text);
    json_number(json, "schema", STATUS_SCHEMA);
    json_string(json, "program", GATEWAY_VERSION);
    json_number(json, "interface", DEORASAENG_VERSION);
    json_string(json, "time", text);
}

/* How often an address was claimed by two NAMEs, and the last one that did not get it. */
static void write_conflicts(struct json *json, const struct name_place *place, const struct status_moment *moment)
{
    json_number(json, "conflicts", place->conflicts);
    if (place->conflicts == 0) {
        json_null(json, "last_conflict");
        return;
    }
    json_object(json, "last_conflict");
    status_time(json, moment, place->conflict_at);
    json_hex(json, "name", place->rival);
    json_end_object(json);
}

static void write_unit(struct json *json, const struct gateway *gateway, const struct status_moment *moment, const struct unit_losses *losses)
{
    struct unit_answer told = unit_tell(&gateway->unit);
    json_object(json, "unit");
    json_hex(json, "name", told.name);
    json_number(json, "preferred", told.preferred);
    json_number(json, "ports", told.ports);
    json_string(json, "state", claim_state_word(told.state));
    if (told.address == DEORASAENG_NO_ADDRESS)
        json_null(json, "address");
    else
        json_number(json, "address", told.address);
    json_milliseconds(json, "seconds", moment->now - moment->power_on);
    if (losses->told)
        json_number(json, "losses", losses->general);
    else
        json_null(json, "losses");
    write_conflicts(json, &gateway->names.at[told.preferred % UNIT_ADDRESSES], moment);
    json_end_object(json);
}

static void write_loop(struct json *json, const struct worst *turns, int64_t now)
{
    json_object(json, "loop");
    json_number(json, "worst_us", (uint64_t)(turns->ever / 1000));
    json_number(json, "recent_worst_us", (uint64_t)(worst_recent(turns, now) / 1000));
    json_end_object(json);
}

void status_list(struct json *json, uint32_t from, uint32_t to, const struct list *list)
{
    json_object(json, NULL);
    json_number(json, "from", from);
    json_number(json, "to", to);
    json_string(json, "mode", list_mode_word(list->mode));
    json_array(json, "pgns");
    for (uint32_t i = 0; i < list->count; i++)
        json_number(json, NULL, list->pgns[i]);
    json_end_array(json);
    json_array(json, "names");
    for (uint32_t i = 0; i < list->names_count; i++) {
        json_object(json, NULL);
        json_number(json, "pgn", list->names[i].pgn);
        json_hex(json, "name", list->names[i].name);
        json_hex(json, "mask", list->names[i].mask);
        json_end_object(json);
    }
    json_end_array(json);
    json_end_object(json);
}

static void write_lists(struct json *json, const struct gateway *gateway)
{
    json_array(json, "lists");
    for (uint32_t from = 1; from <= gateway->options.ports; from++)
        for (uint32_t to = 1; to <= gateway->options.ports; to++)
            if (from != to)
                status_list(json, from, to, &gateway->unit.lists.pair[from - 1][to - 1]);
    json_end_array(json);
    if (gateway->saver.path == NULL)
        json_null(json, "lists_saved");
    else
        json_bool(json, "lists_saved", !saver_behind(&gateway->saver));
    json_bool(json, "lists_edited", gateway->saver.edited);
}

/* A field of a NAME, null where it is unknown. */
static void write_field(struct json *json, const char *name, uint32_t value, unsigned bits)
{
    if (value == NAME_UNKNOWN(bits))
        json_null(json, name);
    else
        json_number(json, name, value);
}

static void write_name(struct json *json, uint64_t name)
{
    struct name_fields fields = name_fields(name);
    json_hex(json, "name", name);
    json_bool(json, "self_configurable", fields.self_configurable);
    write_field(json, "industry_group", fields.industry_group, 3);
    write_field(json, "device_class_instance", fields.device_class_instance, 4);
    write_field(json, "device_class", fields.device_class, 7);
    write_field(json, "function", fields.function, 8);
    write_field(json, "function_instance", fields.function_instance, 5);
    write_field(json, "ecu_instance", fields.ecu_instance, 3);
    write_field(json, "manufacturer", fields.manufacturer, 11);
    write_field(json, "identity", fields.identity, 21);
}

static void write_address(struct json *json, const struct name_place *place, uint32_t address, const struct status_moment *moment)
{
    json_object(json, NULL);
    json_number(json, "address", address);
    if (place->held) {
        write_name(json, place->name);
        json_object(json, "since");
        status_time(json, moment, place->since);
        json_end_object(json);
    } else
        json_null(json, "name");
    write_conflicts(json, place, moment);
    json_end_object(json);
}

static void write_port_addresses(struct json *json, const struct gateway *gateway, uint32_t port, const struct status_moment *moment)
{
    uint8_t addresses[UNIT_ADDRESSES];
    int count = unit_addresses(&gateway->unit, port, addresses);
    json_object(json, NULL);
    json_number(json, "port", port);
    json_array(json, "addresses");
    for (int i = 0; i < count; i++)
        write_address(json, &gateway->names.at[addresses[i]], addresses[i], moment);
    json_end_array(json);
    json_end_object(json);
}

/* The address table, a port at a time; null while the unit is not Claimed and answers nobody. */
static void write_addresses(struct json *json, const struct gateway *gateway, const struct status_moment *moment)
{
    if (unit_state(&gateway->unit) != DEORASAENG_STATE_CLAIMED) {
        json_null(json, "addresses");
        return;
    }
    json_array(json, "addresses");
    for (uint32_t port = 1; port <= gateway->options.ports; port++)
        write_port_addresses(json, gateway, port, moment);
    json_end_array(json);
}

size_t status_write(const struct gateway *gateway, int64_t now, int64_t wall, char *bytes, size_t size)
{
    struct json json;
    struct unit_losses losses;
    const struct status_moment moment = {now, wall, gateway->began_at};
    unit_losses(&gateway->unit, &losses);
    json_begin(&json, bytes, size);
    json_object(&json, NULL);
    write_head(&json, &moment);
    write_unit(&json, gateway, &moment, &losses);
    write_loop(&json, &gateway->turns, now);
    status_ports(&json, gateway, &moment);
    status_pairs(&json, gateway, &losses);
    write_lists(&json, gateway);
    write_addresses(&json, gateway, &moment);
    status_frames(&json, gateway, &moment);
    status_commands(&json, gateway, &moment);
    json_end_object(&json);
    return json.full ? 0 : json.length;
}
