#include "samples.h"

#include "../../gateway/src/json.h"
#include "../../gateway/src/json_reader.h"

#include <string.h>

static uint8_t small(const char *value)
{
    uint64_t number = json_read_number(value);
    return (uint8_t)(number > UINT8_MAX ? UINT8_MAX : number);
}

static void read_waiting(const char *port, uint8_t waiting[SAMPLE_RANKS])
{
    uint32_t rank = 0;
    const char *counts = json_member(json_member(port, "queue"), "waiting_by_priority");
    for (const char *count = json_first(counts); count != NULL && rank < SAMPLE_RANKS; count = json_next(count), rank++)
        waiting[rank] = small(count);
}

/* What was lost since the document before. Where the total fell the gateway is a new one. */
static uint32_t read_lost(struct samples *samples, uint32_t place, const char *port)
{
    uint64_t total = json_read_number(json_member(port, "lost")) + json_read_number(json_member(port, "own_lost")) + json_read_number(json_member(port, "missed"));
    uint64_t before = samples->totals[place], lost = !samples->known ? 0 : total < before ? total : total - before;
    samples->totals[place] = total;
    return (uint32_t)(lost > UINT32_MAX ? UINT32_MAX : lost);
}

void samples_add(struct samples *samples, const char *status, int64_t wall)
{
    struct sample *sample = &samples->at[samples->count++ % SAMPLES];
    uint32_t place = 0;
    memset(sample, 0, sizeof *sample);
    sample->wall = wall;
    sample->alive = status != NULL;
    if (status == NULL)
        return;
    for (const char *port = json_first(json_member(status, "ports")); port != NULL && place < SAMPLE_PORTS; port = json_next(port), place++) {
        read_waiting(port, sample->waiting[place]);
        sample->most[place] = small(json_member(json_member(port, "queue"), "recent_high"));
        sample->lost[place] = read_lost(samples, place, port);
    }
    samples->ports = place;
    samples->known = true;
}

static void put_sample(struct json *json, const char *name, const struct sample *sample, uint32_t first, uint32_t last)
{
    json_array(json, name);
    json_number(json, NULL, (uint64_t)(sample->wall / 1000000));
    if (!sample->alive) {
        json_end_array(json);
        return;
    }
    json_array(json, NULL);
    for (uint32_t place = first; place < last; place++) {
        json_array(json, NULL);
        for (int rank = 0; rank < SAMPLE_RANKS; rank++)
            json_number(json, NULL, sample->waiting[place][rank]);
        json_end_array(json);
    }
    json_end_array(json);
    json_array(json, NULL);
    for (uint32_t place = first; place < last; place++)
        json_number(json, NULL, sample->lost[place]);
    json_end_array(json);
    json_array(json, NULL);
    for (uint32_t place = first; place < last; place++)
        json_number(json, NULL, sample->most[place]);
    json_end_array(json);
    json_end_array(json);
}

/* The places of the port's samples, or of all: from the first to before the last. */
static void places(const struct samples *samples, uint32_t port, uint32_t *first, uint32_t *last)
{
    *first = port == 0 ? 0 : port - 1;
    *last = port == 0 ? samples->ports : port > samples->ports ? *first : port;
}

void samples_put_last(struct json *json, const char *name, const struct samples *samples, uint32_t port)
{
    uint32_t first, last;
    places(samples, port, &first, &last);
    if (samples->count == 0)
        json_null(json, name);
    else
        put_sample(json, name, &samples->at[(samples->count - 1) % SAMPLES], first, last);
}

void samples_put(struct json *json, const struct samples *samples, uint32_t port)
{
    uint32_t first, last;
    places(samples, port, &first, &last);
    uint64_t kept = samples->count < SAMPLES ? samples->count : SAMPLES;
    json_object(json, NULL);
    json_array(json, "ports");
    for (uint32_t place = first; place < last; place++)
        json_number(json, NULL, place + 1);
    json_end_array(json);
    json_array(json, "samples");
    for (uint64_t i = samples->count - kept; i < samples->count; i++)
        put_sample(json, NULL, &samples->at[i % SAMPLES], first, last);
    json_end_array(json);
    json_end_object(json);
}
