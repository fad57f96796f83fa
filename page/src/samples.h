/* The last ten minutes, a second at a time: how many frames waited at each port by rank, the most that waited at once, and how many were lost there. */
#ifndef PAGE_SAMPLES_H
#define PAGE_SAMPLES_H

#include <stdbool.h>
#include <stddef.h>
#include <stdint.h>

struct json;

#define SAMPLES 600
#define SAMPLE_PORTS 8
#define SAMPLE_RANKS 8

struct sample {
    int64_t wall;                                 /* the time of day, in ns */
    bool alive;                                   /* the gateway answered; else the rest is 0 */
    uint8_t waiting[SAMPLE_PORTS][SAMPLE_RANKS];
    uint8_t most[SAMPLE_PORTS];                   /* that waited at once of late */
    uint32_t lost[SAMPLE_PORTS];                  /* in this second, missed arrivals among them */
};

struct samples {
    uint64_t count; /* ever; the last 600 are kept */
    uint32_t ports;
    bool known;                     /* the totals are those of a document .. */
    uint64_t totals[SAMPLE_PORTS];  /* .. before */
    struct sample at[SAMPLES];
};

/* One more: of a status document that is whole, or NULL where the gateway did not answer. */
void samples_add(struct samples *samples, const char *status, int64_t wall);

/* Puts them as {"ports":[1,2],"samples":[[MILLISECONDS,[[WAITING BY RANK],..],[LOST,..],[MOST,..]],..]}, the oldest first, of one port or of
   all (0). What was not answered has the time alone. */
void samples_put(struct json *json, const struct samples *samples, uint32_t port);

/* Puts the last one alone, as a member; null where there is none. */
void samples_put_last(struct json *json, const char *name, const struct samples *samples, uint32_t port);

#endif
