/* The status document: one JSON object. Its members and what they mean are in README.md, "The status". */
#ifndef GATEWAY_STATUS_H
#define GATEWAY_STATUS_H

#include "gateway.h"
#include "json.h"
#include "status_schema.h"

/* When it is written: by the monotonic clock, and of day. What happened before has its time of day by their difference, so a clock that was set meanwhile misleads nobody. */
struct status_moment {
    int64_t now, wall, power_on;
};

/* Writes the document. Its length, or 0 where `size` is not enough. */
size_t status_write(const struct gateway *gateway, int64_t now, int64_t wall, char *bytes, size_t size);

/* status_ports.c */
void status_ports(struct json *json, const struct gateway *gateway, const struct status_moment *moment);
void status_pairs(struct json *json, const struct gateway *gateway, const struct unit_losses *losses);

/* status_history.c */
void status_frames(struct json *json, const struct gateway *gateway, const struct status_moment *moment);
void status_commands(struct json *json, const struct gateway *gateway, const struct status_moment *moment);

/* When something was: "time" of day and "seconds" since power-on. */
void status_time(struct json *json, const struct status_moment *moment, int64_t at);

/* A list: from, to, mode, PGNs and NAME entries. */
void status_list(struct json *json, uint32_t from, uint32_t to, const struct list *list);

#endif
