/* Time in nanoseconds: by the monotonic clock, and of day. */
#ifndef GATEWAY_CLOCK_H
#define GATEWAY_CLOCK_H

#include <stdint.h>

#define CLOCK_MS INT64_C(1000000)
#define CLOCK_SECOND (1000 * CLOCK_MS)
#define CLOCK_NEVER INT64_MAX

int64_t clock_now(void);

/* The time of day, in nanoseconds since 1970 by UTC, and its text: 2026-11-17T19:40:00.123Z. */
#define CLOCK_TEXT 64
int64_t clock_wall(void);
void clock_text(int64_t wall, char text[CLOCK_TEXT]);

/* The earlier of two times. */
static inline int64_t clock_earlier(int64_t a, int64_t b)
{
    return a < b ? a : b;
}

#endif
