#include "clock.h"

#include <inttypes.h>
#include <stdbool.h>
#include <stdio.h>
#include <stdlib.h>
#include <time.h>

static int64_t read_clock(clockid_t clock)
{
    struct timespec now;
    if (clock_gettime(clock, &now) != 0)
        abort(); /* no Linux */
    return (int64_t)now.tv_sec * CLOCK_SECOND + now.tv_nsec;
}

int64_t clock_now(void)
{
    return read_clock(CLOCK_MONOTONIC);
}

int64_t clock_wall(void)
{
    return read_clock(CLOCK_REALTIME);
}

static bool leap(int64_t year)
{
    return (year % 4 == 0 && year % 100 != 0) || year % 400 == 0;
}

/* By hand: libc's gmtime_r looks for a time zone first, and allocates for it. */
void clock_text(int64_t wall, char text[CLOCK_TEXT])
{
    static const int DAYS[] = {31, 28, 31, 30, 31, 30, 31, 31, 30, 31, 30, 31};
    int64_t ms = wall > 0 ? wall / CLOCK_MS : 0, second = ms / 1000, day = second / 86400, year = 1970;
    for (; day >= 365 + leap(year); year++)
        day -= 365 + leap(year);
    int month = 0;
    for (; day >= DAYS[month] + (month == 1 && leap(year)); month++)
        day -= DAYS[month] + (month == 1 && leap(year));
    snprintf(text, CLOCK_TEXT, "%04" PRId64 "-%02d-%02" PRId64 "T%02" PRId64 ":%02" PRId64 ":%02" PRId64 ".%03" PRId64 "Z", year, month + 1, day + 1,
             second / 3600 % 24, second / 60 % 60, second % 60, ms % 1000);
}
