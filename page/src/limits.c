#include "limits.h"

#include <stddef.h>

int64_t limit_take(const struct limit *limit, int64_t *free_at, int64_t now)
{
    int64_t begin = *free_at > now ? *free_at : now, wait = begin - now - limit->every * (limit->burst - 1);
    if (wait > 0)
        return wait;
    *free_at = begin + limit->every;
    return 0;
}

int64_t limits_take(struct limits *limits, uint64_t key, int64_t now)
{
    size_t place = 0;
    for (size_t i = 0; i < LIMITS_PLACES; i++) {
        if (limits->at[i].key == key) {
            place = i;
            break;
        }
        if (limits->at[i].free_at < limits->at[place].free_at)
            place = i;
    }
    if (limits->at[place].key != key) {
        limits->at[place].key = key;
        limits->at[place].free_at = 0;
    }
    return limit_take(&limits->limit, &limits->at[place].free_at, now);
}

void limits_forget(struct limits *limits, uint64_t key)
{
    for (size_t i = 0; i < LIMITS_PLACES; i++)
        if (limits->at[i].key == key)
            limits->at[i].free_at = 0;
}

/* FNV-1a. Two keys that meet share a limit and nothing else. */
static uint64_t mix(uint64_t hash, const char *text)
{
    for (; *text != '\0'; text++)
        hash = (hash ^ (unsigned char)*text) * UINT64_C(0x100000001B3);
    return (hash ^ 0xFF) * UINT64_C(0x100000001B3);
}

uint64_t limits_key(const char *a, const char *b)
{
    return mix(mix(UINT64_C(0xCBF29CE484222325), a), b) | 1; /* 0 is a place that nobody has had */
}
