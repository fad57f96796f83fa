/* How fast somebody may try: a number of times at once, then one in a while. */
#ifndef PAGE_LIMITS_H
#define PAGE_LIMITS_H

#include <stdbool.h>
#include <stdint.h>

struct limit {
    int64_t every; /* one in so long .. */
    int burst;     /* .. after so many at once */
};

/* One more try now: 0, or how long it is to be waited for. `free_at` is what the limit remembers, 0 at first. */
int64_t limit_take(const struct limit *limit, int64_t *free_at, int64_t now);

#define LIMITS_PLACES 512

/* Who tries, by a key; the one that did not for longest makes room for a newcomer. */
struct limits {
    struct limit limit;
    struct {
        uint64_t key;
        int64_t free_at;
    } at[LIMITS_PLACES];
};

int64_t limits_take(struct limits *limits, uint64_t key, int64_t now);

/* The tries of the key are forgotten. */
void limits_forget(struct limits *limits, uint64_t key);

/* A key of two texts, either of which may be "". */
uint64_t limits_key(const char *a, const char *b);

#endif
