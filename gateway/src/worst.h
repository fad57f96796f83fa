/* The most of something, ever and of late: how long a turn of the loop took (what arrives meanwhile waits so long before it is looked at), how many frames waited at once. */
#ifndef GATEWAY_WORST_H
#define GATEWAY_WORST_H

#include <stdint.h>

struct worst {
    int64_t window;      /* how long "of late" is at least, and at most twice that */
    int64_t ever;        /* since the program began */
    int64_t began;       /* of the window that runs .. */
    int64_t now, before; /* .. the most in it, and in the one before */
};

/* Another value, now. */
void worst_add(struct worst *worst, int64_t value, int64_t now);

/* The most of late. */
int64_t worst_recent(const struct worst *worst, int64_t now);

#endif
