#include "worst.h"

static int64_t larger(int64_t a, int64_t b)
{
    return a > b ? a : b;
}

void worst_add(struct worst *worst, int64_t value, int64_t now)
{
    if (now - worst->began >= worst->window) {
        worst->before = now - worst->began < 2 * worst->window ? worst->now : 0;
        worst->now = 0;
        worst->began = now;
    }
    worst->now = larger(worst->now, value);
    worst->ever = larger(worst->ever, value);
}

int64_t worst_recent(const struct worst *worst, int64_t now)
{
    if (now - worst->began >= 2 * worst->window)
        return 0;
    return now - worst->began >= worst->window ? worst->now : larger(worst->now, worst->before);
}
