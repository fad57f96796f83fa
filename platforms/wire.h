/* What near.c, on this machine, and far.c, on the target, say to each other. A call goes over as a request and an image: the memory that it lends, each piece between guards and in its place. The far
   end makes the call on that memory and sends it back behind a reply. Both ends are little-endian. */
#ifndef WIRE_H
#define WIRE_H

#include "../include/deorasaeng.h"

enum call { POWER_ON, POWER_ON_PORTS, FRAME, TAKE, MESSAGE, START, QUIET, UNIT, COUNTS, TAKE_QUEUE, PLAN, PLAN_LINKS, CALLS };

/* The most arguments of a call, a pointer and its length counted as one. */
enum { ARGUMENTS = 8 };

/* The most bytes of an image: a plan's storage twice, for lengths that are wrong. */
enum { IMAGE = 8 * 2 * (DEORASAENG_PLAN_LIST_WORDS + DEORASAENG_PLAN_PORT_WORDS) + 65536 };

struct request {
    uint64_t call, image_len;
    uint64_t value[ARGUMENTS]; /* a number, or the length that is lent */
    uint64_t at[ARGUMENTS];    /* where it lies in the image */
};

struct reply {
    uint64_t number;
    uint64_t stack; /* bytes of stack that the call took, 0 where the target does not tell */
};

#endif
