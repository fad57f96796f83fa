/* The numbers that refuse a call, in words. */
#ifndef GATEWAY_REFUSAL_H
#define GATEWAY_REFUSAL_H

#include <stdint.h>

/* "done" for 0. */
const char *refusal_words(uint32_t number);

#endif
