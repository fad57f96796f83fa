/* The three sides: the proved library, and its twins by hand in C (twin.c) and in Rust (twin.rs), whose functions have the prototypes of the C interface. */
#ifndef TWIN_H
#define TWIN_H

#include "../../include/deorasaeng.h"

#define FUNCTIONS(side)                         \
    __typeof__(deorasaeng_power_on) side##_power_on; \
    __typeof__(deorasaeng_power_on_ports) side##_power_on_ports; \
    __typeof__(deorasaeng_frame) side##_frame;       \
    __typeof__(deorasaeng_take) side##_take;         \
    __typeof__(deorasaeng_message) side##_message;   \
    __typeof__(deorasaeng_start) side##_start;       \
    __typeof__(deorasaeng_quiet) side##_quiet;       \
    __typeof__(deorasaeng_unit) side##_unit;         \
    __typeof__(deorasaeng_counts) side##_counts;     \
    __typeof__(deorasaeng_plan) side##_plan;         \
    __typeof__(deorasaeng_plan_links) side##_plan_links

FUNCTIONS(c);
FUNCTIONS(rust);

#endif
