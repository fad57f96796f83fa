/* Numbers, reasons, claim events and claim states in words, as docs/RULES.md has them. Compile deorasaeng_words.c with your program; the library does not need it. */
#ifndef DEORASAENG_WORDS_H
#define DEORASAENG_WORDS_H

#include "deorasaeng.h"

#ifdef __cplusplus
extern "C" {
#endif

/* What a number, reason, event or state says; "unknown" for one that this version does not have. */
const char *deorasaeng_number_words(uint32_t number);
const char *deorasaeng_reason_words(uint64_t reason);
const char *deorasaeng_event_words(uint64_t event);
const char *deorasaeng_state_words(uint64_t state);

#ifdef __cplusplus
}
#endif

#endif
