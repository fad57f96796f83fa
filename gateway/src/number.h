/* Numbers as people write them: decimal, or hex behind 0x. Nothing else: a leading 0 may be meant as octal, so 010 is no number here. */
#ifndef GATEWAY_NUMBER_H
#define GATEWAY_NUMBER_H

#include <stdbool.h>
#include <stdint.h>

/* A whole word as a number of at most `max`. */
bool number_read(const char *word, uint32_t max, uint32_t *value);

/* A whole word of 1 to 16 hex digits, 0x in front or not: a NAME or a mask. */
bool number_read_hex(const char *word, uint64_t *value);

/* A number is a PGN if it is below 2^18 and its low byte is 0 where PF, its second byte, is below 240. */
bool number_is_pgn(uint32_t number);

#endif
