/* Reads a JSON document in place: a value is a pointer to its first byte. Every function takes NULL and gives NULL, 0 or "" for it, so that a path through a document
   needs one test at its end; a document that is cut or wrong ends a path likewise. Whether it is one at all, json_whole tells. */
#ifndef GATEWAY_JSON_READER_H
#define GATEWAY_JSON_READER_H

#include <stdbool.h>
#include <stddef.h>
#include <stdint.h>

/* The bytes are one JSON value of RFC 8259 and nothing else, at most 16 deep; a 0 stands behind them. */
bool json_whole(const char *text, size_t length);

/* The member of an object, or NULL. */
const char *json_member(const char *object, const char *name);

/* The first name in an object and the one behind it, each at its quote, and the value of a name; NULL at the end. */
const char *json_first_name(const char *object);
const char *json_next_name(const char *name);
const char *json_value(const char *name);

/* The first element of an array, and the one behind an element; NULL at the end. */
const char *json_first(const char *array);
const char *json_next(const char *element);

/* The place behind a value; NULL where there is none. */
const char *json_behind(const char *value);

/* How many elements an array has; 0 for what is none. */
size_t json_length(const char *array);

uint64_t json_read_number(const char *value);

/* The value is a number of digits alone, at most `max`. */
bool json_is_number(const char *value, uint64_t max, uint64_t *number);

/* The value is this string, which has no escapes. */
bool json_is_string(const char *value, const char *text);

/* A string without escapes; cut at the size. */
void json_read_string(const char *value, char *text, size_t size);

#endif
