/* A JSON document into lent bytes. What does not fit makes it full, and then it is no document. */
#ifndef GATEWAY_JSON_H
#define GATEWAY_JSON_H

#include <stdbool.h>
#include <stddef.h>
#include <stdint.h>

struct json {
    char *bytes;
    size_t size, length;
    bool full;
    bool comma; /* the next value stands behind another */
};

void json_begin(struct json *json, char *bytes, size_t size);

/* A member's name; NULL for an element of an array and for the document itself. */
void json_object(struct json *json, const char *name);
void json_array(struct json *json, const char *name);
void json_end_object(struct json *json);
void json_end_array(struct json *json);
void json_string(struct json *json, const char *name, const char *value);
void json_hex(struct json *json, const char *name, uint64_t value); /* 16 digits, as a string */
void json_number(struct json *json, const char *name, uint64_t value);
void json_milliseconds(struct json *json, const char *name, int64_t ns); /* as seconds with three decimals, not below 0 */
void json_bool(struct json *json, const char *name, bool value);
void json_null(struct json *json, const char *name);
void json_copy(struct json *json, const char *name, const char *value, size_t length); /* a value of another document, as it stands */

#endif
