#include "json.h"

#include <inttypes.h>
#include <stdio.h>
#include <string.h>

void json_begin(struct json *json, char *bytes, size_t size)
{
    *json = (struct json){bytes, size, 0, false, false};
}

static void put_bytes(struct json *json, const char *text, size_t length)
{
    if (json->full || length > json->size - json->length) {
        json->full = true;
        return;
    }
    memcpy(json->bytes + json->length, text, length);
    json->length += length;
}

static void put(struct json *json, const char *text)
{
    put_bytes(json, text, strlen(text));
}

static void put_quoted(struct json *json, const char *text)
{
    put(json, "\"");
    for (; *text != '\0'; text++) {
        unsigned char byte = (unsigned char)*text;
        char out[8];
        if (byte == '"' || byte == '\\')
            snprintf(out, sizeof out, "\\%c", byte);
        else if (byte < 0x20 || byte > 0x7E)
            snprintf(out, sizeof out, "\\u%04x", byte);
        else
            snprintf(out, sizeof out, "%c", byte);
        put(json, out);
    }
    put(json, "\"");
}

/* The comma and the name before a value. */
static void put_name(struct json *json, const char *name)
{
    if (json->comma)
        put(json, ",");
    json->comma = true;
    if (name == NULL)
        return;
    put_quoted(json, name);
    put(json, ":");
}

static void open_with(struct json *json, const char *name, const char *bracket)
{
    put_name(json, name);
    put(json, bracket);
    json->comma = false;
}

static void close_with(struct json *json, const char *bracket)
{
    put(json, bracket);
    json->comma = true;
}

void json_object(struct json *json, const char *name)
{
    open_with(json, name, "{");
}

void json_array(struct json *json, const char *name)
{
    open_with(json, name, "[");
}

void json_end_object(struct json *json)
{
    close_with(json, "}");
}

void json_end_array(struct json *json)
{
    close_with(json, "]");
}

void json_string(struct json *json, const char *name, const char *value)
{
    put_name(json, name);
    put_quoted(json, value);
}

void json_hex(struct json *json, const char *name, uint64_t value)
{
    char text[24];
    snprintf(text, sizeof text, "%016" PRIX64, value);
    json_string(json, name, text);
}

void json_number(struct json *json, const char *name, uint64_t value)
{
    char text[24];
    snprintf(text, sizeof text, "%" PRIu64, value);
    put_name(json, name);
    put(json, text);
}

void json_milliseconds(struct json *json, const char *name, int64_t ns)
{
    char text[32];
    int64_t ms = ns > 0 ? ns / 1000000 : 0;
    snprintf(text, sizeof text, "%" PRId64 ".%03" PRId64, ms / 1000, ms % 1000);
    put_name(json, name);
    put(json, text);
}

void json_bool(struct json *json, const char *name, bool value)
{
    put_name(json, name);
    put(json, value ? "true" : "false");
}

void json_null(struct json *json, const char *name)
{
    put_name(json, name);
    put(json, "null");
}

void json_copy(struct json *json, const char *name, const char *value, size_t length)
{
    put_name(json, name);
    put_bytes(json, value, length);
}
