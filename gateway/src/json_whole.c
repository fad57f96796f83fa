/* Whether some bytes are one JSON value (RFC 8259). Each function gives the place behind what it has read, or NULL. */
#include "json_reader.h"

#include <string.h>

#define DEPTH_MAX 16

static const char *read_value(const char *at, int depth);

static const char *skip_blanks(const char *at)
{
    return at + strspn(at, " \t\r\n");
}

static const char *read_escape(const char *at)
{
    if (*at != 'u')
        return *at != '\0' && strchr("\"\\/bfnrt", *at) != NULL ? at + 1 : NULL;
    return strspn(at + 1, "0123456789abcdefABCDEF") >= 4 ? at + 5 : NULL;
}

static const char *read_string(const char *at)
{
    if (*at++ != '"')
        return NULL;
    while (at != NULL && *at != '"') {
        if ((unsigned char)*at < 0x20)
            return NULL;
        at = *at == '\\' ? read_escape(at + 1) : at + 1;
    }
    return at == NULL ? NULL : at + 1;
}

static const char *read_digits(const char *at)
{
    size_t digits = strspn(at, "0123456789");
    return digits == 0 ? NULL : at + digits;
}

static const char *read_number(const char *at)
{
    at += *at == '-';
    at = *at == '0' ? at + 1 : read_digits(at);
    if (at != NULL && *at == '.')
        at = read_digits(at + 1);
    if (at != NULL && (*at == 'e' || *at == 'E'))
        at = read_digits(at + 1 + (at[1] == '+' || at[1] == '-'));
    return at;
}

static const char *read_word(const char *at)
{
    static const char *const WORDS[] = {"true", "false", "null"};
    for (size_t i = 0; i < sizeof WORDS / sizeof WORDS[0]; i++)
        if (strncmp(at, WORDS[i], strlen(WORDS[i])) == 0)
            return at + strlen(WORDS[i]);
    return NULL;
}

/* An element of an array, or a name and its value. */
static const char *read_element(const char *at, bool named, int depth)
{
    if (named) {
        at = read_string(at);
        at = at == NULL ? NULL : skip_blanks(at);
        if (at == NULL || *at != ':')
            return NULL;
        at = skip_blanks(at + 1);
    }
    at = read_value(at, depth);
    return at == NULL ? NULL : skip_blanks(at);
}

static const char *read_brackets(const char *at, int depth)
{
    bool named = *at == '{';
    char end = named ? '}' : ']';
    at = skip_blanks(at + 1);
    if (*at == end)
        return at + 1;
    for (;;) {
        at = read_element(at, named, depth);
        if (at == NULL || (*at != ',' && *at != end))
            return NULL;
        if (*at == end)
            return at + 1;
        at = skip_blanks(at + 1);
    }
}

static const char *read_value(const char *at, int depth)
{
    if (*at == '"')
        return read_string(at);
    if (*at == '{' || *at == '[')
        return depth == DEPTH_MAX ? NULL : read_brackets(at, depth + 1);
    return *at == '-' || (*at >= '0' && *at <= '9') ? read_number(at) : read_word(at);
}

bool json_whole(const char *text, size_t length)
{
    if (strlen(text) != length) /* a byte 0 inside */
        return false;
    const char *end = read_value(skip_blanks(text), 0);
    return end != NULL && *skip_blanks(end) == '\0';
}
