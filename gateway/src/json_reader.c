#include "json_reader.h"

#include <stdlib.h>
#include <string.h>

#define DEPTH_MAX 16
#define DIGITS_MAX 19 /* below 2^64 whatever they are */

static const char *skip_blanks(const char *at)
{
    return at + strspn(at, " \t\r\n");
}

/* Behind a string whose opening quote stands at `at`, or NULL. */
static const char *behind_string(const char *at)
{
    for (at++; *at != '"'; at++) {
        if (*at == '\\' && at[1] != '\0')
            at++;
        else if (*at == '\0')
            return NULL;
    }
    return at + 1;
}

/* Behind a bracket's partner, or NULL. */
static const char *behind_brackets(const char *at)
{
    int depth = 0;
    while (*at != '\0') {
        if (*at == '"') {
            at = behind_string(at);
            if (at == NULL)
                return NULL;
            continue;
        }
        depth += (*at == '{' || *at == '[') - (*at == '}' || *at == ']');
        at++;
        if (depth == 0 || depth > DEPTH_MAX)
            return depth == 0 ? at : NULL;
    }
    return NULL;
}

const char *json_behind(const char *value)
{
    if (value == NULL)
        return NULL;
    if (*value == '"')
        return behind_string(value);
    if (*value == '{' || *value == '[')
        return behind_brackets(value);
    size_t length = strcspn(value, ",]} \t\r\n");
    return value[length] == '\0' || length == 0 ? NULL : value + length;
}

const char *json_next(const char *element)
{
    const char *end = json_behind(element);
    end = end == NULL ? NULL : skip_blanks(end);
    return end == NULL || *end != ',' ? NULL : skip_blanks(end + 1);
}

const char *json_first(const char *array)
{
    const char *first = array == NULL || *array != '[' ? NULL : skip_blanks(array + 1);
    return first == NULL || *first == ']' || *first == '\0' ? NULL : first;
}

size_t json_length(const char *array)
{
    size_t length = 0;
    for (const char *element = json_first(array); element != NULL; element = json_next(element))
        length++;
    return length;
}

const char *json_first_name(const char *object)
{
    const char *name = object == NULL || *object != '{' ? NULL : skip_blanks(object + 1);
    return name == NULL || *name != '"' ? NULL : name;
}

const char *json_value(const char *name)
{
    const char *colon = name == NULL ? NULL : behind_string(name);
    colon = colon == NULL ? NULL : skip_blanks(colon);
    return colon == NULL || *colon != ':' ? NULL : skip_blanks(colon + 1);
}

const char *json_next_name(const char *name)
{
    const char *next = json_next(json_value(name));
    return next == NULL || *next != '"' ? NULL : next;
}

const char *json_member(const char *object, const char *name)
{
    for (const char *key = json_first_name(object); key != NULL; key = json_next_name(key))
        if (json_is_string(key, name))
            return json_value(key);
    return NULL;
}

uint64_t json_read_number(const char *value)
{
    return value == NULL ? 0 : strtoull(value, NULL, 10);
}

bool json_is_number(const char *value, uint64_t max, uint64_t *number)
{
    size_t digits = value == NULL ? 0 : strspn(value, "0123456789");
    if (digits == 0 || digits > DIGITS_MAX || value[digits] == '\0' || strchr(",]} \t\r\n", value[digits]) == NULL)
        return false;
    *number = strtoull(value, NULL, 10);
    return *number <= max;
}

bool json_is_string(const char *value, const char *text)
{
    size_t length = strlen(text);
    return value != NULL && *value == '"' && strncmp(value + 1, text, length) == 0 && value[length + 1] == '"';
}

void json_read_string(const char *value, char *text, size_t size)
{
    const char *end = value == NULL || *value != '"' ? NULL : behind_string(value);
    size_t length = end == NULL ? 0 : (size_t)(end - value - 2);
    if (length >= size)
        length = size - 1;
    if (length > 0)
        memcpy(text, value + 1, length);
    text[length] = '\0';
}
