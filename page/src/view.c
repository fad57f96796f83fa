#include "view.h"

#include "../../gateway/src/json.h"
#include "../../gateway/src/json_reader.h"

#include <string.h>

#define PORTS_MAX 8
#define NAME_BYTES 64

/* A value as it stands; one that is not there is null. */
static void copy(struct json *json, const char *name, const char *value)
{
    const char *end = json_behind(value);
    if (end == NULL)
        json_null(json, name);
    else
        json_copy(json, name, value, (size_t)(end - value));
}

static uint64_t number(const char *object, const char *name)
{
    return json_read_number(json_member(object, name));
}

/* An array's elements that belong to the view, at most so many. */
static void copy_some(struct json *json, const char *name, const char *array, bool (*belongs)(const char *, uint32_t), uint32_t port, size_t most)
{
    json_array(json, name);
    for (const char *element = json_first(array); element != NULL && most > 0; element = json_next(element))
        if (port == 0 || belongs(element, port)) {
            copy(json, NULL, element);
            most--;
        }
    json_end_array(json);
}

static bool of_pair(const char *pair, uint32_t port)
{
    return number(pair, "from") == port || number(pair, "to") == port;
}

static bool of_port(const char *object, uint32_t port)
{
    return number(object, "port") == port;
}

/* The general counter of losses is port 1's alone. */
static void put_unit(struct json *json, const char *unit)
{
    char name[NAME_BYTES];
    json_object(json, "unit");
    for (const char *key = json_first_name(unit); key != NULL; key = json_next_name(key)) {
        json_read_string(key, name, sizeof name);
        if (strcmp(name, "losses") == 0)
            json_null(json, name);
        else
            copy(json, name, json_value(key));
    }
    json_end_object(json);
}

/* The port's own entry; of the others there is the number alone. */
static void put_ports(struct json *json, const char *ports, uint32_t own)
{
    json_array(json, "ports");
    for (const char *port = json_first(ports); port != NULL; port = json_next(port)) {
        if (of_port(port, own)) {
            copy(json, NULL, port);
            continue;
        }
        json_object(json, NULL);
        json_number(json, "port", number(port, "port"));
        json_end_object(json);
    }
    json_end_array(json);
}

static bool has_port(const char *ports, uint32_t wanted)
{
    for (const char *port = json_first(ports); port != NULL; port = json_next(port))
        if (json_read_number(port) == wanted)
            return true;
    return false;
}

static void put_mask(struct json *json, const char *name, const char *ports, uint32_t own)
{
    json_array(json, name);
    if (has_port(ports, own))
        json_number(json, NULL, own);
    json_end_array(json);
}

/* A frame of another port that did not cross to the fitter's: what its pair said, and no other. */
static void put_foreign_frame(struct json *json, const char *frame, uint32_t own)
{
    static const char *const KEPT[] = {"time", "seconds", "port", "id", "pgn", "source"};
    uint32_t port = 1;
    json_object(json, NULL);
    for (size_t i = 0; i < sizeof KEPT / sizeof KEPT[0]; i++)
        copy(json, KEPT[i], json_member(frame, KEPT[i]));
    put_mask(json, "stopped", json_member(frame, "stopped"), own);
    put_mask(json, "lost", json_member(frame, "lost"), own);
    json_array(json, "reasons");
    for (const char *reason = json_first(json_member(frame, "reasons")); reason != NULL; reason = json_next(reason), port++)
        if (port == own)
            copy(json, NULL, reason);
        else
            json_null(json, NULL);
    json_end_array(json);
    json_end_object(json);
}

static void put_frames(struct json *json, const char *frames, const struct view *view)
{
    size_t most = view->frames;
    json_array(json, "frames");
    for (const char *frame = json_first(frames); frame != NULL && most > 0; frame = json_next(frame)) {
        bool own = view->port == 0 || of_port(frame, view->port);
        if (own)
            copy(json, NULL, frame);
        else if (has_port(json_member(frame, "stopped"), view->port) || has_port(json_member(frame, "lost"), view->port))
            put_foreign_frame(json, frame, view->port);
        else
            continue;
        most--;
    }
    json_end_array(json);
}

/* A member of the document for a fitter. */
static void put_member(struct json *json, const char *name, const char *value, const struct view *view)
{
    static const char *const PUBLIC[] = {"schema", "program", "interface", "time", "lists_saved", "lists_edited"};
    for (size_t i = 0; i < sizeof PUBLIC / sizeof PUBLIC[0]; i++)
        if (strcmp(name, PUBLIC[i]) == 0)
            copy(json, name, value);
    if (strcmp(name, "unit") == 0)
        put_unit(json, value);
    else if (strcmp(name, "ports") == 0)
        put_ports(json, value, view->port);
    else if (strcmp(name, "pairs") == 0 || strcmp(name, "lists") == 0)
        copy_some(json, name, value, of_pair, view->port, SIZE_MAX);
    else if (strcmp(name, "addresses") == 0 && *value == '[')
        copy_some(json, name, value, of_port, view->port, SIZE_MAX);
    else if (strcmp(name, "addresses") == 0)
        json_null(json, name);
}

void view_put(struct json *json, const char *name, const char *status, const struct view *view)
{
    if (status == NULL) {
        json_null(json, name);
        return;
    }
    json_object(json, name);
    for (const char *key = json_first_name(status); key != NULL; key = json_next_name(key)) {
        char member[NAME_BYTES];
        json_read_string(key, member, sizeof member);
        if (strcmp(member, "frames") == 0)
            put_frames(json, json_value(key), view);
        else if (strcmp(member, "commands") == 0)
            copy_some(json, member, json_value(key), of_port, view->port, view->commands);
        else if (view->port != 0)
            put_member(json, member, json_value(key), view);
        else
            copy(json, member, json_value(key));
    }
    json_end_object(json);
}
