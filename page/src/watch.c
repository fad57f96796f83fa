#include "watch.h"

#include "version.h"
#include "view.h"

#include "../../gateway/src/client.h"
#include "../../gateway/src/json.h"
#include "../../gateway/src/json_reader.h"
#include "../../gateway/src/lists.h"
#include "../../gateway/src/log.h"
#include "../../gateway/src/status_schema.h"

#include <errno.h>
#include <stdlib.h>
#include <string.h>

#define PATIENCE CLOCK_SECOND
/* A status, its lists as text with every line's end escaped, and what stands around them. */
#define ROOM (STATUS_BYTES + 4 * LISTS_TEXT_MAX)
/* Of frames and commands the last ones in an event; the whole status has all. */
#define EVENT_FRAMES 40
#define EVENT_COMMANDS 20

static const char EVENT_HEAD[] = "event: state\ndata: ", EVENT_END[] = "\n\n";

bool watch_open(struct watch *watch, const char *path)
{
    memset(watch, 0, sizeof *watch);
    watch->path = path;
    watch->status = malloc(STATUS_BYTES + 1);
    watch->next = malloc(STATUS_BYTES + 1);
    watch->room = malloc(ROOM);
    return watch->status != NULL && watch->next != NULL && watch->room != NULL && pthread_mutex_init(&watch->lock, NULL) == 0;
}

/* A status of the gateway: one JSON object of this schema, without a line's end, which would end an event. */
static bool is_status(const char *text, size_t length)
{
    uint64_t schema;
    return length > 0 && memchr(text, '\n', length) == NULL && memchr(text, '\r', length) == NULL && *text == '{' && json_whole(text, length) &&
           json_is_number(json_member(text, "schema"), UINT32_MAX, &schema) && schema == STATUS_SCHEMA;
}

static void tell_change(const struct watch *watch, bool alive, ssize_t length)
{
    if (alive == watch->alive && watch->version > 0)
        return;
    if (alive)
        log_line(LOG_INFO, "the gateway answers at %s", watch->path);
    else
        log_line(LOG_WARNING, "%s: %s", watch->path, length < 0 ? strerror(errno) : "an answer that is empty, cut or garbled");
}

void watch_ask(struct watch *watch)
{
    ssize_t length = client_exchange(watch->path, NULL, 0, watch->next, STATUS_BYTES + 1, CLIENT_END, PATIENCE);
    bool alive = length > 0 && is_status(watch->next, (size_t)length);
    tell_change(watch, alive, length);
    pthread_mutex_lock(&watch->lock);
    if (alive) {
        char *before = watch->status;
        watch->status = watch->next;
        watch->next = before;
        watch->known = true;
        watch->heard_at = clock_now();
    }
    watch->alive = alive;
    watch->version++;
    samples_add(&watch->samples, alive ? watch->status : NULL, clock_wall());
    pthread_mutex_unlock(&watch->lock);
}

/* {"alive":true,"age":0.012,"sample":[..],"status":{..}}, with how many seconds ago the gateway was heard and the last of the samples. */
static void put_state(struct json *json, const struct watch *watch, const struct view *view)
{
    json_object(json, NULL);
    json_bool(json, "alive", watch->alive);
    json_milliseconds(json, "age", watch->known ? clock_now() - watch->heard_at : 0);
    samples_put_last(json, "sample", &watch->samples, view->port);
    view_put(json, "status", watch->known ? watch->status : NULL, view);
    json_end_object(json);
}

static enum list_mode mode_of(const char *word)
{
    return json_is_string(word, "pass") ? LIST_PASS : json_is_string(word, "block") ? LIST_BLOCK : LIST_CLEARED;
}

static uint64_t hex_of(const char *value)
{
    char digits[20];
    json_read_string(value, digits, sizeof digits);
    return strtoull(digits, NULL, 16);
}

static void read_list(const char *text, struct list *list)
{
    list->mode = mode_of(json_member(text, "mode"));
    for (const char *pgn = json_first(json_member(text, "pgns")); pgn != NULL && list->count < LISTS_ENTRIES; pgn = json_next(pgn))
        list->pgns[list->count++] = (uint32_t)json_read_number(pgn);
    for (const char *entry = json_first(json_member(text, "names")); entry != NULL && list->names_count < LISTS_NAMES; entry = json_next(entry))
        list->names[list->names_count++] = (struct name_entry){(uint32_t)json_read_number(json_member(entry, "pgn")), hex_of(json_member(entry, "name")),
                                                               hex_of(json_member(entry, "mask"))};
}

/* The lists that the view has, as the gateway's lists file has them. */
static void put_lists(struct json *json, const char *status, uint32_t port)
{
    static struct lists lists;
    static char text[LISTS_TEXT_MAX + 1];
    memset(&lists, 0, sizeof lists);
    for (const char *list = json_first(json_member(status, "lists")); list != NULL; list = json_next(list)) {
        uint64_t from = json_read_number(json_member(list, "from")), to = json_read_number(json_member(list, "to"));
        if (from >= 1 && to >= 1 && from <= LISTS_PORTS && to <= LISTS_PORTS && from != to && (port == 0 || from == port || to == port))
            read_list(list, &lists.pair[from - 1][to - 1]);
    }
    text[lists_print(&lists, text, LISTS_TEXT_MAX)] = '\0';
    json_string(json, "lists_file", text);
}

static void put_bundle(struct json *json, const struct watch *watch, const struct view *view)
{
    char made[CLOCK_TEXT];
    clock_text(clock_wall(), made);
    json_object(json, NULL);
    json_number(json, "bundle", 1);
    json_string(json, "made", made);
    json_string(json, "page", PAGE_VERSION);
    if (view->port == 0)
        json_null(json, "port");
    else
        json_number(json, "port", view->port);
    json_bool(json, "alive", watch->alive);
    view_put(json, "status", watch->known ? watch->status : NULL, view);
    put_lists(json, watch->known ? watch->status : NULL, view->port);
    json_end_object(json);
}

static void put_kind(struct json *json, const struct watch *watch, enum document_kind kind, uint32_t port)
{
    const struct view all = {port, SIZE_MAX, SIZE_MAX}, last = {port, EVENT_FRAMES, EVENT_COMMANDS};
    switch (kind) {
    case DOCUMENT_EVENT:
        put_state(json, watch, &last);
        break;
    case DOCUMENT_STATUS:
        put_state(json, watch, &all);
        break;
    case DOCUMENT_HISTORY:
        samples_put(json, &watch->samples, port);
        break;
    default:
        put_bundle(json, watch, &all);
        break;
    }
}

static struct document *make(struct watch *watch, enum document_kind kind, uint32_t port)
{
    struct json json;
    json_begin(&json, watch->room, ROOM);
    put_kind(&json, watch, kind, port);
    size_t head = kind == DOCUMENT_EVENT ? sizeof EVENT_HEAD - 1 : 0, end = kind == DOCUMENT_EVENT ? sizeof EVENT_END - 1 : 0;
    struct document *document = json.full ? NULL : malloc(sizeof *document + head + json.length + end);
    if (document == NULL)
        return NULL;
    *document = (struct document){watch, watch->version, 0, head + json.length + end};
    memcpy(document->bytes, EVENT_HEAD, head);
    memcpy(document->bytes + head, json.bytes, json.length);
    memcpy(document->bytes + head + json.length, EVENT_END, end);
    return document;
}

/* One more, or one less, has it; nobody: it goes. */
static void take(struct document *document)
{
    if (document != NULL)
        document->lent++;
}

static void release(struct document *document)
{
    if (document != NULL && --document->lent == 0)
        free(document);
}

struct document *watch_lend(struct watch *watch, enum document_kind kind, uint32_t view, uint64_t later_than)
{
    struct document **place = &watch->made[kind][view <= SAMPLE_PORTS ? view : 0];
    pthread_mutex_lock(&watch->lock);
    if (*place == NULL || (*place)->version != watch->version) {
        struct document *made = make(watch, kind, view);
        take(made);
        release(*place);
        *place = made;
    }
    struct document *document = *place != NULL && (*place)->version > later_than ? *place : NULL;
    take(document);
    pthread_mutex_unlock(&watch->lock);
    return document;
}

void watch_give_back(void *lent)
{
    struct document *document = lent;
    struct watch *watch = document->watch;
    pthread_mutex_lock(&watch->lock);
    release(document);
    pthread_mutex_unlock(&watch->lock);
}

void watch_close(struct watch *watch)
{
    for (int kind = 0; kind < DOCUMENT_KINDS; kind++)
        for (int view = 0; view <= SAMPLE_PORTS; view++)
            release(watch->made[kind][view]);
    free(watch->status);
    free(watch->next);
    free(watch->room);
}
