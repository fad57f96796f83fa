#include "name_entries.h"

#define ALL_PORTS 15

/* One that is there already changes nothing. */
static void append(struct list *list, const struct name_entry *entry)
{
    for (uint32_t i = 0; i < list->names_count; i++)
        if (name_entry_equal(&list->names[i], entry))
            return;
    if (list->names_count < LISTS_NAMES)
        list->names[list->names_count++] = *entry;
}

void name_entries_follow(struct lists *lists, uint32_t ports, const uint8_t *payload, size_t length)
{
    struct name_entry entry;
    if (length < PAYLOAD_LEAST)
        return;
    uint32_t from = payload[1] >> 4, to = payload[1] & 15;
    bool named = payload[0] == FUNCTION_NAME && payload_read_name(payload, length, &entry);
    for (uint32_t port = 1; port <= ports && from >= 1 && from <= ports; port++) {
        struct list *list = &lists->pair[from - 1][port - 1];
        if (port == from || (to != port && to != ALL_PORTS))
            continue;
        if (named)
            append(list, &entry);
        if (payload[0] == FUNCTION_CLEAR || payload[0] == FUNCTION_CREATE)
            list->names_count = 0;
    }
}
