/* The copy of the NAME entries. No message of the unit tells them, so they are followed from the commands that it has acknowledged as done. */
#ifndef GATEWAY_NAME_ENTRIES_H
#define GATEWAY_NAME_ENTRIES_H

#include "lists.h"
#include "payload.h"

/* A command was done on a unit with so many ports: what it makes of the entries. */
void name_entries_follow(struct lists *lists, uint32_t ports, const uint8_t *payload, size_t length);

#endif
