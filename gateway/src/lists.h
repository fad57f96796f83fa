/* The filter lists of the directed pairs, and their text.

   A line is a pair, its mode and its PGNs: `1 2 block 61444 65265`. A pair that has no line is cleared; a pair without PGNs is an emptied list, which is not the
   same (an emptied pass list lets nothing cross). `1 2 name 65265 A00086000AC00123 FFFFFFFFFFE00000` behind it is an entry by who sent it: a PGN, a NAME and the mask of
   the bits in which a sender has to agree, both hex. Numbers as number.h reads them. `#` begins a comment. */
#ifndef GATEWAY_LISTS_H
#define GATEWAY_LISTS_H

#include <stdbool.h>
#include <stddef.h>
#include <stdint.h>

#define LISTS_PORTS 8
#define LISTS_ENTRIES 32
#define LISTS_NAMES 8
#define LISTS_TEXT_MAX 49152

enum list_mode { LIST_CLEARED, LIST_BLOCK, LIST_PASS };

/* An entry by who sent it. */
struct name_entry {
    uint32_t pgn;
    uint64_t name, mask;
};

struct list {
    enum list_mode mode;
    uint32_t count;
    uint32_t pgns[LISTS_ENTRIES]; /* in order of addition; 0 past the count */
    uint32_t names_count;
    struct name_entry names[LISTS_NAMES]; /* in order of addition */
};

/* The list from port p to port q stands at pair[p - 1][q - 1]; where p is q, or a port is none, it is cleared. */
struct lists {
    struct list pair[LISTS_PORTS][LISTS_PORTS];
};

struct lists_error {
    unsigned line;  /* from 1; 0: the file as a whole */
    char text[120];
};

/* "cleared", "block" or "pass". */
const char *list_mode_word(enum list_mode mode);

/* Mode and PGNs, which a tool can read; and with the NAME entries, which it cannot. */
bool list_same_pgns(const struct list *a, const struct list *b);
bool list_equal(const struct list *a, const struct list *b);
bool lists_equal(const struct lists *a, const struct lists *b);

bool name_entry_equal(const struct name_entry *a, const struct name_entry *b);

/* Reads a text whole, for so many ports, or tells the first wrong line and leaves `lists` alone. */
bool lists_parse(const char *text, size_t length, uint32_t ports, struct lists *lists, struct lists_error *error);

/* Writes the text; LISTS_TEXT_MAX bytes are enough. The length, or 0 where `size` is not enough. */
size_t lists_print(const struct lists *lists, char *text, size_t size);

#endif
