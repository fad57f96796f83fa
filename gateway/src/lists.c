#include "lists.h"

#include "number.h"

#include <inttypes.h>
#include <stdarg.h>
#include <stdio.h>
#include <string.h>

#define WORD_MAX 20

static const char NAME_WORD[] = "name";
static const char *const MODES[] = {"cleared", "block", "pass"};

const char *list_mode_word(enum list_mode mode)
{
    return MODES[mode];
}

bool list_same_pgns(const struct list *a, const struct list *b)
{
    return a->mode == b->mode && a->count == b->count && memcmp(a->pgns, b->pgns, sizeof a->pgns) == 0;
}

bool name_entry_equal(const struct name_entry *a, const struct name_entry *b)
{
    return a->pgn == b->pgn && a->name == b->name && a->mask == b->mask;
}

bool list_equal(const struct list *a, const struct list *b)
{
    if (!list_same_pgns(a, b) || a->names_count != b->names_count)
        return false;
    for (uint32_t i = 0; i < a->names_count; i++)
        if (!name_entry_equal(&a->names[i], &b->names[i]))
            return false;
    return true;
}

bool lists_equal(const struct lists *a, const struct lists *b)
{
    for (int from = 0; from < LISTS_PORTS; from++)
        for (int to = 0; to < LISTS_PORTS; to++)
            if (!list_equal(&a->pair[from][to], &b->pair[from][to]))
                return false;
    return true;
}

/* One line of the text while it is read. */
struct line {
    const char *at, *end;
    uint32_t ports;      /* how many there are */
    char word[WORD_MAX]; /* the last word that was read */
    char *error;         /* lists_error.text */
};

__attribute__((format(printf, 2, 3))) static bool wrong(struct line *line, const char *format, ...)
{
    va_list values;
    va_start(values, format);
    vsnprintf(line->error, sizeof ((struct lists_error *)NULL)->text, format, values);
    va_end(values);
    return false;
}

static bool blank(char c)
{
    return c == ' ' || c == '\t' || c == '\r';
}

/* The next word of the line into line->word: 1, or 0 at its end or a comment, -1 for a word that is too long for anything. */
static int next_word(struct line *line)
{
    while (line->at < line->end && blank(*line->at))
        line->at++;
    size_t length = 0;
    while (line->at < line->end && !blank(*line->at) && *line->at != '#') {
        if (length == WORD_MAX - 1)
            return -1;
        line->word[length++] = *line->at++;
    }
    line->word[length] = '\0';
    return length > 0;
}

static bool read_port(struct line *line, uint32_t *port)
{
    if (next_word(line) != 1)
        return wrong(line, "two ports, a mode and PGNs are needed");
    if (!number_read(line->word, line->ports, port) || *port == 0)
        return wrong(line, "%s is not a port, 1 to %" PRIu32, line->word, line->ports);
    return true;
}

static bool read_mode(struct line *line, enum list_mode *mode)
{
    for (int i = LIST_BLOCK; i <= LIST_PASS; i++)
        if (strcmp(line->word, MODES[i]) == 0) {
            *mode = (enum list_mode)i;
            return true;
        }
    return wrong(line, "%s is not a mode: block or pass", line->word);
}

static bool read_hex(struct line *line, const char *what, uint64_t *value)
{
    if (next_word(line) != 1)
        return wrong(line, "a PGN, a NAME and a mask are needed");
    return number_read_hex(line->word, value) || wrong(line, "%s is not a %s of up to 16 hex digits", line->word, what);
}

/* What stands behind `name`. */
static bool read_name(struct line *line, struct list *list)
{
    struct name_entry entry;
    if (list->mode == LIST_CLEARED)
        return wrong(line, "a name needs the line of its pair's list before it");
    if (next_word(line) != 1)
        return wrong(line, "a PGN, a NAME and a mask are needed");
    if (!number_read(line->word, UINT32_MAX, &entry.pgn) || !number_is_pgn(entry.pgn))
        return wrong(line, "%s is not a PGN", line->word);
    if (!read_hex(line, "NAME", &entry.name) || !read_hex(line, "mask", &entry.mask))
        return false;
    for (uint32_t i = 0; i < list->names_count; i++)
        if (name_entry_equal(&list->names[i], &entry))
            return wrong(line, "this name stands there twice");
    if (list->names_count == LISTS_NAMES)
        return wrong(line, "more than %d names", LISTS_NAMES);
    list->names[list->names_count++] = entry;
    return next_word(line) == 0 || wrong(line, "a word behind the mask");
}

static bool read_pgn(struct line *line, struct list *list)
{
    uint32_t pgn;
    if (!number_read(line->word, UINT32_MAX, &pgn) || !number_is_pgn(pgn))
        return wrong(line, "%s is not a PGN", line->word);
    for (uint32_t i = 0; i < list->count; i++)
        if (list->pgns[i] == pgn)
            return wrong(line, "PGN %s stands there twice", line->word);
    if (list->count == LISTS_ENTRIES)
        return wrong(line, "more than %d PGNs", LISTS_ENTRIES);
    list->pgns[list->count++] = pgn;
    return true;
}

/* A line that has a first word. */
static bool read_pair(struct line *line, struct lists *lists)
{
    uint32_t from, to;
    if (!read_port(line, &from) || !read_port(line, &to))
        return false;
    if (from == to)
        return wrong(line, "a pair has two different ports");
    struct list *list = &lists->pair[from - 1][to - 1];
    if (next_word(line) != 1)
        return wrong(line, "a mode is needed: block or pass");
    if (strcmp(line->word, NAME_WORD) == 0)
        return read_name(line, list);
    if (list->mode != LIST_CLEARED)
        return wrong(line, "the pair %" PRIu32 " to %" PRIu32 " has a line already", from, to);
    if (!read_mode(line, &list->mode))
        return false;
    int word;
    while ((word = next_word(line)) == 1)
        if (!read_pgn(line, list))
            return false;
    return word == 0 || wrong(line, "a word of %d bytes or more", WORD_MAX);
}

/* Bytes that an editor doesn't show: control bytes anywhere, and outside a comment what is not ASCII. They are told as numbers, never printed. */
static bool check_bytes(struct line *line)
{
    bool comment = false;
    for (const char *at = line->at; at < line->end; at++) {
        unsigned char byte = (unsigned char)*at;
        comment = comment || byte == '#';
        if (byte == 0x1B)
            return wrong(line, "byte %td is 1B, an escape: this is no plain text", at - line->at + 1);
        if ((byte < 0x20 && !blank(*at)) || byte == 0x7F)
            return wrong(line, "byte %td is %02X, a control byte: this is no plain text", at - line->at + 1, byte);
        if (byte > 0x7F && !comment)
            return wrong(line, "byte %td is %02X, which is not ASCII", at - line->at + 1, byte);
    }
    return true;
}

static bool read_line(const char *at, const char *end, uint32_t ports, struct lists *lists, char *error)
{
    struct line line = {at, end, ports, "", error};
    struct line look = line;
    if (!check_bytes(&line))
        return false;
    return next_word(&look) == 0 || read_pair(&line, lists);
}

/* What some editors put before a text. */
static const char *mark_of(const char *text, size_t length)
{
    if (length >= 3 && memcmp(text, "\xEF\xBB\xBF", 3) == 0)
        return "the file begins with a byte-order mark (EF BB BF): save it without one";
    if (length >= 2 && (memcmp(text, "\xFF\xFE", 2) == 0 || memcmp(text, "\xFE\xFF", 2) == 0))
        return "the file begins with the byte-order mark of UTF-16: save it as plain text";
    return NULL;
}

bool lists_parse(const char *text, size_t length, uint32_t ports, struct lists *lists, struct lists_error *error)
{
    struct lists read;
    const char *at = text, *end = text + length;
    const char *mark = mark_of(text, length);
    memset(&read, 0, sizeof read);
    error->line = mark != NULL;
    if (mark != NULL) {
        snprintf(error->text, sizeof error->text, "%s", mark);
        return false;
    }
    while (at < end) {
        const char *feed = memchr(at, '\n', (size_t)(end - at));
        const char *line_end = feed == NULL ? end : feed;
        error->line++;
        if (!read_line(at, line_end, ports, &read, error->text))
            return false;
        at = feed == NULL ? end : feed + 1;
    }
    *lists = read;
    return true;
}

/* The text so far; `length` stays where it was once the room is gone. */
struct text {
    char *at;
    size_t size, length;
    bool full;
};

__attribute__((format(printf, 2, 3))) static void print(struct text *text, const char *format, ...)
{
    va_list values;
    va_start(values, format);
    int length = vsnprintf(text->at + text->length, text->size - text->length, format, values);
    va_end(values);
    if (length < 0 || (size_t)length >= text->size - text->length)
        text->full = true;
    else
        text->length += (size_t)length;
}

static void print_list(struct text *text, int from, int to, const struct list *list)
{
    if (list->mode == LIST_CLEARED)
        return;
    print(text, "%d %d %s", from, to, MODES[list->mode]);
    for (uint32_t i = 0; i < list->count; i++)
        print(text, " %" PRIu32, list->pgns[i]);
    print(text, "\n");
    for (uint32_t i = 0; i < list->names_count; i++)
        print(text, "%d %d %s %" PRIu32 " %016" PRIX64 " %016" PRIX64 "\n", from, to, NAME_WORD, list->names[i].pgn, list->names[i].name, list->names[i].mask);
}

size_t lists_print(const struct lists *lists, char *bytes, size_t size)
{
    struct text text = {bytes, size, 0, size == 0};
    if (!text.full)
        print(&text, "# Filter lists: FROM TO block|pass PGN .., and FROM TO name PGN NAME MASK; a pair without a line is cleared. Rewritten when a command changes a list.\n");
    for (int from = 1; from <= LISTS_PORTS && !text.full; from++)
        for (int to = 1; to <= LISTS_PORTS && !text.full; to++)
            print_list(&text, from, to, &lists->pair[from - 1][to - 1]);
    return text.full ? 0 : text.length;
}
