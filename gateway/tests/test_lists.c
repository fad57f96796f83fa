/* The lists' text and the lists file. */
#include "../src/clock.h"
#include "../src/log.h"
#include "../src/saver.h"
#include "check.h"

#include <fcntl.h>
#include <stdlib.h>
#include <sys/stat.h>
#include <unistd.h>

static struct lists_error error;

static bool parse(const char *text, struct lists *lists)
{
    return lists_parse(text, strlen(text), 4, lists, &error);
}

static void good_text(void)
{
    struct lists lists;
    CHECK(parse("# a comment\n\n1 2 block 61444 0xFEF1 # another\n\t3 1  pass\r\n4 2 pass 0", &lists));
    CHECK(lists.pair[0][1].mode == LIST_BLOCK && lists.pair[0][1].count == 2);
    CHECK(lists.pair[0][1].pgns[0] == 61444 && lists.pair[0][1].pgns[1] == 0xFEF1);
    CHECK(lists.pair[2][0].mode == LIST_PASS && lists.pair[2][0].count == 0);
    CHECK(lists.pair[3][1].mode == LIST_PASS && lists.pair[3][1].count == 1 && lists.pair[3][1].pgns[0] == 0);
    CHECK(lists.pair[1][0].mode == LIST_CLEARED);
    CHECK(parse("", &lists) && lists.pair[0][1].mode == LIST_CLEARED);
}

/* Refused at that line with a text that holds these words, and the lists untouched. */
static bool refused(const char *text, unsigned line, const char *words)
{
    struct lists lists, before;
    memset(&lists, 0x5A, sizeof lists);
    before = lists;
    return !parse(text, &lists) && error.line == line && strstr(error.text, words) != NULL && memcmp(&lists, &before, sizeof lists) == 0;
}

static void wrong_text(void)
{
    char many[400] = "1 2 block";
    for (int i = 0; i < 33; i++)
        snprintf(many + strlen(many), sizeof many - strlen(many), " %d", 0xF000 + i);
    CHECK(refused("1 2 block 1\n", 1, "1 is not a PGN"));
    CHECK(refused("\n1 2 block 262144\n", 2, "262144 is not a PGN"));
    CHECK(refused("1 2 block 0x\n", 1, "0x is not a PGN"));
    CHECK(refused("1 2 block -1\n", 1, "-1 is not a PGN"));
    CHECK(refused("1 2 block 99999999999\n", 1, "is not a PGN"));
    CHECK(refused("1 2 block 61444\n1 2 pass\n", 2, "has a line already"));
    CHECK(refused("1 1 block\n", 1, "two different ports"));
    CHECK(refused("0 1 block\n", 1, "0 is not a port"));
    CHECK(refused("1 5 block\n", 1, "5 is not a port"));
    CHECK(refused("1 2\n", 1, "a mode is needed"));
    CHECK(refused("1\n", 1, "two ports"));
    CHECK(refused("1 2 cleared\n", 1, "cleared is not a mode"));
    CHECK(refused("1 2 block 61444 61444\n", 1, "twice"));
    CHECK(refused("1 2 block 12345678901234567890\n", 1, "a word of 20 bytes"));
    CHECK(refused(many, 1, "more than 32"));
    CHECK(refused("1 2 block 010\n", 1, "010 is not a PGN"));
    CHECK(refused("01 2 block\n", 1, "01 is not a port"));
    struct lists lists;
    CHECK(!lists_parse("1 2 block\0", 10, 4, &lists, &error) && error.line == 1 && strstr(error.text, "byte 10 is 00") != NULL);
    for (uint32_t ports = 2; ports <= LISTS_PORTS; ports++) {
        char last[32], past[32];
        snprintf(last, sizeof last, "1 %u block\n", (unsigned)ports);
        snprintf(past, sizeof past, "%u 1 block\n", (unsigned)ports + 1);
        CHECK(lists_parse(last, strlen(last), ports, &lists, &error) && lists.pair[0][ports - 1].mode == LIST_BLOCK);
        CHECK(!lists_parse(past, strlen(past), ports, &lists, &error) && strstr(error.text, "is not a port") != NULL);
    }
}

/* Bytes that an editor doesn't show are told as what they are, and never printed. */
static void unseen_bytes(void)
{
    struct lists lists;
    CHECK(refused("\xEF\xBB\xBF" "1 2 block\n", 1, "byte-order mark (EF BB BF)"));
    CHECK(refused("\xFF\xFE" "1", 1, "UTF-16"));
    CHECK(refused("\xFE\xFF", 1, "UTF-16"));
    CHECK(refused("\n1 2 \x1B[31mblock\n", 2, "byte 5 is 1B, an escape"));
    CHECK(refused("# \x1B]0;title\x07\n", 1, "byte 3 is 1B, an escape"));
    CHECK(refused("1 2\xC2\xA0" "block\n", 1, "byte 4 is C2, which is not ASCII"));
    CHECK(refused("1 2 block\x7F\n", 1, "byte 10 is 7F, a control byte"));
    CHECK(refused("1 2 block \x08\n", 1, "byte 11 is 08, a control byte"));
    CHECK(parse("1 2 block # \xC3\xA4 comment in any language\n", &lists));
    for (int byte = 1; byte < 256; byte++) {
        char text[] = "1 2 x\n";
        text[4] = (char)byte;
        CHECK(parse(text, &lists) == (byte == ' ' || byte == '\t' || byte == '\r' || byte == '\n' || byte == '#') || strstr(error.text, "is") != NULL);
        for (const char *at = error.text; *at != '\0'; at++)
            CHECK(*at >= 0x20 && *at < 0x7F);
    }
}

/* Entries by who sent it stand behind the line of their pair, eight at most. */
static void name_lines(void)
{
    struct lists lists;
    char many[800] = "1 2 pass\n";
    CHECK(parse("1 2 pass 61444\n1 2 name 65265 A00086000AC00123 FFFFFFFFFFE00000\n1 2 name 0xFEF1 0x1 0 # all\n", &lists));
    const struct list *list = &lists.pair[0][1];
    CHECK(list->mode == LIST_PASS && list->count == 1 && list->names_count == 2 && list->names[0].pgn == 65265 && list->names[1].pgn == 65265);
    CHECK(list->names[0].name == UINT64_C(0xA00086000AC00123) && list->names[0].mask == UINT64_C(0xFFFFFFFFFFE00000) && list->names[1].name == 1 && list->names[1].mask == 0);
    CHECK(refused("1 2 name 65265 1 1\n", 1, "needs the line of its pair's list before it"));
    CHECK(refused("1 2 pass\n1 2 name 65265 1\n", 2, "a PGN, a NAME and a mask are needed"));
    CHECK(refused("1 2 pass\n1 2 name\n", 2, "a PGN, a NAME and a mask are needed"));
    CHECK(refused("1 2 pass\n1 2 name 1 1 1\n", 2, "1 is not a PGN"));
    CHECK(refused("1 2 pass\n1 2 name 0 1x 1\n", 2, "1x is not a NAME"));
    CHECK(refused("1 2 pass\n1 2 name 0 1 12345678901234567\n", 2, "is not a mask"));
    CHECK(refused("1 2 pass\n1 2 name 0 1 1 1\n", 2, "a word behind the mask"));
    CHECK(refused("1 2 pass\n1 2 name 0 1 1\n1 2 name 0x0 01 1\n", 3, "stands there twice"));
    for (int i = 0; i < 9; i++)
        snprintf(many + strlen(many), sizeof many - strlen(many), "1 2 name 0 %d 1\n", i);
    CHECK(refused(many, 10, "more than 8 names"));
}

/* Every list that can be, there and back. */
static void round_trip(void)
{
    struct lists lists, again;
    char text[LISTS_TEXT_MAX];
    srand(1);
    for (int round = 0; round < 500; round++) {
        memset(&lists, 0, sizeof lists);
        for (int from = 0; from < LISTS_PORTS; from++)
            for (int to = 0; to < LISTS_PORTS; to++) {
                struct list *list = &lists.pair[from][to];
                list->mode = from == to ? LIST_CLEARED : (enum list_mode)(rand() % 3);
                list->count = list->mode == LIST_CLEARED ? 0 : (uint32_t)(rand() % (LISTS_ENTRIES + 1));
                for (uint32_t i = 0; i < list->count; i++)
                    list->pgns[i] = i % 2 == 0 ? 0x1F000 + i : i << 8;
                list->names_count = list->mode == LIST_CLEARED ? 0 : (uint32_t)(rand() % (LISTS_NAMES + 1));
                for (uint32_t i = 0; i < list->names_count; i++)
                    list->names[i] = (struct name_entry){0x3FF00, UINT64_MAX - i, UINT64_MAX};
            }
        size_t length = lists_print(&lists, text, sizeof text);
        CHECK(length > 0 && lists_parse(text, length, LISTS_PORTS, &again, &error) && lists_equal(&lists, &again));
        CHECK(lists_print(&lists, text, length) == 0); /* no room for its end */
    }
    CHECK(lists_print(&lists, text, 0) == 0);
}

static void write_file(const char *path, const char *bytes, size_t length)
{
    int fd = open(path, O_WRONLY | O_CREAT | O_TRUNC, 0600);
    CHECK(fd >= 0 && write(fd, bytes, length) == (ssize_t)length && close(fd) == 0);
}

static char folder[] = "/tmp/gateway-lists-XXXXXX", path[64], beside[64];

static struct lists_text text_of(const struct lists *lists)
{
    struct lists_text text;
    text.length = lists_print(lists, text.bytes, sizeof text.bytes);
    return text;
}

static void file(void)
{
    static char big[LISTS_TEXT_MAX + 1];
    static struct lists_text known, text;
    struct lists lists, again;
    CHECK(!lists_file_load(path, 4, &lists, &known, &error) && error.line == 0 && strstr(error.text, "no such file") != NULL);
    CHECK(parse("1 2 block 61444\n4 3 pass\n", &lists));
    text = text_of(&lists);
    CHECK(lists_file_save(path, &known, &text) == 0);
    CHECK(lists_file_load(path, 4, &again, &known, &error) && lists_equal(&lists, &again));
    CHECK(known.length == text.length && memcmp(known.bytes, text.bytes, text.length) == 0);
    CHECK(access(beside, F_OK) != 0);
    memset(big, '\n', sizeof big);
    write_file(path, big, sizeof big);
    CHECK(!lists_file_load(path, 4, &lists, &known, &error) && error.line == 0 && strstr(error.text, "49,152") != NULL);
    CHECK(lists_file_save(path, &known, &text) == LISTS_EDITED);
    write_file(path, big, sizeof big - 1);
    CHECK(lists_file_load(path, 4, &lists, &known, &error));
    /* A save that fails leaves the old file. */
    CHECK(mkdir(beside, 0700) == 0 && lists_file_save(path, &known, &text) != 0 && rmdir(beside) == 0);
    CHECK(lists_file_load(path, 4, &lists, &known, &error) && lists.pair[0][1].mode == LIST_CLEARED);
    CHECK(unlink(path) == 0);
    CHECK(lists_file_save("/nowhere/lists", &known, &text) != 0);
}

/* The file holds these lines beside the comment that a save begins with. */
static bool file_holds(const char *lines)
{
    static struct lists_text text;
    struct lists lists, wanted;
    return lists_file_load(path, 4, &lists, &text, &error) && parse(lines, &wanted) && lists_equal(&lists, &wanted);
}

/* The saver's child is waited for. */
static void save(struct saver *saver, const struct lists *lists, int64_t now)
{
    saver_want(saver);
    saver_step(saver, lists, now);
    for (int i = 0; i < 500 && saver->child != 0; i++) {
        saver_reap(saver, now);
        usleep(10000);
    }
    CHECK(saver->child == 0);
}

/* An edit while the program runs is not overwritten; once it is undone or the file moved away, the lists are saved. */
static void edited(void)
{
    static struct saver saver;
    struct lists lists;
    write_file(path, "# mine\n1 2 block 61444\n", 23);
    CHECK(lists_file_load(path, 4, &lists, &saver.known, &error));
    saver.path = path;
    lists.pair[0][1].mode = LIST_PASS;
    save(&saver, &lists, 0);
    CHECK(!saver_behind(&saver) && !saver.edited && file_holds("1 2 pass 61444\n"));
    write_file(path, "3 4 pass\n", 9);
    lists.pair[0][1].mode = LIST_BLOCK;
    save(&saver, &lists, 0);
    CHECK(saver_behind(&saver) && saver.edited && file_holds("3 4 pass\n") && saver_deadline(&saver) == 10 * CLOCK_SECOND);
    save(&saver, &lists, 20 * CLOCK_SECOND);
    CHECK(saver_behind(&saver) && saver.edited && file_holds("3 4 pass\n"));
    saver_finish(&saver, &lists);
    CHECK(saver.edited && file_holds("3 4 pass\n"));
    CHECK(unlink(path) == 0);
    save(&saver, &lists, clock_now() + 20 * CLOCK_SECOND);
    CHECK(!saver_behind(&saver) && !saver.edited && file_holds("1 2 block 61444\n"));
    /* Touched and not changed: nothing that a save would destroy. */
    CHECK(utimensat(AT_FDCWD, path, NULL, 0) == 0);
    lists.pair[0][1].mode = LIST_PASS;
    save(&saver, &lists, clock_now() + 20 * CLOCK_SECOND);
    CHECK(!saver_behind(&saver) && file_holds("1 2 pass 61444\n") && unlink(path) == 0);
}

int main(void)
{
    log_open(LOG_ERROR);
    CHECK(mkdtemp(folder) != NULL);
    snprintf(path, sizeof path, "%s/lists", folder);
    snprintf(beside, sizeof beside, "%s/lists.new", folder);
    good_text();
    wrong_text();
    unseen_bytes();
    name_lines();
    round_trip();
    file();
    edited();
    CHECK(rmdir(folder) == 0);
    return checks_end("lists");
}
