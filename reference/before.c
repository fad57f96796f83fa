/* Makes the calls of a script on a library of its own and prints every answer whole, but for the compared count of a
   frame, which goes to a file of its own; reference/before compiles it with the header and the library of two commits.
   usage: before COUNTS <SCRIPT, as the program generate writes one; a line that is no such call ends it with 2 */
#include "deorasaeng.h"

#include <inttypes.h>
#include <stdio.h>
#include <stdlib.h>
#include <string.h>

enum { LONGEST_LINE = 8192, MOST_BYTES = 4096, NUMBERS = 64, UNTOUCHED = 0xA5 };

static uint64_t record[DEORASAENG_RECORD_WORDS_FOR(DEORASAENG_MOST_PORTS)];
static size_t record_len;
static uint64_t answer[DEORASAENG_COUNTS_ANSWER];
static uint8_t bytes[MOST_BYTES], lent[DEORASAENG_REPLY_BYTES];
static unsigned long calls, by_number[NUMBERS];
static char line[LONGEST_LINE];
static FILE *counts;

static void wrong(void)
{
    fprintf(stderr, "before: no call: %s", line);
    exit(2);
}

/* The next word of the line; its value in hex or decimal. */
static const char *word(void)
{
    const char *next = strtok(NULL, " \n");
    if (next == NULL)
        wrong();
    return next;
}

static uint32_t decimal(void)
{
    return (uint32_t)strtoul(word(), NULL, 10);
}

static uint64_t hex(void)
{
    return strtoull(word(), NULL, 16);
}

/* The bytes of the next word, - for none; how many. */
static size_t some_bytes(void)
{
    const char *digits = word();
    size_t n = 0;
    unsigned byte;
    if (strcmp(digits, "-") == 0)
        return 0;
    for (; n < MOST_BYTES && digits[2 * n] != '\0'; n++) {
        if (sscanf(digits + 2 * n, "%2x", &byte) != 1)
            wrong();
        bytes[n] = (uint8_t)byte;
    }
    return n;
}

/* The number, so many words of the answer but one, and so many bytes of what was lent; none behind them is touched. */
static void tell_but(size_t but, uint32_t number, size_t words, size_t told)
{
    printf("%" PRIu32, number);
    for (size_t i = 0; i < words; i++)
        if (i != but)
            printf(" %" PRIx64, answer[i]);
    putchar(' ');
    for (size_t i = 0; i < told; i++)
        printf("%02x", lent[i]);
    for (size_t i = told; i < sizeof lent; i++)
        if (lent[i] != UNTOUCHED)
            printf(" byte %zu is %02x", i, lent[i]);
    putchar('\n');
    calls++;
    by_number[number < NUMBERS ? number : NUMBERS - 1]++;
}

static void tell(uint32_t number, size_t words, size_t told)
{
    tell_but(words, number, words, told);
}

static void power_on(void)
{
    uint64_t name = hex();
    uint32_t preferred = decimal();
    const char *last = strtok(NULL, " \n");
    uint32_t ports = last == NULL ? 4 : (uint32_t)strtoul(last, NULL, 10);
    record_len = DEORASAENG_RECORD_WORDS_FOR(ports);
    tell(deorasaeng_power_on_ports(record, record_len, name, preferred, ports), 0, 0);
}

static void frame(void)
{
    uint32_t port = decimal(), id = (uint32_t)hex();
    size_t n = some_bytes();
    uint32_t number = deorasaeng_frame(record, record_len, port, id, bytes, n, answer, DEORASAENG_FRAME_ANSWER);
    tell_but(DEORASAENG_COMPARED, number, DEORASAENG_FRAME_ANSWER, 0);
    fprintf(counts, "%" PRIu64 "\n", number == 0 ? answer[DEORASAENG_COMPARED] : 0);
}

static void message(void)
{
    uint32_t port = decimal(), requester = decimal();
    size_t n = some_bytes();
    uint32_t number = deorasaeng_message(record, record_len, port, requester, bytes, n, lent, sizeof lent, answer,
                                         DEORASAENG_MESSAGE_ANSWER);
    size_t written = answer[DEORASAENG_WRITTEN] <= sizeof lent ? (size_t)answer[DEORASAENG_WRITTEN] : sizeof lent;
    tell(number, DEORASAENG_MESSAGE_ANSWER, written);
}

static void take(void)
{
    uint32_t port = decimal(), number = deorasaeng_take(record, record_len, port, answer, DEORASAENG_TAKE_ANSWER, lent,
                                                        DEORASAENG_FRAME_BYTES);
    tell(number, DEORASAENG_TAKE_ANSWER, DEORASAENG_FRAME_BYTES);
}

static void port_counts(void)
{
    uint32_t port = decimal(), number = deorasaeng_counts(record, record_len, port, answer, DEORASAENG_COUNTS_ANSWER);
    tell(number, DEORASAENG_COUNTS_ANSWER, 0);
}

/* All that a call is lent is filled first, so that what it leaves as it was is told too. */
static void call(const char *kind)
{
    memset(answer, UNTOUCHED, sizeof answer);
    memset(lent, UNTOUCHED, sizeof lent);
    switch (kind[0]) {
    case 'P': power_on(); break;
    case 'S':
        tell(deorasaeng_start(record, record_len, answer, DEORASAENG_START_ANSWER), DEORASAENG_START_ANSWER, 0);
        break;
    case 'Q': tell(deorasaeng_quiet(record, record_len), 0, 0); break;
    case 'F': frame(); break;
    case 'T': take(); break;
    case 'M': message(); break;
    case 'U':
        tell(deorasaeng_unit(record, record_len, answer, DEORASAENG_UNIT_ANSWER), DEORASAENG_UNIT_ANSWER, 0);
        break;
    case 'C': port_counts(); break;
    default: wrong();
    }
}

int main(int argc, char **argv)
{
    if (deorasaeng_version() != DEORASAENG_VERSION) {
        fprintf(stderr, "before: a library of another version than its header\n");
        return 2;
    }
    if (argc != 2 || (counts = fopen(argv[1], "w")) == NULL) {
        fprintf(stderr, "before: usage: before COUNTS <SCRIPT\n");
        return 2;
    }
    memset(record, 0x5C, sizeof record);
    while (fgets(line, sizeof line, stdin) != NULL) {
        const char *kind = strtok(line, " \n");
        if (kind != NULL)
            call(kind);
    }
    printf("%lu calls, by number", calls);
    for (int i = 0; i < NUMBERS; i++)
        if (by_number[i] != 0)
            printf(" %d:%lu", i, by_number[i]);
    printf("\n");
    return fclose(counts) == 0 && fflush(stdout) == 0 ? 0 : 2;
}
