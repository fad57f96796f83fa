#include "log.h"

#include "clock.h"

#include <inttypes.h>
#include <stdarg.h>
#include <stdio.h>
#include <stdlib.h>
#include <string.h>
#include <unistd.h>

static const char *const WORDS[] = {"error", "warning", "info", "debug"};
static const int SYSLOG[] = {3, 4, 6, 7};

static enum log_level threshold = LOG_INFO;
static int64_t begin;
static bool journal;

bool log_level_read(const char *word, enum log_level *level)
{
    for (int i = LOG_ERROR; i <= LOG_DEBUG; i++)
        if (strcmp(word, WORDS[i]) == 0) {
            *level = (enum log_level)i;
            return true;
        }
    return false;
}

void log_open(enum log_level level)
{
    threshold = level;
    begin = clock_now();
    journal = getenv("JOURNAL_STREAM") != NULL;
}

__attribute__((format(printf, 2, 0))) static void print_line(enum log_level level, const char *format, va_list values)
{
    char line[512];
    int64_t ms = begin == 0 ? 0 : (clock_now() - begin) / CLOCK_MS;
    int head = journal ? snprintf(line, sizeof line, "<%d>", SYSLOG[level])
                       : snprintf(line, sizeof line, "%6" PRId64 ".%03" PRId64 " %-7s ", ms / 1000, ms % 1000, WORDS[level]);
    size_t length = head < 0 ? 0 : (size_t)head;
    int body = vsnprintf(line + length, sizeof line - length - 1, format, values);
    if (body < 0)
        return;
    length += (size_t)body < sizeof line - length - 2 ? (size_t)body : sizeof line - length - 2;
    line[length++] = '\n';
    /* One write a line. Where standard error takes no more there is nobody left to tell. */
    if (write(STDERR_FILENO, line, length) < 0)
        return;
}

void log_line(enum log_level level, const char *format, ...)
{
    if (level > threshold)
        return;
    va_list values;
    va_start(values, format);
    print_line(level, format, values);
    va_end(values);
}

void log_always(const char *format, ...)
{
    va_list values;
    va_start(values, format);
    print_line(LOG_INFO, format, values);
    va_end(values);
}
