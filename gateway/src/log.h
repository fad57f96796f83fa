/* The log: one line an event on standard error, with the seconds since the program began; under systemd with the journal's level in front instead. */
#ifndef GATEWAY_LOG_H
#define GATEWAY_LOG_H

#include <stdbool.h>

enum log_level { LOG_ERROR, LOG_WARNING, LOG_INFO, LOG_DEBUG };

/* Reads "error", "warning", "info" or "debug". */
bool log_level_read(const char *word, enum log_level *level);

/* Lines of a level above this one are left out. Until it is called that is LOG_INFO. */
void log_open(enum log_level level);

__attribute__((format(printf, 2, 3))) void log_line(enum log_level level, const char *format, ...);

/* A line that is printed at every level: the summary. */
__attribute__((format(printf, 1, 2))) void log_always(const char *format, ...);

#endif
