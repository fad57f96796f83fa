/* Checks for the tests that need no CAN: each prints its place where it fails; the last line is `N passed, M failed`. */
#ifndef GATEWAY_CHECK_H
#define GATEWAY_CHECK_H

#include <stdio.h>
#include <string.h>

static unsigned checks_passed, checks_failed;

static inline void check_that(int holds, const char *text, const char *file, int line)
{
    if (holds) {
        checks_passed++;
        return;
    }
    checks_failed++;
    printf("%s:%d: does not hold: %s\n", file, line, text);
}

#define CHECK(condition) check_that((condition) != 0, #condition, __FILE__, __LINE__)
#define CHECK_TEXT(got, wanted) check_that(strcmp((got), (wanted)) == 0, got, __FILE__, __LINE__)

static inline int checks_end(const char *subject)
{
    printf("%s: %u passed, %u failed\n", subject, checks_passed, checks_failed);
    return checks_failed == 0 ? 0 : 1;
}

#endif
