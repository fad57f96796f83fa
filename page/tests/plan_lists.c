/* A lists file from standard input as the gateway reads it, printed as the gateway saves it; status 1 with the first
   wrong line. */
#include "lists.h"

#include <stdio.h>

int main(void)
{
    static char text[LISTS_TEXT_MAX];
    static struct lists lists;
    struct lists_error error;
    size_t length = fread(text, 1, sizeof text, stdin);
    if (!lists_parse(text, length, LISTS_PORTS, &lists, &error)) {
        fprintf(stderr, "line %u: %s\n", error.line, error.text);
        return 1;
    }
    length = lists_print(&lists, text, sizeof text);
    return fwrite(text, 1, length, stdout) == length ? 0 : 1;
}
