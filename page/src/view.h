/* What of the gateway's status document a user is shown. A viewer and the owner see it whole; a fitter of port p what a tool on p is told: the pairs from p and to p, the
   addresses on p, what the port p itself counted, and of the journal and of frames what is of p. A member that this file does not know is not shown to a fitter. */
#ifndef PAGE_VIEW_H
#define PAGE_VIEW_H

#include <stddef.h>
#include <stdint.h>

struct json;

struct view {
    uint32_t port;         /* a fitter's, or 0 for all */
    size_t frames, commands; /* so many of the last ones at most */
};

/* Puts the document, which is whole, as a member or an element; NULL for none is null. */
void view_put(struct json *json, const char *name, const char *status, const struct view *view);

#endif
