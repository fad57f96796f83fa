/* The gateway's status, asked once a second whatever browsers do, and the documents that are made of it: each once for each kind of user, lent to whoever sends it. */
#ifndef PAGE_WATCH_H
#define PAGE_WATCH_H

#include "samples.h"

#include <pthread.h>

/* What is served: the event of this second, the whole status, the last ten minutes, a file for whoever helps. */
enum document_kind { DOCUMENT_EVENT, DOCUMENT_STATUS, DOCUMENT_HISTORY, DOCUMENT_BUNDLE, DOCUMENT_KINDS };

struct document {
    struct watch *watch;
    uint64_t version; /* of the status that it was made of */
    unsigned lent;    /* to so many */
    size_t length;
    char bytes[];
};

struct watch {
    const char *path;
    pthread_mutex_t lock;
    char *status, *next, *room; /* the last status that was whole, with a 0; room to receive and to write in */
    bool known, alive;          /* there is one; the gateway answered the last time */
    int64_t heard_at;
    uint64_t version;           /* one more each second */
    struct samples samples;
    struct document *made[DOCUMENT_KINDS][SAMPLE_PORTS + 1]; /* by the user's view, 0 for all */
};

/* False where there is no memory. */
bool watch_open(struct watch *watch, const char *path);

void watch_close(struct watch *watch);

/* Asks the gateway, for a second at most. */
void watch_ask(struct watch *watch);

/* The document for a view, of a later version than that; NULL where there is none, or no memory. It is lent until it is given back. */
struct document *watch_lend(struct watch *watch, enum document_kind kind, uint32_t view, uint64_t later_than);

/* Gives a document back; `document` is a struct document. */
void watch_give_back(void *document);

#endif
