/* The names under which a browser may ask for this page. A name of another machine that leads here would let a foreign page speak for the user. */
#ifndef PAGE_HOSTS_H
#define PAGE_HOSTS_H

#include "options.h"

#define HOSTS_MAX (OPTIONS_HOSTS + 4)
#define HOST_BYTES 272

struct hosts {
    const char *scheme; /* "http://" or "https://" */
    unsigned count;
    char at[HOSTS_MAX][HOST_BYTES]; /* NAME:PORT, and NAME alone where the port is the scheme's own */
};

/* Those of the options, at the port that is listened at. */
void hosts_make(struct hosts *hosts, const struct options *options, uint16_t port);

/* The header Host is one of them. */
bool hosts_know(const struct hosts *hosts, const char *host);

/* The header Origin is this page's, asked for under that host. */
bool hosts_is_origin(const struct hosts *hosts, const char *origin, const char *host);

#endif
