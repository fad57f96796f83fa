/* The command line. */
#ifndef PAGE_OPTIONS_H
#define PAGE_OPTIONS_H

#include "../../gateway/src/log.h"

#include <netinet/in.h>
#include <stdbool.h>

#define OPTIONS_HOSTS 4

struct options {
    const char *status, *control, *users; /* paths */
    const char *listen;                   /* as it was given */
    union {
        struct sockaddr any;
        struct sockaddr_in four;
        struct sockaddr_in6 six;
    } address;
    bool loopback;
    const char *certificate, *key;        /* paths, or NULL */
    const char *hosts[OPTIONS_HOSTS];     /* other names of this machine, as a browser is told them */
    unsigned hosts_count;
    const char *set_name, *set_role;      /* --set: put a user into the file */
    enum log_level log;
};

enum options_read { OPTIONS_RUN, OPTIONS_SET, OPTIONS_HELP, OPTIONS_VERSION, OPTIONS_WRONG };

extern const char OPTIONS_USAGE[];

/* Reads the command line. On OPTIONS_WRONG `error`, 200 bytes, says what is wrong. */
enum options_read options_read(int argc, char *argv[], struct options *options, char error[200]);

#endif
