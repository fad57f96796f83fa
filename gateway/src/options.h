/* The command line. */
#ifndef GATEWAY_OPTIONS_H
#define GATEWAY_OPTIONS_H

#include "../../include/deorasaeng.h"
#include "log.h"

#include <stdint.h>
#include <sys/types.h>

/* As few and as many as the unit has. */
#define GATEWAY_PORTS_MIN DEORASAENG_FEWEST_PORTS
#define GATEWAY_PORTS_MAX DEORASAENG_MOST_PORTS

struct options {
    uint64_t name;                             /* the unit's NAME */
    uint32_t address;                          /* its preferred address, 0 to 253 */
    const char *lists;                         /* the lists file, or NULL */
    const char *status;                        /* the status socket's path, or NULL */
    const char *status_group;                  /* its group, by name or number, or NULL: its rights are then the owner's alone .. */
    gid_t status_gid;                          /* .. as a number, once it is looked up; -1 for none */
    const char *control;                       /* the control socket's path, or NULL */
    const char *control_group;                 /* its group, by name or number, or NULL for that of the program .. */
    gid_t control_gid;                         /* .. as a number, once it is looked up; -1 for none */
    enum log_level log;
    uint32_t ports;                            /* how many interfaces there are .. */
    const char *interfaces[GATEWAY_PORTS_MAX]; /* .. port p's at p - 1 */
};

enum options_read { OPTIONS_RUN, OPTIONS_HELP, OPTIONS_VERSION, OPTIONS_WRONG };

/* What to print for --help. */
extern const char OPTIONS_USAGE[];

/* Reads the command line. On OPTIONS_WRONG `error`, 200 bytes, says what is wrong. */
enum options_read options_read(int argc, char *argv[], struct options *options, char error[200]);

#endif
