/* deorasaeng-gateway: the proved bridge on two to eight interfaces of SocketCAN. */
#include "clock.h"
#include "gateway.h"
#include "lists_file.h"
#include "log.h"
#include "loop.h"
#include "number.h"
#include "version.h"

#include <errno.h>
#include <grp.h>
#include <stdio.h>
#include <string.h>
#include <unistd.h>

enum exit_status { EXIT_DONE = 0, EXIT_FAILED = 1, EXIT_WRONG = 2 };

static const char PROGRAM[] = "deorasaeng-gateway";

static bool load_lists(struct gateway *gateway)
{
    struct lists_error error;
    const char *path = gateway->options.lists;
    if (path == NULL || lists_file_load(path, gateway->options.ports, &gateway->lists, &gateway->saver.known, &error))
        return true;
    if (error.line == 0)
        fprintf(stderr, "%s: %s: %s\n", PROGRAM, path, error.text);
    else
        fprintf(stderr, "%s: %s:%u: %s\n", PROGRAM, path, error.line, error.text);
    return false;
}

/* Why an interface cannot be opened, in words. */
static const char *open_error(int number)
{
    if (number == EAFNOSUPPORT || number == EPROTONOSUPPORT || number == ESOCKTNOSUPPORT)
        return "this kernel has no CAN: load its modules with `modprobe can_raw`, or take a kernel that has them";
    return number == ENODEV ? "no such CAN interface" : strerror(number);
}

static bool open_ports(struct gateway *gateway)
{
    for (uint32_t i = 0; i < gateway->options.ports; i++)
        if (!port_open(&gateway->ports[i], i + 1, gateway->options.interfaces[i])) {
            fprintf(stderr, "%s: %s: %s\n", PROGRAM, gateway->options.interfaces[i], open_error(errno));
            return false;
        }
    return true;
}

/* The group of a socket. Looked up before the bridge runs, for that allocates. */
static bool find_group(const char *option, const char *name, gid_t *gid)
{
    uint32_t number;
    if (name == NULL)
        return true;
    const struct group *group = getgrnam(name);
    if (group == NULL && !number_read(name, INT32_MAX, &number)) {
        fprintf(stderr, "%s: %s %s: no such group\n", PROGRAM, option, name);
        return false;
    }
    *gid = group == NULL ? number : group->gr_gid;
    return true;
}

static bool find_groups(struct options *options)
{
    return find_group("--status-group", options->status_group, &options->status_gid) && find_group("--control-group", options->control_group, &options->control_gid);
}

/* Takes a socket's path away. */
static void remove_socket(const struct server *server, const char *path)
{
    if (server->fd >= 0 && unlink(path) != 0)
        log_line(LOG_WARNING, "%s: %s", path, strerror(errno));
}

static int run(struct gateway *gateway)
{
    static struct loop loop;
    gateway->began_at = clock_now();
    gateway->saver.path = gateway->options.lists;
    gateway->reading = gateway->options.lists == NULL;
    uint32_t number = unit_power_on(&gateway->unit, gateway->options.name, gateway->options.address, gateway->options.ports);
    if (number != 0) {
        log_line(LOG_ERROR, "power-on refused with %u", number);
        return EXIT_FAILED;
    }
    bool ended = loop_open(&loop, gateway) && loop_run(&loop, gateway);
    saver_finish(&gateway->saver, &gateway->unit.lists);
    remove_socket(&loop.status, gateway->options.status);
    remove_socket(&loop.control.server, gateway->options.control);
    gateway_summary(gateway);
    return ended ? EXIT_DONE : EXIT_FAILED;
}

static int say(const char *text)
{
    return fputs(text, stdout) >= 0 && fflush(stdout) == 0 ? EXIT_DONE : EXIT_FAILED;
}

int main(int argc, char *argv[])
{
    static struct gateway gateway;
    char error[200];
    switch (options_read(argc, argv, &gateway.options, error)) {
    case OPTIONS_HELP:
        return say(OPTIONS_USAGE);
    case OPTIONS_VERSION:
        printf("%s %s, interface %d of the unit\n", PROGRAM, GATEWAY_VERSION, DEORASAENG_VERSION);
        return say("");
    case OPTIONS_WRONG:
        fprintf(stderr, "%s: %s\n%s", PROGRAM, error, OPTIONS_USAGE);
        return EXIT_WRONG;
    case OPTIONS_RUN:
        break;
    }
    log_open(gateway.options.log);
    if (!find_groups(&gateway.options) || !load_lists(&gateway) || !open_ports(&gateway))
        return EXIT_WRONG;
    return run(&gateway);
}
