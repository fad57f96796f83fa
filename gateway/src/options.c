#include "options.h"

#include "number.h"
#include "unix_bus.h"

#include <getopt.h>
#include <net/if.h>
#include <stdio.h>
#include <string.h>
#include <sys/un.h>

#define ERROR_SIZE 200
#define ADDRESS_MAX 253

const char OPTIONS_USAGE[] =
    "usage: deorasaeng-gateway --name NAME --address ADDRESS [options] IF1 IF2 ..\n"
    "A bridge between two to eight CAN interfaces; IF1 is port 1, the service port. unix:PATH is a bus without CAN\n"
    "(deorasaeng-bus).\n"
    "  --name NAME        the unit's NAME, 64 bits in hex (ISO 11783-5), unique on the buses\n"
    "  --address ADDRESS  the address it claims, 0 to 253, decimal or 0x hex\n"
    "  --lists FILE       filter lists, set from FILE at start and saved there when a command changed one\n"
    "  --status PATH      a Unix socket that answers each connection with the state as JSON; its rights are the owner's\n"
    "  --status-group G   its group, a name or a number, which may ask then too\n"
    "  --control PATH     a Unix socket that does commands, a JSON object a line; its rights are 0660\n"
    "  --control-group G  its group, a name or a number; else that of the program\n"
    "  --log LEVEL        error, warning, info (the default) or debug\n"
    "  -h, --help         this text\n"
    "  --version          the version of this program and of the unit's interface\n"
    "It ends on SIGTERM, SIGINT or SIGHUP with a summary and status 0; 2 is a wrong command line, lists file or interface.\n";

enum option_code { OPTION_NAME = 256, OPTION_ADDRESS, OPTION_LISTS, OPTION_STATUS, OPTION_STATUS_GROUP, OPTION_CONTROL, OPTION_CONTROL_GROUP, OPTION_LOG, OPTION_VERSION };

static const struct option OPTIONS[] = {
    {"name", required_argument, NULL, OPTION_NAME},     {"address", required_argument, NULL, OPTION_ADDRESS},
    {"lists", required_argument, NULL, OPTION_LISTS},   {"status", required_argument, NULL, OPTION_STATUS},
    {"status-group", required_argument, NULL, OPTION_STATUS_GROUP},
    {"control", required_argument, NULL, OPTION_CONTROL}, {"control-group", required_argument, NULL, OPTION_CONTROL_GROUP},
    {"log", required_argument, NULL, OPTION_LOG},       {"version", no_argument, NULL, OPTION_VERSION},
    {"help", no_argument, NULL, 'h'},                   {NULL, 0, NULL, 0},
};

/* What was given besides the fields of struct options. */
struct given {
    bool name, address;
};

static bool socket_path(const char *option, const char *value, char *error)
{
    size_t room = sizeof ((struct sockaddr_un *)NULL)->sun_path;
    if (value[0] != '\0' && strlen(value) < room)
        return true;
    snprintf(error, ERROR_SIZE, "%s: a socket's path has 1 to %zu bytes", option, room - 1);
    return false;
}

static bool read_value(int option, const char *value, struct options *options, struct given *given, char *error)
{
    switch (option) {
    case OPTION_NAME:
        given->name = number_read_hex(value, &options->name);
        if (!given->name)
            snprintf(error, ERROR_SIZE, "--name %.40s: not a NAME of up to 16 hex digits", value);
        return given->name;
    case OPTION_ADDRESS:
        given->address = number_read(value, ADDRESS_MAX, &options->address);
        if (!given->address)
            snprintf(error, ERROR_SIZE, "--address %.40s: not 0 to %d, decimal or 0x hex", value, ADDRESS_MAX);
        return given->address;
    case OPTION_LISTS:
        options->lists = value;
        return true;
    case OPTION_STATUS:
        options->status = value;
        return socket_path("--status", value, error);
    case OPTION_CONTROL:
        options->control = value;
        return socket_path("--control", value, error);
    case OPTION_STATUS_GROUP:
        options->status_group = value;
        return true;
    case OPTION_CONTROL_GROUP:
        options->control_group = value;
        return true;
    default:
        if (log_level_read(value, &options->log))
            return true;
        snprintf(error, ERROR_SIZE, "--log %.40s: not error, warning, info or debug", value);
        return false;
    }
}

/* The name of an interface that the kernel could have, or of a bus without CAN. */
static bool is_name(const char *word)
{
    const char *path = unix_bus_path(word);
    return path == NULL ? word[0] != '\0' && strlen(word) < IFNAMSIZ : path[0] != '\0' && strlen(path) < UNIX_SOCKET_PATH_BYTES;
}

static bool read_interfaces(int count, char *words[], struct options *options, char *error)
{
    if (count < GATEWAY_PORTS_MIN || count > GATEWAY_PORTS_MAX) {
        snprintf(error, ERROR_SIZE, "%d interfaces given, %d to %d needed", count, GATEWAY_PORTS_MIN, GATEWAY_PORTS_MAX);
        return false;
    }
    options->ports = (uint32_t)count;
    for (int i = 0; i < count; i++) {
        if (!is_name(words[i])) {
            snprintf(error, ERROR_SIZE, "%.40s: not the name of an interface", words[i]);
            return false;
        }
        for (int j = 0; j < i; j++)
            if (strcmp(words[i], words[j]) == 0) {
                snprintf(error, ERROR_SIZE, "%s is named twice", words[i]);
                return false;
            }
        options->interfaces[i] = words[i];
    }
    return true;
}

static bool missing(const struct given *given, const struct options *options, char *error)
{
    bool control = options->control_group != NULL && options->control == NULL, status = options->status_group != NULL && options->status == NULL;
    if (!given->name || !given->address)
        snprintf(error, ERROR_SIZE, "%s is needed", given->name ? "--address" : "--name");
    else if (control || status)
        snprintf(error, ERROR_SIZE, "--%s-group is for --%s, which is not given", control ? "control" : "status", control ? "control" : "status");
    else
        return false;
    return true;
}

enum options_read options_read(int argc, char *argv[], struct options *options, char error[ERROR_SIZE])
{
    struct given given = {false, false};
    memset(options, 0, sizeof *options);
    options->log = LOG_INFO;
    options->status_gid = options->control_gid = (gid_t)-1;
    optind = 0; /* the scan begins anew, for a second call */
    opterr = 0;
    for (;;) {
        int option = getopt_long(argc, argv, ":h", OPTIONS, NULL);
        if (option == -1)
            break;
        if (option == 'h' || option == OPTION_VERSION)
            return option == 'h' ? OPTIONS_HELP : OPTIONS_VERSION;
        if (option == ':' || option == '?') {
            snprintf(error, ERROR_SIZE, "%.80s: %s", argv[optind - 1], option == ':' ? "a value is missing" : "no such option");
            return OPTIONS_WRONG;
        }
        if (!read_value(option, optarg, options, &given, error))
            return OPTIONS_WRONG;
    }
    if (missing(&given, options, error) || !read_interfaces(argc - optind, argv + optind, options, error))
        return OPTIONS_WRONG;
    return OPTIONS_RUN;
}
