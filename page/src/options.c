#include "options.h"

#include "../../gateway/src/number.h"

#include <arpa/inet.h>
#include <getopt.h>
#include <stdio.h>
#include <string.h>

#define ERROR_SIZE 200
#define PORT_MAX 65535

const char OPTIONS_USAGE[] =
    "usage: deorasaeng-page --status PATH --control PATH --users FILE [options]\n"
    "       deorasaeng-page --users FILE --set NAME ROLE\n"
    "The service page of a running deorasaeng-gateway, for a browser.\n"
    "  --status PATH      the gateway's status socket\n"
    "  --control PATH     the gateway's control socket\n"
    "  --users FILE       who may sign in: a line a user, NAME ROLE HASH; read again at SIGHUP\n"
    "  --set NAME ROLE    puts a user into that file; the password is a line of standard input. ROLE is\n"
    "                     viewer, fitter:P with P the port of the fitter's tool, or owner, who is port 1\n"
    "  --listen ADDRESS   127.0.0.1:8011 where none is given; [::1]:8011 as well. Port 0 is any free one.\n"
    "                     An address that is not the loopback needs a certificate\n"
    "  --certificate FILE, --key FILE    both in PEM: the page is then https\n"
    "  --host NAME        another name of this machine, as it stands in the browser's address line; up to four\n"
    "  --log LEVEL        error, warning, info (the default) or debug\n"
    "  -h, --help         this text\n"
    "  --version          the version of this program\n"
    "It ends on SIGTERM or SIGINT with status 0; 2 is a wrong command line, users file or address.\n";

enum option_code { OPTION_STATUS = 256, OPTION_CONTROL, OPTION_USERS, OPTION_SET, OPTION_LISTEN, OPTION_CERTIFICATE, OPTION_KEY, OPTION_HOST, OPTION_LOG, OPTION_VERSION };

static const struct option OPTIONS[] = {
    {"status", required_argument, NULL, OPTION_STATUS}, {"control", required_argument, NULL, OPTION_CONTROL},
    {"users", required_argument, NULL, OPTION_USERS},   {"set", required_argument, NULL, OPTION_SET},
    {"listen", required_argument, NULL, OPTION_LISTEN}, {"certificate", required_argument, NULL, OPTION_CERTIFICATE},
    {"key", required_argument, NULL, OPTION_KEY},       {"host", required_argument, NULL, OPTION_HOST},
    {"log", required_argument, NULL, OPTION_LOG},       {"version", no_argument, NULL, OPTION_VERSION},
    {"help", no_argument, NULL, 'h'},                   {NULL, 0, NULL, 0},
};

/* 127.0.0.1:8011 or [::1]:8011. */
static bool read_listen(const char *value, struct options *options)
{
    char host[INET6_ADDRSTRLEN];
    uint32_t port;
    const char *colon = strrchr(value, ':');
    size_t length = colon == NULL ? 0 : (size_t)(colon - value);
    bool six = *value == '[' && length >= 2 && value[length - 1] == ']';
    if (colon == NULL || length - (six ? 2 : 0) >= sizeof host || !number_read(colon + 1, PORT_MAX, &port))
        return false;
    memcpy(host, value + six, length - (six ? 2 : 0));
    host[length - (six ? 2 : 0)] = '\0';
    options->listen = value;
    memset(&options->address, 0, sizeof options->address);
    if (six) {
        options->address.six.sin6_family = AF_INET6;
        options->address.six.sin6_port = htons((uint16_t)port);
        bool read = inet_pton(AF_INET6, host, &options->address.six.sin6_addr) == 1;
        options->loopback = IN6_IS_ADDR_LOOPBACK(&options->address.six.sin6_addr);
        return read;
    }
    options->address.four.sin_family = AF_INET;
    options->address.four.sin_port = htons((uint16_t)port);
    bool read = inet_pton(AF_INET, host, &options->address.four.sin_addr) == 1;
    options->loopback = ntohl(options->address.four.sin_addr.s_addr) >> 24 == IN_LOOPBACKNET;
    return read;
}

static bool add_host(const char *value, struct options *options)
{
    if (options->hosts_count == OPTIONS_HOSTS || *value == '\0' || strlen(value) > 253 || strspn(value, "abcdefghijklmnopqrstuvwxyz0123456789.-") != strlen(value))
        return false;
    options->hosts[options->hosts_count++] = value;
    return true;
}

static bool read_value(int option, const char *value, struct options *options)
{
    switch (option) {
    case OPTION_STATUS:
        options->status = value;
        return true;
    case OPTION_CONTROL:
        options->control = value;
        return true;
    case OPTION_USERS:
        options->users = value;
        return true;
    case OPTION_SET:
        options->set_name = value;
        return true;
    case OPTION_CERTIFICATE:
        options->certificate = value;
        return true;
    case OPTION_KEY:
        options->key = value;
        return true;
    case OPTION_LISTEN:
        return read_listen(value, options);
    case OPTION_HOST:
        return add_host(value, options);
    default:
        return log_level_read(value, &options->log);
    }
}

/* What is missing or does not go together, or NULL. */
static const char *missing(struct options *options, int words, char *const *rest)
{
    if (options->users == NULL)
        return "--users is needed";
    if (options->set_name != NULL) {
        options->set_role = words == 1 ? rest[0] : NULL;
        return words == 1 ? NULL : "--set needs a NAME and a ROLE";
    }
    if (words > 0)
        return "a word too many";
    if (options->status == NULL || options->control == NULL)
        return "--status and --control are needed";
    if ((options->certificate == NULL) != (options->key == NULL))
        return "--certificate and --key go together";
    if (!options->loopback && options->certificate == NULL)
        return "--listen: an address that is not the loopback needs --certificate and --key";
    return NULL;
}

enum options_read options_read(int argc, char *argv[], struct options *options, char error[ERROR_SIZE])
{
    memset(options, 0, sizeof *options);
    options->log = LOG_INFO;
    read_listen("127.0.0.1:8011", options);
    optind = 0; /* the scan begins anew, for a second call */
    opterr = 0;
    for (;;) {
        int option = getopt_long(argc, argv, ":h", OPTIONS, NULL);
        if (option == -1)
            break;
        if (option == 'h' || option == OPTION_VERSION)
            return option == 'h' ? OPTIONS_HELP : OPTIONS_VERSION;
        if (option == ':' || option == '?' || !read_value(option, optarg, options)) {
            const char *why = option == ':' ? "a value is missing" : option == '?' ? "no such option" : "a wrong value";
            snprintf(error, ERROR_SIZE, "%.80s: %s", argv[optind - 1], why);
            return OPTIONS_WRONG;
        }
    }
    const char *why = missing(options, argc - optind, argv + optind);
    if (why != NULL) {
        snprintf(error, ERROR_SIZE, "%s", why);
        return OPTIONS_WRONG;
    }
    return options->set_name != NULL ? OPTIONS_SET : OPTIONS_RUN;
}
