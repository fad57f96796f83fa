/* The command line. */
#include "../src/options.h"
#include "check.h"

static struct options options;
static char error[200];

/* As long as a socket's path may be, 107 bytes. */
#define TWENTY "/twenty-bytes-a-name"
#define LONG_PATH TWENTY TWENTY TWENTY TWENTY TWENTY "/seven."

#define READ(...) read_words((const char *[]){"deorasaeng-gateway", __VA_ARGS__, NULL})

static enum options_read read_words(const char *words[])
{
    static char copies[24][128];
    char *argv[24];
    int argc = 0;
    for (; argc < 23 && words[argc] != NULL; argc++) {
        snprintf(copies[argc], sizeof copies[argc], "%s", words[argc]);
        argv[argc] = copies[argc];
    }
    argv[argc] = NULL;
    memset(error, 0, sizeof error);
    return options_read(argc, argv, &options, error);
}

static void good(void)
{
    CHECK(READ("--name", "20001C000AC00123", "--address", "0x80", "a", "b", "c", "d") == OPTIONS_RUN);
    CHECK(options.name == UINT64_C(0x20001C000AC00123) && options.address == 128);
    CHECK(options.lists == NULL && options.status == NULL && options.log == LOG_INFO && options.ports == 4);
    CHECK_TEXT(options.interfaces[0], "a");
    CHECK_TEXT(options.interfaces[3], "d");
    CHECK(READ("a", "--name=0xFFFFFFFFFFFFFFFF", "b", "--address=253", "--lists", "l", "--status", "s", "--log", "debug", "c", "d") == OPTIONS_RUN);
    CHECK(options.name == UINT64_MAX && options.address == 253 && options.log == LOG_DEBUG);
    CHECK_TEXT(options.lists, "l");
    CHECK_TEXT(options.status, "s");
    CHECK(READ("--help") == OPTIONS_HELP && READ("-h") == OPTIONS_HELP && READ("--version") == OPTIONS_VERSION);
    CHECK(READ("--name", "1", "--address", "0", "a", "b") == OPTIONS_RUN && options.address == 0);
    CHECK(READ("--name", "1", "--address", "0XfD", "a", "b") == OPTIONS_RUN && options.address == 253);
    CHECK(READ("--name", "1", "--address", "1", "a", "b") == OPTIONS_RUN && options.ports == 2);
    CHECK(READ("--name", "1", "--address", "1", "a", "b", "c", "d", "e", "f", "g", "h") == OPTIONS_RUN && options.ports == 8);
    CHECK_TEXT(options.interfaces[7], "h");
    CHECK(READ("--name", "1", "--address", "1", "unix:/run/buses/a", "b") == OPTIONS_RUN);
    CHECK_TEXT(options.interfaces[0], "unix:/run/buses/a");
}

static void wrong(void)
{
    CHECK(READ("a", "b", "c", "d") == OPTIONS_WRONG);
    CHECK_TEXT(error, "--name is needed");
    CHECK(READ("--name", "1", "a", "b", "c", "d") == OPTIONS_WRONG);
    CHECK_TEXT(error, "--address is needed");
    CHECK(READ("--name", "1", "--address", "254", "a", "b", "c", "d") == OPTIONS_WRONG);
    CHECK(READ("--name", "1", "--address", "-1", "a", "b", "c", "d") == OPTIONS_WRONG);
    CHECK(READ("--name", "1", "--address", "", "a", "b", "c", "d") == OPTIONS_WRONG);
    CHECK(READ("--name", "1", "--address", "12x", "a", "b", "c", "d") == OPTIONS_WRONG);
    CHECK(READ("--name", "1", "--address", "010", "a", "b", "c", "d") == OPTIONS_WRONG);
    CHECK_TEXT(error, "--address 010: not 0 to 253, decimal or 0x hex");
    CHECK(READ("--name", "1", "--address", "0x", "a", "b", "c", "d") == OPTIONS_WRONG);
    CHECK(READ("--name", "1", "--address", "+1", "a", "b", "c", "d") == OPTIONS_WRONG);
    CHECK(READ("--name", "1", "--address", " 1", "a", "b", "c", "d") == OPTIONS_WRONG);
    CHECK(READ("--name", "1", "--address", "4294967297", "a", "b", "c", "d") == OPTIONS_WRONG);
    CHECK(READ("--name", "0x", "--address", "1", "a", "b", "c", "d") == OPTIONS_WRONG);
    CHECK(READ("--name", "10000000000000000", "--address", "1", "a", "b", "c", "d") == OPTIONS_WRONG);
    CHECK(READ("--name", "xyz", "--address", "1", "a", "b", "c", "d") == OPTIONS_WRONG);
    CHECK(READ("--name", "1", "--address", "1", "a") == OPTIONS_WRONG);
    CHECK_TEXT(error, "1 interfaces given, 2 to 8 needed");
    CHECK(READ("--name", "1", "--address", "1", "a", "b", "c", "d", "e", "f", "g", "h", "i") == OPTIONS_WRONG);
    CHECK_TEXT(error, "9 interfaces given, 2 to 8 needed");
    CHECK(READ("--name", "1", "--address", "1") == OPTIONS_WRONG);
    CHECK(READ("--name", "1", "--address", "1", "a", "b", "c", "a") == OPTIONS_WRONG);
    CHECK_TEXT(error, "a is named twice");
    CHECK(READ("--name", "1", "--address", "1", "a", "b", "c", "an-interface-name") == OPTIONS_WRONG);
    CHECK(READ("--name", "1", "--address", "1", "unix:", "b") == OPTIONS_WRONG);
    CHECK(READ("--name", "1", "--address", "1", "unix:" LONG_PATH, "b") == OPTIONS_RUN);
    CHECK(READ("--name", "1", "--address", "1", "unix:" LONG_PATH "x", "b") == OPTIONS_WRONG);
    CHECK(READ("--name", "1", "--address", "1", "--log", "loud", "a", "b", "c", "d") == OPTIONS_WRONG);
    CHECK(READ("--name", "1", "--address", "1", "--status", "", "a", "b", "c", "d") == OPTIONS_WRONG);
    CHECK(READ("--name", "1", "--address", "1", "--control", "", "a", "b") == OPTIONS_WRONG);
    CHECK_TEXT(error, "--control: a socket's path has 1 to 107 bytes");
    CHECK(READ("--nonsense", "a", "b", "c", "d") == OPTIONS_WRONG);
    CHECK_TEXT(error, "--nonsense: no such option");
    CHECK(READ("-x", "a", "b", "c", "d") == OPTIONS_WRONG);
    CHECK(READ("a", "b", "c", "d", "--name") == OPTIONS_WRONG);
    CHECK_TEXT(error, "--name: a value is missing");
}

static void groups(void)
{
    CHECK(READ("--name", "1", "--address", "1", "--control", "c", "--control-group", "g", "a", "b") == OPTIONS_RUN && options.control_gid == (gid_t)-1);
    CHECK_TEXT(options.control, "c");
    CHECK_TEXT(options.control_group, "g");
    CHECK(READ("--name", "1", "--address", "1", "--status", "s", "--status-group", "g", "a", "b") == OPTIONS_RUN && options.status_gid == (gid_t)-1);
    CHECK_TEXT(options.status_group, "g");
    CHECK(READ("--name", "1", "--address", "1", "--control-group", "g", "a", "b") == OPTIONS_WRONG);
    CHECK_TEXT(error, "--control-group is for --control, which is not given");
    CHECK(READ("--name", "1", "--address", "1", "--control", "c", "--status-group", "g", "a", "b") == OPTIONS_WRONG);
    CHECK_TEXT(error, "--status-group is for --status, which is not given");
}

int main(void)
{
    good();
    wrong();
    groups();
    return checks_end("options");
}
