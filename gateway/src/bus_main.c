/* deorasaeng-bus: buses without CAN, for trying the gateway where there is none. */
#include "bus_commands.h"
#include "version.h"

#include <stdbool.h>
#include <stdio.h>
#include <stdlib.h>
#include <string.h>

static const char USAGE[] =
    "usage: deorasaeng-bus serve [--bitrate RATE] PATH ..   buses without CAN, each a socket at its path, until SIGTERM or SIGINT\n"
    "       deorasaeng-bus dump PATH ..                     prints what stands on the buses, as candump -L does\n"
    "       deorasaeng-bus send PATH FRAME ..               sends frames, as cansend does: 18FEF121#0102\n"
    "       deorasaeng-bus play <LOG                        sends the frames of a log, (SECONDS) PATH FRAME a line, at its times\n"
    "deorasaeng-gateway joins such a bus under the name unix:PATH. RATE is in bits a second; without it frames take no time. One to eight\n"
    "buses, sixteen clients each. Status 1: a bus ended, or a frame was not sent; 2: wrong words, or no bus there.\n";

static int wrong_words(void)
{
    fputs(USAGE, stderr);
    return BUS_WRONG;
}

/* --bitrate RATE in front of the paths. False: there is one, and it is wrong. */
static bool read_bitrate(int *count, char ***words, uint32_t *bitrate)
{
    char *end;
    *bitrate = 0;
    if (*count < 1 || strcmp(**words, "--bitrate") != 0)
        return true;
    if (*count < 2 || strspn((*words)[1], "0123456789") != strlen((*words)[1]) || strlen((*words)[1]) > 7)
        return false;
    *bitrate = (uint32_t)strtoul((*words)[1], &end, 10);
    *count -= 2;
    *words += 2;
    return *bitrate > 0;
}

static int serve(int count, char *words[])
{
    uint32_t bitrate;
    if (!read_bitrate(&count, &words, &bitrate)) {
        fputs("deorasaeng-bus: --bitrate: 1 to 9999999 bits a second\n", stderr);
        return BUS_WRONG;
    }
    return count < 1 || count > BUSES_MAX ? wrong_words() : bus_serve(bitrate, count, words);
}

int main(int argc, char *argv[])
{
    const char *command = argc > 1 ? argv[1] : "";
    if (strcmp(command, "--help") == 0 || strcmp(command, "-h") == 0)
        return fputs(USAGE, stdout) >= 0 && fflush(stdout) == 0 ? BUS_DONE : BUS_FAILED;
    if (strcmp(command, "--version") == 0)
        return puts("deorasaeng-bus " GATEWAY_VERSION) >= 0 && fflush(stdout) == 0 ? BUS_DONE : BUS_FAILED;
    if (strcmp(command, "serve") == 0)
        return serve(argc - 2, argv + 2);
    if (strcmp(command, "dump") == 0 && argc > 2 && argc - 2 <= BUSES_MAX)
        return bus_dump(argc - 2, argv + 2);
    if (strcmp(command, "send") == 0 && argc > 3)
        return bus_send(argv[2], argc - 3, argv + 3);
    if (strcmp(command, "play") == 0 && argc == 2)
        return bus_play();
    return wrong_words();
}
