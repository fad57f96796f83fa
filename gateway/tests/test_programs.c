/* The programs as a person runs them, as far as that needs no CAN: words and status. The folder they stand in is the argument. */
#include "check.h"

#include <errno.h>
#include <signal.h>
#include <stdbool.h>
#include <stdlib.h>
#include <sys/socket.h>
#include <sys/un.h>
#include <sys/wait.h>
#include <time.h>
#include <unistd.h>

static const char *programs;
static char folder[] = "/tmp/gateway-programs-XXXXXX";
static char printed[65536]; /* what the last command printed on both */

static void read_printed(void)
{
    char path[64];
    snprintf(path, sizeof path, "%s/printed", folder);
    FILE *file = fopen(path, "r");
    size_t length = file == NULL ? 0 : fread(printed, 1, sizeof printed - 1, file);
    printed[length] = '\0';
    if (file != NULL)
        fclose(file);
}

/* Runs a program with these arguments: its status. PATH in them is the socket's. */
static int run(const char *program, const char *arguments)
{
    char command[1024];
    snprintf(command, sizeof command, "cd %s && P=%s/socket && %s/%s %s >printed 2>&1 </dev/null", folder, folder, programs, program, arguments);
    int status = system(command);
    read_printed();
    return WIFEXITED(status) ? WEXITSTATUS(status) : -1;
}

static bool says(const char *words)
{
    bool found = strstr(printed, words) != NULL;
    if (!found)
        printf("not said: %s\nbut: %s\n", words, printed);
    return found;
}

static void gateway_words(void)
{
    CHECK(run("deorasaeng-gateway", "-h") == 0 && says("usage: deorasaeng-gateway") && says("--version"));
    CHECK(run("deorasaeng-gateway", "--help") == 0 && says("usage: deorasaeng-gateway"));
    CHECK(run("deorasaeng-gateway", "--version") == 0 && says("deorasaeng-gateway 1.0, interface 11 of the unit\n"));
    CHECK(run("deorasaeng-gateway", "--name 1 --address 010 a b") == 2 && says("--address 010: not 0 to 253, decimal or 0x hex"));
    CHECK(run("deorasaeng-gateway", "--name 1 --address 8 --lists none a b") == 2 && says("none: no such file"));
    CHECK(run("deorasaeng-gateway", "--name 1 --address 8 no-such-bus-a no-such-bus-b") == 2 && says("no-such-bus-a: "));
    int fd = socket(PF_CAN, SOCK_RAW, 1);
    if (fd >= 0)
        close(fd);
    if (fd < 0 && errno == EAFNOSUPPORT)
        CHECK(run("deorasaeng-gateway", "--name 1 --address 8 can0 can1") == 2 && says("can0: this kernel has no CAN: load its modules"));
}

static void status_words(void)
{
    CHECK(run("deorasaeng-status", "--help") == 0 && says("usage: deorasaeng-status"));
    CHECK(run("deorasaeng-status", "-h") == 0 && says("usage: deorasaeng-status"));
    CHECK(run("deorasaeng-status", "--version") == 0 && says("deorasaeng-status 1.0\n"));
    CHECK(run("deorasaeng-status", "") == 2 && says("usage:"));
    CHECK(run("deorasaeng-status", "--jsn $P") == 2 && says("usage:"));
    CHECK(run("deorasaeng-status", "$P $P") == 2 && says("usage:"));
    CHECK(run("deorasaeng-status", "$P") == 1 && says("No such file"));
}

/* A server that gives one client these bytes and closes, or says nothing at all: its process. */
static pid_t serve(const char *bytes, size_t length, bool silent)
{
    struct sockaddr_un address;
    memset(&address, 0, sizeof address);
    address.sun_family = AF_UNIX;
    snprintf(address.sun_path, sizeof address.sun_path, "%s/socket", folder);
    unlink(address.sun_path);
    int fd = socket(AF_UNIX, SOCK_STREAM, 0);
    CHECK(fd >= 0 && bind(fd, (const struct sockaddr *)&address, sizeof address) == 0 && listen(fd, 1) == 0);
    pid_t child = fork();
    if (child == 0) {
        int client = accept(fd, NULL, NULL);
        if (silent)
            sleep(20);
        for (size_t at = 0; at < length; at++) /* in pieces */
            if (write(client, bytes + at, 1) != 1)
                _exit(1);
        _exit(0);
    }
    close(fd);
    return child;
}

/* What deorasaeng-status makes of these bytes. */
static int shown(const char *bytes, size_t length, const char *option)
{
    char arguments[64];
    pid_t server = serve(bytes, length, false);
    snprintf(arguments, sizeof arguments, "%s $P", option);
    int status = run("deorasaeng-status", arguments);
    waitpid(server, NULL, 0);
    return status;
}

static const char DOCUMENT[] =
    "{\"schema\":1,\"program\":\"1.0\",\"interface\":8,\"time\":\"2026-11-17T19:40:00.123Z\",\"unit\":{\"name\":\"20001C000AC00123\",\"preferred\":8,\"ports\":2,\"state\":\"Lost\",\"address\":null,\"seconds\":12},"
    "\"ports\":[{\"port\":1,\"interface\":\"can0\",\"state\":\"up\",\"in\":7},{\"port\":2,\"interface\":\"can1\",\"state\":\"down\"}],"
    "\"pairs\":[{\"from\":1,\"to\":2,\"crossed\":3,\"lost\":1,\"losses\":1,\"reasons\":{\"listed in pass\":4}},{\"from\":2,\"to\":1,\"reasons\":{}}],"
    "\"lists\":[{\"from\":1,\"to\":2,\"mode\":\"pass\",\"pgns\":[61444]},{\"from\":2,\"to\":1,\"mode\":\"cleared\",\"pgns\":[]}],\"lists_saved\":true,\"lists_edited\":false,"
    "\"addresses\":null,\"frames\":[],\"commands\":[]}";

static void status_documents(void)
{
    CHECK(shown(DOCUMENT, sizeof DOCUMENT - 1, "") == 0 && says("no address, Lost") && says("1 to 2 pass: 61444") && says("1 to 2: crossed 3, lost 1, listed in pass 4") && strstr(printed, "address 8") == NULL);
    CHECK(shown(DOCUMENT, sizeof DOCUMENT - 1, "--json") == 0 && strncmp(printed, DOCUMENT, sizeof DOCUMENT - 1) == 0);
    CHECK(shown("", 0, "") == 1 && says("an empty answer") && strstr(printed, "cleared") == NULL);
    CHECK(shown("", 0, "--json") == 1 && says("an empty answer"));
    CHECK(shown("{}", 2, "") == 1 && says("no status of a gateway"));
    CHECK(shown("[1]", 3, "") == 1 && says("cut or garbled"));
    CHECK(shown("<html>", 6, "") == 1 && says("cut or garbled"));
    for (size_t length = 1; length < sizeof DOCUMENT - 1; length += 37)
        CHECK(shown(DOCUMENT, length, "") == 1 && says("cut or garbled") && strstr(printed, "all") == NULL);
    char wrong[sizeof DOCUMENT];
    memcpy(wrong, DOCUMENT, sizeof wrong);
    memcpy(strstr(wrong, "\"pass\""), "\"parr\"", 6);
    CHECK(shown(wrong, sizeof wrong - 1, "") == 1 && says("no status of a gateway"));
    memcpy(wrong, DOCUMENT, sizeof wrong);
    memcpy(strstr(wrong, "commands"), "kommands", 8);
    CHECK(shown(wrong, sizeof wrong - 1, "") == 1 && says("no status of a gateway"));
    memcpy(wrong, DOCUMENT, sizeof wrong);
    wrong[sizeof "{\"schema\":" - 1] = '2';
    CHECK(shown(wrong, sizeof wrong - 1, "") == 1 && says("another schema"));
    memcpy(wrong, DOCUMENT, sizeof wrong);
    memset(strstr(wrong, "Lost"), 0, 1);
    CHECK(shown(wrong, sizeof wrong - 1, "") == 1 && says("cut or garbled"));
}

static void status_of_the_silent(void)
{
    time_t before = time(NULL);
    pid_t server = serve("", 0, true);
    CHECK(run("deorasaeng-status", "$P") == 1 && says("no answer within 5 s"));
    time_t took = time(NULL) - before;
    CHECK(took >= 4 && took <= 9);
    CHECK(kill(server, SIGKILL) == 0 && waitpid(server, NULL, 0) == server);
}

static void clean(void)
{
    static const char *const NAMES[] = {"printed", "socket"};
    char path[64];
    for (size_t i = 0; i < sizeof NAMES / sizeof NAMES[0]; i++) {
        snprintf(path, sizeof path, "%s/%s", folder, NAMES[i]);
        CHECK(unlink(path) == 0);
    }
    CHECK(rmdir(folder) == 0);
}

int main(int argc, char *argv[])
{
    programs = argc > 1 ? argv[1] : ".";
    CHECK(mkdtemp(folder) != NULL);
    gateway_words();
    status_words();
    status_documents();
    status_of_the_silent();
    clean();
    return checks_end("programs");
}
