/* deorasaeng-page: the service page of a running deorasaeng-gateway. */
#include "server.h"
#include "version.h"

#include "../../gateway/src/clock.h"

#include <errno.h>
#include <signal.h>
#include <stdio.h>
#include <string.h>
#include <termios.h>
#include <time.h>
#include <unistd.h>

enum exit_status { EXIT_DONE = 0, EXIT_FAILED = 1, EXIT_WRONG = 2 };

static const char PROGRAM[] = "deorasaeng-page";

static bool load_users(const struct options *options, struct users *users)
{
    char error[USERS_ERROR];
    if (users_load(options->users, users, error))
        return true;
    log_line(LOG_ERROR, "%s: %s", options->users, error);
    return false;
}

/* A line of standard input, which a terminal does not show. */
static void read_password(char *password, int size)
{
    struct termios before, silent;
    bool terminal = tcgetattr(STDIN_FILENO, &before) == 0;
    if (terminal) {
        silent = before;
        silent.c_lflag &= ~(tcflag_t)ECHO;
        terminal = tcsetattr(STDIN_FILENO, TCSAFLUSH, &silent) == 0;
        fputs("password: ", stderr);
    }
    if (fgets(password, size, stdin) == NULL)
        password[0] = '\0';
    password[strcspn(password, "\r\n")] = '\0';
    if (terminal && tcsetattr(STDIN_FILENO, TCSAFLUSH, &before) == 0)
        fputs("\n", stderr);
}

/* Puts a user into the file. */
static int set_user(const struct options *options)
{
    char password[USER_PASSWORD + 2], error[USERS_ERROR];
    read_password(password, sizeof password);
    bool done = users_set(options->users, options->set_name, options->set_role, password, error);
    explicit_bzero(password, sizeof password);
    if (!done)
        fprintf(stderr, "%s: %s: %s\n", PROGRAM, options->users, error);
    return done ? EXIT_DONE : EXIT_WRONG;
}

/* SIGTERM, SIGINT and SIGHUP are waited for; every thread that is begun later has them blocked too. */
static bool block_signals(sigset_t *set)
{
    return sigemptyset(set) == 0 && sigaddset(set, SIGTERM) == 0 && sigaddset(set, SIGINT) == 0 && sigaddset(set, SIGHUP) == 0 &&
           pthread_sigmask(SIG_BLOCK, set, NULL) == 0 && signal(SIGPIPE, SIG_IGN) != SIG_ERR;
}

/* Waits until that time: a signal that came, or 0. */
static int wait_until(const sigset_t *set, int64_t at)
{
    int64_t left = at - clock_now();
    const struct timespec rest = {(time_t)((left > 0 ? left : 0) / CLOCK_SECOND), (long)((left > 0 ? left : 0) % CLOCK_SECOND)};
    int number = sigtimedwait(set, NULL, &rest);
    return number > 0 ? number : 0;
}

/* Asks the gateway once a second, until a signal ends it. */
static void watch_on(struct server *server, struct watch *watch, const sigset_t *set, struct users *users)
{
    int64_t next = clock_now();
    for (;;) {
        watch_ask(watch);
        server_wake(server);
        next += CLOCK_SECOND;
        if (next < clock_now())
            next = clock_now();
        for (int number = wait_until(set, next); number != 0; number = wait_until(set, next)) {
            if (number != SIGHUP)
                return;
            if (load_users(server->options, users))
                server_users(server, users);
        }
    }
}

static int run(const struct options *options)
{
    static struct server server;
    static struct watch watch;
    static struct users users;
    sigset_t set;
    uint16_t port;
    if (!load_users(options, &users))
        return EXIT_WRONG;
    if (!block_signals(&set) || !watch_open(&watch, options->status)) {
        log_line(LOG_ERROR, "%s", strerror(errno));
        return EXIT_FAILED;
    }
    server.users = users;
    if (!server_start(&server, options, &watch, &port))
        return EXIT_WRONG;
    if (server.hosts.count > 0)
        log_line(LOG_INFO, "listens at %s%s/, %u users", server.hosts.scheme, server.hosts.at[0], (unsigned)users.count);
    watch_on(&server, &watch, &set, &users);
    server_stop(&server);
    watch_close(&watch);
    return EXIT_DONE;
}

static int say(const char *text)
{
    return fputs(text, stdout) >= 0 && fflush(stdout) == 0 ? EXIT_DONE : EXIT_FAILED;
}

int main(int argc, char *argv[])
{
    struct options options;
    char error[200];
    switch (options_read(argc, argv, &options, error)) {
    case OPTIONS_HELP:
        return say(OPTIONS_USAGE);
    case OPTIONS_VERSION:
        return say("deorasaeng-page " PAGE_VERSION "\n");
    case OPTIONS_SET:
        return set_user(&options);
    case OPTIONS_WRONG:
        fprintf(stderr, "%s: %s\n%s", PROGRAM, error, OPTIONS_USAGE);
        return EXIT_WRONG;
    case OPTIONS_RUN:
        break;
    }
    log_open(options.log);
    return run(&options);
}
