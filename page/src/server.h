/* The HTTP server: libmicrohttpd with one thread, and what it needs of the other subjects. */
#ifndef PAGE_SERVER_H
#define PAGE_SERVER_H

#include "command.h"
#include "hosts.h"
#include "limits.h"
#include "sessions.h"
#include "watch.h"
#include "work.h"

#include <microhttpd.h>

#define BODY_BYTES CONTROL_LINE_BYTES
#define STREAMS_MAX 32
#define COOKIE_BYTES 32

struct stream;

struct server {
    const struct options *options;
    struct watch *watch;
    struct MHD_Daemon *daemon;
    struct hosts hosts;
    char cookie[COOKIE_BYTES];       /* its name, another at each port: browsers do not tell ports apart */
    pthread_mutex_t users_lock;      /* users are read again by another thread */
    struct users users;
    bool users_changed;
    struct sessions sessions;
    struct limits by_address, by_user; /* tries of passwords */
    struct work commands, passwords;
    pthread_mutex_t streams_lock;
    struct stream *streams;          /* those that are sent events */
    unsigned streams_count;
    bool ending;
};

/* A request while it is answered. */
struct request {
    struct server *server;
    struct MHD_Connection *connection;
    const struct route *route; /* NULL: no such thing here */
    struct session *session;   /* NULL: not signed in */
    char *body;                /* of a POST, with a 0 behind it */
    size_t length;
    struct task *task;         /* what another thread does for it; its first member is a struct job */
};

struct route {
    const char *method, *path;
    bool session, token; /* needs them */
    enum MHD_Result (*answer)(struct request *request);
};

/* Starts it. False after a line in the log. The port is the one that is listened at. */
bool server_start(struct server *server, const struct options *options, struct watch *watch, uint16_t *port);

/* There is a new document for those that are sent events. */
void server_wake(struct server *server);

/* Other users: sessions that do not fit them end. */
void server_users(struct server *server, const struct users *users);

void server_stop(struct server *server);

/* routes.c */
extern const struct route ROUTES[];
extern const size_t ROUTES_COUNT;

/* The request is over; what another thread did for it goes. */
void routes_end(struct request *request);

/* streams.c */
enum MHD_Result stream_answer(struct request *request);
void streams_wake(struct server *server);
void streams_end(struct server *server);

/* answers.c: sends a response with the headers that every response has, and lets it go. */
enum MHD_Result answer_send(struct request *request, unsigned status, struct MHD_Response *response, const char *type);

/* {"error":WORD}; the page has words for it. */
enum MHD_Result answer_error(struct request *request, unsigned status, const char *word);

/* JSON bytes, copied. */
enum MHD_Result answer_json(struct request *request, unsigned status, const char *bytes, size_t length);

/* A file of the page, or 404. */
enum MHD_Result answer_asset(struct request *request, const char *path);

#endif
