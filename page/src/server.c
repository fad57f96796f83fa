#include "server.h"

#include "../../gateway/src/clock.h"
#include "../../gateway/src/log.h"

#include <errno.h>
#include <fcntl.h>
#include <stdio.h>
#include <stdlib.h>
#include <string.h>
#include <unistd.h>

#define CONNECTIONS 256
/* Of these one machine may have so many; on the loopback all are one. */
#define CONNECTIONS_OF_ONE 64
#define IDLE_SECONDS 30U
#define HEADER_BYTES 32768
#define PEM_BYTES 65536
/* Jobs that wait for another thread: commands, passwords. */
#define COMMANDS_WAITING 16
#define PASSWORDS_WAITING 4

static const struct limit TRIES_BY_ADDRESS = {3 * CLOCK_SECOND, 20}, TRIES_BY_USER = {15 * CLOCK_SECOND, 5};

static const char *header(const struct request *request, const char *name)
{
    return MHD_lookup_connection_value(request->connection, MHD_HEADER_KIND, name);
}

/* Where the request comes from another page, or pretends to: the word of the refusal, or NULL. */
static const char *foreign(const struct request *request, bool posts)
{
    const struct hosts *hosts = &request->server->hosts;
    const char *host = header(request, MHD_HTTP_HEADER_HOST), *origin = header(request, MHD_HTTP_HEADER_ORIGIN), *site = header(request, "Sec-Fetch-Site");
    if (!hosts_know(hosts, host))
        return "host";
    if (origin == NULL ? posts : !hosts_is_origin(hosts, origin, host))
        return "origin";
    return site == NULL || strcmp(site, "same-origin") == 0 || (strcmp(site, "none") == 0 && !posts) ? NULL : "origin";
}

static const struct route *find_route(const char *method, const char *path)
{
    for (size_t i = 0; i < ROUTES_COUNT; i++)
        if (strcmp(ROUTES[i].path, path) == 0 && strcmp(ROUTES[i].method, method) == 0)
            return &ROUTES[i];
    return NULL;
}

static bool is_known(const char *path)
{
    for (size_t i = 0; i < ROUTES_COUNT; i++)
        if (strcmp(ROUTES[i].path, path) == 0)
            return true;
    return false;
}

/* The users were read again: sessions are the server's thread's, so it looks itself. */
static void look_at_users(struct server *server)
{
    pthread_mutex_lock(&server->users_lock);
    if (server->users_changed)
        sessions_keep(&server->sessions, &server->users);
    server->users_changed = false;
    pthread_mutex_unlock(&server->users_lock);
}

/* A file of the page: to be had by everybody, there is nothing in them. */
static enum MHD_Result answer_file(struct request *request, const char *method, const char *path)
{
    if (strcmp(method, "GET") != 0 && strcmp(method, "HEAD") != 0)
        return answer_error(request, MHD_HTTP_METHOD_NOT_ALLOWED, "method");
    if (!hosts_know(&request->server->hosts, header(request, MHD_HTTP_HEADER_HOST)))
        return answer_error(request, MHD_HTTP_FORBIDDEN, "host");
    return answer_asset(request, strcmp(path, "/") == 0 ? "/index.html" : path);
}

static enum MHD_Result answer(struct request *request, const char *method, const char *path)
{
    const struct route *route = request->route;
    struct server *server = request->server;
    if (route == NULL)
        return is_known(path) ? answer_error(request, MHD_HTTP_METHOD_NOT_ALLOWED, "method") : answer_file(request, method, path);
    bool posts = strcmp(method, "POST") == 0;
    const char *refused = foreign(request, posts), *type = header(request, MHD_HTTP_HEADER_CONTENT_TYPE);
    if (refused != NULL)
        return answer_error(request, MHD_HTTP_FORBIDDEN, refused);
    if (posts && (request->body == NULL || type == NULL || strcmp(type, "application/json") != 0))
        return answer_error(request, MHD_HTTP_UNSUPPORTED_MEDIA_TYPE, "type");
    look_at_users(server);
    request->session = sessions_find(&server->sessions, MHD_lookup_connection_value(request->connection, MHD_COOKIE_KIND, server->cookie), clock_now());
    if (route->session && request->session == NULL)
        return answer_error(request, MHD_HTTP_UNAUTHORIZED, "session");
    if (route->token && !session_token_fits(request->session, header(request, "X-Token")))
        return answer_error(request, MHD_HTTP_FORBIDDEN, "token");
    return route->answer(request);
}

/* A request begins: room for what is told of it. */
static struct request *begin(struct server *server, struct MHD_Connection *connection, const char *method, const char *path)
{
    struct request *request = calloc(1, sizeof *request);
    if (request == NULL)
        return NULL;
    request->server = server;
    request->connection = connection;
    request->route = find_route(method, path);
    if (request->route != NULL && strcmp(method, "POST") == 0)
        request->body = calloc(1, BODY_BYTES + 1);
    return request;
}

/* A part of the body. Nobody has use for a longer one: the connection ends. */
static enum MHD_Result gather(struct request *request, const char *bytes, size_t *length)
{
    if (request->body == NULL || *length > BODY_BYTES - request->length)
        return MHD_NO;
    memcpy(request->body + request->length, bytes, *length);
    request->length += *length;
    *length = 0;
    return MHD_YES;
}

static enum MHD_Result handle(void *cls, struct MHD_Connection *connection, const char *path, const char *method, const char *version, const char *upload,
                              size_t *upload_length, void **context)
{
    (void)version;
    if (*context == NULL) {
        struct request *request = begin(cls, connection, method, path);
        *context = request;
        return request == NULL ? MHD_NO : MHD_YES;
    }
    if (*upload_length > 0)
        return gather(*context, upload, upload_length);
    struct request *request = *context;
    if (request->task != NULL && !atomic_load(&((const struct job *)(const void *)request->task)->done))
        return MHD_YES; /* it is still done for */
    return answer(request, method, path);
}

static void completed(void *cls, struct MHD_Connection *connection, void **context, enum MHD_RequestTerminationCode code)
{
    struct request *request = *context;
    (void)cls;
    (void)connection;
    (void)code;
    if (request == NULL)
        return;
    routes_end(request);
    if (request->body != NULL)
        explicit_bzero(request->body, request->length);
    free(request->body);
    free(request);
    *context = NULL;
}

/* No path of ours has an escape: one that has is looked up as it came, and not found. */
static size_t leave_escapes(void *cls, struct MHD_Connection *connection, char *text)
{
    (void)cls;
    (void)connection;
    return strlen(text);
}

__attribute__((format(printf, 2, 0))) static void library_log(void *cls, const char *format, va_list values)
{
    char text[256];
    (void)cls;
    vsnprintf(text, sizeof text, format, values);
    text[strcspn(text, "\r\n")] = '\0';
    log_line(LOG_DEBUG, "libmicrohttpd: %s", text);
}

/* A file in PEM, with a 0; NULL after a line in the log. */
static char *read_pem(const char *path)
{
    char *text = calloc(1, PEM_BYTES);
    FILE *file = fopen(path, "re");
    size_t length = text == NULL || file == NULL ? 0 : fread(text, 1, PEM_BYTES - 1, file);
    int number = errno;
    if (file != NULL)
        fclose(file);
    if (length > 0 && length < PEM_BYTES - 1)
        return text;
    log_line(LOG_ERROR, "%s: %s", path, file == NULL ? strerror(number) : "no certificate or key");
    free(text);
    return NULL;
}

static struct MHD_Daemon *start_daemon(struct server *server, const char *certificate, const char *key)
{
    const struct options *options = server->options;
    unsigned flags = MHD_USE_EPOLL_INTERNAL_THREAD | MHD_ALLOW_SUSPEND_RESUME | MHD_USE_ERROR_LOG;
    flags |= (options->address.any.sa_family == AF_INET6 ? (unsigned)MHD_USE_IPv6 : 0) | (certificate == NULL ? 0 : (unsigned)MHD_USE_TLS);
    struct MHD_OptionItem tls[] = {
        {MHD_OPTION_HTTPS_MEM_CERT, 0, (void *)(uintptr_t)certificate}, {MHD_OPTION_HTTPS_MEM_KEY, 0, (void *)(uintptr_t)key}, {MHD_OPTION_END, 0, NULL}};
    return MHD_start_daemon(flags, 0, NULL, NULL, handle, server, MHD_OPTION_EXTERNAL_LOGGER, library_log, NULL, MHD_OPTION_SOCK_ADDR, &options->address.any,
                            MHD_OPTION_CONNECTION_LIMIT, (unsigned)CONNECTIONS, MHD_OPTION_PER_IP_CONNECTION_LIMIT,
                            options->loopback ? 0U : (unsigned)CONNECTIONS_OF_ONE, MHD_OPTION_CONNECTION_TIMEOUT, IDLE_SECONDS, MHD_OPTION_CONNECTION_MEMORY_LIMIT,
                            (size_t)HEADER_BYTES, MHD_OPTION_STRICT_FOR_CLIENT, 1, MHD_OPTION_NOTIFY_COMPLETED, completed, NULL, MHD_OPTION_UNESCAPE_CALLBACK,
                            leave_escapes, NULL, MHD_OPTION_ARRAY,
                            certificate == NULL ? tls + 2 : tls, MHD_OPTION_END);
}

static bool listen_there(struct server *server)
{
    const struct options *options = server->options;
    char *certificate = NULL, *key = NULL;
    if (options->certificate != NULL) {
        certificate = read_pem(options->certificate);
        key = read_pem(options->key);
        if (certificate == NULL || key == NULL || MHD_is_feature_supported(MHD_FEATURE_TLS) != MHD_YES) {
            log_line(LOG_ERROR, "https cannot be had");
            free(certificate);
            free(key);
            return false;
        }
    }
    server->daemon = start_daemon(server, certificate, key);
    int number = errno;
    if (key != NULL)
        explicit_bzero(key, PEM_BYTES);
    free(key);
    free(certificate);
    if (server->daemon == NULL)
        log_line(LOG_ERROR, "%s: %s", options->listen, number == 0 ? "cannot be listened at" : strerror(number));
    return server->daemon != NULL;
}

bool server_start(struct server *server, const struct options *options, struct watch *watch, uint16_t *port)
{
    server->options = options;
    server->watch = watch;
    server->by_address.limit = TRIES_BY_ADDRESS;
    server->by_user.limit = TRIES_BY_USER;
    if (pthread_mutex_init(&server->users_lock, NULL) != 0 || pthread_mutex_init(&server->streams_lock, NULL) != 0 ||
        !work_begin(&server->commands, COMMANDS_WAITING) || !work_begin(&server->passwords, PASSWORDS_WAITING)) {
        log_line(LOG_ERROR, "threads: %s", strerror(errno));
        return false;
    }
    if (!listen_there(server))
        return false;
    const union MHD_DaemonInfo *info = MHD_get_daemon_info(server->daemon, MHD_DAEMON_INFO_BIND_PORT);
    *port = info == NULL ? 0 : info->port;
    snprintf(server->cookie, sizeof server->cookie, "deorasaeng-%u", (unsigned)*port);
    hosts_make(&server->hosts, options, *port);
    return true;
}

void server_wake(struct server *server)
{
    streams_wake(server);
}

void server_users(struct server *server, const struct users *users)
{
    pthread_mutex_lock(&server->users_lock);
    server->users = *users;
    server->users_changed = true;
    pthread_mutex_unlock(&server->users_lock);
}

void server_stop(struct server *server)
{
    work_end(&server->commands);
    work_end(&server->passwords);
    streams_end(server);
    MHD_stop_daemon(server->daemon);
}
