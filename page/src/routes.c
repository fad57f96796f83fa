/* What the page's own code asks for under /api/. */
#include "server.h"
#include "version.h"

#include "../../gateway/src/client.h"
#include "../../gateway/src/json.h"
#include "../../gateway/src/json_reader.h"

#include <arpa/inet.h>
#include <errno.h>
#include <stdio.h>
#include <stdlib.h>
#include <string.h>

#define PATIENCE (3 * CLOCK_SECOND)

/* A session's commands: as fast as a hand, not as a program. */
static const struct limit COMMANDS = {CLOCK_SECOND / 5, 25};

/* What another thread does for a request: a command on the gateway's socket, or a password's hash. */
struct task {
    struct job job;
    const char *path;
    struct command command;
    char reply[CONTROL_ANSWER_BYTES + 1];
    ssize_t length; /* of the reply, or -1 */
    struct user user;
    bool known; /* there is such a user */
    char password[USER_PASSWORD + 1];
    bool fits;
    uint64_t key; /* of its tries */
};

void routes_end(struct request *request)
{
    if (request->task != NULL) {
        explicit_bzero(request->task->password, sizeof request->task->password);
        free(request->task);
    }
    request->task = NULL;
}

static void run_command(struct job *job)
{
    struct task *task = (struct task *)job;
    task->length = client_exchange(task->path, task->command.line, task->command.length, task->reply, sizeof task->reply, CLIENT_LINE, PATIENCE);
}

static void run_password(struct job *job)
{
    struct task *task = (struct task *)job;
    task->fits = user_password_fits(task->password, task->known ? task->user.hash : USER_NOBODY) && task->known;
}

/* Begins the task, whose connection waits then. */
static enum MHD_Result put_task(struct request *request, struct work *work, struct task *task, void (*run)(struct job *))
{
    task->job.connection = request->connection;
    task->job.run = run;
    task->length = -1;
    request->task = task;
    if (work_put(work, &task->job))
        return MHD_YES;
    routes_end(request);
    return answer_error(request, MHD_HTTP_SERVICE_UNAVAILABLE, "busy");
}

/* Too fast: how long to wait, in whole seconds. */
static enum MHD_Result answer_wait(struct request *request, int64_t wait)
{
    char text[64], seconds[24];
    unsigned long long whole = (unsigned long long)((wait + CLOCK_SECOND - 1) / CLOCK_SECOND);
    int length = snprintf(text, sizeof text, "{\"error\":\"wait\",\"seconds\":%llu}", whole);
    struct MHD_Response *response = MHD_create_response_from_buffer((size_t)length, text, MHD_RESPMEM_MUST_COPY);
    snprintf(seconds, sizeof seconds, "%llu", whole);
    if (response != NULL && MHD_add_response_header(response, "Retry-After", seconds) != MHD_YES) {
        MHD_destroy_response(response);
        return MHD_NO;
    }
    return answer_send(request, 429, response, "application/json");
}

/* {"user":"anna","role":"owner","port":1,"token":"..","version":"1.0"}; nobody is null. */
static struct MHD_Response *session_response(const struct session *session)
{
    char text[512];
    struct json json;
    json_begin(&json, text, sizeof text);
    json_object(&json, NULL);
    if (session == NULL)
        json_null(&json, "user");
    else {
        json_string(&json, "user", session->user.name);
        json_string(&json, "role", role_word(session->user.role));
        json_number(&json, "port", session->user.port);
        json_string(&json, "token", session->token);
    }
    json_string(&json, "version", PAGE_VERSION);
    json_end_object(&json);
    return MHD_create_response_from_buffer(json.full ? 0 : json.length, text, MHD_RESPMEM_MUST_COPY);
}

static enum MHD_Result answer_session(struct request *request)
{
    return answer_send(request, MHD_HTTP_OK, session_response(request->session), "application/json");
}

/* The cookie of a session; NULL ends it in the browser. */
static enum MHD_Result answer_cookie(struct request *request, const struct session *session)
{
    char cookie[SESSION_SECRET + COOKIE_BYTES + 128];
    struct MHD_Response *response = session_response(session);
    snprintf(cookie, sizeof cookie, "%s=%s; Path=/; HttpOnly; SameSite=Strict%s%s", request->server->cookie, session == NULL ? "" : session->secret,
             request->server->options->certificate == NULL ? "" : "; Secure", session == NULL ? "; Max-Age=0" : "");
    if (response != NULL && MHD_add_response_header(response, MHD_HTTP_HEADER_SET_COOKIE, cookie) != MHD_YES) {
        MHD_destroy_response(response);
        return MHD_NO;
    }
    return answer_send(request, MHD_HTTP_OK, response, "application/json");
}

/* Behind a backslash: a character as UTF-8, whose length it gives, or 0 for one that nobody types (a control character, half of a pair). `at` is left on the escape's last byte. */
static size_t read_escape(const char **at, char bytes[3])
{
    char digits[5] = {0};
    if (**at != 'u') {
        bytes[0] = **at;
        return strchr("\"\\/", **at) == NULL ? 0 : 1;
    }
    memcpy(digits, *at + 1, 4); /* the document is whole: they are there */
    *at += 4;
    unsigned code = (unsigned)strtoul(digits, NULL, 16);
    if (code < 0x20 || (code >= 0xD800 && code < 0xE000))
        return 0;
    if (code < 0x80) {
        bytes[0] = (char)code;
        return 1;
    }
    size_t length = code < 0x800 ? 2 : 3;
    bytes[0] = (char)(length == 2 ? 0xC0 | code >> 6 : 0xE0 | code >> 12);
    bytes[1] = (char)(0x80 | (length == 2 ? code : code >> 6) % 64);
    bytes[2] = (char)(0x80 | code % 64);
    return length;
}

/* A JSON string of a whole document, in UTF-8. */
static bool read_password(const char *value, char password[USER_PASSWORD + 1])
{
    size_t length = 0;
    const char *end = json_behind(value);
    if (end == NULL || *value != '"')
        return false;
    for (const char *at = value + 1; at < end - 1; at++) {
        char bytes[3] = {*at, 0, 0};
        size_t count = *at == '\\' ? (at++, read_escape(&at, bytes)) : 1;
        if (count == 0 || count > USER_PASSWORD - length)
            return false;
        memcpy(password + length, bytes, count);
        length += count;
    }
    password[length] = '\0';
    return length > 0;
}

/* Who asks: an address, of IPv6 the part that is one machine's or one home's. */
static void peer_text(const struct request *request, char text[INET6_ADDRSTRLEN])
{
    const union MHD_ConnectionInfo *info = MHD_get_connection_info(request->connection, MHD_CONNECTION_INFO_CLIENT_ADDRESS);
    text[0] = '\0';
    if (info == NULL || info->client_addr == NULL)
        return;
    if (info->client_addr->sa_family == AF_INET)
        inet_ntop(AF_INET, &((const struct sockaddr_in *)(const void *)info->client_addr)->sin_addr, text, INET6_ADDRSTRLEN);
    else if (info->client_addr->sa_family == AF_INET6) {
        struct in6_addr address = ((const struct sockaddr_in6 *)(const void *)info->client_addr)->sin6_addr;
        memset(address.s6_addr + 8, 0, 8);
        inet_ntop(AF_INET6, &address, text, INET6_ADDRSTRLEN);
    }
}

/* The name and the password that were typed, and the user of that name. */
static bool read_login(const struct request *request, struct task *task)
{
    char name[USER_NAME + 2];
    struct server *server = request->server;
    if (!json_whole(request->body, request->length))
        return false;
    const char *object = request->body + strspn(request->body, " \t\r\n");
    json_read_string(json_member(object, "user"), name, sizeof name);
    if (name[0] == '\0' || strlen(name) > USER_NAME || !read_password(json_member(object, "password"), task->password))
        return false;
    pthread_mutex_lock(&server->users_lock);
    const struct user *user = users_find(&server->users, name);
    task->known = user != NULL;
    if (user != NULL)
        task->user = *user;
    else
        memcpy(task->user.name, name, strlen(name) + 1);
    pthread_mutex_unlock(&server->users_lock);
    return true;
}

static enum MHD_Result try_login(struct request *request)
{
    struct server *server = request->server;
    char peer[INET6_ADDRSTRLEN];
    struct task *task = calloc(1, sizeof *task);
    if (task == NULL)
        return MHD_NO;
    if (!read_login(request, task)) {
        free(task);
        return answer_error(request, MHD_HTTP_FORBIDDEN, "password");
    }
    peer_text(request, peer);
    task->key = limits_key(task->user.name, peer);
    int64_t wait = limits_take(&server->by_address, limits_key("", peer), clock_now());
    if (wait == 0)
        wait = limits_take(&server->by_user, task->key, clock_now());
    if (wait == 0)
        return put_task(request, &server->passwords, task, run_password);
    free(task);
    log_line(LOG_WARNING, "sign-in: too many tries from %s", peer);
    return answer_wait(request, wait);
}

static enum MHD_Result answer_login(struct request *request)
{
    struct server *server = request->server;
    const struct task *task = request->task;
    if (task == NULL)
        return try_login(request);
    if (!task->fits) {
        log_line(LOG_WARNING, "sign-in: a wrong name or password");
        return answer_error(request, MHD_HTTP_FORBIDDEN, "password");
    }
    limits_forget(&server->by_user, task->key);
    if (request->session != NULL)
        sessions_end(request->session);
    struct session *session = sessions_begin(&server->sessions, &task->user, clock_now());
    if (session == NULL)
        return answer_error(request, MHD_HTTP_SERVICE_UNAVAILABLE, "busy");
    log_line(LOG_INFO, "%s signed in", task->user.name);
    return answer_cookie(request, session);
}

static enum MHD_Result answer_logout(struct request *request)
{
    log_line(LOG_INFO, "%s signed out", request->session->user.name);
    sessions_end(request->session);
    request->session = NULL;
    streams_wake(request->server);
    return answer_cookie(request, NULL);
}

static enum MHD_Result send_command(struct request *request)
{
    struct session *session = request->session;
    int64_t wait = limit_take(&COMMANDS, &session->commands_at, clock_now());
    if (wait > 0)
        return answer_wait(request, wait);
    struct task *task = calloc(1, sizeof *task);
    if (task == NULL)
        return MHD_NO;
    task->path = request->server->options->control;
    task->user = session->user;
    enum command_judged judged = command_judge(&task->command, request->body, request->length, &session->user);
    if (judged == COMMAND_GOOD)
        return put_task(request, &request->server->commands, task, run_command);
    enum MHD_Result done = judged == COMMAND_NOT_YOURS ? answer_error(request, MHD_HTTP_FORBIDDEN, "viewer")
                                                       : answer_error(request, MHD_HTTP_BAD_REQUEST, task->command.error);
    free(task);
    return done;
}

/* The gateway's answer as it came: a line that is whole. */
static enum MHD_Result answer_command(struct request *request)
{
    const struct task *task = request->task;
    if (task == NULL)
        return send_command(request);
    if (task->length <= 0 || *task->reply != '{' || !json_whole(task->reply, (size_t)task->length)) {
        log_line(LOG_WARNING, "%s: no answer to %s of %s", task->path, command_word(&task->command), task->user.name);
        return answer_error(request, MHD_HTTP_BAD_GATEWAY, "gateway");
    }
    const char *number = json_member(task->reply, "number");
    if (task->command.request.command != CONTROL_READ && task->command.request.command != CONTROL_ASK)
        log_line(LOG_INFO, "%s: %s from %u to %u: %s%u", task->user.name, command_word(&task->command), (unsigned)task->command.request.from,
                 (unsigned)task->command.request.to, number == NULL ? "not done " : "number ", (unsigned)json_read_number(number));
    return answer_json(request, MHD_HTTP_OK, task->reply, (size_t)task->length);
}

static struct MHD_Response *lend(struct request *request, enum document_kind kind)
{
    struct document *document = watch_lend(request->server->watch, kind, user_view(&request->session->user), 0);
    if (document == NULL)
        return NULL;
    return MHD_create_response_from_buffer_with_free_callback_cls(document->length, document->bytes, watch_give_back, document);
}

static enum MHD_Result answer_status(struct request *request)
{
    return answer_send(request, MHD_HTTP_OK, lend(request, DOCUMENT_STATUS), "application/json");
}

static enum MHD_Result answer_history(struct request *request)
{
    return answer_send(request, MHD_HTTP_OK, lend(request, DOCUMENT_HISTORY), "application/json");
}

static enum MHD_Result answer_bundle(struct request *request)
{
    char made[CLOCK_TEXT], name[CLOCK_TEXT + 64];
    struct MHD_Response *response = lend(request, DOCUMENT_BUNDLE);
    clock_text(clock_wall(), made);
    snprintf(name, sizeof name, "attachment; filename=\"deorasaeng-%.10s-%.2s%.2s%.2s.json\"", made, made + 11, made + 14, made + 17);
    if (response != NULL && MHD_add_response_header(response, "Content-Disposition", name) != MHD_YES) {
        MHD_destroy_response(response);
        return MHD_NO;
    }
    return answer_send(request, MHD_HTTP_OK, response, "application/json");
}

const struct route ROUTES[] = {
    {"GET", "/api/session", false, false, answer_session}, {"POST", "/api/login", false, false, answer_login},
    {"POST", "/api/logout", true, true, answer_logout},    {"POST", "/api/command", true, true, answer_command},
    {"GET", "/api/events", true, false, stream_answer},    {"GET", "/api/status", true, false, answer_status},
    {"GET", "/api/history", true, false, answer_history},  {"GET", "/api/bundle", true, false, answer_bundle},
};
const size_t ROUTES_COUNT = sizeof ROUTES / sizeof ROUTES[0];
