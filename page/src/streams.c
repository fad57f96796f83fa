/* Server-sent events: a document a second to each browser that listens. A browser that is slow misses some and is sent the newest. */
#include "server.h"

#include "../../gateway/src/clock.h"

#include <stdlib.h>
#include <string.h>

#define BLOCK 16384

struct stream {
    struct server *server;
    struct MHD_Connection *connection;
    const struct session *session;
    uint64_t serial;
    uint32_t view;
    struct document *document; /* that is sent, from `at` on; NULL: none */
    size_t at;
    uint64_t version;          /* of the last one */
    bool waits;                /* suspended until there is a new one */
    struct stream *next;
};

/* The next document, or what to tell the library. Under the lock, so that no news is missed between the look and the wait. */
static ssize_t next_document(struct stream *stream)
{
    struct server *server = stream->server;
    ssize_t told = 1;
    pthread_mutex_lock(&server->streams_lock);
    if (server->ending || !sessions_alive(&server->sessions, stream->session, stream->serial, clock_now()))
        told = MHD_CONTENT_READER_END_OF_STREAM;
    else {
        stream->document = watch_lend(server->watch, DOCUMENT_EVENT, stream->view, stream->version);
        stream->at = 0;
        if (stream->document == NULL) {
            stream->waits = true;
            MHD_suspend_connection(stream->connection);
            told = 0;
        } else
            stream->version = stream->document->version;
    }
    pthread_mutex_unlock(&server->streams_lock);
    return told;
}

static void drop_document(struct stream *stream)
{
    if (stream->document != NULL)
        watch_give_back(stream->document);
    stream->document = NULL;
}

static ssize_t read_stream(void *cls, uint64_t position, char *bytes, size_t most)
{
    struct stream *stream = cls;
    (void)position;
    if (stream->document == NULL) {
        ssize_t told = next_document(stream);
        if (told <= 0)
            return told;
    }
    size_t left = stream->document->length - stream->at, length = left < most ? left : most;
    memcpy(bytes, stream->document->bytes + stream->at, length);
    stream->at += length;
    if (stream->at == stream->document->length)
        drop_document(stream);
    return (ssize_t)length;
}

static void free_stream(void *cls)
{
    struct stream *stream = cls;
    struct server *server = stream->server;
    pthread_mutex_lock(&server->streams_lock);
    struct stream **place = &server->streams;
    while (*place != stream)
        place = &(*place)->next;
    *place = stream->next;
    server->streams_count--;
    pthread_mutex_unlock(&server->streams_lock);
    drop_document(stream);
    free(stream);
}

/* Puts it among the others. False where there are enough. */
static bool join(struct stream *stream)
{
    struct server *server = stream->server;
    pthread_mutex_lock(&server->streams_lock);
    bool room = server->streams_count < STREAMS_MAX && !server->ending;
    if (room) {
        stream->next = server->streams;
        server->streams = stream;
        server->streams_count++;
    }
    pthread_mutex_unlock(&server->streams_lock);
    return room;
}

enum MHD_Result stream_answer(struct request *request)
{
    struct stream *stream = calloc(1, sizeof *stream);
    if (stream == NULL)
        return MHD_NO;
    stream->server = request->server;
    stream->connection = request->connection;
    stream->session = request->session;
    stream->serial = request->session->serial;
    stream->view = user_view(&request->session->user);
    if (!join(stream)) {
        free(stream);
        return answer_error(request, MHD_HTTP_SERVICE_UNAVAILABLE, "busy");
    }
    struct MHD_Response *response = MHD_create_response_from_callback(MHD_SIZE_UNKNOWN, BLOCK, read_stream, stream, free_stream);
    if (response == NULL)
        free_stream(stream);
    return answer_send(request, MHD_HTTP_OK, response, "text/event-stream");
}

void streams_wake(struct server *server)
{
    pthread_mutex_lock(&server->streams_lock);
    for (struct stream *stream = server->streams; stream != NULL; stream = stream->next)
        if (stream->waits) {
            stream->waits = false;
            MHD_resume_connection(stream->connection);
        }
    pthread_mutex_unlock(&server->streams_lock);
}

void streams_end(struct server *server)
{
    pthread_mutex_lock(&server->streams_lock);
    server->ending = true;
    pthread_mutex_unlock(&server->streams_lock);
    streams_wake(server);
}
