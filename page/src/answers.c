/* Responses, each with the headers that keep a browser from doing what the page does not. */
#include "assets.h"
#include "server.h"

#include "../../gateway/src/json.h"

#include <stdio.h>
#include <string.h>

static const char *const HEADERS[][2] = {
    {"Content-Security-Policy", "default-src 'none'; script-src 'self'; style-src 'self'; connect-src 'self'; img-src 'self'; form-action 'none'; base-uri 'none'; "
                                "frame-ancestors 'none'; require-trusted-types-for 'script'; trusted-types 'none'"},
    {"X-Content-Type-Options", "nosniff"},
    {"X-Frame-Options", "DENY"},
    {"Referrer-Policy", "no-referrer"},
    {"Cross-Origin-Opener-Policy", "same-origin"},
    {"Cross-Origin-Resource-Policy", "same-origin"},
    {"Permissions-Policy", "camera=(), geolocation=(), microphone=()"},
};

enum MHD_Result answer_send(struct request *request, unsigned status, struct MHD_Response *response, const char *type)
{
    if (response == NULL)
        return MHD_NO;
    enum MHD_Result done = MHD_add_response_header(response, MHD_HTTP_HEADER_CONTENT_TYPE, type);
    for (size_t i = 0; i < sizeof HEADERS / sizeof HEADERS[0] && done == MHD_YES; i++)
        done = MHD_add_response_header(response, HEADERS[i][0], HEADERS[i][1]);
    if (done == MHD_YES && MHD_get_response_header(response, MHD_HTTP_HEADER_CACHE_CONTROL) == NULL)
        done = MHD_add_response_header(response, MHD_HTTP_HEADER_CACHE_CONTROL, "no-store");
    if (done == MHD_YES)
        done = MHD_queue_response(request->connection, status, response);
    MHD_destroy_response(response);
    return done;
}

enum MHD_Result answer_json(struct request *request, unsigned status, const char *bytes, size_t length)
{
    /* The library copies them and changes nothing; its signature is older than const. */
    struct MHD_Response *response = MHD_create_response_from_buffer(length, (void *)(uintptr_t)bytes, MHD_RESPMEM_MUST_COPY);
    return answer_send(request, status, response, "application/json");
}

enum MHD_Result answer_error(struct request *request, unsigned status, const char *word)
{
    char text[CONTROL_ERROR_BYTES + 32];
    struct json json;
    json_begin(&json, text, sizeof text);
    json_object(&json, NULL);
    json_string(&json, "error", word);
    json_end_object(&json);
    return answer_json(request, status, text, json.full ? 0 : json.length);
}

enum MHD_Result answer_asset(struct request *request, const char *path)
{
    const struct asset *asset = NULL;
    for (size_t i = 0; i < ASSETS_COUNT; i++)
        if (strcmp(ASSETS[i].path, path) == 0)
            asset = &ASSETS[i];
    if (asset == NULL)
        return answer_error(request, MHD_HTTP_NOT_FOUND, "nothing");
    const char *known = MHD_lookup_connection_value(request->connection, MHD_HEADER_KIND, MHD_HTTP_HEADER_IF_NONE_MATCH);
    bool same = known != NULL && strcmp(known, asset->tag) == 0;
    struct MHD_Response *response = MHD_create_response_from_buffer(same ? 0 : asset->length, (void *)(uintptr_t)asset->bytes, MHD_RESPMEM_PERSISTENT);
    if (response == NULL)
        return MHD_NO;
    /* A browser asks each time whether the file is still that one: a page of two versions would be neither. */
    if (MHD_add_response_header(response, MHD_HTTP_HEADER_ETAG, asset->tag) != MHD_YES ||
        MHD_add_response_header(response, MHD_HTTP_HEADER_CACHE_CONTROL, "no-cache") != MHD_YES) {
        MHD_destroy_response(response);
        return MHD_NO;
    }
    return answer_send(request, same ? MHD_HTTP_NOT_MODIFIED : MHD_HTTP_OK, response, asset->type);
}
