/* The JSON writer, and the reader on what it wrote. */
#include "../src/json.h"
#include "../src/json_reader.h"
#include "check.h"

static size_t write_document(char *bytes, size_t size)
{
    struct json json;
    json_begin(&json, bytes, size);
    json_object(&json, NULL);
    json_string(&json, "text", "a\"b\\c\n\xFF");
    json_hex(&json, "name", 0x123);
    json_number(&json, "most", UINT64_MAX);
    json_array(&json, "empty");
    json_end_array(&json);
    json_array(&json, "list");
    json_number(&json, NULL, 1);
    json_object(&json, NULL);
    json_bool(&json, "yes", true);
    json_null(&json, "none");
    json_end_object(&json);
    json_end_array(&json);
    json_bool(&json, "no", false);
    json_end_object(&json);
    return json.full ? 0 : json.length;
}

static const char DOCUMENT[] = "{\"text\":\"a\\\"b\\\\c\\u000a\\u00ff\",\"name\":\"0000000000000123\",\"most\":18446744073709551615,\"empty\":[],"
                               "\"list\":[1,{\"yes\":true,\"none\":null}],\"no\":false}";

static void writer(void)
{
    char bytes[sizeof DOCUMENT];
    size_t length = write_document(bytes, sizeof bytes);
    CHECK(length == sizeof DOCUMENT - 1 && memcmp(bytes, DOCUMENT, length) == 0);
    for (size_t size = 0; size < sizeof DOCUMENT - 1; size++)
        CHECK(write_document(bytes, size) == 0);
}

static void reader(void)
{
    char text[20];
    const char *list = json_member(DOCUMENT, "list");
    CHECK(json_read_number(json_member(DOCUMENT, "most")) == UINT64_MAX);
    CHECK(json_read_number(json_first(list)) == 1);
    CHECK(*json_member(json_next(json_first(list)), "yes") == 't');
    CHECK(json_next(json_next(json_first(list))) == NULL);
    CHECK(json_first(json_member(DOCUMENT, "empty")) == NULL);
    CHECK(json_member(DOCUMENT, "nam") == NULL && json_member(NULL, "a") == NULL && json_next(NULL) == NULL);
    json_read_string(json_member(DOCUMENT, "name"), text, sizeof text);
    CHECK_TEXT(text, "0000000000000123");
    json_read_string(json_member(DOCUMENT, "name"), text, 4);
    CHECK_TEXT(text, "000");
    json_read_string(NULL, text, sizeof text);
    CHECK_TEXT(text, "");
    CHECK(json_behind(json_member(DOCUMENT, "empty")) == json_member(DOCUMENT, "empty") + 2 && json_behind(NULL) == NULL && json_behind("12") == NULL);
    CHECK(*json_behind(json_member(DOCUMENT, "text")) == ',' && *json_behind(list) == ',' && *json_behind(json_member(DOCUMENT, "no")) == '}');
}

/* Values of another document, as they stand. */
static void copies(void)
{
    struct json json;
    char bytes[64];
    const char *list = json_member(DOCUMENT, "list");
    json_begin(&json, bytes, sizeof bytes);
    json_object(&json, NULL);
    json_copy(&json, "a", list, (size_t)(json_behind(list) - list));
    json_copy(&json, "b", "null", 4);
    json_end_object(&json);
    static const char WANTED[] = "{\"a\":[1,{\"yes\":true,\"none\":null}],\"b\":null}";
    CHECK(!json.full && json.length == sizeof WANTED - 1 && memcmp(bytes, WANTED, json.length) == 0);
    json_begin(&json, bytes, 3);
    json_copy(&json, NULL, "null", 4);
    CHECK(json.full);
}

static bool whole(const char *text)
{
    return json_whole(text, strlen(text));
}

static void values(void)
{
    static const char *const GOOD[] = {"{}", " [ ] ", "0", "-0.5e+10", "1E9", "\"\"", "\"\\u00e4\\n\"", "true", "[1,[2,{\"a\":null}]]", "{\"a\" : 1 ,\n\"b\":[false]}"};
    static const char *const BAD[] = {"", " ", "{", "}", "[1,]", "[,1]", "{\"a\":1,}", "{\"a\"}", "{a:1}", "01", "1.", ".5", "1e", "-", "+1", "nul", "True", "\"", "\"\\x\"", "\"\\u12g4\"",
                                      "\"a\nb\"", "{}{}", "[1 2]", "[1}", "\xEF\xBB\xBF{}", "'a'", "[[[[[[[[[[[[[[[[[1]]]]]]]]]]]]]]]]]"};
    for (size_t i = 0; i < sizeof GOOD / sizeof GOOD[0]; i++)
        CHECK(whole(GOOD[i]));
    for (size_t i = 0; i < sizeof BAD / sizeof BAD[0]; i++)
        CHECK(!whole(BAD[i]));
    CHECK(!json_whole("{}\0", 3) && whole("[[[[[[[[[[[[[[[[1]]]]]]]]]]]]]]]]"));
    static const char SPACED[] = "{ \"a\" : [ 1 , 23 ] , \"b\" : \"x\" }";
    uint64_t number = 0;
    CHECK(whole(SPACED) && json_length(json_member(SPACED, "a")) == 2 && json_is_number(json_next(json_first(json_member(SPACED, "a"))), 23, &number) && number == 23);
    CHECK(!json_is_number(json_next(json_first(json_member(SPACED, "a"))), 22, &number) && json_is_string(json_member(SPACED, "b"), "x"));
    CHECK(!json_is_string(json_member(SPACED, "b"), "") && !json_is_string(json_member(SPACED, "b"), "xy") && !json_is_string(json_member(SPACED, "a"), "x"));
    CHECK(json_is_string(json_first_name(SPACED), "a") && json_is_string(json_next_name(json_first_name(SPACED)), "b"));
    CHECK(json_next_name(json_next_name(json_first_name(SPACED))) == NULL && json_first_name("{}") == NULL && json_length("[ ]") == 0);
    CHECK(!json_is_number("1.5]", 9, &number) && !json_is_number("-1]", 9, &number) && !json_is_number("1e1]", 99, &number));
    CHECK(!json_is_number("18446744073709551617]", UINT64_MAX, &number) && !json_is_number("1", 9, &number) && !json_is_number(NULL, 9, &number));
}

/* A document that is cut anywhere: no read behind its end (the sanitizers watch), and no value invented. */
static void cut(void)
{
    for (size_t length = 0; length < sizeof DOCUMENT - 1; length++) {
        char bytes[sizeof DOCUMENT], text[20];
        memcpy(bytes, DOCUMENT, length);
        bytes[length] = '\0';
        const char *list = json_member(bytes, "list");
        const char *second = json_next(json_first(list));
        json_read_string(json_member(bytes, "name"), text, sizeof text);
        CHECK(json_member(second, "none") == NULL || json_read_number(json_member(bytes, "most")) == UINT64_MAX);
        CHECK(json_member(bytes, "no") == NULL || length > sizeof DOCUMENT - 8);
        CHECK(!json_whole(bytes, length));
    }
}

int main(void)
{
    writer();
    reader();
    copies();
    CHECK(json_whole(DOCUMENT, sizeof DOCUMENT - 1));
    values();
    cut();
    return checks_end("json");
}
