/* What needs no browser: users, sessions, limits, hosts, options, commands written anew, what a fitter is shown, samples. */
#include "../../gateway/src/clock.h"
#include "../../gateway/src/json.h"
#include "../../gateway/src/json_reader.h"
#include "../../gateway/tests/check.h"
#include "../src/command.h"
#include "../src/hosts.h"
#include "../src/limits.h"
#include "../src/samples.h"
#include "../src/sessions.h"
#include "../src/view.h"

#include <stdlib.h>
#include <sys/stat.h>
#include <unistd.h>

static char error[USERS_ERROR];

static bool parses(const char *text, struct users *users)
{
    char copy[4096];
    snprintf(copy, sizeof copy, "%s", text);
    return users_parse(copy, users, error);
}

static void users_text(void)
{
    static struct users users;
    CHECK(parses("# who may sign in\n\nanna owner $y$a\nben fitter:2 $y$b\r\n  vera\tviewer $6$c  \n<b> owner $y$d", &users) && users.count == 4);
    CHECK(users.at[0].role == ROLE_OWNER && users.at[0].port == 1 && user_view(&users.at[0]) == 0);
    CHECK(users.at[1].role == ROLE_FITTER && users.at[1].port == 2 && user_view(&users.at[1]) == 2);
    CHECK(users.at[2].role == ROLE_VIEWER && user_view(&users.at[2]) == 0 && users_find(&users, "<b>") == &users.at[3]);
    CHECK(users_find(&users, "an") == NULL && users_find(&users, "") == NULL);
    static const char *const WRONG[] = {"anna", "anna owner", "anna boss $y$a", "anna fitter $y$a", "anna fitter:1 $y$a", "anna fitter:9 $y$a", "anna fitter:02 $y$a", "anna owner hash",
                                        "anna owner $y$a more", "anna owner $y$a\nanna viewer $y$b", "an\"na owner $y$a", "an\\na owner $y$a", "\xC3\xA4 owner $y$a",
                                        "123456789012345678901234567890123 owner $y$a"};
    for (size_t i = 0; i < sizeof WRONG / sizeof WRONG[0]; i++)
        CHECK(!parses(WRONG[i], &users));
    CHECK(!parses("a owner $y$a\nb king $y$b", &users) && strstr(error, "line 2: a role is") != NULL);
}

static void users_file(void)
{
    static struct users users;
    char folder[] = "/tmp/page-users-XXXXXX", path[64];
    CHECK(mkdtemp(folder) != NULL);
    snprintf(path, sizeof path, "%s/users", folder);
    CHECK(!users_load(path, &users, error));
    CHECK(!users_set(path, "anna", "owner", "short", error) && !users_set(path, "an na", "owner", "long enough", error) && !users_set(path, "anna", "king", "long enough", error));
    CHECK(users_set(path, "anna", "owner", "a good \"one\"", error) && users_set(path, "ben", "fitter:3", "another one", error));
    CHECK(users_set(path, "anna", "viewer", "the second one", error));
    struct stat about;
    CHECK(stat(path, &about) == 0 && (about.st_mode & 0777) == 0600);
    CHECK(users_load(path, &users, error) && users.count == 2 && users.at[0].role == ROLE_VIEWER && users.at[1].port == 3);
    CHECK(strncmp(users.at[0].hash, "$y$", 3) == 0 && strcmp(users.at[0].hash, users.at[1].hash) != 0);
    CHECK(user_password_fits("the second one", users.at[0].hash) && !user_password_fits("the second on", users.at[0].hash) && !user_password_fits("", users.at[0].hash));
    CHECK(!user_password_fits("another one", users.at[0].hash) && !user_password_fits("x", "$nonsense") && !user_password_fits("x", ""));
    CHECK(chmod(path, 0644) == 0 && !users_load(path, &users, error) && strstr(error, "0600") != NULL);
    CHECK(chmod(path, 0640) == 0 && users_load(path, &users, error));
    CHECK(users_set(path, "otto", "owner", "yet another", error) && stat(path, &about) == 0 && (about.st_mode & 0777) == 0640);
    CHECK(unlink(path) == 0 && rmdir(folder) == 0);
}

/* A name that nobody has takes as long as another's. */
static void nobody(void)
{
    static struct users users;
    char path[] = "/tmp/page-users-XXXXXX";
    close(mkstemp(path));
    CHECK(unlink(path) == 0 && users_set(path, "anna", "owner", "a good one", error) && users_load(path, &users, error) && unlink(path) == 0);
    int64_t begin = clock_now();
    CHECK(!user_password_fits("wrong one", users.at[0].hash));
    int64_t known = clock_now() - begin;
    begin = clock_now();
    CHECK(!user_password_fits("wrong one", USER_NOBODY));
    int64_t unknown = clock_now() - begin;
    CHECK(unknown > known / 3 && unknown < known * 3);
}

static void signed_in(void)
{
    static struct sessions sessions;
    const struct user anna = {"anna", ROLE_OWNER, 1, "$y$a"}, ben = {"ben", ROLE_FITTER, 2, "$y$b"};
    int64_t now = 5 * CLOCK_SECOND, hour = 3600 * CLOCK_SECOND;
    struct session *first = sessions_begin(&sessions, &anna, now), *second = sessions_begin(&sessions, &ben, now);
    CHECK(first != NULL && second != NULL && first != second && strlen(first->secret) == SESSION_SECRET && strcmp(first->secret, second->secret) != 0);
    CHECK(sessions_find(&sessions, first->secret, now) == first && sessions_find(&sessions, NULL, now) == NULL && sessions_find(&sessions, "", now) == NULL);
    CHECK(session_token_fits(first, first->token) && !session_token_fits(first, second->token) && !session_token_fits(first, NULL) && !session_token_fits(first, ""));
    CHECK(sessions_find(&sessions, first->token, now) == NULL);
    CHECK(sessions_find(&sessions, first->secret, now + hour - 1) == first && sessions_find(&sessions, second->secret, now + hour) == NULL && !second->used);
    for (int i = 1; i < 12; i++)
        CHECK((sessions_find(&sessions, first->secret, now + i * (hour - 1)) == first) == (i < 12));
    uint64_t serial = first->serial;
    CHECK(sessions_alive(&sessions, first, serial, now + 11 * hour) && sessions_find(&sessions, first->secret, now + 12 * hour) == NULL);
    CHECK(!sessions_alive(&sessions, first, serial, now));
    for (int i = 0; i < SESSIONS_MAX + 5; i++)
        CHECK(sessions_begin(&sessions, &anna, now + i) != NULL);
    struct session *kept = sessions_begin(&sessions, &ben, now + 100);
    struct users users = {1, {ben}};
    sessions_keep(&sessions, &users);
    int left = 0;
    for (int i = 0; i < SESSIONS_MAX; i++)
        left += sessions.at[i].used;
    CHECK(left == 1 && kept->used);
    users.at[0].port = 3;
    sessions_keep(&sessions, &users);
    CHECK(!kept->used);
}

static void tries(void)
{
    static struct limits limits = {.limit = {10 * CLOCK_SECOND, 3}};
    uint64_t key = limits_key("anna", "127.0.0.1");
    int64_t now = 100 * CLOCK_SECOND;
    CHECK(limits_take(&limits, key, now) == 0 && limits_take(&limits, key, now) == 0 && limits_take(&limits, key, now) == 0);
    CHECK(limits_take(&limits, key, now) == 10 * CLOCK_SECOND && limits_take(&limits, key, now + 4 * CLOCK_SECOND) == 6 * CLOCK_SECOND);
    CHECK(limits_take(&limits, key, now + 10 * CLOCK_SECOND) == 0 && limits_take(&limits, key, now + 10 * CLOCK_SECOND) > 0);
    CHECK(limits_take(&limits, limits_key("anna", "127.0.0.2"), now) == 0 && limits_key("ab", "c") != limits_key("a", "bc"));
    limits_forget(&limits, key);
    CHECK(limits_take(&limits, key, now + 10 * CLOCK_SECOND) == 0);
    for (uint64_t i = 0; i < 2 * LIMITS_PLACES; i++)
        CHECK(limits_take(&limits, 1000 + 2 * i, now + 20 * CLOCK_SECOND) == 0);
}

static bool reads(struct options *options, int count, char *words[])
{
    char why[200];
    return options_read(count, words, options, why) == OPTIONS_RUN;
}
#define READS(...) reads(&options, (int)(sizeof (char *[]){"page", "--status", "s", "--control", "c", "--users", "u", __VA_ARGS__} / sizeof(char *)), \
                         (char *[]){"page", "--status", "s", "--control", "c", "--users", "u", __VA_ARGS__, NULL})

static void addresses(void)
{
    struct options options;
    struct hosts hosts;
    CHECK(READS("--log", "debug") && options.loopback);
    hosts_make(&hosts, &options, 8011);
    CHECK(hosts_know(&hosts, "127.0.0.1:8011") && hosts_know(&hosts, "localhost:8011") && hosts_know(&hosts, "LOCALHOST:8011"));
    CHECK(!hosts_know(&hosts, "127.0.0.1") && !hosts_know(&hosts, "evil.example:8011") && !hosts_know(&hosts, NULL) && !hosts_know(&hosts, "") && !hosts_know(&hosts, "127.0.0.1:80111"));
    CHECK(hosts_is_origin(&hosts, "http://localhost:8011", "localhost:8011") && !hosts_is_origin(&hosts, "https://localhost:8011", "localhost:8011"));
    CHECK(!hosts_is_origin(&hosts, "http://127.0.0.1:8011", "localhost:8011") && !hosts_is_origin(&hosts, "null", "localhost:8011") && !hosts_is_origin(&hosts, NULL, "localhost:8011"));
    CHECK(READS("--listen", "[::1]:99") && options.loopback);
    hosts_make(&hosts, &options, 99);
    CHECK(hosts_know(&hosts, "[::1]:99"));
    CHECK(!READS("--listen", "0.0.0.0:80") && !READS("--listen", "192.168.1.2:8011") && !READS("--listen", "[::]:8011") && !READS("--listen", "[::ffff:127.0.0.1]:8011"));
    CHECK(READS("--listen", "192.168.1.2:443", "--certificate", "c", "--key", "k", "--host", "box.example") && !options.loopback);
    hosts_make(&hosts, &options, 443);
    CHECK(hosts_know(&hosts, "192.168.1.2") && hosts_know(&hosts, "box.example") && hosts_is_origin(&hosts, "https://box.example", "box.example") && !hosts_know(&hosts, "localhost"));
    CHECK(!READS("--listen", "192.168.1.2:443", "--certificate", "c") && !READS("--listen", "127.0.0.1") && !READS("--listen", "127.0.0.1:99999") && !READS("--listen", "localhost:80"));
    CHECK(!READS("--host", "a/b") && !READS("word") && !READS("--nonsense") && !READS("--listen", "[]:1") && !READS("--listen", ":1"));
}

static enum command_judged judged(struct command *command, const char *text, const struct user *user)
{
    enum command_judged answer = command_judge(command, text, strlen(text), user);
    command->line[answer == COMMAND_GOOD ? command->length : 0] = '\0';
    return answer;
}

static void commands(void)
{
    static struct command command;
    const struct user ben = {"ben", ROLE_FITTER, 2, ""}, vera = {"vera", ROLE_VIEWER, 1, ""};
    CHECK(judged(&command, " {\n\"to\":1 , \"do\" : \"add\",\"from\":3,\"pgns\":[65265,0],\"if_list_is\":{\"pgns\":[],\"mode\":\"pass\"}}\n", &ben) == COMMAND_GOOD);
    CHECK_TEXT(command.line, "{\"do\":\"add\",\"port\":2,\"who\":\"ben\",\"from\":3,\"to\":1,\"pgns\":[65265,0],\"if_list_is\":{\"mode\":\"pass\",\"pgns\":[]}}\n");
    CHECK(judged(&command, "{\"do\":\"clear\",\"from\":1,\"to\":\"all\"}", &ben) == COMMAND_GOOD);
    CHECK_TEXT(command.line, "{\"do\":\"clear\",\"port\":2,\"who\":\"ben\",\"from\":1,\"to\":\"all\"}\n");
    CHECK(judged(&command, "{\"do\":\"ask\",\"from\":1,\"pgn\":65265,\"source\":33}", &vera) == COMMAND_GOOD);
    CHECK_TEXT(command.line, "{\"do\":\"ask\",\"port\":1,\"who\":\"vera\",\"from\":1,\"pgn\":65265,\"source\":33}\n");
    CHECK(judged(&command, "{\"do\":\"name\",\"from\":1,\"to\":2,\"pgn\":65265,\"name\":\"a\",\"mask\":\"0xF\"}", &ben) == COMMAND_GOOD);
    CHECK_TEXT(command.line, "{\"do\":\"name\",\"port\":2,\"who\":\"ben\",\"from\":1,\"to\":2,\"pgn\":65265,\"name\":\"000000000000000A\",\"mask\":\"000000000000000F\"}\n");
    CHECK(judged(&command, "{\"do\":\"replace\",\"from\":1,\"to\":2,\"mode\":\"cleared\",\"pgns\":[]}", &ben) == COMMAND_GOOD && strstr(command.line, "\"mode\":\"cleared\",\"pgns\":[]") != NULL);
    CHECK(judged(&command, "{\"do\":\"reset\"}", &ben) == COMMAND_GOOD && judged(&command, "{\"do\":\"read\"}", &ben) == COMMAND_GOOD);
    CHECK_TEXT(command.line, "{\"do\":\"read\",\"port\":2,\"who\":\"ben\"}\n");
    static const char *const WRONG[] = {"", "[]", "{}", "{\"do\":\"read\",\"port\":1}", "{\"do\":\"read\",\"who\":\"anna\"}", "{\"do\":\"read\",\"port\":1,\"port\":2}", "{\"do\":\"read\"}{}",
                                        "{\"do\":\"read\",\"p\\u006frt\":1}", "{\"do\":\"halt\"}", "{\"do\":\"add\",\"from\":1,\"to\":2,\"pgns\":[\"1\"]}"};
    for (size_t i = 0; i < sizeof WRONG / sizeof WRONG[0]; i++)
        CHECK(judged(&command, WRONG[i], &ben) == COMMAND_WRONG && command.error[0] != '\0');
    CHECK(judged(&command, "{\"do\":\"clear\",\"from\":1,\"to\":2}", &vera) == COMMAND_NOT_YOURS && judged(&command, "{\"do\":\"reset\"}", &vera) == COMMAND_NOT_YOURS);
}

static const char STATUS[] =
    "{\"schema\":1,\"time\":\"T\",\"unit\":{\"name\":\"N\",\"losses\":9},\"loop\":{\"worst_us\":1},\"secret\":7,"
    "\"ports\":[{\"port\":1,\"interface\":\"a\",\"lost\":1,\"own_lost\":0,\"missed\":2,\"queue\":{\"waiting_by_priority\":[0,0,0,1,0,0,2,0],\"recent_high\":7}},{\"port\":2,\"interface\":\"b\",\"lost\":5,\"own_lost\":0,"
    "\"missed\":0,\"queue\":{\"waiting_by_priority\":[9,0,0,0,0,0,0,0]}},{\"port\":3,\"interface\":\"c\",\"lost\":0,\"own_lost\":0,\"missed\":0,\"queue\":{\"waiting_by_priority\":[]}}],"
    "\"pairs\":[{\"from\":1,\"to\":2},{\"from\":1,\"to\":3},{\"from\":3,\"to\":2}],\"lists\":[{\"from\":1,\"to\":3,\"pgns\":[7]},{\"from\":2,\"to\":3}],\"lists_saved\":true,"
    "\"addresses\":[{\"port\":1,\"addresses\":[]},{\"port\":2,\"addresses\":[5]}],"
    "\"frames\":[{\"port\":2,\"number\":5},{\"port\":1,\"number\":5},{\"time\":\"t\",\"seconds\":1.5,\"port\":1,\"id\":\"i\",\"pgn\":3,\"source\":4,\"stopped\":[2,3],\"lost\":[],\"reasons\":[\"not asked\",\"x\",\"y\"]},"
    "{\"port\":1,\"stopped\":[3],\"lost\":[]}],\"commands\":[{\"port\":1},{\"port\":2},{\"port\":2,\"number\":1}]}";

static const char *shown(uint32_t port, size_t most)
{
    static char text[4096];
    struct json json;
    const struct view view = {port, most, most};
    json_begin(&json, text, sizeof text - 1);
    view_put(&json, NULL, STATUS, &view);
    text[json.length] = '\0';
    CHECK(!json.full && json_whole(text, json.length));
    return text;
}

static void views(void)
{
    CHECK(json_whole(STATUS, sizeof STATUS - 1));
    CHECK_TEXT(shown(0, SIZE_MAX), STATUS);
    CHECK_TEXT(shown(2, SIZE_MAX),
               "{\"schema\":1,\"time\":\"T\",\"unit\":{\"name\":\"N\",\"losses\":null},\"ports\":[{\"port\":1},{\"port\":2,\"interface\":\"b\",\"lost\":5,\"own_lost\":0,\"missed\":0,"
               "\"queue\":{\"waiting_by_priority\":[9,0,0,0,0,0,0,0]}},{\"port\":3}],\"pairs\":[{\"from\":1,\"to\":2},{\"from\":3,\"to\":2}],\"lists\":[{\"from\":2,\"to\":3}],\"lists_saved\":true,"
               "\"addresses\":[{\"port\":2,\"addresses\":[5]}],\"frames\":[{\"port\":2,\"number\":5},{\"time\":\"t\",\"seconds\":1.5,\"port\":1,\"id\":\"i\",\"pgn\":3,\"source\":4,\"stopped\":[2],"
               "\"lost\":[],\"reasons\":[null,\"x\",null]}],\"commands\":[{\"port\":2},{\"port\":2,\"number\":1}]}");
    CHECK(json_length(json_member(shown(0, 1), "frames")) == 1 && json_length(json_member(shown(2, 1), "commands")) == 1 && json_length(json_member(shown(0, 0), "frames")) == 0);
    struct json json;
    char text[8];
    json_begin(&json, text, sizeof text);
    view_put(&json, NULL, NULL, &(struct view){0, 1, 1});
    CHECK(json.length == 4 && memcmp(text, "null", 4) == 0);
}

static void ten_minutes(void)
{
    static struct samples samples;
    static char text[131072];
    struct json json;
    samples_add(&samples, STATUS, 1000 * CLOCK_MS);
    samples_add(&samples, NULL, 2000 * CLOCK_MS);
    samples.totals[0] = 1; /* a document before had less */
    samples_add(&samples, STATUS, 3000 * CLOCK_MS);
    json_begin(&json, text, sizeof text - 1);
    samples_put(&json, &samples, 1);
    text[json.length] = '\0';
    CHECK_TEXT(text, "{\"ports\":[1],\"samples\":[[1000,[[0,0,0,1,0,0,2,0]],[0],[7]],[2000],[3000,[[0,0,0,1,0,0,2,0]],[2],[7]]]}");
    json_begin(&json, text, sizeof text - 1);
    samples_put_last(&json, NULL, &samples, 2);
    text[json.length] = '\0';
    CHECK_TEXT(text, "[3000,[[9,0,0,0,0,0,0,0]],[0],[0]]");
    samples.totals[1] = 100; /* the gateway is a new one */
    samples_add(&samples, STATUS, 4000 * CLOCK_MS);
    CHECK(samples.at[3].lost[1] == 5);
    for (int i = 0; i < 2 * SAMPLES; i++)
        samples_add(&samples, STATUS, i);
    json_begin(&json, text, sizeof text);
    samples_put(&json, &samples, 0);
    CHECK(!json.full && json_length(json_member(text, "samples")) == SAMPLES);
    json_begin(&json, text, sizeof text);
    samples_put(&json, &samples, 8);
    CHECK(!json.full && json_length(json_member(text, "ports")) == 0);
}

int main(void)
{
    users_text();
    users_file();
    nobody();
    signed_in();
    tries();
    addresses();
    commands();
    views();
    ten_minutes();
    return checks_end("subjects");
}
