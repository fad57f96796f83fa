#include "users.h"

#include "../../gateway/src/number.h"

#include <crypt.h>
#include <errno.h>
#include <fcntl.h>
#include <stdarg.h>
#include <stdio.h>
#include <stdlib.h>
#include <string.h>
#include <sys/stat.h>
#include <unistd.h>

#define TEXT_MAX 65536
#define PORTS_MAX 8

static const char *const ROLES[] = {[ROLE_VIEWER] = "viewer", [ROLE_FITTER] = "fitter", [ROLE_OWNER] = "owner"};

/* A setting without a digest: it is hashed with, and its length is no hash's. */
const char USER_NOBODY[] = "$y$j9T$j2EnfNp0VcOse0rNTECGm0$";

__attribute__((format(printf, 2, 3))) static bool wrong(char *error, const char *format, ...)
{
    va_list values;
    va_start(values, format);
    vsnprintf(error, USERS_ERROR, format, values);
    va_end(values);
    return false;
}

const char *role_word(enum user_role role)
{
    return ROLES[role];
}

uint32_t user_view(const struct user *user)
{
    return user->role == ROLE_FITTER ? user->port : 0;
}

static bool read_name(const char *word, char name[USER_NAME + 1])
{
    size_t length = strlen(word);
    for (const char *at = word; *at != '\0'; at++)
        if (*at <= ' ' || *at > '~' || *at == '"' || *at == '\\')
            return false;
    if (length == 0 || length > USER_NAME || *word == '#')
        return false;
    memcpy(name, word, length + 1);
    return true;
}

static bool read_role(const char *word, struct user *user)
{
    static const char FITTER[] = "fitter:";
    user->port = 1;
    if (strcmp(word, "viewer") == 0 || strcmp(word, "owner") == 0) {
        user->role = *word == 'v' ? ROLE_VIEWER : ROLE_OWNER;
        return true;
    }
    user->role = ROLE_FITTER;
    return strncmp(word, FITTER, sizeof FITTER - 1) == 0 && number_read(word + sizeof FITTER - 1, PORTS_MAX, &user->port) && user->port >= 2;
}

/* A line of the file, cut into its words; an empty one and a comment are no user. */
static bool read_line(char *line, struct users *users, unsigned number, char *error)
{
    static const char BLANKS[] = " \t\r";
    char *rest = NULL, *name = strtok_r(line, BLANKS, &rest), *role = strtok_r(NULL, BLANKS, &rest), *hash = strtok_r(NULL, BLANKS, &rest);
    if (name == NULL || *name == '#')
        return true;
    struct user user;
    memset(&user, 0, sizeof user);
    if (users->count == USERS_MAX)
        return wrong(error, "line %u: more than %d users", number, USERS_MAX);
    if (!read_name(name, user.name))
        return wrong(error, "line %u: a name is 1 to %d printable characters without quotes and backslashes", number, USER_NAME);
    if (role == NULL || !read_role(role, &user))
        return wrong(error, "line %u: a role is viewer, fitter:P with P a port of 2 to %d, or owner", number, PORTS_MAX);
    if (hash == NULL || *hash != '$' || strlen(hash) > USER_HASH || strtok_r(NULL, BLANKS, &rest) != NULL)
        return wrong(error, "line %u: behind the role stands the password's hash and nothing else", number);
    if (users_find(users, user.name) != NULL)
        return wrong(error, "line %u: %s is there already", number, user.name);
    memcpy(user.hash, hash, strlen(hash));
    users->at[users->count++] = user;
    return true;
}

bool users_parse(char *text, struct users *users, char error[USERS_ERROR])
{
    unsigned number = 0;
    users->count = 0;
    for (char *line = text; line != NULL;) {
        char *end = strchr(line, '\n');
        if (end != NULL)
            *end = '\0';
        if (!read_line(line, users, ++number, error))
            return false;
        line = end == NULL ? NULL : end + 1;
    }
    return true;
}

const struct user *users_find(const struct users *users, const char *name)
{
    for (uint32_t i = 0; i < users->count; i++)
        if (strcmp(users->at[i].name, name) == 0)
            return &users->at[i];
    return NULL;
}

/* The file's bytes with a 0 behind them, or NULL. */
static char *read_file(const char *path, char *error)
{
    static char text[TEXT_MAX + 1];
    struct stat about;
    int fd = open(path, O_RDONLY | O_CLOEXEC);
    if (fd < 0 || fstat(fd, &about) != 0) {
        wrong(error, "%s", strerror(errno));
        if (fd >= 0)
            close(fd);
        return NULL;
    }
    size_t length = 0;
    ssize_t got = 0;
    while (length < TEXT_MAX && (got = read(fd, text + length, TEXT_MAX - length)) > 0)
        length += (size_t)got;
    close(fd);
    text[length] = '\0';
    if ((about.st_mode & (S_IRWXO | S_IWGRP)) != 0)
        wrong(error, "others may read or write it: its rights are to be 0600 or 0640");
    else if (got < 0 || length == TEXT_MAX || strlen(text) != length)
        wrong(error, "%s", got < 0 ? strerror(errno) : "too long, or no text");
    else
        return text;
    return NULL;
}

bool users_load(const char *path, struct users *users, char error[USERS_ERROR])
{
    char *text = read_file(path, error);
    return text != NULL && users_parse(text, users, error);
}

static bool hash_password(const char *password, char hash[USER_HASH + 1], char *error)
{
    static struct crypt_data data;
    char setting[CRYPT_GENSALT_OUTPUT_SIZE];
    if (strlen(password) < USER_PASSWORD_LEAST || strlen(password) > USER_PASSWORD)
        return wrong(error, "a password has %d to %d bytes", USER_PASSWORD_LEAST, USER_PASSWORD);
    if (crypt_gensalt_rn("$y$", 0, NULL, 0, setting, sizeof setting) == NULL)
        return wrong(error, "libcrypt has no yescrypt: %s", strerror(errno));
    const char *made = crypt_r(password, setting, &data);
    if (made == NULL || *made != '$' || strlen(made) > USER_HASH)
        return wrong(error, "libcrypt made no hash");
    memcpy(hash, made, strlen(made) + 1);
    return true;
}

/* The new file is whose the old one was, with its rights: the page may read it by its group. */
static bool keep_rights(const char *path, int fd)
{
    struct stat old;
    return stat(path, &old) != 0 || (fchown(fd, old.st_uid, old.st_gid) == 0 && fchmod(fd, old.st_mode & (S_IRUSR | S_IWUSR | S_IRGRP)) == 0);
}

/* Written beside, synced and renamed, so that a power cut leaves the old file or the new. */
static bool write_file(const char *path, const struct users *users, char *error)
{
    char beside[4096];
    if ((size_t)snprintf(beside, sizeof beside, "%s.new", path) >= sizeof beside)
        return wrong(error, "its path is too long");
    int fd = open(beside, O_WRONLY | O_CREAT | O_TRUNC | O_CLOEXEC, S_IRUSR | S_IWUSR);
    FILE *file = fd < 0 ? NULL : fdopen(fd, "w");
    if (file == NULL)
        return wrong(error, "%s: %s", beside, strerror(errno));
    for (uint32_t i = 0; i < users->count; i++) {
        const struct user *user = &users->at[i];
        if (user->role == ROLE_FITTER)
            fprintf(file, "%s fitter:%u %s\n", user->name, (unsigned)user->port, user->hash);
        else
            fprintf(file, "%s %s %s\n", user->name, role_word(user->role), user->hash);
    }
    bool done = fflush(file) == 0 && keep_rights(path, fd) && fsync(fd) == 0;
    done = fclose(file) == 0 && done && rename(beside, path) == 0;
    return done || wrong(error, "%s: %s", beside, strerror(errno));
}

bool users_set(const char *path, const char *name, const char *role, const char *password, char error[USERS_ERROR])
{
    static struct users users;
    struct user user;
    memset(&user, 0, sizeof user);
    users.count = 0;
    if (!read_name(name, user.name) || !read_role(role, &user))
        return wrong(error, "a name is 1 to %d printable characters without quotes and backslashes, a role viewer, fitter:P or owner", USER_NAME);
    if (access(path, F_OK) == 0 && !users_load(path, &users, error))
        return false;
    if (!hash_password(password, user.hash, error))
        return false;
    uint32_t place = 0;
    while (place < users.count && strcmp(users.at[place].name, user.name) != 0)
        place++;
    if (place == USERS_MAX)
        return wrong(error, "more than %d users", USERS_MAX);
    users.at[place] = user;
    users.count += place == users.count;
    return write_file(path, &users, error);
}

bool user_password_fits(const char *password, const char *hash)
{
    struct crypt_data *data = calloc(1, sizeof *data);
    const char *made = data == NULL ? NULL : crypt_r(password, hash, data);
    size_t length = made == NULL || *made != '$' ? 0 : strlen(made);
    unsigned char differ = length == 0 || length != strlen(hash);
    for (size_t i = 0; differ == 0 && i < length; i++)
        differ |= (unsigned char)(made[i] ^ hash[i]);
    if (data != NULL)
        explicit_bzero(data, sizeof *data);
    free(data);
    return differ == 0;
}
