/* The users file: a line a user, `NAME ROLE HASH`. A role is viewer, fitter:P with P the port of the fitter's tool, or owner. The hash is libcrypt's (yescrypt). */
#ifndef PAGE_USERS_H
#define PAGE_USERS_H

#include <stdbool.h>
#include <stddef.h>
#include <stdint.h>

#define USERS_MAX 64
/* Bytes of a name, a password and a hash, each without its end. A name is what the gateway's journal can have: printable ASCII without blanks, quotes and backslashes. */
#define USER_NAME 32
#define USER_PASSWORD 256
#define USER_PASSWORD_LEAST 8
#define USER_HASH 255

enum user_role { ROLE_VIEWER, ROLE_FITTER, ROLE_OWNER };

struct user {
    char name[USER_NAME + 1];
    enum user_role role;
    uint32_t port; /* the tool is on this port: a fitter's own, else 1 */
    char hash[USER_HASH + 1];
};

struct users {
    uint32_t count;
    struct user at[USERS_MAX];
};

/* "viewer", "fitter" or "owner". */
const char *role_word(enum user_role role);

/* What the page may show the user: port p alone, or 0 for all. */
uint32_t user_view(const struct user *user);

/* Reads the file whole. False: `error` says why. A file that others than its owner and group may read, or others than its owner may write, is refused. */
#define USERS_ERROR 200
bool users_load(const char *path, struct users *users, char error[USERS_ERROR]);

/* The text of such a file. */
bool users_parse(char *text, struct users *users, char error[USERS_ERROR]);

/* The user of that name, or NULL. */
const struct user *users_find(const struct users *users, const char *name);

/* Puts the user into the file, in place of one of the same name; the password is hashed. False: `error` says why. */
bool users_set(const char *path, const char *name, const char *role, const char *password, char error[USERS_ERROR]);

/* Whether a password is the one that was hashed. A hash that is none fits no password, and takes as long. */
bool user_password_fits(const char *password, const char *hash);

/* A hash that no password fits, for names that nobody has: the try takes as long as another. */
extern const char USER_NOBODY[];

#endif
