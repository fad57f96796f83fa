/* Who is signed in. A session is a secret that the browser keeps in a cookie, and a token that it sends beside with each command. Used by the thread of the server alone. */
#ifndef PAGE_SESSIONS_H
#define PAGE_SESSIONS_H

#include "users.h"

#define SESSIONS_MAX 64
/* In hex digits. */
#define SESSION_SECRET 64
#define SESSION_TOKEN 32

struct session {
    bool used;
    uint64_t serial; /* tells a session from an earlier one in its place */
    char secret[SESSION_SECRET + 1], token[SESSION_TOKEN + 1];
    struct user user;
    int64_t began_at, seen_at;
    int64_t commands_at; /* when a command may be sent, by the limit of commands */
};

struct sessions {
    uint64_t serials;
    struct session at[SESSIONS_MAX];
};

/* A new session; where all places are taken, in that of the one that was idle longest. NULL where the kernel has no random bytes. */
struct session *sessions_begin(struct sessions *sessions, const struct user *user, int64_t now);

/* The session of that secret, which counts as seen; NULL for none. One that is 12 hours old, or was not seen for an hour, is none. */
struct session *sessions_find(struct sessions *sessions, const char *secret, int64_t now);

/* The session is still that one and counts as seen. */
bool sessions_alive(struct sessions *sessions, const struct session *session, uint64_t serial, int64_t now);

bool session_token_fits(const struct session *session, const char *token);

void sessions_end(struct session *session);

/* Ends the sessions of users who are not in the file any more, or in another role or with another password. */
void sessions_keep(struct sessions *sessions, const struct users *users);

#endif
