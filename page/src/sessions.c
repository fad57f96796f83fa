#include "sessions.h"

#include "../../gateway/src/clock.h"

#include <string.h>
#include <sys/random.h>

#define LONGEST (12 * 3600 * CLOCK_SECOND)
#define IDLE (3600 * CLOCK_SECOND)

/* As many hex digits, and a 0. */
static bool random_digits(char *digits, size_t count)
{
    static const char HEX[] = "0123456789abcdef";
    unsigned char bytes[SESSION_SECRET / 2];
    if (getrandom(bytes, count / 2, 0) != (ssize_t)(count / 2))
        return false;
    for (size_t i = 0; i < count; i++)
        digits[i] = HEX[bytes[i / 2] >> (i % 2 == 0 ? 4 : 0) & 15];
    digits[count] = '\0';
    return true;
}

/* Takes as long wherever they differ. */
static bool same(const char *secret, const char *word, size_t length)
{
    unsigned char differ = 0;
    if (word == NULL || strlen(word) != length)
        return false;
    for (size_t i = 0; i < length; i++)
        differ |= (unsigned char)(secret[i] ^ word[i]);
    return differ == 0;
}

static bool is_over(const struct session *session, int64_t now)
{
    return !session->used || now - session->began_at >= LONGEST || now - session->seen_at >= IDLE;
}

struct session *sessions_begin(struct sessions *sessions, const struct user *user, int64_t now)
{
    struct session *place = &sessions->at[0];
    for (uint32_t i = 0; i < SESSIONS_MAX; i++) {
        struct session *other = &sessions->at[i];
        if (is_over(other, now)) {
            place = other;
            break;
        }
        if (other->seen_at < place->seen_at)
            place = other;
    }
    memset(place, 0, sizeof *place);
    if (!random_digits(place->secret, SESSION_SECRET) || !random_digits(place->token, SESSION_TOKEN))
        return NULL;
    place->used = true;
    place->serial = ++sessions->serials;
    place->user = *user;
    place->began_at = place->seen_at = now;
    return place;
}

struct session *sessions_find(struct sessions *sessions, const char *secret, int64_t now)
{
    struct session *found = NULL;
    for (uint32_t i = 0; i < SESSIONS_MAX; i++)
        if (sessions->at[i].used && same(sessions->at[i].secret, secret, SESSION_SECRET))
            found = &sessions->at[i];
    if (found == NULL)
        return NULL;
    if (is_over(found, now)) {
        sessions_end(found);
        return NULL;
    }
    found->seen_at = now;
    return found;
}

bool sessions_alive(struct sessions *sessions, const struct session *session, uint64_t serial, int64_t now)
{
    struct session *own = &sessions->at[session - sessions->at];
    if (own->serial != serial || is_over(own, now))
        return false;
    own->seen_at = now;
    return true;
}

bool session_token_fits(const struct session *session, const char *token)
{
    return same(session->token, token, SESSION_TOKEN);
}

void sessions_end(struct session *session)
{
    explicit_bzero(session, sizeof *session);
}

void sessions_keep(struct sessions *sessions, const struct users *users)
{
    for (uint32_t i = 0; i < SESSIONS_MAX; i++) {
        struct session *session = &sessions->at[i];
        const struct user *user = session->used ? users_find(users, session->user.name) : NULL;
        if (user == NULL || user->role != session->user.role || user->port != session->user.port || strcmp(user->hash, session->user.hash) != 0)
            sessions_end(session);
    }
}
