#include "saver.h"

#include "clock.h"
#include "lists_file.h"
#include "log.h"

#include <errno.h>
#include <string.h>
#include <sys/wait.h>
#include <unistd.h>

#define RETRY_AFTER (10 * CLOCK_SECOND)

void saver_want(struct saver *saver)
{
    saver->wanted = saver->path != NULL;
}

bool saver_behind(const struct saver *saver)
{
    return saver->wanted || saver->child != 0;
}

static void tell_edited(struct saver *saver)
{
    if (!saver->edited)
        log_line(LOG_ERROR, "%s was changed while this program ran: it is not overwritten, and the lists are not saved. Restart to take the lists of the file, or move it away to have these saved",
                 saver->path);
    saver->edited = true;
}

/* What became of a save, as lists_file_save gives it. */
static void saved(struct saver *saver, int number, int64_t now)
{
    if (number == 0 || number == LISTS_UNSYNCED)
        saver->known = saver->next;
    if (number == 0) {
        log_line(LOG_INFO, "lists saved to %s", saver->path);
        saver->edited = false;
        return;
    }
    if (number == LISTS_EDITED)
        tell_edited(saver);
    else
        log_line(LOG_ERROR, "%s: lists not saved: %s; tried again", saver->path, number == LISTS_UNSYNCED ? "the folder cannot be synced" : strerror(number));
    saver->wanted = true;
    saver->retry_at = now + RETRY_AFTER;
}

static int save(const struct saver *saver)
{
    return lists_file_save(saver->path, &saver->known, &saver->next);
}

void saver_step(struct saver *saver, const struct lists *lists, int64_t now)
{
    if (!saver->wanted || saver->child != 0 || now < saver->retry_at)
        return;
    saver->wanted = false;
    saver->next.length = lists_print(lists, saver->next.bytes, sizeof saver->next.bytes);
    pid_t child = fork();
    if (child == 0)
        _exit(save(saver)); /* below 256 */
    if (child > 0)
        saver->child = child;
    else
        saved(saver, save(saver), now); /* no process to be had: the bridge waits */
}

static void ended(struct saver *saver, int status, int64_t now)
{
    saver->child = 0;
    saved(saver, WIFEXITED(status) ? WEXITSTATUS(status) : EINTR, now);
}

void saver_reap(struct saver *saver, int64_t now)
{
    int status;
    if (saver->child != 0 && waitpid(saver->child, &status, WNOHANG) == saver->child)
        ended(saver, status, now);
}

void saver_finish(struct saver *saver, const struct lists *lists)
{
    int status;
    if (saver->child != 0 && waitpid(saver->child, &status, 0) == saver->child)
        ended(saver, status, clock_now());
    if (!saver->wanted)
        return;
    saver->wanted = false;
    saver->edited = false; /* told once more, for it is the last word */
    saver->next.length = lists_print(lists, saver->next.bytes, sizeof saver->next.bytes);
    saved(saver, save(saver), clock_now());
}

int64_t saver_deadline(const struct saver *saver)
{
    return saver->wanted && saver->child == 0 ? saver->retry_at : CLOCK_NEVER;
}
