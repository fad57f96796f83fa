/* Saves the lists in a child process, so that the bridge does not wait for the disk. One child at a time; what changed meanwhile is saved after it. */
#ifndef GATEWAY_SAVER_H
#define GATEWAY_SAVER_H

#include "lists_file.h"

#include <sys/types.h>

struct saver {
    const char *path;  /* NULL: nothing is saved */
    pid_t child;       /* 0 for none */
    bool wanted;       /* the lists changed since the last child began */
    bool edited;       /* the file was changed by somebody else, and is left as it is */
    int64_t retry_at;  /* after a failure, not before this */
    struct lists_text known; /* what the file holds, as far as this program knows */
    struct lists_text next;  /* what is being saved */
};

/* The lists changed. */
void saver_want(struct saver *saver);

/* The file does not have the lists as they are (yet). */
bool saver_behind(const struct saver *saver);

/* Begins to save what is to be saved. */
void saver_step(struct saver *saver, const struct lists *lists, int64_t now);

/* A child may have ended (SIGCHLD). */
void saver_reap(struct saver *saver, int64_t now);

/* The program ends: waits for the child and saves what is left. */
void saver_finish(struct saver *saver, const struct lists *lists);

/* When the next thing is due. */
int64_t saver_deadline(const struct saver *saver);

#endif
