/* What would make the server wait is done by a thread of its own, one job after the other: a command on the gateway's socket, a password's hash. The connection is suspended meanwhile. */
#ifndef PAGE_WORK_H
#define PAGE_WORK_H

#include <pthread.h>
#include <stdatomic.h>
#include <stdbool.h>

struct MHD_Connection;

struct job {
    struct MHD_Connection *connection;
    void (*run)(struct job *job);
    atomic_bool done;
    struct job *next;
};

struct work {
    pthread_t thread;
    pthread_mutex_t lock;
    pthread_cond_t changed;
    struct job *first, *last;
    unsigned waiting, most;
    bool ending;
};

/* Begins the thread; so many jobs at most wait. False where it cannot be had. */
bool work_begin(struct work *work, unsigned most);

/* Suspends the connection and has the job done; the connection is resumed then. False where too many wait, and nothing is suspended. */
bool work_put(struct work *work, struct job *job);

/* Ends the thread. Jobs that wait are resumed undone, `done` being set. */
void work_end(struct work *work);

#endif
