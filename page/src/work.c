#include "work.h"

#include <microhttpd.h>
#include <stddef.h>

static struct job *next_job(struct work *work)
{
    struct job *job = work->first;
    work->first = job->next;
    if (work->first == NULL)
        work->last = NULL;
    work->waiting--;
    return job;
}

static void *run(void *argument)
{
    struct work *work = argument;
    pthread_mutex_lock(&work->lock);
    for (;;) {
        while (work->first == NULL && !work->ending)
            pthread_cond_wait(&work->changed, &work->lock);
        if (work->first == NULL)
            break;
        struct job *job = next_job(work);
        bool ending = work->ending;
        pthread_mutex_unlock(&work->lock);
        if (!ending)
            job->run(job);
        struct MHD_Connection *connection = job->connection;
        atomic_store(&job->done, true); /* the job is the server's again */
        MHD_resume_connection(connection);
        pthread_mutex_lock(&work->lock);
    }
    pthread_mutex_unlock(&work->lock);
    return NULL;
}

bool work_begin(struct work *work, unsigned most)
{
    work->first = work->last = NULL;
    work->waiting = 0;
    work->most = most;
    work->ending = false;
    return pthread_mutex_init(&work->lock, NULL) == 0 && pthread_cond_init(&work->changed, NULL) == 0 && pthread_create(&work->thread, NULL, run, work) == 0;
}

bool work_put(struct work *work, struct job *job)
{
    pthread_mutex_lock(&work->lock);
    bool room = work->waiting < work->most && !work->ending;
    if (room) {
        MHD_suspend_connection(job->connection);
        atomic_store(&job->done, false);
        job->next = NULL;
        if (work->last == NULL)
            work->first = job;
        else
            work->last->next = job;
        work->last = job;
        work->waiting++;
        pthread_cond_signal(&work->changed);
    }
    pthread_mutex_unlock(&work->lock);
    return room;
}

void work_end(struct work *work)
{
    pthread_mutex_lock(&work->lock);
    work->ending = true;
    pthread_cond_signal(&work->changed);
    pthread_mutex_unlock(&work->lock);
    pthread_join(work->thread, NULL);
}
