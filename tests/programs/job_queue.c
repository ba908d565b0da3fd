#include <pthread.h>
#include <stdint.h>
#include <stdio.h>
#include <stdlib.h>
#include <unistd.h>

typedef void (*work_t)(void *);

typedef struct job {
    work_t run;
    void *data;
    struct job *next;
} job_t;

static pthread_mutex_t lock = PTHREAD_MUTEX_INITIALIZER;
static pthread_cond_t ready = PTHREAD_COND_INITIALIZER;
static job_t *first, **last = &first;
static int closed;

static int add(void (*run)(void *), void *data)
{
    job_t *job = malloc(sizeof *job);
    if (job == 0)
        return -1;
    job->run = run, job->data = data, job->next = NULL;
    pthread_mutex_lock(&lock);
    *last = job;
    last = &job->next;
    pthread_mutex_unlock(&lock);
    pthread_cond_signal(&ready);
    return 0;
}

static void *worker(void *unused)
{
    for (;;) {
        pthread_mutex_lock(&lock);
        while (!first && !closed)
            pthread_cond_wait(&ready, &lock);
        if (!first) {
            pthread_mutex_unlock(&lock);
            return unused;
        }
        job_t *job = first;
        if ((first = job->next) == 0)
            last = &first;
        pthread_mutex_unlock(&lock);
        (*job->run)(job->data);
        free(job);
    }
}

static void show(void *data) { printf("%ld\n", (long)(intptr_t)data); }

int main(void)
{
    pthread_t threads[4];
    for (int i = 0; i < 4; ++i)
        pthread_create(&threads[i], 0, worker, 0);
    for (intptr_t i = 0x10; i > 0; i >>= 1)
        add(show, (void *)i);
    pthread_mutex_lock(&lock);
    closed = 1;
    pthread_mutex_unlock(&lock);
    pthread_cond_broadcast(&ready);
    for (int i = 0; i < 4; ++i)
        pthread_join(threads[i], (void **)0);
    return 0;
}
