#include <pthread.h>
#include <semaphore.h>
#include <signal.h>
#include <stdio.h>
#include <stdlib.h>
#include <unistd.h>

static sem_t done;
static long volatile const *watched;
static long volatile total;
static pthread_mutex_t lock;

struct part { int from, to; pthread_t thread; };

static void *add_part(void *given)
{
    struct part const *part = given;
    long own = 0;
    for (int k = part->from; k < part->to; ++k) own += k;
    pthread_mutex_lock(&lock);
    total += own;
    pthread_mutex_unlock(&lock);
    sem_post(&done);
    return 0;
}

static void *watch(void *unused)
{
    sigset_t set;
    int number;
    sigemptyset(&set);
    sigaddset(&set, SIGUSR1);
    while (sigwait(&set, &number) == 0)
        printf("so far %ld\n", *watched);
    return unused;
}

int main(void)
{
    struct part parts[4];
    pthread_t watcher;
    sigset_t set;

    sigfillset(&set);
    pthread_sigmask(SIG_SETMASK, &set, 0);
    watched = &total;
    pthread_mutex_init(&lock, 0);
    sem_init(&done, 0, 0);
    pthread_create(&watcher, 0, watch, 0);
    for (int k = 0; k < 4; k++) {
        parts[k].from = k * 1000;
        parts[k].to = (k + 1) * 1000;
        if (pthread_create(&parts[k].thread, 0, add_part, parts + k)) abort();
    }
    for (int k = 0; k < 4; k++) while (sem_wait(&done)) ;
    printf("%ld\n", total);
    return total == 7998000 ? 0 : 1;
}
