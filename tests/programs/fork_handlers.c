#include <pthread.h>
#include <signal.h>
#include <stdio.h>
#include <unistd.h>

static pthread_mutex_t table = PTHREAD_MUTEX_INITIALIZER, log_lock;
static int generation;

static void prepare(void) { pthread_mutex_lock(&table); pthread_mutex_lock(&log_lock); }
static void parent(void) { pthread_mutex_unlock(&log_lock); pthread_mutex_unlock(&table); }
static void child(void)
{
    pthread_mutex_init(&log_lock, 0);
    pthread_mutex_init(&table, 0);
    generation++;
}

static void *tick(void *period)
{
    unsigned int seconds = *(unsigned *)period;
    while (1) { sleep(seconds); generation ^= 1; }
    return 0;
}

int main(void)
{
    static unsigned period = 3u;
    pthread_t thread;
    if (pthread_mutex_init(&log_lock, 0) || pthread_atfork(prepare, parent, child))
        return 1;
    pthread_create(&thread, 0, tick, &period);
    pid_t pid = fork();
    if (pid == 0) {
        static const char text[] = "child\n";
        write(1, text, sizeof text - 1);
        execl("/bin/true", "true", (char *)0);
        _exit(127);
    }
    printf("%s %d\n", pid < 0 ? "failed" : "parent of", (int)pid);
    return 0;
}
