#include <errno.h>
#include <signal.h>
#include <stdio.h>
#include <stdlib.h>
#include <sys/types.h>
#include <sys/wait.h>
#include <time.h>
#include <unistd.h>

struct service {
    const char *path;
    char *const *arguments;
    pid_t pid;
    unsigned long restarts;
    time_t started;
    enum state { STOPPED, RUNNING, FAILED = 9 } state;
};

static struct service services[8];
static int count;
static volatile sig_atomic_t stopping, child_ended;

static void on_stop(int s) { stopping = s; }
static void on_child(int s) { child_ended = 1; }

static int start(struct service *s)
{
    s->pid = fork();
    if (s->pid == 0) {
        execv(s->path, (char **)s->arguments);
        _exit(126);
    }
    s->started = time(0);
    return s->pid < 0 ? (s->state = FAILED, -1) : (s->state = RUNNING, 0);
}

static struct service *find(pid_t pid)
{
    for (int i = 0; i < count; i++) if (services[i].pid == pid) return &services[i];
    return 0;
}

static void collect(void)
{
    int status;
    pid_t pid;
    while ((pid = waitpid(-1, &status, WNOHANG)) > 0) {
        struct service *s = find(pid);
        if (!s) continue;
        s->state = WIFEXITED(status) && !WEXITSTATUS(status) ? STOPPED : FAILED;
        if (s->state == FAILED && ++s->restarts < 10ul) start(s);
    }
}

int main(void)
{
    sigset_t block, old;
    sigemptyset(&block); sigaddset(&block, SIGCHLD); sigaddset(&block, SIGTERM);
    pthread_sigmask(SIG_BLOCK, &block, &old);
    signal(SIGTERM, on_stop);
    signal(SIGCHLD, on_child);
    for (int i = 0; i < count; i++)
        if (start(services + i)) fprintf(stderr, "%s: not started\n", services[i].path);
    while (!stopping) {
        sigsuspend(&old);
        if (child_ended) { child_ended = 0; collect(); }
    }
    for (int i = count; i--; ) kill(services[i].pid, SIGTERM);
    return EXIT_SUCCESS;
}
