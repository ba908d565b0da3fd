#include <errno.h>
#include <signal.h>
#include <stdlib.h>
#include <sys/wait.h>
#include <unistd.h>

static volatile sig_atomic_t ended;

/* Takes every child that has ended, and keeps errno. */
static void take_children(int s)
{
    int saved = errno, status;
    pid_t child;

    while ((child = waitpid(-1, &status, WNOHANG)) > 0)
        ended += 1;
    errno = saved;
}

int main(void)
{
    struct sigaction sa;

    sa.sa_handler = take_children;
    sa.sa_flags = SA_RESTART | SA_NOCLDSTOP;
    sigemptyset(&sa.sa_mask);
    if (sigaction(SIGCHLD, &sa, 0) < 0)
        exit(1);
    for (int i = 0; i < 4; i++) {
        pid_t child = fork();
        if (child == 0) {
            sleep(i);
            _exit(i);
        } else if (child < 0)
            break;
    }
    while (ended < 4)
        pause();
    return 0;
}
