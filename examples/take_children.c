#include <errno.h>
#include <signal.h>
#include <sys/wait.h>
#include <unistd.h>

static volatile sig_atomic_t ended;

/* Takes every child that has ended, and keeps errno. */
static void take_children(int s)
{
    int saved = errno;
    while (waitpid(-1, 0, WNOHANG) > 0)
        ended = 1;
    errno = saved;
}

int main(void)
{
    signal(SIGCHLD, take_children);
    while (!ended)
        pause();
    return 0;
}
