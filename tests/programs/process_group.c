#include <errno.h>
#include <signal.h>
#include <stdio.h>
#include <stdlib.h>
#include <sys/types.h>
#include <sys/wait.h>
#include <unistd.h>

static pid_t group;
static volatile sig_atomic_t forwarded;

static void forward(int s)
{
    int e = errno;
    if (group > 0) kill(-group, s);
    forwarded = forwarded + 1;
    errno = e;
}

static int catch(int s, void (*handler)(int))
{
    struct sigaction sa, old;
    sa.sa_handler = handler;
    sa.sa_flags = s == SIGTSTP ? SA_RESTART : 0;
    sigemptyset(&sa.sa_mask);
    sigaddset(&sa.sa_mask, SIGTERM);
    return sigaction(s, &sa, &old);
}

static void (*const handlers[2])(int) = { forward, forward };

int main(int argc, char **argv)
{
    int status;
    if (argc < 2) return 2;
    if (catch(SIGINT, handlers[0]) | catch(SIGTERM, handlers[1]) | catch(SIGTSTP, forward))
        perror("sigaction");
    group = fork();
    if (group == 0) {
        setpgid(0, 0);
        signal(SIGINT, SIG_DFL);
        execv(argv[1], &argv[1]);
        _exit(127);
    }
    setpgid(group, group);
    for (;;) {
        pid_t who = waitpid(-group, &status, WUNTRACED);
        if (who < 0) { if (errno == EINTR) continue; break; }
        if (WIFSTOPPED(status)) { raise(SIGSTOP); kill(-group, SIGCONT); continue; }
        break;
    }
    return WIFSIGNALED(status) ? 128 + WTERMSIG(status) : WEXITSTATUS(status);
}
