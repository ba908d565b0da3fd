#include <errno.h>
#include <signal.h>
#include <stdio.h>
#include <sys/wait.h>
#include <unistd.h>

static volatile sig_atomic_t timed_out;
static pid_t job;

static void on_alarm(int s)
{
    int saved = errno;
    timed_out = 1;
    kill(job, timed_out > 1 ? SIGKILL : SIGTERM);
    errno = saved;
}

static int usage(void) { fputs("usage: timeout SECONDS COMMAND ..\n", stderr); return 2; }

static int seconds_of(const char *text)
{
    int value = 0;
    do {
        if (*text < '0' || *text > '9') return -1;
        value = 10 * value + (*text - '0');
    } while (*++text != 0);
    return value;
}

int main(int argc, char **argv)
{
    int status, seconds;
    struct sigaction sa;

    if (argc < 3 || (seconds = seconds_of(argv[1])) < 0)
        return usage();
    sa.sa_handler = &on_alarm;
    sigfillset(&sa.sa_mask);
    sa.sa_flags = 0;
    sigaction(SIGALRM, &sa, (struct sigaction *)0);
    job = fork();
    if (!job) {
        execvp(argv[2], argv + 2);
        _exit(errno == ENOENT ? 127 : 126);
    }
    alarm(seconds);
again:
    if (waitpid(job, &status, 0) < 0) {
        if (errno == EINTR) goto again;
        return 125;
    }
    return timed_out ? 124 : WIFEXITED(status) ? WEXITSTATUS(status) : 128 + WTERMSIG(status);
}
