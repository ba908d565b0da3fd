#include <errno.h>
#include <fcntl.h>
#include <signal.h>
#include <stdio.h>
#include <string.h>
#include <sys/stat.h>
#include <unistd.h>

static const char *path = "/var/log/app.log";
static int log_fd = -1;
static volatile sig_atomic_t rotate;

static void on_usr1(int s, siginfo_t *info, void *context) { rotate = s != 0; }

static int reopen(void)
{
    char older[256];
    int fd;

    if (strlen(path) > sizeof older - 3)
        return errno = ENAMETOOLONG, -1;
    strcpy(older, path);
    strcat(older, ".1");
    if (rename(path, older) < 0 && errno != ENOENT)
        return -1;
    fd = open(path, O_WRONLY | O_CREAT | O_APPEND, 0640);
    if (fd < 0)
        return -1;
    if (log_fd >= 0) {
        dup2(fd, log_fd);
        close(fd);
    } else
        log_fd = fd;
    return 0;
}

int main(void)
{
    struct sigaction sa;
    struct stat st;
    char line[512];
    ssize_t n;

    memset(&sa, 0, sizeof sa);
    sa.sa_sigaction = on_usr1;
    sa.sa_flags = SA_SIGINFO;
    sigaction(SIGUSR1, &sa, NULL);
    if (reopen()) { perror(path); return 1; }
    while ((n = read(0, line, sizeof line)) != 0) {
        if (n < 0) if (errno == EINTR) n = 0; else break;
        if (n) write(log_fd, line, (size_t)n);
        if (rotate || !fstat(log_fd, &st) && st.st_size > 1 << 20) {
            rotate = 0;
            reopen();
        }
    }
    return n < 0;
}
