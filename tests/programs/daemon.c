#include <fcntl.h>
#include <signal.h>
#include <stdlib.h>
#include <sys/stat.h>
#include <syslog.h>
#include <unistd.h>

static volatile sig_atomic_t reload = 1, quit;

static void on_hangup(int s) { reload = 1; }
static void on_quit(int s) { quit = 1; }

static void become_daemon(void)
{
    pid_t pid = fork();

    if (pid < 0) exit(1);
    if (pid > 0) _exit(0);
    if (setsid() < 0) exit(1);
    if ((pid = fork()) != 0) _exit(pid < 0);
    umask(022);
    chdir("/");
    int null = open("/dev/null", O_RDWR);
    dup2(null, 0); dup2(null, 1); dup2(null, 2);
    if (null > 2) close(null);
}

int main(int argc, char *argv[])
{
    int interval = argc > 1 ? atoi(argv[1]) : 60;

    become_daemon();
    openlog("tidy", LOG_PID, LOG_DAEMON);
    signal(SIGHUP, on_hangup);
    signal(SIGTERM, on_quit);
    while (!quit) {
        if (reload) {
            reload = 0;
            syslog(LOG_INFO, "reading %s", "/etc/tidy.conf");
        }
        sleep(interval);
    }
    closelog();
    return 0;
}
