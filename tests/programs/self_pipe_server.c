#include <errno.h>
#include <fcntl.h>
#include <poll.h>
#include <signal.h>
#include <string.h>
#include <sys/socket.h>
#include <netinet/in.h>
#include <arpa/inet.h>
#include <unistd.h>

enum { READ_END, WRITE_END, LISTENER = 0, SIGNALS, BACKLOG = 1 << 4, };

static int wake[2];
static char buffer[4096];

static void on_signal(int s)
{
    int saved = errno;
    char byte = s;
    write(wake[WRITE_END], &byte, sizeof byte);
    errno = saved;
}

static int listen_on(unsigned short port)
{
    struct sockaddr_in address;
    int fd = socket(AF_INET, SOCK_STREAM, 0), yes = 1;

    if (fd < 0) return -1;
    setsockopt(fd, SOL_SOCKET, SO_REUSEADDR, &yes, sizeof yes);
    memset(&address, 0, sizeof(struct sockaddr_in));
    address.sin_family = AF_INET;
    address.sin_port = htons(port);
    address.sin_addr.s_addr = htonl(INADDR_ANY);
    if (bind(fd, (struct sockaddr *)&address, sizeof address) < 0 || listen(fd, BACKLOG) < 0) {
        close(fd);
        return -1;
    }
    return fd;
}

static void serve(int client)
{
    ssize_t n;
    while ((n = read(client, buffer, sizeof buffer)) > 0) {
        char *at = buffer;
        for (; n > 0; ) {
            ssize_t done = write(client, at, n);
            if (done < 0) { if (errno == EINTR) continue; else goto out; }
            at += done, n -= done;
        }
    }
out:
    close(client);
}

int main(void)
{
    struct pollfd fds[2];
    struct sigaction sa = { .sa_handler = on_signal, .sa_flags = 0 };

    pipe(wake);
    sigemptyset(&sa.sa_mask);
    sigaction(SIGTERM, &sa, 0);
    sigaction(SIGHUP, &sa, (void *)0);
    fds[LISTENER].fd = listen_on(8080); fds[LISTENER].events = POLLIN;
    fds[SIGNALS].fd = wake[READ_END];   fds[SIGNALS].events = POLLIN;
    for (;;) {
        if (poll(fds, 2, -1) < 0) continue;
        if (fds[SIGNALS].revents & POLLIN) break;
        if (!(fds[LISTENER].revents & POLLIN)) continue;
        serve(accept(fds[LISTENER].fd, 0, 0));
    }
    return 0;
}
