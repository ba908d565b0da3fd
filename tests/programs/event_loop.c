#include <errno.h>
#include <poll.h>
#include <signal.h>
#include <stdio.h>
#include <stdlib.h>
#include <string.h>
#include <sys/select.h>
#include <unistd.h>

typedef void callback(int fd, short events, void *data);
typedef struct watch { struct pollfd *slot; callback *call; void *data; } watch;

static struct pollfd slots[32];
static watch watches[32];
static unsigned char used;
static volatile sig_atomic_t seen[32];

static void note(int number) { seen[number & 31] = 1; }

static int add(int fd, short events, callback *call, void *data)
{
    if (used >= sizeof slots / sizeof *slots) return -1;
    slots[used].fd = fd;
    slots[used].events = events;
    watches[used].slot = &slots[used];
    watches[used].call = call;
    (watches + used)->data = data;
    return used++;
}

static void echo(int fd, short events, void *data)
{
    char text[64];
    ssize_t n = read(fd, text, sizeof text);
    if (n <= 0) { slots[*(int *)data].fd = -1; return; }
    write(1, text, n);
}

static int step(int timeout)
{
    int left = poll(slots, used, timeout);
    if (left < 0) return errno == EINTR ? 0 : -1;
    for (int k = 0; left > 0 && k < used; k++) {
        struct pollfd *s = watches[k].slot;
        if (s->fd < 0 || s->revents == 0) continue;
        --left;
        watches[k].call(s->fd, s->revents, watches[k].data);
    }
    return 1;
}

int main(void)
{
    static int own;
    fd_set unused;
    FD_ZERO(&unused);
    signal(SIGINT, note), signal(SIGTERM, note);
    own = add(0, POLLIN | POLLHUP, &echo, &own);
    for (; !seen[SIGINT] && !seen[SIGTERM]; )
        if (step(1000) < 0) { perror("poll"); abort(); }
    return 0;
}
