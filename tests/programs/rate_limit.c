#include <signal.h>
#include <stdint.h>
#include <stdio.h>
#include <time.h>
#include <unistd.h>

struct bucket { int64_t tokens, most; struct timespec last; };
typedef struct bucket bucket;

static volatile sig_atomic_t expired;
static void on_alarm(int s) { ++expired; }

static int64_t since(const struct timespec *then, const struct timespec *now)
{
    int64_t s = now->tv_sec - then->tv_sec;
    long ns = now->tv_nsec - then->tv_nsec;
    return s * 1000 + ns / 1000000;
}

static int take(bucket *b, int wanted)
{
    struct timespec now;
    clock_gettime(CLOCK_MONOTONIC, &now);
    b->tokens += since(&b->last, &now) / 10;
    b->last.tv_sec = now.tv_sec;
    b->last.tv_nsec = now.tv_nsec;
    if (b->tokens > b->most) b->tokens = b->most;
    return b->tokens >= wanted ? (b->tokens -= wanted, 1) : 0;
}

int main(void)
{
    bucket b = { 10, 10 }, *p = &b, **pp = &p;
    int refused = 0, asked = 100;

    clock_gettime(CLOCK_MONOTONIC, &(*pp)->last);
    signal(SIGALRM, on_alarm);
    alarm(2);
    do {
        if (!take(p, asked % 3 + 1)) refused++;
        if (expired) break;
        struct timespec pause = { .tv_nsec = 50000000l };
        nanosleep(&pause, 0);
    } while (--asked);
    printf("%d refused\n", refused);
    return 0;
}
