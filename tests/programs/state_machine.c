#include <signal.h>
#include <stdio.h>
#include <stdlib.h>
#include <unistd.h>

typedef enum state { IDLE, CONNECTING, UP, CLOSING, STATES } state_t;
typedef enum { TICK, OPENED, FAILED, STOP, } event_t;
typedef state_t (*transition_t)(event_t);

static volatile sig_atomic_t pending[4];
static unsigned tries;

static state_t idle(event_t e) { return e == TICK ? CONNECTING : IDLE; }
static state_t connecting(event_t e)
{
    switch (e) {
    case OPENED: tries = 0; return UP;
    case FAILED: if (++tries > 3) return CLOSING; else return IDLE;
    case STOP: return CLOSING;
    default: return CONNECTING;
    }
}
static state_t up(event_t e) { return e == STOP || e == FAILED ? CLOSING : UP; }

static transition_t const table[STATES] = { idle, connecting, &up, 0 };

static void on_signal(int s)
{
    pending[s == SIGALRM ? TICK : s == SIGUSR1 ? OPENED : s == SIGUSR2 ? FAILED : STOP] = 1;
}

int main(void)
{
    static const int numbers[] = { SIGALRM, SIGUSR1, SIGUSR2, SIGTERM };
    state_t now = IDLE;
    sigset_t all, old;

    sigfillset(&all);
    pthread_sigmask(SIG_BLOCK, &all, &old);
    for (size_t k = 0; k < sizeof numbers / sizeof numbers[0]; k++)
        signal(numbers[k], on_signal);
    while (table[now]) {
        event_t e;
        alarm(1);
        sigsuspend(&old);
        for (e = TICK; e <= STOP; e++) {
            if (!pending[e]) continue;
            pending[e] = 0;
            if (table[now] != 0) now = table[now](e);
        }
        printf("state %d\n", now);
    }
    return (now == CLOSING) ? EXIT_SUCCESS : EXIT_FAILURE;
}
