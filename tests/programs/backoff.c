# 1 "backoff.c"
# 3 "retry.h"
typedef struct retry retry_t;
struct retry { unsigned int tries, most; long int wait; int (*call)(void *, int); void *with; };
# 2 "backoff.c"
extern int socket_connect(void *, int);
extern void report(const char *, long);
long random_below(long);

static long jitter(long most)
{
    return most <= 1 ? most : most / 2 + random_below(most / 2);
}

static int attempt(retry_t *r)
{
    int code;
    long wait = r->wait;

    for (r->tries = 0; r->tries < r->most; r->tries++) {
        code = (r->call)(r->with, (int)r->tries);
        if (!code)
            return 0;
        if (code < 0)
            goto give_up;
        wait = wait * 2 > 30000L ? 30000L : wait * 2;
        report("retry", jitter(wait));
        continue;
    give_up:
        report("no more", 0), r->most = 0;
    }
    return -1;
}

int main(void)
{
    retry_t r = { .most = 5, .wait = 100, .call = socket_connect, .with = (void *)"host" ":80", };
    int (*again)(retry_t *) = attempt, (*all[1])(retry_t *) = { attempt };

    if (again(&r) == 0) return 0;
    else if ((*all[0])(&r) == 0) return 0;
    else { report("failed", (long)sizeof(struct retry)); }
    return 1;
}
